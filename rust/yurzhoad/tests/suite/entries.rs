//! Entries against the evaluator's reading of the document.

use evaluator::document::{self, spell, Library as Read};
use evaluator::random::{any_library, branching_library, library, Random};
use evaluator::samples::libraries::{catalogue, chain, formulary, ladder, level};
use evaluator::samples::{documents, flat};
use yurzhoad::{Entry, Kind, Library};

fn kind(kind: document::Kind) -> Kind {
    match kind {
        document::Kind::Element => Kind::Element,
        document::Kind::Attribute => Kind::Attribute,
        document::Kind::Text => Kind::Text,
    }
}

fn assert_entries(origin: &str, bytes: &[u8], read: &Read) {
    let library = Library::check(bytes).expect("an accepted document");
    let mut entries = library.entries();
    for (number, node) in read.nodes.iter().enumerate() {
        assert_eq!(entries.len(), read.nodes.len() - number, "{origin}");
        let due = Entry {
            number,
            depth: node.depth,
            kind: kind(node.kind),
            label: std::str::from_utf8(&node.label).expect("ASCII"),
            value: std::str::from_utf8(&node.value).expect("ASCII"),
        };
        assert_eq!(entries.next(), Some(due), "{origin}");
        assert_eq!(library.table().entry(number), due, "{origin}");
    }
    assert_eq!(entries.len(), 0, "{origin}");
    assert_eq!((entries.next(), entries.next()), (None, None), "{origin}");
}

#[test]
fn entries_of_fixed_documents_are_those_of_the_evaluator() {
    let mut accepted = 0;
    for (name, cases) in documents::GROUPS {
        for case in cases().iter().filter(|case| case.due.nodes < 200) {
            if let Ok(read) = document::read(&case.document) {
                assert_entries(name, &case.document, &read);
                accepted += 1;
            }
        }
    }
    assert!(accepted >= 8, "{accepted} accepted");
}

#[test]
fn entries_of_every_shape_are_those_of_the_evaluator() {
    for shape in [chain, ladder, level, catalogue, formulary] {
        for nodes in [1, 2, 3, 12, 300] {
            let read = shape(nodes);
            assert_entries("a shape", &spell(&read), &read);
        }
    }
}

#[test]
fn entries_of_random_libraries_are_those_of_the_evaluator() {
    for seed in 4_100_000..4_103_000 {
        let random = &mut Random::new(seed);
        let nodes = 1 + random.below(40);
        let read = match random.below(3) {
            0 => library(random, nodes),
            1 => branching_library(random, nodes),
            _ => any_library(random, nodes),
        };
        assert_entries(&format!("seed {seed}"), &spell(&read), &read);
    }
}

#[test]
fn the_largest_library_has_all_its_entries() {
    let document = flat(4_096);
    let library = Library::check(&document).expect("an accepted document");
    let numbers: Vec<usize> = library.entries().map(|entry| entry.number).collect();
    assert_eq!(numbers, (0..4_096).collect::<Vec<_>>());
    let table = library.table();
    assert_eq!(table.entries().len(), 4_096);
    assert!(library.entries().eq(table.entries().iter().copied()));
}
