//! Random documents, whole and damaged.

use std::collections::BTreeMap;

use crate::failure::assert_on_bytes;
use evaluator::document::{check, read, spell, DocumentRecord};
use evaluator::random::{damage_document, library, repeating_library, Random};

#[test]
fn libraries_are_spelled_and_read_back() {
    for seed in 0..2_000 {
        let random = &mut Random::new(seed);
        let nodes = 1 + random.below(60);
        let library = library(random, nodes);
        assert_eq!(read(&spell(&library)), Ok(library), "seed {seed}");
    }
}

/// The first so many lines of a document.
fn first_lines(document: &[u8], count: usize) -> Vec<u8> {
    let lines: Vec<&[u8]> = document.split_inclusive(|byte| *byte == b'\n').collect();
    lines[..count].concat()
}

/// An accepted document is spelled by its own library. In a refused one the
/// lines before the place are in order: with them alone the next line is the
/// first thing wrong, or nothing is if that line was one too many.
fn judged_by_its_lines(document: &[u8]) {
    let record = check(document);
    match read(document) {
        Ok(library) => {
            assert_eq!(spell(&library), document);
            assert_eq!((record.number, record.nodes), (0, library.nodes.len()));
        }
        Err(refusal) => {
            assert_eq!(record.nodes, 0);
            assert!([2, 3, 4, 14].contains(&refusal.number));
            let rest = check(&first_lines(document, refusal.place - 1));
            let missing = DocumentRecord {
                number: 2,
                place: refusal.place,
                nodes: 0,
            };
            assert!(rest == missing || rest.number == 0);
        }
    }
}

#[test]
fn damaged_documents_are_accepted_only_if_they_spell_a_library() {
    let mut numbers = BTreeMap::new();
    for seed in 0..20_000 {
        let random = &mut Random::new(seed);
        let nodes = 1 + random.below(12);
        // Some have an attribute twice before they are damaged.
        let whole = match seed % 5 {
            0 => repeating_library(random, nodes),
            _ => library(random, nodes),
        };
        let damaged = damage_document(random, &spell(&whole));
        assert_on_bytes(seed, &damaged, judged_by_its_lines);
        *numbers.entry(check(&damaged).number).or_insert(0) += 1;
    }
    let due = [(0, 500), (2, 5_000), (3, 500), (4, 500), (14, 200)];
    assert!(numbers.keys().copied().eq(due.map(|(number, _)| number)));
    for (number, least) in due {
        assert!(numbers[&number] > least, "{numbers:?}");
    }
}

#[test]
fn damage_is_refused_no_earlier_than_where_it_begins() {
    for seed in 0..5_000 {
        let random = &mut Random::new(seed);
        let nodes = 1 + random.below(12);
        let whole = spell(&library(random, nodes));
        let damaged = damage_document(random, &whole);
        let record = check(&damaged);
        let same = whole.iter().zip(&damaged).take_while(|(a, b)| a == b);
        let lines_kept = same.filter(|(byte, _)| **byte == b'\n').count();
        assert!(
            record.number == 0 || record.place > lines_kept,
            "seed {seed}"
        );
    }
}
