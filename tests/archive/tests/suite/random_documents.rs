//! Random documents: one half legal libraries, the other damaged.

use std::collections::{BTreeMap, BTreeSet};

use crate::agreement::assert_agreement;
use evaluator::document::{spell, DocumentRecord, Library, BYTE_LIMIT};
use evaluator::random::{any_library, damage_document, damage_one_line, library, Random};

/// So many legal documents, and as many damaged ones.
const CASES: u64 = 300_000;

fn draw_library(random: &mut Random) -> Library {
    let nodes = random.nodes(400);
    match random.percent(25) {
        true => library(random, nodes),
        false => any_library(random, nodes),
    }
}

/// Damage of every kind at a random place; seldom a length around the limit.
fn draw_damaged(random: &mut Random) -> Vec<u8> {
    let whole = spell(&draw_library(random));
    match random.below(1_000) {
        0 => {
            let mut long = whole;
            let byte = *random.pick(b"\nx\0");
            long.resize(BYTE_LIMIT - 1 + random.below(4), byte);
            long
        }
        1..=299 => damage_document(random, &whole),
        300..=349 => {
            let twice = damage_one_line(random, &whole);
            damage_document(random, &twice)
        }
        _ => damage_one_line(random, &whole),
    }
}

/// How many documents got each number, by the line that the place names.
#[derive(Default)]
struct Tally(BTreeMap<(u32, &'static str), usize>);

impl Tally {
    fn count(&mut self, record: DocumentRecord) {
        let line = match record.place {
            0 => "none",
            1 => "nodes",
            place => ["depth", "kind", "label", "value"][(place - 2) % 4],
        };
        *self.0.entry((record.number, line)).or_default() += 1;
    }

    /// Prints the counts, and asserts that nothing that may be refused was idle.
    fn assert_covered(&self, at_least: usize) {
        println!("{:?}", self.0);
        let mut due = vec![(0, "none"), (1, "none"), (2, "nodes"), (3, "nodes")];
        for line in ["depth", "kind", "label", "value"] {
            due.extend([(2, line), (4, line)]);
        }
        due.push((14, "label"));
        for key in &due {
            let count = self.0.get(key).copied().unwrap_or(0);
            assert!(count >= at_least, "{key:?} {count} times");
        }
        assert_eq!(self.0.len(), due.len(), "{:?}", self.0);
    }
}

#[test]
fn damaged_documents_are_judged_alike() {
    let mut tally = Tally::default();
    for seed in 0..CASES {
        let document = draw_damaged(&mut Random::new(seed));
        tally.count(assert_agreement(format_args!("seed {seed}"), &document));
    }
    tally.assert_covered(100);
}

/// What the forms allow, and how much of it the legal documents had.
#[derive(Default)]
struct Seen {
    first_bytes: BTreeSet<u8>,
    label_bytes: BTreeSet<u8>,
    label_lengths: BTreeSet<usize>,
    value_bytes: BTreeSet<u8>,
    value_lengths: BTreeSet<usize>,
    depth_digits: BTreeSet<u32>,
    count_digits: BTreeSet<u32>,
}

impl Seen {
    fn add(&mut self, library: &Library) {
        self.count_digits.insert(library.nodes.len().ilog10() + 1);
        for node in &library.nodes {
            self.first_bytes.insert(node.label[0]);
            self.label_bytes.extend(&node.label[1..]);
            self.label_lengths.insert(node.label.len());
            self.value_bytes.extend(&node.value);
            self.value_lengths.insert(node.value.len());
            self.depth_digits.insert(node.depth.max(1).ilog10() + 1);
        }
    }

    /// Asserts that all of it occurred: 26 letters at first, 37 bytes behind,
    /// 16 lengths of labels, 95 bytes in values of 256 lengths, and numbers of
    /// 1 to 4 digits.
    fn assert_all(&self) {
        assert_eq!(self.first_bytes.len(), 26);
        assert_eq!(self.label_bytes.len(), 37);
        assert_eq!(self.label_lengths.len(), 16);
        assert_eq!(self.value_bytes.len(), 95);
        assert_eq!(self.value_lengths.len(), 256);
        assert_eq!(self.depth_digits.len(), 4);
        assert_eq!(self.count_digits.len(), 4);
    }
}

#[test]
fn legal_documents_are_accepted_up_to_the_byte_limit() {
    let mut seen = Seen::default();
    // Other seeds than those of the damaged documents.
    for seed in CASES..2 * CASES {
        let library = draw_library(&mut Random::new(seed));
        let document = spell(&library);
        let record = assert_agreement(format_args!("seed {seed}"), &document);
        let due = match document.len() > BYTE_LIMIT {
            true => (1, 0, 0),
            false => (0, 0, library.nodes.len()),
        };
        assert_eq!(
            (record.number, record.place, record.nodes),
            due,
            "seed {seed}"
        );
        // Every tenth is looked into; that is enough and saves time.
        if seed % 10 == 0 || library.nodes.len() > 400 {
            seen.add(&library);
        }
    }
    seen.assert_all();
}
