//! Random documents whose attributes have few labels, so that repeats occur
//! anywhere: one half as they are drawn, the other with more damage.

use std::collections::{BTreeMap, BTreeSet};

use crate::agreement::assert_agreement;
use crate::evaluation_agreement::{self, Buffers, Length};
use evaluator::document::{spell, DocumentRecord};
use evaluator::evaluate::needed_words;
use evaluator::random::{damage_document, damage_one_line, repeating_library, rule, Random};

/// So many documents.
const CASES: u64 = 120_000;
/// Other seeds than those of the other tests.
const FIRST_SEED: u64 = 5_000_000;
/// Of every so many documents one of each half is lent to both evaluations too.
const EVALUATED: u64 = 20;

fn draw_document(random: &mut Random, damaged: bool) -> Vec<u8> {
    let nodes = random.nodes(600);
    let drawn = spell(&repeating_library(random, nodes));
    match (damaged, random.percent(40)) {
        (false, _) => drawn,
        (true, true) => damage_document(random, &drawn),
        (true, false) => damage_one_line(random, &drawn),
    }
}

/// How many documents of a half got each number, and what repeats there were.
#[derive(Default)]
struct Tally {
    numbers: BTreeMap<u32, usize>,
    /// The lines of the repeats.
    places: BTreeSet<usize>,
    /// How many attributes lie between the two of one label.
    between: BTreeMap<usize, usize>,
}

impl Tally {
    fn count(&mut self, record: DocumentRecord, document: &[u8]) {
        *self.numbers.entry(record.number).or_default() += 1;
        if record.number == 14 {
            self.places.insert(record.place);
            *self
                .between
                .entry(between(document, record.place))
                .or_default() += 1;
        }
    }

    /// Asserts that so many were refused with 14, as many accepted, and that
    /// the repeats were near and far, early and late.
    fn assert_not_idle(&self, half: &str, at_least: usize) {
        println!("{half}: {:?}, between {:?}", self.numbers, self.between);
        assert!(self.numbers[&14] >= at_least, "{half}: {:?}", self.numbers);
        assert!(self.numbers[&0] >= at_least, "{half}: {:?}", self.numbers);
        assert!(self.places.len() >= 50, "{half}: {:?}", self.places);
        let far: usize = self.between.range(8..).map(|(_, cases)| cases).sum();
        assert!(
            self.between[&0] >= 1_000 && far >= 100,
            "{half}: {:?}",
            self.between
        );
    }
}

/// How many label lines lie between the one in this place and the last before
/// it that is the same.
fn between(document: &[u8], place: usize) -> usize {
    let lines: Vec<&[u8]> = document.split(|byte| *byte == b'\n').collect();
    let repeat = lines[place - 1];
    let before = lines[..place - 1].iter().rev();
    let mut labels = before.filter(|line| line.starts_with(b"label="));
    labels
        .position(|line| *line == repeat)
        .expect("the first of the two")
}

/// Buffers that an accepted document needs, or a little more.
fn draw_buffers(random: &mut Random, nodes: usize) -> Buffers {
    Buffers {
        words: Length::Just(needed_words(nodes) + random.below(3)),
        marks: Length::Longer(random.below(3)),
        seed: random.below(usize::MAX) as u64,
    }
}

/// Makes both evaluations of a short random rule.
fn assert_evaluated_alike(random: &mut Random, seed: u64, document: &[u8], due: DocumentRecord) {
    let rule = rule(random, 5).spell();
    let buffers = draw_buffers(random, due.nodes);
    let origin = format_args!("seed {seed}");
    let outcome = evaluation_agreement::assert_agreement(origin, document, &rule, buffers);
    let found = (outcome.number, outcome.place);
    assert_eq!(found, (due.number, due.place), "seed {seed}");
}

#[test]
fn random_repeats_are_judged_alike() {
    let mut halves = [Tally::default(), Tally::default()];
    for seed in FIRST_SEED..FIRST_SEED + CASES {
        let random = &mut Random::new(seed);
        let half = (seed % 2) as usize;
        let document = draw_document(random, half == 1);
        let record = assert_agreement(format_args!("seed {seed}"), &document);
        halves[half].count(record, &document);
        if seed % EVALUATED < 2 && record.nodes <= 400 {
            assert_evaluated_alike(random, seed, &document, record);
        }
    }
    let [drawn, damaged] = halves;
    println!("seeds from {FIRST_SEED} on");
    assert!(
        drawn.numbers.keys().copied().eq([0, 14]),
        "{:?}",
        drawn.numbers
    );
    drawn.assert_not_idle("as drawn", 20_000);
    damaged.assert_not_idle("damaged", 3_000);
}
