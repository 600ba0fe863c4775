//! Random libraries, rules and damage, all drawn from one printed seed.

mod blanks;
mod damage;
mod library;
mod line_damage;
mod lists;
mod numerals;
mod renaming;
mod rule;

pub use blanks::{padded, padded_ends};
pub use damage::{damage_document, damage_rule};
pub use library::{any_library, branching_library, library, repeating_library};
pub use line_damage::damage_one_line;
pub use lists::{every_value, repeated, shuffle, some_values};
pub use numerals::{nearly_numeral, numeral, numeral_or_nearly};
pub use renaming::{one_value_changed, renamed, Renamed};
pub use rule::{any_rule, deep_rule, equality, large_rule, rule, rule_about, wandering_rule};

use crate::document::NODE_LIMIT;

/// The splitmix64 generator.
pub struct Random(u64);

impl Random {
    pub fn new(seed: u64) -> Random {
        Random(seed)
    }

    fn next(&mut self) -> u64 {
        self.0 = self.0.wrapping_add(0x9E37_79B9_7F4A_7C15);
        let mut z = self.0;
        z = (z ^ (z >> 30)).wrapping_mul(0xBF58_476D_1CE4_E5B9);
        z = (z ^ (z >> 27)).wrapping_mul(0x94D0_49BB_1331_11EB);
        z ^ (z >> 31)
    }

    /// So many words of 16 bits, all values alike.
    pub fn words(&mut self, count: usize) -> Vec<u16> {
        let mut words = Vec::with_capacity(count + 3);
        while words.len() < count {
            let drawn = self.next();
            words.extend([0, 16, 32, 48].map(|shift| (drawn >> shift) as u16));
        }
        words.truncate(count);
        words
    }

    /// So many bytes, all values alike.
    pub fn bytes(&mut self, count: usize) -> Vec<u8> {
        self.words(count).iter().map(|word| *word as u8).collect()
    }

    /// A number below the given one.
    pub fn below(&mut self, bound: usize) -> usize {
        (self.next() % bound as u64) as usize
    }

    /// True in so many cases of a hundred.
    pub fn percent(&mut self, cases: usize) -> bool {
        self.below(100) < cases
    }

    /// How many nodes a document gets: mostly few, so that many documents are
    /// tried, in so many cases of 2,000 up to 60 or more, seldom very many.
    pub fn nodes(&mut self, some: usize) -> usize {
        let most = match self.below(2_000) {
            0 => NODE_LIMIT,
            1..=40 => 400,
            drawn if drawn <= some => 60,
            _ => 12,
        };
        1 + self.below(most)
    }

    pub fn pick<'a, T>(&mut self, items: &'a [T]) -> &'a T {
        &items[self.below(items.len())]
    }
}

/// Names, words and numerals that libraries and rules share, so that rules hit.
const NAMES: [&str; 5] = ["lib", "drug", "name", "text", "max-dose-rate-16"];
const WORDS: [&str; 7] = ["", "a", "heparin", "ab", "b", "~ !", "a b"];
const NUMERALS: [&str; 7] = ["10", "9", "-1.5", "9.0", "0", "-0", "10.5"];

/// One of them, in so many cases of a hundred a numeral.
fn shared_value(random: &mut Random, numerals: usize) -> Vec<u8> {
    let shared = match random.percent(numerals) {
        true => NUMERALS,
        false => WORDS,
    };
    random.pick(&shared).as_bytes().to_vec()
}

/// Up to so many bytes from 0x20 to 0x7E.
fn printable(random: &mut Random, longest: usize) -> Vec<u8> {
    let length = random.below(longest + 1);
    printable_of(random, length)
}

/// Just so many bytes from 0x20 to 0x7E.
fn printable_of(random: &mut Random, length: usize) -> Vec<u8> {
    (0..length)
        .map(|_| 0x20 + random.below(0x5F) as u8)
        .collect()
}
