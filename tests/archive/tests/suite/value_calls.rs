//! Random documents and equalities for calls by lists of values.

use crate::evaluation_agreement::{Buffers, Length};
use evaluator::document::{spell, Library};
use evaluator::evaluate::needed_words;
use evaluator::random::{
    any_library, branching_library, equality, library, wandering_rule, Random,
};
use evaluator::reader;
use evaluator::rule::{equalities, Test};
use evaluator::samples::libraries::{attribute, element};
use evaluator::samples::name;
use evaluator::tree::Tree;

/// A library and an equality between two paths about it.
pub struct Drawn {
    pub document: Vec<u8>,
    pub tree: Tree,
    pub test: Test,
    pub rule: Vec<u8>,
}

impl Drawn {
    /// Whether there is another equality in the brackets.
    pub fn is_nested(&self) -> bool {
        equalities(&self.test).len() > 1
    }
}

/// Of up to 40 nodes: deep, wide, branching, or one long row.
pub fn draw_small(random: &mut Random) -> Drawn {
    let most = *random.pick(&[10, 22, 40]);
    let nodes = 1 + random.below(most);
    let library = match random.below(10) {
        0..=4 => library(random, nodes),
        5 => any_library(random, nodes),
        6 | 7 => branching_library(random, nodes),
        _ => draw_row(random, nodes),
    };
    draw_about(random, library)
}

/// Branching, and larger: values share more stretches of such a tree.
pub fn draw_branching(random: &mut Random, nodes: usize) -> Drawn {
    let library = branching_library(random, nodes);
    draw_about(random, library)
}

/// A root with attributes in a row, of few values or of many.
pub fn draw_row(random: &mut Random, nodes: usize) -> Library {
    let values = *random.pick(&[2, 4, 8, 40]);
    let mut all = vec![element(0, "lib")];
    for number in 1..nodes {
        let value = format!("v{}", random.below(values));
        all.push(attribute(1, &name(number), value));
    }
    Library { nodes: all }
}

/// Equalities that hold at some nodes of most libraries and fail at others, and
/// those that lead everywhere, of which the values share most stretches.
const TELLING: [&str; 9] = [
    "(e=.r*r)",
    "(.R*R=e)",
    "(e=.rr)",
    "(.l*r=.r*+lr)",
    "(.+lr+lr=.+LR+LR)",
    "(.*+LR[!:lib]=.r*r)",
    "(.l[(e=.r*r)]=.R*+LR)",
    "(*+rR=*+rR)",
    "(*+l+r+LR=.*+L+Rr[(e=.R*R)])",
];

/// With few equalities in brackets: more would take the evaluator long.
fn draw_about(random: &mut Random, library: Library) -> Drawn {
    let tree = Tree::of(&library);
    loop {
        let size = 4 + random.below(24);
        let test = match random.below(3) {
            0 => equality(random, size, &tree.values),
            1 => wandering_rule(random, size, &tree.values),
            _ => reader::read(random.pick(&TELLING).as_bytes()),
        };
        if equalities(&test).len() <= 4 {
            return Drawn {
                document: spell(&library),
                tree,
                rule: test.spell(),
                test,
            };
        }
    }
}

/// Mostly just long enough or longer, seldom too short.
pub fn draw_buffers(random: &mut Random, nodes: usize) -> Buffers {
    let mut length = |needed: usize| match random.below(40) {
        0..=20 => Length::Needed,
        21..=38 => Length::Longer(1 + random.below(needed)),
        _ => Length::Shorter(1 + random.below(needed)),
    };
    Buffers {
        words: length(needed_words(nodes)),
        marks: length(nodes),
        seed: random.below(usize::MAX) as u64,
    }
}
