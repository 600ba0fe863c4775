//! Elements with 1 to 4,095 attributes, their labels in many spellings and
//! orders, without a repeat and with one anywhere.

use crate::agreement::assert_agreement;
use crate::evaluation_agreement::{self, assert_refused, needed};
use evaluator::document::{spell, Library, Node, NODE_LIMIT};
use evaluator::random::Random;
use evaluator::samples::libraries::{attribute, element};

/// Another label for each number below 4,096.
type Spelling = (&'static str, fn(usize) -> String);

const SPELLINGS: [Spelling; 6] = [
    ("short counters", |number| format!("n{number}")),
    ("begin alike", |number| format!("max-dose-lim{number:04}")),
    ("end alike", |number| letters(number, 3) + "-dose-rate-16"),
    ("differ in the middle", |number| {
        format!("max-do{number:04x}rate-1")
    }),
    ("hyphens and noughts", |number| {
        let binary = format!("{number:012b}");
        format!("a{}-00", binary.replace('1', "-"))
    }),
    ("beginnings of each other", |number| {
        let length = (1..).find(|length| number < up_to(*length));
        let length = length.expect("some power is above");
        letters(number - up_to(length - 1), length)
    }),
];

/// So many letters that say a number, as digits do.
fn letters(number: usize, count: usize) -> String {
    let digit = |place: usize| (b'a' + (number / 26_usize.pow(place as u32) % 26) as u8) as char;
    (0..count).rev().map(digit).collect()
}

/// How many labels there are of so many letters or less.
fn up_to(letters: usize) -> usize {
    (1..=letters).map(|count| 26_usize.pow(count as u32)).sum()
}

#[derive(Clone, Copy, Debug)]
enum Order {
    Rising,
    Falling,
    Shuffled,
}

const ORDERS: [Order; 3] = [Order::Rising, Order::Falling, Order::Shuffled];

/// So many different labels in this order.
fn labels(random: &mut Random, spelling: Spelling, order: Order, count: usize) -> Vec<String> {
    let mut labels: Vec<String> = (0..count).map(spelling.1).collect();
    match order {
        Order::Rising => {}
        Order::Falling => labels.reverse(),
        Order::Shuffled => {
            for at in 1..count {
                labels.swap(at, random.below(at + 1));
            }
        }
    }
    labels
}

/// Around powers of two and around 25, where a way to compare labels might go
/// over to another.
const SIZES: [usize; 32] = [
    1, 2, 3, 4, 7, 8, 9, 15, 16, 17, 23, 24, 25, 26, 27, 31, 32, 33, 63, 64, 65, 127, 128, 129,
    255, 256, 257, 511, 512, 513, 1_000, 1_024,
];
/// Tried in one order of each spelling only, since they take longer.
const LARGE_SIZES: [usize; 5] = [2_047, 2_048, 2_049, NODE_LIMIT - 2, NODE_LIMIT - 1];

/// A root, and elements inside it with attributes of these labels.
fn library(elements: &[&[String]]) -> Library {
    let mut nodes = vec![element(0, "lib")];
    for labels in elements {
        nodes.push(element(1, "drug"));
        nodes.extend(labels.iter().map(|label| attribute(2, label, "v")));
    }
    Library { nodes }
}

/// The root alone with attributes of these labels: so there is room for most.
fn on_root(labels: &[String]) -> Library {
    let root = [element(0, "lib")].into_iter();
    let attributes = labels.iter().map(|label| attribute(1, label, "v"));
    Library {
        nodes: root.chain(attributes).collect(),
    }
}

/// How many documents were accepted and how many refused.
#[derive(Default)]
struct Tally {
    accepted: usize,
    repeats: usize,
}

impl Tally {
    /// Asserts that the document is accepted.
    fn accept(&mut self, origin: &str, library: &Library) {
        let record = assert_agreement(origin, &spell(library));
        let found = (record.number, record.place, record.nodes);
        assert_eq!(found, (0, 0, library.nodes.len()), "{origin}");
        self.accepted += 1;
    }

    /// Gives one attribute the label of another before it, and asserts that it
    /// is named. Both are node numbers.
    fn repeat(&mut self, origin: &str, library: &Library, first: usize, second: usize) {
        let origin = format!("{origin}, {second} repeats {first}");
        let record = assert_agreement(&origin, &spell(&repeated(library, first, second)));
        let found = (record.number, record.place, record.nodes);
        assert_eq!(found, (14, 4 * second + 4, 0), "{origin}");
        self.repeats += 1;
    }

    /// Tries a library whose nodes from this one to the last are the attributes
    /// of one element: as it is, and with a repeat at either end, in the middle
    /// and anywhere.
    fn try_element(&mut self, random: &mut Random, origin: &str, library: &Library, from: usize) {
        self.accept(origin, library);
        let last = library.nodes.len() - 1;
        if from == last {
            return;
        }
        let anywhere = from + 1 + random.below(last - from);
        let before = from + random.below(anywhere - from);
        let middle = from + (last - from) / 2;
        let mut pairs = vec![(from, last), (last - 1, last), (before, anywhere)];
        if last - from < 1_100 {
            pairs.extend([(middle, last), (from, from + 1)]);
        }
        for (first, second) in pairs {
            self.repeat(origin, library, first, second);
        }
    }
}

/// The library with the label of the first node on the second as well.
fn repeated(library: &Library, first: usize, second: usize) -> Library {
    let mut nodes: Vec<Node> = library.nodes.clone();
    nodes[second].label = nodes[first].label.clone();
    Library { nodes }
}

#[test]
fn one_element_of_every_size_spelling_and_order() {
    let mut tally = Tally::default();
    for (seed, spelling) in (0..).zip(SPELLINGS) {
        let random = &mut Random::new(seed);
        let mut try_size = |order: Order, count: usize| {
            let origin = format!("seed {seed}, {}, {order:?}, {count}", spelling.0);
            let library = on_root(&labels(random, spelling, order, count));
            tally.try_element(random, &origin, &library, 1);
        };
        for count in SIZES {
            for order in ORDERS {
                try_size(order, count);
            }
        }
        for (number, count) in LARGE_SIZES.into_iter().enumerate() {
            try_size(ORDERS[(seed as usize + number) % 3], count);
        }
    }
    println!("{} accepted, {} repeats", tally.accepted, tally.repeats);
    assert!(tally.accepted > 600 && tally.repeats > 2_000);
}

#[test]
fn an_element_behind_another_with_the_same_labels() {
    let mut tally = Tally::default();
    for (seed, spelling) in (100..).zip(SPELLINGS) {
        let random = &mut Random::new(seed);
        for (first, second) in [
            (1, 40),
            (40, 2),
            (24, 25),
            (26, 26),
            (300, 300),
            (2_046, 2_046),
        ] {
            for order in if first < 1_000 {
                &ORDERS[..]
            } else {
                &ORDERS[2..]
            } {
                let before = labels(random, spelling, *order, first);
                let behind = labels(random, spelling, Order::Shuffled, second);
                let library = library(&[&before, &behind]);
                let origin = format!("seed {seed}, {}, {order:?}, {first}", spelling.0);
                let origin = format!("{origin} and then {second}");
                tally.try_element(random, &origin, &library, first + 3);
            }
        }
    }
    println!("{} accepted, {} repeats", tally.accepted, tally.repeats);
    assert!(tally.accepted > 90 && tally.repeats > 400);
}

/// A rule that reads every label, and one that goes along the attributes.
const RULES: [&[u8]; 2] = [b":n1", b"(e=.r*r)"];

#[test]
fn evaluations_refuse_a_repeat_and_take_the_others() {
    for (number, count) in [2, 25, 26, 100, 700, NODE_LIMIT - 1]
        .into_iter()
        .enumerate()
    {
        let seed = 200 + number as u64;
        let random = &mut Random::new(seed);
        let spelling = SPELLINGS[number % SPELLINGS.len()];
        let library = on_root(&labels(random, spelling, Order::Shuffled, count));
        let second = 2 + random.below(count - 1);
        let first = 1 + random.below(second - 1);
        let twice = spell(&repeated(&library, first, second));
        for rule in RULES {
            let origin = format!("seed {seed}, {}, {count}", spelling.0);
            let document = spell(&library);
            let outcome =
                evaluation_agreement::assert_agreement(&origin, &document, rule, needed(seed));
            assert_eq!((outcome.number, outcome.place), (0, 0), "{origin}");
            assert_refused(&origin, &twice, rule, needed(seed), (14, 4 * second + 4));
        }
    }
}
