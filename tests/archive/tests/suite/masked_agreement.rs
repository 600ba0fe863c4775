//! Makes the calls of each evaluation to the archive on two documents, and
//! asserts what request (n) of document 02 promises of masked ones: the same
//! nodes are marked and as many snippets counted. A failure is reported with
//! small documents.

use std::collections::BTreeMap;
use std::fmt::Display;
use std::time::{Duration, Instant};

use crate::evaluation_agreement::{called, EVALUATIONS};
use evaluator::document::{spell, Library};
use evaluator::evaluate::Evaluation;
use evaluator::masking::{constants, masked};
use evaluator::random::{any_library, branching_library, library, renamed, Random};
use evaluator::random::{rule, rule_about, wandering_rule};
use evaluator::rule::Test;
use evaluator::shrink::shrink_alike;
use evaluator::tree::Tree;
use yurzhoad::limits::needed_words;

/// Two documents and a rule.
pub struct Pair {
    pub one: Library,
    pub other: Library,
    pub rule: Test,
}

/// What an accepted evaluation marks and counts.
#[derive(Debug, PartialEq, Eq)]
pub struct Answer {
    pub selected: usize,
    pub snippets: usize,
    pub marks: Vec<u8>,
}

/// A call with buffers so much longer than needed, which hold anything before.
fn answer(
    evaluation: Evaluation,
    library: &Library,
    rule: &[u8],
    longer: usize,
    random: &mut Random,
) -> Answer {
    let (document, nodes) = (spell(library), library.nodes.len());
    let mut scratch = random.words(needed_words(nodes) + longer);
    let mut marks = random.bytes(nodes + longer);
    let outcome = called(evaluation, &document, rule, &mut scratch, &mut marks);
    let shown = rule.escape_ascii();
    assert_eq!((outcome.number, outcome.place), (0, 0), "{shown}");
    marks.truncate(nodes);
    let ones = marks.iter().filter(|mark| **mark == 1).count();
    assert_eq!(ones, outcome.selected, "{shown}");
    Answer {
        selected: outcome.selected,
        snippets: outcome.snippets,
        marks,
    }
}

/// What one kind of evaluation makes of two documents. Both calls have buffers of
/// their own, of other lengths and with something else in them.
pub fn answers(evaluation: Evaluation, pair: &Pair, seed: u64) -> [Answer; 2] {
    let random = &mut Random::new(seed);
    let rule = pair.rule.spell();
    let longer = random.below(4);
    let one = answer(evaluation, &pair.one, &rule, longer, random);
    let longer = 4 + random.below(60);
    [one, answer(evaluation, &pair.other, &rule, longer, random)]
}

/// The kind of evaluation that marks or counts otherwise on the other document.
fn altered(pair: &Pair, seed: u64) -> Option<Evaluation> {
    EVALUATIONS.into_iter().find(|evaluation| {
        let [one, other] = answers(*evaluation, pair, seed);
        one != other
    })
}

/// Asserts that two masked documents are marked and counted alike by both kinds,
/// and returns what the snippet evaluation does. The plain one marks the same
/// nodes and counts nothing.
pub fn assert_unaltered(origin: impl Display, pair: &Pair, seed: u64) -> Answer {
    let Pair { one, other, rule } = pair;
    assert!(masked(one, other, rule), "{origin}: not masked");
    let [plain, snippets] = EVALUATIONS.map(|evaluation| {
        let [first, second] = answers(evaluation, pair, seed);
        if first != second {
            report(&origin, pair, seed);
        }
        first
    });
    let shown = rule.spell().escape_ascii().to_string();
    assert_eq!(plain.marks, snippets.marks, "{origin}: {shown}");
    assert_eq!(plain.snippets, 0, "{origin}: {shown}");
    snippets
}

/// How long a failing pair is made smaller.
const PATIENCE: Duration = Duration::from_secs(20);

/// Leaves out nodes from both documents and parts of the rule, as long as the
/// pair is masked and evaluated otherwise.
fn report(origin: &dyn Display, pair: &Pair, seed: u64) -> ! {
    let begun = Instant::now();
    let fails = |one: &Library, other: &Library, rule: &Test| {
        let pair = Pair {
            one: one.clone(),
            other: other.clone(),
            rule: rule.clone(),
        };
        masked(one, other, rule) && altered(&pair, seed).is_some()
    };
    let go_on = || begun.elapsed() < PATIENCE;
    let (one, other, rule) = shrink_alike(&pair.one, &pair.other, &pair.rule, fails, go_on);
    let small = Pair { one, other, rule };
    panic!(
        "{origin}\n{}\nShrunk to:\n{}",
        shown(pair, seed),
        shown(&small, seed)
    );
}

/// How much of a document is printed.
const SHOWN: usize = 2_000;

/// The rule, both documents, and what was made of them. Bytes outside the
/// printable ones are shown escaped, also the LF at the end of a line.
fn shown(pair: &Pair, seed: u64) -> String {
    let mut text = format!("rule: {}\n", pair.rule.spell().escape_ascii());
    for library in [&pair.one, &pair.other] {
        let document = spell(library);
        text += &format!("document of {} bytes:\n", document.len());
        let shown = &document[..document.len().min(SHOWN)];
        for line in shown.split_inclusive(|byte| *byte == b'\n') {
            text += &format!("{}\n", line.escape_ascii());
        }
    }
    for evaluation in EVALUATIONS {
        let [one, other] = answers(evaluation, pair, seed);
        text += &format!("{evaluation:?}: {one:?}\nand {other:?}\n");
    }
    text
}

/// A library of so many nodes, of every kind.
fn draw_library(random: &mut Random, nodes: usize) -> Library {
    match random.below(10) {
        0..=4 => library(random, nodes),
        5..=8 => branching_library(random, nodes),
        _ => any_library(random, nodes),
    }
}

/// A rule about these values, mostly with an equality between two paths; one in
/// three is drawn again if it has no constant.
fn draw_rule(random: &mut Random, values: &[Vec<u8>]) -> Test {
    let mut draws = *random.pick(&[1, 1, 8]);
    loop {
        draws -= 1;
        let size = 4 + random.below(24);
        let rule = match random.below(10) {
            0..=5 => rule_about(random, size, values),
            6..=8 => wandering_rule(random, size, values),
            _ => rule(random, size),
        };
        if draws == 0 || !constants(&rule).is_empty() {
            return rule;
        }
    }
}

/// Whether some node has another value, as it is compared.
fn is_renamed(one: &Tree, other: &Tree) -> bool {
    (0..one.size()).any(|v| one.compared(v) != other.compared(v))
}

/// A masked pair of so many nodes. Draws until some node has another value; about
/// one of five has not, most of these since all values are empty.
pub fn draw_masked(random: &mut Random, nodes: usize) -> Pair {
    for _ in 0..100 {
        let one = draw_library(random, nodes);
        let tree = Tree::of(&one);
        let rule = draw_rule(random, &tree.values);
        let Some(other) = renamed(random, &one, &rule) else {
            continue;
        };
        let other = other.library;
        if is_renamed(&tree, &Tree::of(&other)) {
            return Pair { one, other, rule };
        }
    }
    panic!("no library of {nodes} nodes is renamed");
}

/// How many pairs had each of these.
#[derive(Default)]
pub struct Tally(BTreeMap<&'static str, usize>);

impl Tally {
    pub fn count(&mut self, name: &'static str, condition: bool) {
        *self.0.entry(name).or_default() += usize::from(condition);
    }

    /// Asserts that at least so many had each, and that nothing was counted that
    /// nobody asks for.
    pub fn assert_at_least(&self, due: &[(&str, usize)]) {
        println!("{:?}", self.0);
        for (name, least) in due {
            assert!(self.0[name] >= *least, "{name}: {:?}", self.0);
        }
        assert_eq!(self.0.len(), due.len(), "{:?}", self.0);
    }
}
