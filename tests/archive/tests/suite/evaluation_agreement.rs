//! Makes the same call of each evaluation to the archive and to the evaluator,
//! and reports a difference with a small input. Calls by all values of an equality
//! are held against the archive's own snippet evaluation.

use std::fmt::{self, Display, Formatter};
use std::panic::catch_unwind;
use std::thread::panicking;
use std::time::{Duration, Instant};

use evaluator::by_values::{evaluate_values, has_every_value, is_equality};
use evaluator::evaluate::{evaluate_plain, evaluate_snippets, most_snippets};
use evaluator::evaluate::{Evaluation, Outcome};
use evaluator::shrink::{shrink_listed, shrink_rule, shrink_while};
use evaluator::tree::Tree;
use evaluator::{backward, document, meaning, reader, rule_check};
use yurzhoad::archive;
use yurzhoad::limits::needed_words;

pub use crate::lent_memory::{needed, Buffers, Length};
use crate::lent_memory::{Memory, AROUND};

/// Every call is made to both.
pub const EVALUATIONS: [Evaluation; 2] = [Evaluation::Plain, Evaluation::Snippets];

/// What is asked, and what it is held against.
#[derive(Clone, Copy, Debug, PartialEq, Eq)]
enum Asked<'a> {
    /// The whole rule, against the evaluator.
    Rule(Evaluation),
    /// An equality by some of its values, against the evaluator. What is accepted
    /// has at most `BY_DEFINITION` nodes.
    Part(&'a [u16]),
    /// An equality by all of its values, against the archive's snippet evaluation.
    Every(&'a [u16]),
}

impl Asked<'_> {
    /// The nodes that stand for their values.
    fn list(&self) -> &[u16] {
        match self {
            Asked::Rule(_) => &[],
            Asked::Part(list) | Asked::Every(list) => list,
        }
    }

    /// The same with another list.
    fn by<'a>(&self, list: &'a [u16]) -> Asked<'a> {
        match self {
            Asked::Rule(evaluation) => Asked::Rule(*evaluation),
            Asked::Part(_) => Asked::Part(list),
            Asked::Every(_) => Asked::Every(list),
        }
    }

    /// Whether it is asked what it says: only a list that has every value of an
    /// accepted document is held against the snippet evaluation.
    fn is_meant(&self, document: &[u8], rule: &[u8]) -> bool {
        let Asked::Every(list) = self else {
            return true;
        };
        let accepted = document::read(document).ok();
        let complete = |library| has_every_value(&Tree::of(&library), list);
        accepted.is_some_and(complete)
            && rule_check::read(rule).is_ok_and(|rule| is_equality(&rule))
    }
}

/// What a call hands back, with the memory afterwards.
#[derive(PartialEq, Eq)]
struct After {
    outcome: Outcome,
    memory: Memory,
}

/// An evaluation of the archive, with its answer as the evaluator's record.
pub fn called(
    evaluation: Evaluation,
    document: &[u8],
    rule: &[u8],
    scratch: &mut [u16],
    marks: &mut [u8],
) -> Outcome {
    outcome(match evaluation {
        Evaluation::Plain => archive::evaluate_plain(document, rule, scratch, marks),
        Evaluation::Snippets => archive::evaluate_snippets(document, rule, scratch, marks),
    })
}

/// The same of an equality by a list of its values.
pub fn called_by_values(
    document: &[u8],
    rule: &[u8],
    values: &[u16],
    scratch: &mut [u16],
    marks: &mut [u8],
) -> Outcome {
    outcome(archive::evaluate_values(
        document, rule, values, scratch, marks,
    ))
}

fn outcome(answer: archive::Evaluation) -> Outcome {
    Outcome {
        number: u32::from(answer.number),
        place: answer.place,
        selected: answer.selected,
        snippets: answer.snippets,
    }
}

fn archive_after(asked: Asked, document: &[u8], rule: &[u8], before: &Memory) -> After {
    let mut memory = before.clone();
    let (scratch, marks) = memory.lent();
    let outcome = match asked {
        Asked::Rule(evaluation) => called(evaluation, document, rule, scratch, marks),
        Asked::Part(list) | Asked::Every(list) => {
            called_by_values(document, rule, list, scratch, marks)
        }
    };
    After { outcome, memory }
}

/// What is due. Where the evaluator does not count snippets, the archive may
/// report what it does.
fn due_after(
    asked: Asked,
    document: &[u8],
    rule: &[u8],
    before: &Memory,
    reported: usize,
) -> After {
    match asked {
        Asked::Rule(evaluation) => evaluator_after(evaluation, document, rule, before, reported),
        Asked::Part(list) => {
            let mut memory = before.clone();
            let (scratch, marks) = memory.lent();
            let outcome = evaluate_values(document, rule, list, scratch, marks);
            After { outcome, memory }
        }
        Asked::Every(_) => archive_after(Asked::Rule(Evaluation::Snippets), document, rule, before),
    }
}

/// Up to so many nodes the evaluator counts snippets and marks nodes by the
/// definitions. Above, relations over nodes take too long: it marks by
/// following paths backwards, and does not count.
pub const BY_DEFINITION: usize = 130;

/// What the evaluator does. Where it does not count snippets, it takes over what
/// was reported, up to the bound.
fn evaluator_after(
    evaluation: Evaluation,
    document: &[u8],
    rule: &[u8],
    before: &Memory,
    reported: usize,
) -> After {
    let nodes = document::check(document).nodes;
    let mut memory = before.clone();
    let (scratch, marks) = memory.lent();
    let plain = |scratch, marks, meaning| evaluate_plain(document, rule, scratch, marks, meaning);
    let outcome = match (evaluation, nodes <= BY_DEFINITION) {
        (Evaluation::Plain, true) => plain(scratch, marks, meaning::holds),
        (Evaluation::Snippets, true) => evaluate_snippets(document, rule, scratch, marks),
        (Evaluation::Plain, false) => plain(scratch, marks, backward::holds),
        (Evaluation::Snippets, false) => {
            let mut outcome = plain(scratch, marks, backward::holds);
            if outcome.number == 0 {
                outcome.snippets = reported.min(most_snippets(nodes, &reader::read(rule)));
            }
            outcome
        }
    };
    After { outcome, memory }
}

/// One call, and what both made of it.
struct Trial<'a> {
    asked: Asked<'a>,
    document: &'a [u8],
    rule: &'a [u8],
    before: Memory,
    archive: After,
    due: After,
}

impl Trial<'_> {
    fn of<'a>(asked: Asked<'a>, document: &'a [u8], rule: &'a [u8], buffers: Buffers) -> Trial<'a> {
        let before = Memory::before(document, buffers);
        let archive = archive_after(asked, document, rule, &before);
        let reported = archive.outcome.snippets;
        Trial {
            asked,
            document,
            rule,
            due: due_after(asked, document, rule, &before, reported),
            archive,
            before,
        }
    }

    fn differs(&self) -> bool {
        self.archive != self.due
    }

    /// The numbers of the nodes that an accepted call marked.
    fn marked(mut self) -> Vec<usize> {
        let nodes = document::check(self.document).nodes;
        let (_, marks) = self.archive.memory.lent();
        (0..nodes).filter(|v| marks[*v] == 1).collect()
    }
}

/// Prints the origin of a call if something panics meanwhile: the evaluator
/// asserts things too, and they do not know what call they are in.
struct Origin<'a>(&'a dyn Display);

impl Drop for Origin<'_> {
    fn drop(&mut self) {
        if panicking() {
            eprintln!("in the call of {}", self.0);
        }
    }
}

/// Makes a call, and asserts that the archive does what is due, with every word
/// of scratch and every mark.
fn agreed<'a>(
    origin: &dyn Display,
    asked: Asked<'a>,
    document: &'a [u8],
    rule: &'a [u8],
    buffers: Buffers,
) -> Trial<'a> {
    let _origin = Origin(origin);
    let trial = Trial::of(asked, document, rule, buffers);
    if trial.differs() {
        report(origin, &trial, buffers);
    }
    trial
}

/// The same of both evaluations of the whole rule.
fn both_agreed<'a>(
    origin: &dyn Display,
    document: &'a [u8],
    rule: &'a [u8],
    buffers: Buffers,
) -> [Trial<'a>; 2] {
    EVALUATIONS.map(|evaluation| agreed(origin, Asked::Rule(evaluation), document, rule, buffers))
}

/// Asserts that archive and evaluator do the same by a list of values, and returns
/// what they hand back, with the marked nodes of an accepted call.
pub fn assert_by_values(
    origin: impl Display,
    document: &[u8],
    rule: &[u8],
    values: &[u16],
    buffers: Buffers,
) -> (Outcome, Vec<usize>) {
    let trial = agreed(&origin, Asked::Part(values), document, rule, buffers);
    let outcome = trial.archive.outcome;
    match outcome.number {
        0 => (outcome, trial.marked()),
        _ => (outcome, Vec::new()),
    }
}

/// Asserts that by a list of all values the archive does what its snippet
/// evaluation does, and returns what both hand back. The list may have any order
/// and repeats; it is looked at whether it has every value.
pub fn assert_by_every_value(
    origin: impl Display,
    document: &[u8],
    rule: &[u8],
    values: &[u16],
    buffers: Buffers,
) -> Outcome {
    let asked = Asked::Every(values);
    assert!(asked.is_meant(document, rule), "{origin}: {values:?}");
    agreed(&origin, asked, document, rule, buffers)
        .archive
        .outcome
}

/// Asserts that both do the same on a call, and returns what the snippet
/// evaluation hands back; the plain one has the same but the count. The origin
/// tells how the call was made: a seed or the name of a case.
pub fn assert_agreement(
    origin: impl Display,
    document: &[u8],
    rule: &[u8],
    buffers: Buffers,
) -> Outcome {
    let [_, snippets] = both_agreed(&origin, document, rule, buffers);
    snippets.archive.outcome
}

/// Asserts the same of an accepted call, and that it marks just these nodes.
pub fn assert_marked(
    origin: impl Display,
    document: &[u8],
    rule: &[u8],
    buffers: Buffers,
    due: &[usize],
) {
    for trial in both_agreed(&origin, document, rule, buffers) {
        let shown = rule.escape_ascii();
        let outcome = trial.archive.outcome;
        assert_eq!((outcome.number, outcome.place), (0, 0), "{origin}: {shown}");
        assert_eq!(outcome.selected, due.len(), "{origin}: {shown}");
        assert_eq!(trial.marked(), due, "{origin}: {shown}");
    }
}

/// Asserts the same of a refused call, with this number and place.
pub fn assert_refused(
    origin: impl Display,
    document: &[u8],
    rule: &[u8],
    buffers: Buffers,
    due: (u32, usize),
) {
    let outcome = assert_agreement(&origin, document, rule, buffers);
    assert_eq!(outcome, refused(due), "{origin}: {}", rule.escape_ascii());
}

/// What a call hands back that is refused with this number and place.
pub fn refused((number, place): (u32, usize)) -> Outcome {
    Outcome {
        number,
        place,
        selected: 0,
        snippets: 0,
    }
}

/// Asserts that both evaluations of the archive mark just the nodes that are
/// due, and returns how many. The evaluator is asked only where they do not.
pub fn assert_due(document: &[u8], rule: &str, due: impl Fn(usize) -> bool) -> usize {
    let nodes = document::check(document).nodes;
    let due: Vec<u8> = (0..nodes).map(|v| u8::from(due(v))).collect();
    for evaluation in EVALUATIONS {
        let (mut scratch, mut marks) = (vec![9; needed_words(nodes)], vec![9; nodes]);
        let bytes = rule.as_bytes();
        let outcome = called(evaluation, document, bytes, &mut scratch, &mut marks);
        assert_eq!(outcome.number, 0, "{rule}");
        if let Some(v) = (0..nodes).find(|v| marks[*v] != due[*v]) {
            // The evaluator tells what is wrong, on a small document.
            assert_agreement(rule, document, bytes, needed(1));
            panic!("{evaluation:?}: {rule} at node {v}");
        }
    }
    due.iter().filter(|mark| **mark == 1).count()
}

/// How long a failing call is made smaller. Calls on large documents are slow.
const PATIENCE: Duration = Duration::from_secs(20);

/// Nodes are left out first, since calls on small documents are quick, then
/// the list and the rule are made small, then all again.
fn report(origin: &dyn Display, trial: &Trial, buffers: Buffers) -> ! {
    let begun = Instant::now();
    let go_on = || begun.elapsed() < PATIENCE;
    let asked = trial.asked;
    // A call on which an assertion of the evaluator fails is another failure.
    let again = |document: &[u8], rule: &[u8], list: &[u16]| {
        let asked = asked.by(list);
        let differs = || Trial::of(asked, document, rule, buffers).differs();
        asked.is_meant(document, rule) && catch_unwind(differs).unwrap_or(false)
    };
    let (mut document, mut rule) = (trial.document.to_vec(), trial.rule.to_vec());
    let mut list = asked.list().to_vec();
    for _ in 0..2 {
        let fails = |bytes: &[u8], list: &[u16]| again(bytes, &rule, list);
        (document, list) = shrink_listed(&document, &list, fails, go_on);
        list = shrink_while(&list, |list| again(&document, &rule, list), go_on);
        rule = shrink_rule(&rule, |bytes| again(&document, bytes, &list), go_on);
    }
    panic!(
        "{origin}, {buffers:?}\n{}\nShrunk to:\n{}",
        trial,
        Trial::of(asked.by(&list), &document, &rule, buffers)
    );
}

/// How much of a document is printed.
const SHOWN: usize = 2_000;

/// Bytes outside the printable ones are shown escaped, also the LF at the end
/// of a line.
impl Display for Trial<'_> {
    fn fmt(&self, out: &mut Formatter) -> fmt::Result {
        let shown = &self.document[..self.document.len().min(SHOWN)];
        writeln!(out, "{:?}, rule: {}", self.asked, self.rule.escape_ascii())?;
        writeln!(out, "document of {} bytes:", self.document.len())?;
        for line in shown.split_inclusive(|byte| *byte == b'\n') {
            writeln!(out, "{}", line.escape_ascii())?;
        }
        writeln!(out, "archive: {:?}", self.archive.outcome)?;
        writeln!(out, "due: {:?}", self.due.outcome)?;
        let memories = [&self.before, &self.archive.memory, &self.due.memory];
        write_first(
            out,
            "word of scratch",
            memories.map(|m| m.scratch.as_slice()),
        )?;
        write_first(out, "mark", memories.map(|m| m.marks.as_slice()))
    }
}

/// The first place where two memories differ, with what is there before the
/// call, after the archive's and as is due.
fn write_first<T: PartialEq + Display>(
    out: &mut Formatter,
    name: &str,
    [before, archive, due]: [&[T]; 3],
) -> fmt::Result {
    let mut places = 0..before.len();
    match places.find(|at| archive[*at] != due[*at]) {
        None => writeln!(out, "every {name} agrees"),
        Some(at) => writeln!(
            out,
            "{name} {}: before {}, archive {}, due {}",
            at as isize - AROUND as isize,
            before[at],
            archive[at],
            due[at],
        ),
    }
}
