//! Every number of document 01's table, and 14, from an evaluation, each two at
//! once, and what the buffers hold afterwards.

use std::collections::BTreeSet;

use crate::evaluation_agreement::{
    assert_agreement, assert_marked, assert_refused, needed, Buffers, Length,
};
use evaluator::document::{spell, Kind, Library, Node, BYTE_LIMIT};
use evaluator::samples::documents::{self, with_lines};
use evaluator::samples::rules::{self, constants};
use evaluator::samples::selections::SESSION;
use evaluator::samples::{balanced, flat, steps, X};

/// Something lent to a call, with the numbers that apply to it and with what
/// it is refused on its own account; 0 and 0 if with nothing.
pub struct Lent<T> {
    pub thing: T,
    pub numbers: &'static [u32],
    pub due: (u32, usize),
}

pub fn lent<T>(thing: T, numbers: &'static [u32], due: (u32, usize)) -> Lent<T> {
    Lent {
        thing,
        numbers,
        due,
    }
}

/// A document of just the right form, but with 4,095 texts too long.
fn too_long() -> Library {
    let text = Node {
        depth: 1,
        kind: Kind::Text,
        label: b"text".to_vec(),
        value: vec![b'v'; 255],
    };
    let mut nodes = vec![text; 4_096];
    nodes[0] = Node {
        depth: 0,
        kind: Kind::Element,
        label: b"lib".to_vec(),
        value: Vec::new(),
    };
    Library { nodes }
}

pub fn lent_documents() -> Vec<Lent<Vec<u8>>> {
    let filled = |begin: &str| {
        let mut bytes = begin.as_bytes().to_vec();
        bytes.resize(BYTE_LIMIT + 1, b'x');
        bytes
    };
    let mut broken = too_long();
    broken.nodes[1].depth = 0;
    let changed = |changes: &[(usize, &str)]| with_lines(X, changes).into_bytes();
    // Node 3 is a second attribute of node 1 then, and its label line is 16.
    let repeat = [(14, "depth=2"), (15, "kind=a"), (16, "label=name")];
    let repeated = |changes: &[_]| changed(&[&repeat[..], changes].concat());
    let mut long = repeated(&[]);
    long.resize(BYTE_LIMIT + 1, b'\n');
    let whole = repeated(&[]);
    let lines = whole.split_inclusive(|byte| *byte == b'\n');
    let cut = lines.take(16).collect::<Vec<_>>().concat();
    vec![
        lent(X.into(), &[], (0, 0)),
        lent(spell(&too_long()), &[1], (1, 0)),
        lent(filled("nodes=05\n"), &[1, 2], (1, 0)),
        lent(filled("nodes=0\n"), &[1, 3], (1, 0)),
        lent(spell(&broken), &[1, 4], (1, 0)),
        lent(Vec::new(), &[2], (2, 1)),
        lent(X.as_bytes()[..X.len() - 1].to_vec(), &[2], (2, 21)),
        lent(b"nodes=0".to_vec(), &[2, 3], (2, 1)),
        lent(b"nodes=0\nand more".to_vec(), &[2, 3], (3, 1)),
        // A bad form before a broken tree rule, and behind it.
        lent(
            changed(&[(11, "kind=x"), (14, "depth=7")]),
            &[2, 4],
            (2, 11),
        ),
        lent(changed(&[(6, "depth=2"), (11, "kind=x")]), &[2, 4], (4, 6)),
        lent(changed(&[(1, "nodes=0")]), &[3], (3, 1)),
        lent(
            changed(&[(1, "nodes=4097"), (2, "depth=1")]),
            &[3, 4],
            (3, 1),
        ),
        lent(changed(&[(10, "depth=3")]), &[4], (4, 10)),
        lent(repeated(&[]), &[14], (14, 16)),
        lent(long, &[1, 14], (1, 0)),
        // A bad form and a broken tree rule before the repeat, and behind it;
        // on its own line a bad form is the lack of an LF.
        lent(repeated(&[(9, "value")]), &[2, 14], (2, 9)),
        lent(repeated(&[(17, "value")]), &[2, 14], (14, 16)),
        lent(cut[..cut.len() - 1].to_vec(), &[2, 14], (2, 16)),
        lent(repeated(&[(1, "nodes=0")]), &[3, 14], (3, 1)),
        lent(repeated(&[(9, "value=x")]), &[4, 14], (4, 9)),
        lent(repeated(&[(18, "depth=3")]), &[4, 14], (14, 16)),
    ]
}

pub fn lent_rules() -> Vec<Lent<String>> {
    let deep = "!".repeat(32) + ":a";
    let many = balanced(33);
    let long = format!("({}=e)", steps(15));
    let last_test = many.len() - ":a".len();
    vec![
        lent(SESSION.into(), &[], (0, 0)),
        lent(constants(1_025), &[5], (5, 0)),
        lent(" ".repeat(1_025), &[5, 6], (5, 0)),
        lent("!".repeat(32) + &constants(1_024), &[5, 7], (5, 0)),
        lent(balanced(400), &[5, 8], (5, 0)),
        lent(format!("&{long}{}", constants(1_024)), &[5, 9], (5, 0)),
        lent(String::new(), &[6], (6, 0)),
        lent(":a!".into(), &[6], (6, 2)),
        lent("#4097e".into(), &[6], (6, 4)),
        lent(format!("&:a {deep}"), &[6, 7], (6, 3)),
        lent(format!("{deep} "), &[6, 7], (7, 32)),
        lent(format!("{many})"), &[6, 8], (6, many.len())),
        lent(format!("{long})"), &[6, 9], (6, long.len())),
        lent(deep.clone(), &[7], (7, 32)),
        lent(format!("&{many}{deep}"), &[7, 8], (7, many.len() + 32)),
        lent(format!("&{long}{deep}"), &[7, 9], (7, long.len() + 32)),
        lent(many.clone(), &[8], (8, last_test)),
        // The `&` is a test, so that the 65th is the last but one of the many.
        lent(
            format!("&{many}{long}"),
            &[8, 9],
            (8, 1 + last_test - ":a".len()),
        ),
        lent(format!("!{long}"), &[9], (9, 1)),
        lent(format!("!#4096{}", steps(15)), &[9], (9, 1)),
    ]
}

/// Of a document that is refused nothing is known to be needed; then some
/// words are lent, or none.
pub fn lent_buffers() -> Vec<Lent<(Length, Length)>> {
    use Length::{Longer, Needed, Shorter};
    vec![
        lent((Needed, Needed), &[], (0, 0)),
        lent((Longer(90), Longer(9)), &[], (0, 0)),
        lent((Shorter(1), Longer(9)), &[10], (10, 0)),
        lent((Longer(90), Shorter(1)), &[11], (11, 0)),
        lent((Shorter(1), Shorter(1)), &[10, 11], (10, 0)),
        lent((Length::Just(0), Length::Just(0)), &[10, 11], (10, 0)),
    ]
}

/// "Order: 1; then the first bad line of 2 to 4 ...; 5; then 6 or 7 with the
/// lower offset; 8; 9; 10; 11", with 14 in line order with 2 to 4. So what the
/// document is refused with comes first, then what the rule is, then what the
/// buffers are.
#[test]
fn each_two_grounds_at_once_in_the_written_order() {
    let mut pairs = BTreeSet::new();
    let mut seed = 0;
    for document in lent_documents() {
        for rule in lent_rules() {
            for buffers in lent_buffers() {
                let all = [document.due, rule.due, buffers.due];
                let due = all.into_iter().find(|(number, _)| *number > 0);
                let (words, marks) = buffers.thing;
                let lent = Buffers { words, marks, seed };
                let rule_bytes = rule.thing.as_bytes();
                match due {
                    Some(due) => {
                        assert_refused("grounds", &document.thing, rule_bytes, lent, due);
                    }
                    None => assert_marked("no ground", &document.thing, rule_bytes, lent, &[1]),
                }
                let numbers = [document.numbers, rule.numbers, buffers.numbers].concat();
                for (at, first) in numbers.iter().enumerate() {
                    pairs.extend(numbers[at + 1..].iter().map(|second| (*first, *second)));
                }
                seed += 1;
            }
        }
    }
    // Every two of twelve numbers.
    assert_eq!(pairs.len(), 66, "{pairs:?}");
}

#[test]
fn every_fixed_document_is_refused_as_due() {
    let mut seed = 0;
    for (name, cases) in documents::GROUPS {
        for case in cases() {
            let due = (case.due.number, case.due.place);
            for (words, marks) in [(0, 0), (1, 3), (191, 100)] {
                let buffers = Buffers {
                    words: Length::Just(words),
                    marks: Length::Just(marks),
                    seed,
                };
                match due.0 {
                    // One node needs 192 words.
                    0 => assert_refused(name, &case.document, b":a", buffers, (10, 0)),
                    _ => assert_refused(name, &case.document, b":a", buffers, due),
                }
                seed += 1;
            }
        }
    }
}

#[test]
fn every_fixed_rule_is_refused_or_evaluated_as_due() {
    let mut accepted = 0;
    for (seed, (name, cases)) in rules::GROUPS.iter().enumerate() {
        for case in cases() {
            let due = (case.due.number, case.due.place);
            let buffers = needed(seed as u64);
            let outcome = assert_agreement(name, X.as_bytes(), &case.rule, buffers);
            let found = (outcome.number, outcome.place);
            assert_eq!(found, due, "{name}: {}", case.rule.escape_ascii());
            accepted += usize::from(due.0 == 0);
        }
    }
    assert!(accepted > 50, "{accepted}");
}

#[test]
fn the_last_word_and_the_last_mark_are_needed() {
    for nodes in [
        1, 2, 3, 4, 5, 7, 8, 15, 16, 63, 64, 127, 128, 1_023, 1_024, 4_096,
    ] {
        let document = flat(nodes);
        let marked: Vec<usize> = (1..nodes).collect();
        let seed = nodes as u64;
        let lent = |words, marks| Buffers { words, marks, seed };
        let refused = |words, marks, number| {
            let name = format!("{nodes} nodes");
            assert_refused(name, &document, b":text", lent(words, marks), (number, 0));
        };
        use Length::{Just, Longer, Needed, Shorter};
        refused(Shorter(1), Needed, 10);
        refused(Shorter(1), Longer(1_000), 10);
        refused(Shorter(1), Shorter(1), 10);
        refused(Shorter(64 * nodes), Needed, 10);
        refused(Just(0), Just(0), 10);
        refused(Just(0), Needed, 10);
        refused(Needed, Shorter(1), 11);
        refused(Longer(1_000), Shorter(1), 11);
        refused(Needed, Just(0), 11);
        for (words, marks) in [(Needed, Needed), (Longer(1), Needed), (Needed, Longer(1))] {
            let name = format!("{nodes} nodes");
            assert_marked(name, &document, b":text", lent(words, marks), &marked);
        }
    }
}
