//! Every number from a call by a list of values, each two at once, and what the
//! buffers hold afterwards.

use std::collections::BTreeSet;

use crate::evaluation_agreement::{
    assert_by_values, called_by_values, needed, refused, Buffers, Length,
};
use crate::evaluation_refusals::{lent, lent_buffers, lent_documents, lent_rules, Lent};
use evaluator::document::NODE_LIMIT;
use evaluator::samples::rules::{self, constants};
use evaluator::samples::{balanced, flat, steps, X};
use yurzhoad::limits::needed_words;

/// Asserts that archive and evaluator refuse the call with this, and change
/// nothing.
fn assert_refused(
    origin: &str,
    document: &[u8],
    rule: &[u8],
    values: &[u16],
    buffers: Buffers,
    due: (u32, usize),
) {
    let (outcome, _) = assert_by_values(origin, document, rule, values, buffers);
    let shown = rule.escape_ascii();
    assert_eq!(outcome, refused(due), "{origin}: {shown} by {values:?}");
}

/// The rules of the other evaluations, of which the accepted one is an equality, and
/// rules that are none: accepted otherwise, and with each ground of their own.
fn rules() -> Vec<Lent<String>> {
    let long = format!("({}=e)", steps(15));
    let (deep, many) = ("!".repeat(32) + ":a", balanced(33));
    let last_test = many.len() - ":a".len();
    let mut all = lent_rules();
    all.extend([
        lent(":drug".into(), &[23], (23, 0)),
        lent("(e!=e)".into(), &[23], (23, 0)),
        lent("(e=\"\")".into(), &[23], (23, 0)),
        lent("&(e=e)(e=e)".into(), &[23], (23, 0)),
        lent("#1[(e=e)]".into(), &[23], (23, 0)),
        lent(constants(1_025), &[5, 23], (5, 0)),
        lent(":a!".into(), &[6, 23], (6, 2)),
        lent("!(e=e))".into(), &[6, 23], (6, 6)),
        lent(deep, &[7, 23], (7, 32)),
        lent(many, &[8, 23], (8, last_test)),
        lent(format!("!{long}"), &[9, 23], (9, 1)),
        lent(format!("&{long}(e=e)"), &[9, 23], (9, 1)),
    ]);
    all
}

/// Nodes of X, and numbers that are none of it.
fn lists() -> Vec<Lent<Vec<u16>>> {
    vec![
        lent(Vec::new(), &[], (0, 0)),
        lent(vec![4, 0, 4, 1], &[], (0, 0)),
        lent(vec![5], &[13], (13, 0)),
        lent(vec![0, 1, 2, 3, 4, u16::MAX], &[13], (13, 0)),
    ]
}

/// What is lent to one call.
struct Call<'a> {
    document: &'a Lent<Vec<u8>>,
    rule: &'a Lent<String>,
    buffers: &'a Lent<(Length, Length)>,
    list: &'a Lent<Vec<u16>>,
}

impl Call<'_> {
    /// Document, 5 to 9, 23, 10, 11, 13: what the rule is refused with comes before
    /// the buffers, and the list is looked at last. Returns whether it is accepted.
    fn assert_judged(&self, seed: u64) -> bool {
        let all = [
            self.document.due,
            self.rule.due,
            self.buffers.due,
            self.list.due,
        ];
        let due = all.into_iter().find(|(number, _)| *number > 0);
        let (words, marks) = self.buffers.thing;
        let lent = Buffers { words, marks, seed };
        let (document, rule) = (&self.document.thing, self.rule.thing.as_bytes());
        let (outcome, _) = assert_by_values("grounds", document, rule, &self.list.thing, lent);
        let found = (outcome.number, outcome.place);
        assert_eq!(found, due.unwrap_or((0, 0)), "{}", rule.escape_ascii());
        due.is_none()
    }

    /// Each two numbers that apply to it.
    fn pairs(&self) -> Vec<(u32, u32)> {
        let numbers = [
            self.document.numbers,
            self.rule.numbers,
            self.buffers.numbers,
            self.list.numbers,
        ];
        let numbers = numbers.concat();
        let behind = |at: usize| numbers[at + 1..].iter().map(move |second| (at, *second));
        let pairs = (0..numbers.len()).flat_map(behind);
        pairs.map(|(at, second)| (numbers[at], second)).collect()
    }
}

#[test]
fn each_two_grounds_at_once_in_the_written_order() {
    let (mut pairs, mut accepted, mut seed) = (BTreeSet::new(), 0, 0);
    let (documents, rules, all_buffers, lists) =
        (lent_documents(), rules(), lent_buffers(), lists());
    for (document, rule) in documents
        .iter()
        .flat_map(|d| rules.iter().map(move |r| (d, r)))
    {
        for (buffers, list) in all_buffers
            .iter()
            .flat_map(|b| lists.iter().map(move |l| (b, l)))
        {
            let call = Call {
                document,
                rule,
                buffers,
                list,
            };
            accepted += usize::from(call.assert_judged(seed));
            pairs.extend(call.pairs());
            seed += 1;
        }
    }
    // Every two of 14 numbers. X with the session's rule, two buffers and two lists.
    assert_eq!(pairs.len(), 91, "{pairs:?}");
    assert_eq!(accepted, 4);
}

#[test]
fn every_fixed_rule_is_refused_or_evaluated_as_due() {
    let (mut accepted, mut others) = (0, 0);
    for (seed, (name, cases)) in (0..).zip(rules::GROUPS) {
        for case in cases() {
            let (rule, x) = (&case.rule, X.as_bytes());
            let (outcome, _) = assert_by_values(name, x, rule, &[2], needed(seed));
            let found = (outcome.number, outcome.place);
            match case.due.number {
                // The evaluator tells which is due.
                0 => assert!(found == (0, 0) || found == (23, 0), "{name}"),
                number => assert_eq!(found, (number, case.due.place), "{name}"),
            }
            accepted += usize::from(outcome.number == 0);
            others += usize::from(outcome.number == 23);
        }
    }
    println!("{accepted} accepted, {others} no equalities");
    assert!(accepted >= 10 && others >= 40, "{accepted}, {others}");
}

/// The numbers behind the last node, at the start, in the middle and at the end of
/// a list, with buffers long enough and too short.
#[test]
fn a_number_of_no_node_is_refused_last() {
    use Length::{Longer, Needed, Shorter};
    for nodes in [1, 2, 3, 5, 63, 64, 1_024, NODE_LIMIT] {
        let (document, behind) = (flat(nodes), nodes as u16);
        let last = behind - 1;
        let seed = nodes as u64;
        for bad in [behind, behind + 1, 0x1000, 0x8000, u16::MAX] {
            if usize::from(bad) < nodes {
                continue;
            }
            let middle = [vec![last; 50], vec![bad], vec![0; 50]].concat();
            for list in [vec![bad], vec![bad, 0], vec![last, bad], middle] {
                let refused = |words, marks, number| {
                    let origin = format!("{nodes} nodes");
                    let lent = Buffers { words, marks, seed };
                    assert_refused(&origin, &document, b"(e=e)", &list, lent, (number, 0));
                };
                refused(Needed, Needed, 13);
                refused(Longer(7), Longer(9), 13);
                refused(Shorter(1), Needed, 10);
                refused(Needed, Shorter(1), 11);
                refused(Shorter(1), Shorter(1), 10);
            }
        }
    }
}

/// A rule that is no equality is refused by 23 whatever else is too short or none,
/// on the most nodes too; an equality of too many steps by 9.
#[test]
fn another_rule_is_refused_behind_the_rule_check_and_before_the_buffers() {
    use Length::{Just, Needed, Shorter};
    let long = format!("({}=e)", steps(15));
    for nodes in [1, 5, NODE_LIMIT] {
        let document = flat(nodes);
        for (words, marks) in [
            (Needed, Needed),
            (Shorter(1), Shorter(1)),
            (Just(0), Just(0)),
        ] {
            let lent = Buffers {
                words,
                marks,
                seed: 3,
            };
            for list in [&[][..], &[0], &[nodes as u16], &[u16::MAX]] {
                let refused = |rule: &str, due| {
                    assert_refused("rule", &document, rule.as_bytes(), list, lent, due);
                };
                refused("(e=\"e\")", (23, 0));
                refused("!(e=e)", (23, 0));
                refused("(e>=e)", (23, 0));
                refused("(e<[(e=e)])", (23, 0));
                refused(&long, (9, 0));
                refused(&format!("!{long}"), (9, 1));
                refused("(e=e", (6, 4));
            }
        }
    }
}

/// The last node of the most is one.
#[test]
fn the_last_node_may_stand_in_a_list() {
    for nodes in [1, 2, 1_023, NODE_LIMIT] {
        let (mut scratch, mut marks) = (vec![7; needed_words(nodes)], vec![7; nodes]);
        let list = [nodes as u16 - 1];
        let document = flat(nodes);
        let outcome = called_by_values(&document, b"(r=e)", &list, &mut scratch, &mut marks);
        assert_eq!((outcome.number, outcome.place), (0, 0), "{nodes} nodes");
        assert_eq!(outcome.selected, nodes.saturating_sub(2), "{nodes} nodes");
    }
}

/// More numbers than there are nodes: a list has no limit of its own.
#[test]
fn a_list_longer_than_there_are_numbers() {
    let list = [4, 2, 0, 1, 3].repeat(14_000);
    let (x, rule) = (X.as_bytes(), b"(.l[:name]=..r*rl)");
    let (outcome, marked) = assert_by_values("long", x, rule, &list, needed(4));
    assert_eq!((outcome.number, outcome.snippets), (0, 19));
    assert_eq!(marked, [1]);
    let bad = [&list[..], &[5]].concat();
    assert_refused("long", x, rule, &bad, needed(5), (13, 0));
}
