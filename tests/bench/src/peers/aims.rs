//! Our calls beside each other: the cheapest rule beside what every call has to do, an
//! equality that compares nothing far away beside the cheapest rule, and many nodes
//! beside few.

use std::cell::RefCell;
use std::hint::black_box;
use std::time::Duration;

use super::cases::{LABEL, NAMED, SIZES};
use crate::evaluations::{assert_same_answers, proved, BOTH_WAYS, BY_SNIPPETS};
use crate::timing::{ratio, time_for, Subject, Times};
use evaluator::document::spell;
use evaluator::samples::selections::SESSION;
use yurzhoad::archive::{check_document, check_rule};
use yurzhoad::limits::needed_words;

/// Each node's value is equal to itself.
const ITSELF: &str = "(e=e)";

const RULES: [&str; 4] = [LABEL, ITSELF, SESSION, BOTH_WAYS];

/// So long one library is timed, all sizes together.
const BUDGET: Duration = Duration::from_secs(6);

pub fn print() {
    println!("\nours alone");
    for shape in &NAMED {
        let documents = SIZES.map(|nodes| spell(&(shape.library)(nodes)));
        let mut subjects = Vec::new();
        for (document, nodes) in documents.iter().zip(SIZES) {
            subjects.push(check_and_clear(document, nodes));
            for rule in RULES {
                let rule = rule.as_bytes();
                assert_same_answers(document, rule, nodes);
                subjects.push(proved(&BY_SNIPPETS, document, rule, nodes));
            }
        }
        let times = time_for(&subjects, BUDGET);
        println!("  {}, {} runs", shape.name, times[0].runs);
        let (small, large) = times.split_at(1 + RULES.len());
        for (nodes, times) in SIZES.into_iter().zip([small, large]) {
            print_size(nodes, times);
        }
        print_growth(small, large);
    }
}

/// What every call has to do at least: both checks, and a scratch that is cleared.
fn check_and_clear(document: &[u8], nodes: usize) -> Subject<'_> {
    let scratch = RefCell::new(vec![0_u16; needed_words(nodes)]);
    let call = move || {
        let scratch = &mut *scratch.borrow_mut();
        let checked = check_document(black_box(document)).nodes;
        let read = check_rule(black_box(LABEL.as_bytes())).place;
        scratch.fill(0);
        // Without a look at it nothing would have to be cleared.
        checked + read + usize::from(black_box(scratch)[0])
    };
    Subject {
        name: "check and clearing",
        bytes: document.len(),
        call: Box::new(call),
    }
}

/// The checks and the clearing first, then the rules in their order.
fn print_size(nodes: usize, times: &[Times]) {
    let (least, label) = (&times[0], &times[1]);
    println!("    {nodes} nodes: checks and clearing {}", shown(least));
    for (rule, its) in RULES.iter().zip(&times[1..]) {
        println!(
            "      {rule:26}{:>20}, {} times checks and clearing, {} times {LABEL}",
            shown(its),
            ratio(its, least, 2),
            ratio(its, label, 2),
        );
    }
}

fn print_growth(small: &[Times], large: &[Times]) {
    print!(
        "    {} beside {} nodes: checks and clearing",
        SIZES[1], SIZES[0]
    );
    print!(" {}", ratio(&large[0], &small[0], 2));
    for (rule, at) in RULES.iter().zip(1..) {
        print!("; {rule} {}", ratio(&large[at], &small[at], 2));
    }
    println!();
}

fn shown(times: &Times) -> String {
    format!("{:.3} ({:.3}) ms", times.median * 1e3, times.fastest * 1e3)
}
