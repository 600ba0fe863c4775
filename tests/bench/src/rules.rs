//! The rule check, of short rules and of the longest.

use std::hint::black_box;

use crate::rule_shapes::{RuleShape, RULE_SHAPES};
use crate::timing::{time, Subject, Times};
use evaluator::rule_check::BYTE_LIMIT;
use evaluator::samples::rules::MARKED;
use yurzhoad::archive::check_rule;

pub fn print() {
    print_short();
    for shape in RULE_SHAPES {
        compare(&shape);
    }
}

/// The rules that document 01 marks on X, each alone.
fn print_short() {
    let subjects = MARKED.map(|rule| check(rule, rule));
    println!("\nrules of document 01");
    for (subject, time) in subjects.iter().zip(time(&subjects)) {
        print_line(subject, &time);
        println!();
    }
}

/// Prints the check of the longest rule of a shape, and of half as many bytes.
fn compare(shape: &RuleShape) {
    let sizes = [BYTE_LIMIT, BYTE_LIMIT / 2];
    let rules = sizes.map(shape.rule);
    assert_eq!(sizes, [rules[0].len(), rules[1].len()], "{}", shape.name);
    let subjects = [check("whole", &rules[0]), check("half of it", &rules[1])];
    let times = time(&subjects);
    println!("\n{}", shape.name);
    for (subject, time) in subjects.iter().zip(&times) {
        print_line(subject, time);
        println!(
            ", the whole takes {:.2} ({:.2}) times this",
            times[0].median / time.median,
            times[0].fastest / time.fastest,
        );
    }
}

/// The check of a legal rule, which reads all of it.
fn check<'a>(name: &'a str, rule: &'a str) -> Subject<'a> {
    let call = move || {
        let answer = check_rule(black_box(rule.as_bytes()));
        assert_eq!(answer.number, 0, "only a legal rule is read to its end");
        answer.place
    };
    Subject {
        name,
        bytes: rule.len(),
        call: Box::new(call),
    }
}

/// The rules checked in a second, and the time for one and for each byte.
fn print_line(subject: &Subject, time: &Times) {
    let bytes = subject.bytes as f64;
    print!(
        "  {:24}{:6} bytes{:12.0} ({:.0}) rules a second{:9.1} ({:.1}) ns,{:7.2} ({:.2}) ns a byte",
        subject.name,
        subject.bytes,
        1.0 / time.median,
        1.0 / time.fastest,
        time.median * 1e9,
        time.fastest * 1e9,
        time.median * 1e9 / bytes,
        time.fastest * 1e9 / bytes,
    );
}
