//! The document check beside bare scans of the same bytes, and beside the check
//! of documents that are smaller or have their attributes elsewhere.

use std::hint::black_box;

use crate::attributes::{Labels, FOR_ANY, FOR_EIGHT};
use crate::scan::{Scan, SCANS};
use crate::shapes::{Shape, SHAPES};
use crate::timing::{ratio, time, Subject, Times};
use evaluator::document::NODE_LIMIT;
use yurzhoad::archive::check_document;

/// So many nodes have the documents with few attributes an element: what a call
/// costs apart from its nodes shows on the small ones.
const SIZES: [usize; 5] = [2, 20, 100, 513, NODE_LIMIT];

pub fn print() {
    for shape in SHAPES {
        print_shape(&shape);
    }
    for labels in FOR_EIGHT {
        for nodes in SIZES {
            print_few(&labels, nodes);
        }
    }
    for labels in FOR_ANY {
        print_many(&labels);
    }
}

/// A document of its most nodes, and of half as many.
fn print_shape(shape: &Shape) {
    let whole = shape.document(shape.nodes);
    let half = shape.document(shape.nodes / 2);
    let title = format!("{}: {} nodes", shape.name, shape.nodes);
    compare(&title, &whole, &[("half of it", &half)]);
}

/// Eight attributes an element, and the same nodes without attributes.
fn print_few(labels: &Labels, nodes: usize) {
    let few = labels.spread(nodes);
    let none = labels.without_attributes(nodes);
    let title = format!(
        "eight attributes an element, {}: {nodes} nodes",
        labels.name
    );
    compare(&title, &few, &[("without attributes", &none)]);
}

/// As many attributes on one element as there can be, the same with eight on
/// each, and half as many on one.
fn print_many(labels: &Labels) {
    let many = labels.gathered(NODE_LIMIT);
    let few = labels.spread(NODE_LIMIT);
    let half = labels.gathered(NODE_LIMIT / 2);
    let title = format!(
        "all attributes on one element, {}: {NODE_LIMIT} nodes",
        labels.name
    );
    let others: [(&str, &[u8]); 2] = [("eight an element", &few), ("half of it", &half)];
    compare(&title, &many, &others);
}

/// Prints the check of a document beside the check of others, and beside the
/// scans.
fn compare(title: &str, document: &[u8], others: &[(&str, &[u8])]) {
    let mut subjects = vec![check("proved check", document)];
    subjects.extend(others.iter().map(|(name, other)| check(name, other)));
    subjects.extend(SCANS.map(|(name, scan)| scanned(name, scan, document)));
    let times = time(&subjects);
    println!("\n{title}");
    for (subject, time) in subjects.iter().zip(&times) {
        print_line(subject, time, &times[0]);
    }
}

/// The check of a legal document, which reads all of it.
fn check<'a>(name: &'a str, document: &'a [u8]) -> Subject<'a> {
    let call = move || {
        let answer = check_document(black_box(document));
        assert_eq!(answer.number, 0, "only a legal document is read to its end");
        answer.nodes
    };
    Subject {
        name,
        bytes: document.len(),
        call: Box::new(call),
    }
}

fn scanned<'a>(name: &'a str, scan: Scan, document: &'a [u8]) -> Subject<'a> {
    Subject {
        name,
        bytes: document.len(),
        call: Box::new(move || scan(black_box(document))),
    }
}

/// One line: speed, time, and how many times as long the first check takes.
fn print_line(subject: &Subject, time: &Times, first: &Times) {
    let speed = |seconds: f64| subject.bytes as f64 / seconds / 1e9;
    println!(
        "  {:24}{:8} bytes{:7.2} ({:.2}) GB/s{:10.3} ({:.3}) us, the check takes {} times this",
        subject.name,
        subject.bytes,
        speed(time.median),
        speed(time.fastest),
        time.median * 1e6,
        time.fastest * 1e6,
        ratio(first, time, 2),
    );
}
