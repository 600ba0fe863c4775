//! All changes of some small kind, tried one by one.

use crate::agreement::assert_agreement;
use evaluator::samples::documents::with_line;
use evaluator::samples::{document, X};

#[test]
fn every_prefix_of_x() {
    // The slices share one buffer: reading behind the end would find the rest.
    for length in 0..=X.len() {
        let prefix = &X.as_bytes()[..length];
        let record = assert_agreement(format_args!("{length} bytes of X"), prefix);
        assert_eq!(record.number == 0, length == X.len());
    }
}

#[test]
fn x_inside_a_larger_buffer() {
    for around in 1..20 {
        let fill = b"nodes=2\ndepth=0\nkind=e\n".repeat(around);
        let buffer = [&fill, X.as_bytes(), &fill].concat();
        let inside = &buffer[fill.len()..fill.len() + X.len()];
        let record = assert_agreement("X inside a buffer", inside);
        assert_eq!((record.number, record.nodes), (0, 5));
    }
}

/// Tries every byte changed, put in or left out, and returns how often that
/// made an attribute twice.
fn repeats_by_one_byte(document: &[u8]) -> usize {
    let mut repeats = 0;
    let mut try_one = |origin: String, changed: &[u8]| {
        let record = assert_agreement(origin, changed);
        repeats += usize::from(record.number == 14);
    };
    for at in 0..=document.len() {
        let (before, behind) = document.split_at(at);
        let rest = behind.get(1..).unwrap_or_default();
        try_one(format!("byte {at} left out"), &[before, rest].concat());
        for byte in 0..=255 {
            let changed = [before, &[byte], rest].concat();
            try_one(format!("byte {at} changed to {byte}"), &changed);
            let longer = [before, &[byte], behind].concat();
            try_one(format!("{byte} put in at {at}"), &longer);
        }
    }
    repeats
}

#[test]
fn every_byte_changed_put_in_or_left_out() {
    assert_eq!(repeats_by_one_byte(X.as_bytes()), 0);
}

#[test]
fn every_byte_changed_where_labels_are_nearly_the_same() {
    let attribute = |label| ('a', 1, label, "v");
    let rows = [
        ('e', 0, "b", ""),
        attribute("a"),
        attribute("b"),
        attribute("ab"),
    ];
    // Counted by hand: `a` for `b` and `b` for `a`, `ab` less either byte, `a`
    // and `b` more the other one, and in `ab` an LF for `b` or before it, since
    // the label line ends there.
    assert_eq!(repeats_by_one_byte(&document(&rows)), 8);
}

#[test]
fn every_count_and_every_depth() {
    for number in 0..=100_100 {
        for numeral in [format!("{number}"), format!("0{number}")] {
            let count = format!("nodes={numeral}");
            assert_agreement(&count, with_line(1, &count).as_bytes());
            if number <= 10_100 {
                let depth = format!("depth={numeral}");
                assert_agreement(&depth, with_line(10, &depth).as_bytes());
            }
        }
    }
}

#[test]
fn every_length_of_label_and_value() {
    for length in 0..=600 {
        let text = "x".repeat(length);
        for line in [8, 12] {
            let label = format!("label={text}");
            assert_agreement(&label, with_line(line, &label).as_bytes());
        }
        for line in [9, 13, 21] {
            let value = format!("value={text}");
            assert_agreement(&value, with_line(line, &value).as_bytes());
        }
    }
}

/// Tries every choice of kinds and depths for four nodes of these labels, and
/// returns how many are accepted and how many have an attribute twice.
fn trees_of_four_nodes(labels: [&str; 4]) -> (usize, usize) {
    let places: Vec<(char, usize)> = "eat"
        .chars()
        .flat_map(|kind| (0..5).map(move |depth| (kind, depth)))
        .collect();
    let (mut accepted, mut repeats) = (0, 0);
    for choice in 0..places.len().pow(4) {
        let rows = [0, 1, 2, 3].map(|node| {
            let (kind, depth) = places[choice / places.len().pow(node) % places.len()];
            let label = if kind == 't' {
                "text"
            } else {
                labels[node as usize]
            };
            (kind, depth, label, "")
        });
        let record = assert_agreement(format_args!("{rows:?}"), &document(&rows));
        accepted += usize::from(record.number == 0);
        repeats += usize::from(record.number == 14);
    }
    (accepted, repeats)
}

#[test]
fn every_tree_of_four_nodes() {
    // Counted by hand: behind the root stand e1, t1 or a1, behind which there
    // are 23, 7 and 10 ways to go on with two nodes.
    assert_eq!(trees_of_four_nodes(["a", "b", "c", "d"]), (40, 0));
}

#[test]
fn every_tree_of_four_nodes_with_one_label() {
    // Of the 40 those with a1 a1 behind the root, which go on in three ways,
    // and e1 a2 a2 are gone. Behind a1 a1 the lines of the fourth node do not
    // matter, whichever of 15 they are.
    assert_eq!(trees_of_four_nodes(["a"; 4]), (40 - 3 - 1, 15 + 1));
}
