//! The legal rules that are timed.

use evaluator::samples::joined;

pub struct RuleShape {
    pub name: &'static str,
    /// The rule of just so many bytes, for some hundred up to 1,024.
    pub rule: fn(usize) -> String,
}

pub const RULE_SHAPES: [RuleShape; 5] = [
    RuleShape {
        name: "most tests",
        rule: |bytes| halved(bytes, "&", 32, comparison),
    },
    RuleShape {
        name: "most parts",
        rule: comparison,
    },
    RuleShape {
        name: "deep stars",
        rule: |bytes| format!("({}=e)", halved(bytes - 4, "+", 24, stars)),
    },
    RuleShape {
        name: "long constants",
        rule: |bytes| halved(bytes, "|", 38, constant),
    },
    RuleShape {
        name: "long names",
        rule: |bytes| halved(bytes, "|", 256, names),
    },
];

/// So many bytes: leaves of no more bytes than the longest, joined two and two.
fn halved(bytes: usize, sign: &str, longest: usize, leaf: fn(usize) -> String) -> String {
    if bytes <= longest {
        return leaf(bytes);
    }
    let first = (bytes - 1) / 2;
    let half = |bytes| halved(bytes, sign, longest, leaf);
    format!("{sign}{}{}", half(first), half(bytes - 1 - first))
}

/// A path of so many bytes and no step.
fn empty(bytes: usize) -> String {
    halved(bytes, ".", 2, stars)
}

fn stars(bytes: usize) -> String {
    "*".repeat(bytes - 1) + "e"
}

fn comparison(bytes: usize) -> String {
    format!("({}=e)", empty(bytes - 4))
}

fn constant(bytes: usize) -> String {
    format!("(e=\"{}\")", "c".repeat(bytes - 6))
}

/// A comparison with 12 names of 16 bytes in brackets, and an empty path for
/// what is left.
fn names(bytes: usize) -> String {
    let names = joined(".", "[:abcdefghijklmn-9]", 12);
    format!("({names}={})", empty(bytes - names.len() - 3))
}
