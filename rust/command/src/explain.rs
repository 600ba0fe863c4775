//! `yurzhoad explain`: a rule in words, part by part as it is written.

use std::io::{self, Write};

use yurzhoad::limits::{MAX_NUMERAL_DECIMALS, MAX_NUMERAL_DIGITS};
use yurzhoad::Rule;

use crate::reader::{self, Form, Part, Role};
use crate::summary::Summary;

/// Writes a line for each part, with its offset and indented by its nesting,
/// and below them how near the rule comes to the limits.
pub fn explain(rule: &Rule<'_>, out: &mut dyn Write) -> io::Result<()> {
    let parts = reader::parts(rule);
    // The last part has the largest offset.
    let width = parts.last().map_or(0, |part| part.offset.to_string().len());
    writeln!(out, "A node is selected if")?;
    for part in &parts {
        let indent = 2 * (part.nesting - 1);
        let (offset, words) = (part.offset, words(part));
        writeln!(out, "{offset:width$}  {:indent$}{words}", "")?;
    }
    writeln!(out, "\n{}", Summary::of(&parts))
}

fn words(part: &Part<'_>) -> String {
    let role = match part.role {
        Role::FirstPath => "first path: ",
        Role::SecondPath => "second path: ",
        Role::OnlyPath => "path: ",
        Role::None => "",
    };
    format!("{role}{}", form_words(&part.form))
}

/// A colon at the end says that the parts below belong to it.
fn form_words(form: &Form<'_>) -> String {
    let words = match form {
        Form::Name(name) => return format!("the label is `{name}`"),
        Form::Comparison { sign, constant, .. } => return comparison_words(sign, *constant),
        Form::Count { nodes, .. } => return count_words(nodes),
        Form::Not => "this does not hold:",
        Form::And => "both of these hold:",
        Form::Or => "at least one of these holds:",
        Form::Empty => "stay at the node",
        Form::Left => "to the first node inside, attributes included",
        Form::Right => "to the next sibling",
        Form::FromLeft => "from the first node inside back to the element around it",
        Form::FromRight => "back to the sibling before",
        Form::Stay => "stay at the node if",
        Form::Sequence => "one after the other:",
        Form::Union => "either of these:",
        Form::Star => "zero or more times:",
    };
    words.to_string()
}

/// Said of the order signs alone: `=` and `!=` compare texts.
const BY_AMOUNT: &str =
    ", compared by amount: 9 is less than 10; it fails on values that are no numerals";
const NEVER: &str = ", compared by amount: it never holds, since the constant is no numeral";

/// A sign, its name, and its words before a node and before a constant.
type Relation = (&'static str, &'static str, &'static str, &'static str);

const RELATIONS: [Relation; 6] = [
    ("=", "equality", "has the same value as", "has the value"),
    (
        "!=",
        "inequality",
        "has another value than",
        "has another value than",
    ),
    (
        "<",
        "less",
        "has a value less than that of",
        "has a value less than",
    ),
    (
        "<=",
        "less or equal",
        "has a value less than or equal to that of",
        "has a value less than or equal to",
    ),
    (
        ">",
        "greater",
        "has a value greater than that of",
        "has a value greater than",
    ),
    (
        ">=",
        "greater or equal",
        "has a value greater than or equal to that of",
        "has a value greater than or equal to",
    ),
];

/// A comparison asks for some node, or for some pair of nodes; so does `!=`.
fn comparison_words(sign: &str, constant: Option<&str>) -> String {
    let mut relations = RELATIONS.into_iter();
    let (_, name, to_node, to_constant) = relations
        .find(|(own, ..)| *own == sign)
        .expect("an accepted rule has no other sign");
    let note = match (sign, constant) {
        ("=" | "!=", _) => "",
        (_, Some(constant)) if !is_numeral(constant.trim_matches(' ')) => NEVER,
        _ => BY_AMOUNT,
    };
    match constant {
        None => format!(
            "{name}: some node reached by the first path {to_node} \
             some node reached by the second{note}"
        ),
        Some(constant) => format!(
            "{name}: some node reached by the path {to_constant} {}{note}",
            constant_words(constant)
        ),
    }
}

/// A count asks for different nodes, however they are reached.
fn count_words(nodes: &str) -> String {
    let reached = match nodes {
        "0" => "0 nodes, which holds everywhere".to_string(),
        "1" => "1 node".to_string(),
        _ => format!("{nodes} different nodes"),
    };
    format!("count: the path reaches at least {reached}")
}

/// Whether a text without blanks at its ends is a numeral: a minus or none, some
/// digits, and a point with some decimals or none.
fn is_numeral(text: &str) -> bool {
    let spelled = |digits: &str, most: usize| {
        (1..=most).contains(&digits.len()) && digits.bytes().all(|byte| byte.is_ascii_digit())
    };
    let unsigned = text.strip_prefix('-').unwrap_or(text);
    match unsigned.split_once('.') {
        Some((whole, decimals)) => {
            spelled(whole, MAX_NUMERAL_DIGITS) && spelled(decimals, MAX_NUMERAL_DECIMALS)
        }
        None => spelled(unsigned, MAX_NUMERAL_DIGITS),
    }
}

/// A constant as it is compared. Whoever wrote blanks at its ends would look
/// for them in the values, and so is told that they do not count.
fn constant_words(constant: &str) -> String {
    let compared = constant.trim_matches(' ');
    let aside = match (compared.is_empty(), compared == constant) {
        (false, true) => "",
        (true, true) => " (empty)",
        (false, false) => " (blanks at the ends do not count)",
        (true, false) => " (empty: blanks at the ends do not count)",
    };
    format!("\"{compared}\"{aside}")
}
