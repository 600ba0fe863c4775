//! The line of a document, or the rule with a caret under a byte.

use crate::refusal::Ground;

/// So many characters of a line are shown at most, without the dots.
const LINE_WIDTH: usize = 120;

/// So many characters of a rule are shown at most, without the dots.
const RULE_WIDTH: usize = 72;

/// Stands for what is cut.
const DOTS: &str = "...";

/// What stands at this place, where the ground has one.
pub fn of(ground: Ground, place: usize, document: &[u8], rule: &[u8]) -> Option<String> {
    match ground {
        Ground::LineForm | Ground::NodeCount | Ground::TreeRule | Ground::DuplicateAttribute => {
            Some(line(document, place))
        }
        Ground::Unreadable | Ground::Nesting | Ground::Tests | Ground::Steps => {
            Some(caret(rule, place))
        }
        Ground::DocumentLength
        | Ground::RuleLength
        | Ground::ScratchLength
        | Ground::MarksLength
        | Ground::NoSuchNode
        | Ground::OtherComparison => None,
    }
}

/// The line with its number, as `  7 | depth=3`. What the line does not show
/// stands below it.
fn line(document: &[u8], place: usize) -> String {
    let mut lines = document.split_inclusive(|byte| *byte == b'\n');
    let Some(found) = lines.nth(place.saturating_sub(1)) else {
        return format!("  {place} | the document ends before this line");
    };
    let content = found.strip_suffix(b"\n").unwrap_or(found);
    // The first byte that no line may have, since it is what one looks for.
    let bad = content.iter().position(|byte| !is_printable(*byte));
    let window = Window::around(content, bad.unwrap_or(0), LINE_WIDTH);
    let blank = if content.is_empty() { "" } else { " " };
    let mut text = format!("  {place} |{blank}{}{}", window.head, window.tail);
    let width = place.to_string().len();
    let mut note = |words: &str| text += &format!("\n  {:width$} | {words}", "");
    if content.is_empty() {
        note("the line is empty");
    }
    if window.cut {
        note(&format!("the line has {} bytes", content.len()));
    }
    if content.len() == found.len() {
        note("the document ends here, without LF");
    }
    text
}

/// The rule, or the stretch of it around the place, with a caret below. A place
/// at the end has its caret behind the last byte.
fn caret(rule: &[u8], place: usize) -> String {
    let Window { head, tail, .. } = Window::around(rule, place.min(rule.len()), RULE_WIDTH);
    format!("  {head}{tail}\n  {:width$}^", "", width = head.len())
}

/// A stretch of some bytes as it is shown.
struct Window {
    /// What stands before the byte that matters.
    head: String,
    /// That byte and what stands behind it.
    tail: String,
    /// Whether some bytes are left out.
    cut: bool,
}

impl Window {
    /// The bytes around this offset, in so many characters and dots for what
    /// does not fit. Each side has half of the room, and what the other does
    /// not need.
    fn around(bytes: &[u8], offset: usize, width: usize) -> Window {
        let (before, behind) = bytes.split_at(offset);
        // Each byte takes a character or more, so no more of them can fit.
        let near_before = escaped_all(before.iter().rev().take(width));
        let near_behind = escaped_all(behind.iter().take(width));
        let kept_behind = fitting(&near_behind, width / 2);
        let kept_before = fitting(&near_before, width - length(&near_behind[..kept_behind]));
        let kept_behind = fitting(&near_behind, width - length(&near_before[..kept_before]));
        let dots = |all: &[u8], kept: usize| if kept < all.len() { DOTS } else { "" };
        let head: String = near_before[..kept_before].iter().rev().cloned().collect();
        Window {
            head: format!("{}{head}", dots(before, kept_before)),
            tail: near_behind[..kept_behind].concat() + dots(behind, kept_behind),
            cut: kept_before + kept_behind < bytes.len(),
        }
    }
}

fn escaped_all<'a>(bytes: impl Iterator<Item = &'a u8>) -> Vec<String> {
    bytes.map(|byte| escaped(*byte)).collect()
}

/// How many characters these bytes take.
fn length(shown: &[String]) -> usize {
    shown.iter().map(String::len).sum()
}

/// How many of these bytes fit into so many characters.
fn fitting(shown: &[String], width: usize) -> usize {
    let ends = shown.iter().scan(0, |end, byte| {
        *end += byte.len();
        Some(*end)
    });
    ends.take_while(|end| *end <= width).count()
}

/// A byte as it is shown: in ASCII, and never as a control character.
fn escaped(byte: u8) -> String {
    match byte {
        b'\n' => "\\n".to_string(),
        b'\r' => "\\r".to_string(),
        b'\t' => "\\t".to_string(),
        _ if is_printable(byte) => char::from(byte).to_string(),
        _ => format!("\\x{byte:02x}"),
    }
}

/// From 0x20 to 0x7E.
fn is_printable(byte: u8) -> bool {
    byte == b' ' || byte.is_ascii_graphic()
}
