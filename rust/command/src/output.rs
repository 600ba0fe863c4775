//! How numbers and names are written for people.

use std::ffi::OsStr;

/// A number of things: `1 node`, `2 nodes`.
pub fn counted(number: usize, thing: &str) -> String {
    match number {
        1 => format!("1 {thing}"),
        _ => format!("{number} {thing}s"),
    }
}

/// A name as it was given, for a message: never with control characters, which
/// could do anything to a terminal, and never nothing at all.
pub fn shown(name: &OsStr) -> String {
    let text = name.to_string_lossy();
    match text.is_empty() {
        true => "\"\"".to_string(),
        false => text.chars().map(shown_character).collect(),
    }
}

fn shown_character(character: char) -> String {
    match character.is_control() {
        true => character.escape_default().to_string(),
        false => character.to_string(),
    }
}
