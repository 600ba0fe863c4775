//! The grounds against the table of the definitions.

use crate::file;
use yurzhoad::{Ground, Refusal};

/// A row of the table: name, number, and what its place is.
struct Row {
    name: String,
    number: u16,
    place: String,
}

/// The rows as `table (lineForm line) = row 2 line 2`.
fn rows() -> Vec<Row> {
    let table = file("crates/refusals/specs/Refusals.antt");
    let equations = table.lines().filter(|line| line.starts_with("table "));
    equations
        .map(|line| {
            let line = line.replace(['(', ')'], "");
            let words: Vec<&str> = line.split(' ').collect();
            let at = words.iter().position(|word| *word == "row").expect("a row");
            Row {
                name: words[1].to_string(),
                number: words[at + 1].parse().expect("a number"),
                place: words[at + 2].to_string(),
            }
        })
        .collect()
}

/// The name as the definitions write it: its words small, with `_` between them.
fn written(ground: Ground) -> String {
    let mut written = String::new();
    for letter in format!("{ground:?}").chars() {
        if letter.is_uppercase() && !written.is_empty() {
            written.push('_');
        }
        written.extend(letter.to_lowercase());
    }
    written
}

/// The definitions have the grounds in the order in which they came; here they
/// are by rising numbers.
#[test]
fn grounds_are_those_of_the_definitions() {
    let mut rows = rows();
    rows.sort_by_key(|row| row.number);
    assert_eq!(rows.len(), Ground::ALL.len());
    for (row, ground) in rows.iter().zip(Ground::ALL) {
        assert_eq!(row.name, written(ground));
        assert_eq!(row.number, ground.number(), "{}", row.name);
        assert_eq!(Some(ground), Ground::from_number(row.number));
    }
}

/// Of these are 12 and 15 to 22, which the definitions do not have yet.
#[test]
fn other_numbers_have_no_ground() {
    let defined: Vec<u16> = rows().iter().map(|row| row.number).collect();
    for number in (0..=u16::MAX).filter(|number| !defined.contains(number)) {
        assert_eq!(Ground::from_number(number), None, "{number}");
        assert_eq!(Refusal::explain(number, 0, b"", b""), None, "{number}");
    }
}

#[test]
fn a_place_is_called_what_the_definitions_call_it() {
    for row in rows() {
        let refusal = Refusal::explain(row.number, 1, b"nodes=0\n", b"x").expect("a ground");
        let due = match row.place.as_str() {
            // The place of number 3 is always line 1.
            "line" | "1" => "line",
            "offset" => "offset",
            _ => "place",
        };
        let at = format!(": number {} at {due} 1: ", row.number);
        assert!(refusal.to_string().contains(&at), "{refusal}");
        let has_place = due != "place";
        assert_eq!(refusal.excerpt().is_some(), has_place, "{refusal}");
    }
}
