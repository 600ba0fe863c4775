//! A count asks for at least so many different nodes that its path reaches.

use evaluator::samples::document;
use yurzhoad::limits::MAX_COUNT;
use yurzhoad::{Ground, Rule};

use crate::blanks::assert_selected;

/// Drugs with three concentrations, with two, and with none.
fn concentrations() -> Vec<u8> {
    let concentration = ('e', 2, "concentration", "");
    document(&[
        ('e', 0, "library", ""),
        ('e', 1, "drug", ""),
        ('a', 2, "name", "heparin"),
        concentration,
        concentration,
        concentration,
        ('e', 1, "drug", ""),
        concentration,
        concentration,
        ('e', 1, "drug", ""),
    ])
}

#[test]
fn at_least_so_many_nodes() {
    let bytes = concentrations();
    assert_selected(&bytes, "&:drug#3..l*r[:concentration]", &[1]);
    assert_selected(&bytes, "&:drug#2..l*r[:concentration]", &[1, 6]);
    assert_selected(&bytes, "&:drug!#1..l*r[:concentration]", &[9]);
    assert_selected(&bytes, "&:drug#0..l*r[:concentration]", &[1, 6, 9]);
    assert_selected(&bytes, "#10*+l+r+LR", &[0, 1, 2, 3, 4, 5, 6, 7, 8, 9]);
    assert_selected(&bytes, "#11*+l+r+LR", &[]);
}

#[test]
fn a_node_reached_in_two_ways_counts_once() {
    let bytes = concentrations();
    assert_selected(&bytes, "#1+ll", &[0, 1, 6]);
    assert_selected(&bytes, "#2+ll", &[]);
    assert_selected(&bytes, "#2.+lr+LR", &[]);
}

#[test]
fn the_number_is_part_of_the_grammar() {
    let ground = |rule: &str| {
        let refusal = Rule::check(rule).err()?;
        Some((refusal.ground(), refusal.place()))
    };
    assert_eq!(ground(&format!("#{MAX_COUNT}e")), None);
    let above = format!("#{}e", MAX_COUNT + 1);
    assert_eq!(ground(&above), Some((Ground::Unreadable, 4)));
    assert_eq!(ground("#01e"), Some((Ground::Unreadable, 2)));
    assert_eq!(ground("#"), Some((Ground::Unreadable, 1)));
}
