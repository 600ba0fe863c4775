//! A count: whether a path leads to so many nodes, from each node by a walk that
//! ends as soon as they are found. One node is found backwards from all nodes at
//! once.

use super::automaton::Automaton;
use super::library::Library;
use super::snippets::led_to;
use super::walk::Walk;

/// For each node whether the first path leads to so many nodes from it.
pub fn at_least(library: &Library, automaton: &Automaton, number: usize) -> Vec<bool> {
    let size = library.size();
    match number {
        0 => vec![true; size],
        1 => led_to(library, automaton, &vec![true; size]),
        _ if number > size => vec![false; size],
        _ => {
            let mut walk = Walk::new(library, automaton);
            (0..size).map(|v| walk.finds(0, v, number)).collect()
        }
    }
}
