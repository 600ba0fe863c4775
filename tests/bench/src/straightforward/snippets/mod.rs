//! The snippet evaluation. Equalities between two paths are settled by their
//! snippets; all other comparisons backwards from the nodes where paths end.

mod matrix;
mod retrace;
mod skeletons;
mod stretches;
mod yields;

use std::cell::Cell;

use super::automaton::Automaton;
use super::library::{Library, NONE};
use super::{in_relation, mark, Answer, Comparing, Range};
use evaluator::rule::Sign;
use retrace::Retrace;
use stretches::Stretches;
use yields::Yields;

pub fn evaluate(document: &[u8], rule: &[u8], marks: &mut [u8]) -> Answer {
    let snippets = Snippets::default();
    Answer {
        selected: mark(document, rule, marks, &snippets),
        snippets: snippets.count.get(),
    }
}

#[derive(Default)]
struct Snippets {
    /// So many were found in the comparisons up to now.
    count: Cell<usize>,
}

impl Comparing for Snippets {
    fn paths(&self, library: &Library, automaton: &Automaton, sign: Sign) -> Vec<bool> {
        if sign != Sign::Equal {
            return ordered(library, automaton, sign);
        }
        let stretches = Stretches::of(library, automaton);
        let mut yields = Yields::of_skeletons(&stretches);
        yields.halve();
        self.count.set(self.count.get() + yields.count());
        yields.settled()
    }

    fn hits(&self, library: &Library, automaton: &Automaton, hits: &[bool]) -> Vec<bool> {
        led_to(library, automaton, hits)
    }
}

/// Whether the first path leads to a node that is a hit, backwards from the hits.
pub fn led_to(library: &Library, automaton: &Automaton, hits: &[bool]) -> Vec<bool> {
    let mut retrace = Retrace::new(library, automaton);
    for (w, hit) in hits.iter().enumerate() {
        if *hit {
            retrace.end(w, |_, _| {});
        }
    }
    retrace.seen.iter().map(|seen| seen & 1 == 1).collect()
}

/// By the least and the greatest rank that each path comes to.
fn ordered(library: &Library, automaton: &Automaton, sign: Sign) -> Vec<bool> {
    let column = library.ranks_for(sign);
    let mut ends: Vec<(u16, usize)> = column.iter().copied().zip(0..).collect();
    ends.retain(|(rank, _)| *rank != NONE);
    ends.sort_unstable();
    let low = first_ranks(library, automaton, &ends);
    ends.reverse();
    let high = first_ranks(library, automaton, &ends);
    let range = |v: usize, start: usize| -> Option<Range> { low[v][start].zip(high[v][start]) };
    (0..library.size())
        .map(|v| in_relation(sign, range(v, 0), range(v, 1)))
        .collect()
}

/// For each node and for both paths the rank of the first of the given nodes
/// that the path leads to.
fn first_ranks(
    library: &Library,
    automaton: &Automaton,
    ends: &[(u16, usize)],
) -> Vec<[Option<u16>; 2]> {
    let mut ranks = vec![[None; 2]; library.size()];
    let mut retrace = Retrace::new(library, automaton);
    for &(end_rank, w) in ends {
        retrace.end(w, |v, new| {
            for (start, rank) in [0, automaton.second].into_iter().zip(&mut ranks[v]) {
                if new >> start & 1 == 1 {
                    *rank = Some(end_rank);
                }
            }
        });
    }
    ranks
}
