//! The plain evaluation: from each node a work list follows the positions of a
//! comparison's paths.

use super::automaton::Automaton;
use super::library::{Library, NONE};
use super::walk::Walk;
use super::{in_relation, mark, Answer, Comparing, Range};
use evaluator::rule::Sign;

pub fn evaluate(document: &[u8], rule: &[u8], marks: &mut [u8]) -> Answer {
    Answer {
        selected: mark(document, rule, marks, &Plain),
        snippets: 0,
    }
}

struct Plain;

impl Comparing for Plain {
    fn paths(&self, library: &Library, automaton: &Automaton, sign: Sign) -> Vec<bool> {
        let mut walk = Walk::new(library, automaton);
        let column = library.ranks_for(sign);
        let mut ranks = [Vec::new(), Vec::new()];
        // For each rank the last node from which the first path reached it.
        let mut reached_from = vec![usize::MAX; library.size()];
        let compared = |v: usize| {
            for (start, ranks) in [0, automaton.second].into_iter().zip(&mut ranks) {
                ranks.clear();
                walk.ends(start, v, |w| ranks.push(column[w]));
                ranks.retain(|rank| *rank != NONE);
            }
            let [first, second] = &ranks;
            if let Sign::Equal = sign {
                first
                    .iter()
                    .for_each(|rank| reached_from[usize::from(*rank)] = v);
                return second
                    .iter()
                    .any(|rank| reached_from[usize::from(*rank)] == v);
            }
            in_relation(sign, range(first), range(second))
        };
        (0..library.size()).map(compared).collect()
    }

    fn hits(&self, library: &Library, automaton: &Automaton, hits: &[bool]) -> Vec<bool> {
        let mut walk = Walk::new(library, automaton);
        let compared = |v: usize| {
            let mut hit = false;
            walk.ends(0, v, |w| hit |= hits[w]);
            hit
        };
        (0..library.size()).map(compared).collect()
    }
}

fn range(ranks: &[u16]) -> Option<Range> {
    Some((*ranks.iter().min()?, *ranks.iter().max()?))
}
