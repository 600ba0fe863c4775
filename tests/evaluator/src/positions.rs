//! The positions of one comparison: which may follow which, and which are last.

use std::collections::BTreeSet;

use crate::rule::Path;

/// A path as the set of its words, its steps told apart by their numbers.
#[derive(Clone, Debug)]
pub enum Words {
    /// The empty word alone.
    Empty,
    /// The word of this one step alone.
    Step(usize),
    Then(Box<Words>, Box<Words>),
    Either(Box<Words>, Box<Words>),
    Repeat(Box<Words>),
}

impl Words {
    /// Numbers the steps as written, rising from the given number on, which
    /// afterwards is the next free one.
    pub fn of(path: &Path, next: &mut usize) -> Words {
        match path {
            Path::Empty => Words::Empty,
            Path::Then(a, b) => {
                let a = Box::new(Words::of(a, next));
                Words::Then(a, Box::new(Words::of(b, next)))
            }
            Path::Either(a, b) => {
                let a = Box::new(Words::of(a, next));
                Words::Either(a, Box::new(Words::of(b, next)))
            }
            Path::Repeat(inner) => Words::Repeat(Box::new(Words::of(inner, next))),
            Path::Left | Path::Right | Path::FromLeft | Path::FromRight | Path::Stay(_) => {
                *next += 1;
                Words::Step(*next - 1)
            }
        }
    }

    /// What the pair (i, j) sees of all the words, however long they are.
    ///
    /// What it sees of two words joined depends only on what it sees of each
    /// of them. So the views of all joined words are the joined views, and
    /// for zero or more words joined they are found by joining one more until
    /// no view is new. Nothing is cut off, since there are finitely many views.
    fn views(&self, i: usize, j: usize) -> BTreeSet<View> {
        match self {
            Words::Empty => BTreeSet::from([View::EMPTY]),
            Words::Step(step) => BTreeSet::from([View::of_step(*step, i, j)]),
            Words::Then(a, b) => join_all(&a.views(i, j), &b.views(i, j)),
            Words::Either(a, b) => &a.views(i, j) | &b.views(i, j),
            Words::Repeat(inner) => {
                let once = inner.views(i, j);
                let mut all = BTreeSet::from([View::EMPTY]);
                loop {
                    let more = &all | &join_all(&all, &once);
                    if more == all {
                        return all;
                    }
                    all = more;
                }
            }
        }
    }
}

/// What the pair (i, j) of steps sees of one word.
#[derive(Clone, Copy, PartialEq, Eq, PartialOrd, Ord)]
struct View {
    is_empty: bool,
    begins_with_j: bool,
    ends_in_i: bool,
    has_j_right_after_i: bool,
}

impl View {
    const EMPTY: View = View {
        is_empty: true,
        begins_with_j: false,
        ends_in_i: false,
        has_j_right_after_i: false,
    };

    fn of_step(step: usize, i: usize, j: usize) -> View {
        View {
            is_empty: false,
            begins_with_j: step == j,
            ends_in_i: step == i,
            has_j_right_after_i: false,
        }
    }

    /// The view of a word with another word joined to its end.
    fn join(self, end: View) -> View {
        if self.is_empty {
            return end;
        }
        if end.is_empty {
            return self;
        }
        View {
            is_empty: false,
            begins_with_j: self.begins_with_j,
            ends_in_i: end.ends_in_i,
            has_j_right_after_i: self.has_j_right_after_i
                || end.has_j_right_after_i
                || (self.ends_in_i && end.begins_with_j),
        }
    }
}

fn join_all(a: &BTreeSet<View>, b: &BTreeSet<View>) -> BTreeSet<View> {
    a.iter()
        .flat_map(|first| b.iter().map(|second| first.join(*second)))
        .collect()
}

/// "number the steps 1 to m as written, P's before R's. Number 0 is P's start
/// and m+1 is R's start."
pub struct Positions<'a> {
    steps: Vec<&'a Path>,
    /// How many of the steps are P's.
    steps_of_p: usize,
    /// `follows[i][j]` if position j follows i.
    pub follows: Vec<Vec<bool>>,
    pub last: Vec<bool>,
}

impl<'a> Positions<'a> {
    pub fn of(p: &'a Path, r: &'a Path) -> Positions<'a> {
        let steps = [p.steps(), r.steps()].concat();
        let count = steps.len() + 2;
        let mut positions = Positions {
            steps,
            steps_of_p: p.steps().len(),
            follows: vec![vec![false; count]; count],
            last: vec![false; count],
        };
        let mut next = 1;
        positions.fill(&Words::of(p, &mut next), 0);
        positions.fill(&Words::of(r, &mut next), count - 1);
        assert_eq!(next, count - 1);
        positions
    }

    /// Fills in what the words of the path with this start say.
    fn fill(&mut self, words: &Words, start: usize) {
        let steps: Vec<usize> = (1..=self.steps.len())
            .filter(|step| self.start(*step) == start)
            .collect();
        for (&i, &j) in steps.iter().flat_map(|i| steps.iter().map(move |j| (i, j))) {
            let views = words.views(i, j);
            // "Position j follows i if some word of the path, its steps told
            // apart, has j right after i; a first step follows its path's start."
            self.follows[i][j] = views.iter().any(|view| view.has_j_right_after_i);
            self.follows[start][j] = views.iter().any(|view| view.begins_with_j);
            // "A position is last if some word ends in it"
            self.last[i] = views.iter().any(|view| view.ends_in_i);
        }
        // "a start is last if the empty word belongs to its path"
        self.last[start] = words.views(start, start).contains(&View::EMPTY);
    }

    /// The number of positions, m+2.
    pub fn count(&self) -> usize {
        self.steps.len() + 2
    }

    /// The step at a position; the two starts have none.
    pub fn step(&self, position: usize) -> Option<&'a Path> {
        let index = position.checked_sub(1)?;
        self.steps.get(index).copied()
    }

    /// The start of the path that a position belongs to.
    pub fn start(&self, position: usize) -> usize {
        if position <= self.steps_of_p {
            0
        } else {
            self.count() - 1
        }
    }
}
