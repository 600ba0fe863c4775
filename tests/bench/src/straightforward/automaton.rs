//! The positions of a comparison as sets of 16 bits.

use evaluator::rule::{Path, Test};

pub struct Automaton {
    /// For each position those that follow it.
    pub follow: [u16; 16],
    pub last: u16,
    /// The positions of the first path and of the second.
    pub paths: [u16; 2],
    /// The start of the second path; that of the first is 0.
    pub second: usize,
    /// The positions of each kind of step.
    pub left: u16,
    pub right: u16,
    pub from_left: u16,
    pub from_right: u16,
    /// The positions of brackets, each with the nodes where its test holds.
    pub brackets: Vec<(u16, Vec<bool>)>,
}

/// What is known of a path: whether the empty word belongs to it, and the
/// positions that begin and that end its words.
struct Ends {
    empty: bool,
    first: u16,
    last: u16,
}

/// Where a test holds, for the brackets.
type Settle<'a> = &'a dyn Fn(&Test) -> Vec<bool>;

impl Automaton {
    pub fn of(p: &Path, r: &Path, settle: Settle) -> Automaton {
        let mut automaton = Automaton {
            follow: [0; 16],
            last: 0,
            paths: [0; 2],
            second: 0,
            left: 0,
            right: 0,
            from_left: 0,
            from_right: 0,
            brackets: Vec::new(),
        };
        let mut steps = 0;
        let ends = automaton.add(p, &mut steps, settle);
        automaton.begin(0, ends);
        let of_first = (2_u32 << steps) - 1;
        let ends = automaton.add(r, &mut steps, settle);
        automaton.second = steps + 1;
        automaton.begin(steps + 1, ends);
        let all = (4_u32 << steps) - 1;
        automaton.paths = [of_first as u16, (all - of_first) as u16];
        automaton
    }

    /// For each node the positions of brackets whose test holds there.
    pub fn stays(&self, nodes: usize) -> Vec<u16> {
        let mut stays = vec![0; nodes];
        for (position, holds) in &self.brackets {
            for (stay, holds) in stays.iter_mut().zip(holds) {
                *stay |= if *holds { *position } else { 0 };
            }
        }
        stays
    }

    fn begin(&mut self, start: usize, ends: Ends) {
        self.follow[start] = ends.first;
        self.last |= ends.last | u16::from(ends.empty) << start;
    }

    fn add(&mut self, path: &Path, steps: &mut usize, settle: Settle) -> Ends {
        match path {
            Path::Empty => Ends {
                empty: true,
                first: 0,
                last: 0,
            },
            Path::Then(a, b) => {
                let a = self.add(a, steps, settle);
                let b = self.add(b, steps, settle);
                self.join(a.last, b.first);
                Ends {
                    empty: a.empty && b.empty,
                    first: a.first | if a.empty { b.first } else { 0 },
                    last: b.last | if b.empty { a.last } else { 0 },
                }
            }
            Path::Either(a, b) => {
                let a = self.add(a, steps, settle);
                let b = self.add(b, steps, settle);
                Ends {
                    empty: a.empty || b.empty,
                    first: a.first | b.first,
                    last: a.last | b.last,
                }
            }
            Path::Repeat(inner) => {
                let inner = self.add(inner, steps, settle);
                self.join(inner.last, inner.first);
                Ends {
                    empty: true,
                    ..inner
                }
            }
            step => {
                *steps += 1;
                self.add_step(step, 1 << *steps, settle)
            }
        }
    }

    fn add_step(&mut self, step: &Path, position: u16, settle: Settle) -> Ends {
        match step {
            Path::Left => self.left |= position,
            Path::Right => self.right |= position,
            Path::FromLeft => self.from_left |= position,
            Path::FromRight => self.from_right |= position,
            Path::Stay(test) => self.brackets.push((position, settle(test))),
            _ => unreachable!("no step"),
        }
        Ends {
            empty: false,
            first: position,
            last: position,
        }
    }

    /// Every position of the second set follows every one of the first.
    fn join(&mut self, before: u16, behind: u16) {
        for position in 0..16 {
            if before >> position & 1 == 1 {
                self.follow[position] |= behind;
            }
        }
    }
}
