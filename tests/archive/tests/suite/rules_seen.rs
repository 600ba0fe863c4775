//! What rules have in them, so that random ones are known not to be idle.

use std::collections::BTreeSet;

use evaluator::reader;
use evaluator::rule::{parts, Operand, Path, Piece, Test};

/// What 01 and 02 allow, and how much of it the rules had.
#[derive(Default)]
pub struct Seen {
    pub constructs: BTreeSet<&'static str>,
    /// Each sign with whether a constant stands behind it.
    pub signs: BTreeSet<(&'static [u8], bool)>,
    pub first_bytes: BTreeSet<u8>,
    pub name_bytes: BTreeSet<u8>,
    pub name_lengths: BTreeSet<usize>,
    pub constant_bytes: BTreeSet<u8>,
    pub constant_lengths: BTreeSet<usize>,
    pub nestings: BTreeSet<usize>,
    pub tests: BTreeSet<usize>,
    /// Of comparisons, and of counts.
    pub steps: BTreeSet<usize>,
    pub counted_steps: BTreeSet<usize>,
    /// The n of counts.
    pub numbers: BTreeSet<usize>,
    pub longest: usize,
}

impl Seen {
    pub fn add(&mut self, rule: &[u8]) {
        let test = reader::read(rule);
        let all = parts(&test);
        self.nestings.extend(all.iter().map(|part| part.nesting));
        let mut tests = 0;
        for part in &all {
            match part.piece {
                Piece::Test(test) => {
                    tests += 1;
                    self.add_test(test);
                }
                Piece::Path(path) => self.add_path(path),
            }
        }
        self.tests.insert(tests);
        self.longest = self.longest.max(rule.len());
    }

    fn add_test(&mut self, test: &Test) {
        let construct = match test {
            Test::Name(name) => {
                self.first_bytes.insert(name[0]);
                self.name_bytes.extend(&name[1..]);
                self.name_lengths.insert(name.len());
                ":name"
            }
            Test::Not(_) => "!T",
            Test::And(..) => "&TT",
            Test::Or(..) => "|TT",
            Test::Compare(path, sign, operand) => {
                let constant = matches!(operand, Operand::Constant(_));
                self.signs.insert((sign.spell(), constant));
                self.add_operand(path.steps().len(), operand)
            }
            Test::AtLeast(n, path) => {
                self.counted_steps.insert(path.steps().len());
                self.numbers.insert(*n);
                "#nP"
            }
        };
        self.constructs.insert(construct);
    }

    fn add_operand(&mut self, steps: usize, operand: &Operand) -> &'static str {
        match operand {
            Operand::Path(path) => {
                self.steps.insert(steps + path.steps().len());
                "(P o P)"
            }
            Operand::Constant(text) => {
                self.steps.insert(steps);
                self.constant_bytes.extend(text);
                self.constant_lengths.insert(text.len());
                "(P o \"c\")"
            }
        }
    }

    fn add_path(&mut self, path: &Path) {
        self.constructs.insert(match path {
            Path::Empty => "e",
            Path::Left => "l",
            Path::Right => "r",
            Path::FromLeft => "L",
            Path::FromRight => "R",
            Path::Stay(_) => "[T]",
            Path::Then(..) => ".PP",
            Path::Either(..) => "+PP",
            Path::Repeat(inner) => match **inner {
                Path::Repeat(_) => "**P",
                Path::Empty => "*e",
                Path::Then(..) => "*.PP",
                Path::Either(..) => "*+PP",
                Path::Stay(_) => "*[T]",
                _ => "*P",
            },
        });
    }
}
