//! Reads a whole rule, known to follow the grammar, into a tree.

use crate::rule::{Operand, Path, Sign, Test};

/// The tree of a rule. The caller has found the bytes to be a whole rule, so
/// anything unforeseen is a mistake of this evaluator and panics. That the
/// tree spells the very bytes back is asserted.
pub fn read(rule: &[u8]) -> Test {
    let mut reader = Reader { rest: rule };
    let test = reader.test();
    assert!(reader.rest.is_empty(), "bytes left behind a whole rule");
    assert_eq!(test.spell(), rule, "the tree spells another rule");
    test
}

struct Reader<'a> {
    rest: &'a [u8],
}

impl Reader<'_> {
    fn byte(&mut self) -> u8 {
        let (first, rest) = self.rest.split_first().expect("a whole rule");
        self.rest = rest;
        *first
    }

    /// Takes bytes up to the first one for which the condition fails.
    fn take_while(&mut self, condition: impl Fn(u8) -> bool) -> Vec<u8> {
        let length = self.rest.iter().take_while(|b| condition(**b)).count();
        let (taken, rest) = self.rest.split_at(length);
        self.rest = rest;
        taken.to_vec()
    }

    fn test(&mut self) -> Test {
        match self.byte() {
            b':' => Test::Name(self.take_while(crate::document::is_name_byte)),
            b'!' => Test::Not(Box::new(self.test())),
            b'&' => Test::And(Box::new(self.test()), Box::new(self.test())),
            b'|' => Test::Or(Box::new(self.test()), Box::new(self.test())),
            b'(' => {
                let compare = Test::Compare(self.path(), self.sign(), self.operand());
                assert_eq!(self.byte(), b')');
                compare
            }
            b'#' => Test::AtLeast(self.number(), self.path()),
            other => panic!("no test begins with byte {other}"),
        }
    }

    fn path(&mut self) -> Path {
        match self.byte() {
            b'e' => Path::Empty,
            b'l' => Path::Left,
            b'r' => Path::Right,
            b'L' => Path::FromLeft,
            b'R' => Path::FromRight,
            b'[' => {
                let test = self.test();
                assert_eq!(self.byte(), b']');
                Path::Stay(Box::new(test))
            }
            b'.' => Path::Then(Box::new(self.path()), Box::new(self.path())),
            b'+' => Path::Either(Box::new(self.path()), Box::new(self.path())),
            b'*' => Path::Repeat(Box::new(self.path())),
            other => panic!("no path begins with byte {other}"),
        }
    }

    fn sign(&mut self) -> Sign {
        let spelled = self.take_while(|byte| b"!<>=".contains(&byte));
        let named = |sign: &Sign| sign.spell() == spelled;
        Sign::ALL.into_iter().find(named).expect("a sign")
    }

    /// The n of a count. That it has no leading zeros shows when the rule is
    /// spelled again.
    fn number(&mut self) -> usize {
        let digits = self.take_while(|byte| byte.is_ascii_digit());
        let text = String::from_utf8(digits).expect("ASCII");
        text.parse().expect("a number of a count")
    }

    fn operand(&mut self) -> Operand {
        if self.rest.first() != Some(&b'"') {
            return Operand::Path(self.path());
        }
        self.byte();
        let constant = self.take_while(|byte| byte != b'"');
        self.byte();
        Operand::Constant(constant)
    }
}
