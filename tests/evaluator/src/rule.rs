//! Rules as trees of tests and paths, their spelling, and their parts.

#[derive(Clone, Debug, PartialEq, Eq)]
pub enum Test {
    /// `:name`
    Name(Vec<u8>),
    /// `!T`
    Not(Box<Test>),
    /// `&TT`
    And(Box<Test>, Box<Test>),
    /// `|TT`
    Or(Box<Test>, Box<Test>),
    /// `(P o P)` or `(P o "c")`, written without blanks
    Compare(Path, Sign, Operand),
    /// `#nP`
    AtLeast(usize, Path),
}

#[derive(Clone, Copy, Debug, PartialEq, Eq)]
pub enum Sign {
    Equal,
    Unequal,
    Less,
    LessOrEqual,
    Greater,
    GreaterOrEqual,
}

#[derive(Clone, Debug, PartialEq, Eq)]
pub enum Operand {
    Path(Path),
    Constant(Vec<u8>),
}

#[derive(Clone, Debug, PartialEq, Eq)]
pub enum Path {
    /// `e`
    Empty,
    /// `l`
    Left,
    /// `r`
    Right,
    /// `L`
    FromLeft,
    /// `R`
    FromRight,
    /// `[T]`
    Stay(Box<Test>),
    /// `.PP`
    Then(Box<Path>, Box<Path>),
    /// `+PP`
    Either(Box<Path>, Box<Path>),
    /// `*P`
    Repeat(Box<Path>),
}

impl Sign {
    pub const ALL: [Sign; 6] = [
        Sign::Equal,
        Sign::Unequal,
        Sign::Less,
        Sign::LessOrEqual,
        Sign::Greater,
        Sign::GreaterOrEqual,
    ];

    pub fn spell(self) -> &'static [u8] {
        match self {
            Sign::Equal => b"=",
            Sign::Unequal => b"!=",
            Sign::Less => b"<",
            Sign::LessOrEqual => b"<=",
            Sign::Greater => b">",
            Sign::GreaterOrEqual => b">=",
        }
    }
}

impl Test {
    /// The n and the path of a count.
    pub fn counted(&self) -> Option<(usize, &Path)> {
        match self {
            Test::AtLeast(n, path) => Some((*n, path)),
            _ => None,
        }
    }

    pub fn spell(&self) -> Vec<u8> {
        let mut bytes = Vec::new();
        self.write(&mut bytes);
        bytes
    }

    fn write(&self, bytes: &mut Vec<u8>) {
        match self {
            Test::Name(name) => {
                bytes.push(b':');
                bytes.extend(name);
            }
            Test::Not(inner) => {
                bytes.push(b'!');
                inner.write(bytes);
            }
            Test::And(a, b) | Test::Or(a, b) => {
                let and = matches!(self, Test::And(..));
                bytes.push(if and { b'&' } else { b'|' });
                a.write(bytes);
                b.write(bytes);
            }
            Test::Compare(path, sign, operand) => {
                bytes.push(b'(');
                path.write(bytes);
                bytes.extend(sign.spell());
                operand.write(bytes);
                bytes.push(b')');
            }
            Test::AtLeast(nodes, path) => {
                bytes.push(b'#');
                bytes.extend(nodes.to_string().bytes());
                path.write(bytes);
            }
        }
    }
}

impl Operand {
    fn write(&self, bytes: &mut Vec<u8>) {
        match self {
            Operand::Path(path) => path.write(bytes),
            Operand::Constant(text) => {
                bytes.push(b'"');
                bytes.extend(text);
                bytes.push(b'"');
            }
        }
    }
}

impl Path {
    pub fn spell(&self) -> Vec<u8> {
        let mut bytes = Vec::new();
        self.write(&mut bytes);
        bytes
    }

    fn write(&self, bytes: &mut Vec<u8>) {
        bytes.push(match self {
            Path::Empty => b'e',
            Path::Left => b'l',
            Path::Right => b'r',
            Path::FromLeft => b'L',
            Path::FromRight => b'R',
            Path::Stay(_) => b'[',
            Path::Then(..) => b'.',
            Path::Either(..) => b'+',
            Path::Repeat(_) => b'*',
        });
        match self {
            Path::Stay(test) => {
                test.write(bytes);
                bytes.push(b']');
            }
            Path::Then(a, b) | Path::Either(a, b) => {
                a.write(bytes);
                b.write(bytes);
            }
            Path::Repeat(inner) => inner.write(bytes),
            _ => {}
        }
    }

    /// The steps as written: "A step is an `l`, `r`, `L`, `R` or bracketed
    /// test, counted once; what is inside a bracket is not counted again."
    pub fn steps(&self) -> Vec<&Path> {
        match self {
            Path::Empty => Vec::new(),
            Path::Left | Path::Right | Path::FromLeft | Path::FromRight | Path::Stay(_) => {
                vec![self]
            }
            Path::Then(a, b) | Path::Either(a, b) => [a.steps(), b.steps()].concat(),
            Path::Repeat(inner) => inner.steps(),
        }
    }
}

/// A test or a path inside a rule; "A constant is no part.", and the n of a
/// count is none either.
#[derive(Clone, Copy)]
pub enum Piece<'a> {
    Test(&'a Test),
    Path(&'a Path),
}

/// One part of a rule: the offset of its first byte, and "The whole rule has
/// nesting 1, a part directly inside another has one more".
pub struct Part<'a> {
    pub piece: Piece<'a>,
    pub offset: usize,
    pub nesting: usize,
}

/// All parts of a rule, in the order of their first bytes. No two parts begin
/// at one byte, for every part that holds others has a byte of its own first.
pub fn parts(rule: &Test) -> Vec<Part<'_>> {
    let mut found = Vec::new();
    collect(Piece::Test(rule), 0, 1, &mut found);
    found
}

/// Collects a piece and all inside it, and returns the offset behind it.
fn collect<'a>(
    piece: Piece<'a>,
    offset: usize,
    nesting: usize,
    found: &mut Vec<Part<'a>>,
) -> usize {
    found.push(Part {
        piece,
        offset,
        nesting,
    });
    let mut inner = offset + 1;
    for (child, before) in piece.children() {
        inner = collect(child, inner + before, nesting + 1, found);
    }
    inner + piece.bytes_behind()
}

impl<'a> Piece<'a> {
    pub fn is_test(self) -> bool {
        self.test().is_some()
    }

    /// The test that it is, if it is one.
    pub fn test(self) -> Option<&'a Test> {
        match self {
            Piece::Test(test) => Some(test),
            Piece::Path(_) => None,
        }
    }

    pub fn spell(self) -> Vec<u8> {
        match self {
            Piece::Test(test) => test.spell(),
            Piece::Path(path) => path.spell(),
        }
    }

    /// The number of this piece's own bytes behind the parts inside it, or
    /// behind its first byte if there are none.
    fn bytes_behind(self) -> usize {
        match self {
            Piece::Test(Test::Name(name)) => name.len(),
            Piece::Test(Test::Compare(_, sign, Operand::Constant(text))) => {
                sign.spell().len() + text.len() + "\"\")".len()
            }
            Piece::Test(Test::Compare(..)) => ")".len(),
            Piece::Path(Path::Stay(_)) => "]".len(),
            _ => 0,
        }
    }

    /// The parts directly inside, each with the number of this piece's own
    /// bytes that stand before it, the first byte not counted.
    fn children(self) -> Vec<(Piece<'a>, usize)> {
        match self {
            Piece::Test(Test::Name(_)) => Vec::new(),
            Piece::Test(Test::Not(a)) => vec![(Piece::Test(a), 0)],
            Piece::Test(Test::And(a, b) | Test::Or(a, b)) => {
                vec![(Piece::Test(a), 0), (Piece::Test(b), 0)]
            }
            Piece::Test(Test::Compare(a, sign, Operand::Path(b))) => {
                vec![(Piece::Path(a), 0), (Piece::Path(b), sign.spell().len())]
            }
            Piece::Test(Test::Compare(a, _, Operand::Constant(_))) => vec![(Piece::Path(a), 0)],
            Piece::Test(Test::AtLeast(nodes, a)) => {
                vec![(Piece::Path(a), nodes.to_string().len())]
            }
            Piece::Path(Path::Stay(test)) => vec![(Piece::Test(test), 0)],
            Piece::Path(Path::Then(a, b) | Path::Either(a, b)) => {
                vec![(Piece::Path(a), 0), (Piece::Path(b), 0)]
            }
            Piece::Path(Path::Repeat(a)) => vec![(Piece::Path(a), 0)],
            Piece::Path(_) => Vec::new(),
        }
    }
}

/// The equalities between two paths, each place in the rule counted, those
/// inside brackets among them, also in the path of a count.
pub fn equalities(rule: &Test) -> Vec<(&Path, &Path)> {
    parts(rule)
        .iter()
        .filter_map(|part| match part.piece {
            Piece::Test(Test::Compare(p, Sign::Equal, Operand::Path(r))) => Some((p, r)),
            _ => None,
        })
        .collect()
}

/// The tests `#nP` of a rule, those inside brackets among them.
pub fn counts(rule: &Test) -> Vec<&Test> {
    parts(rule)
        .iter()
        .filter_map(|part| part.piece.test())
        .filter(|test| test.counted().is_some())
        .collect()
}
