//! Reads an accepted rule into its parts.
//!
//! The check has been made, so nothing is judged here: each byte is taken for
//! what it must be. A part inside another is read by a call inside a call, and
//! the check allows 32 of them.

use yurzhoad::Rule;

/// A part of a rule: one of its tests or paths.
#[derive(Debug, PartialEq, Eq)]
pub struct Part<'a> {
    /// Where its first byte stands in the rule, from 0.
    pub offset: usize,
    /// The whole rule has nesting 1, and a part directly inside another has
    /// one more.
    pub nesting: usize,
    pub role: Role,
    pub form: Form<'a>,
}

/// What a part is to the comparison or the count that it stands directly inside.
#[derive(Clone, Copy, Debug, PartialEq, Eq)]
pub enum Role {
    FirstPath,
    SecondPath,
    /// The path that is compared with a constant, or whose nodes are counted.
    OnlyPath,
    /// It stands in no comparison or count, or not directly.
    None,
}

/// What a part is made of, beside the parts inside it.
#[derive(Debug, PartialEq, Eq)]
pub enum Form<'a> {
    /// `:name`
    Name(&'a str),
    /// `!T`
    Not,
    /// `&TU`
    And,
    /// `|TU`
    Or,
    /// `(PoR)` or `(Po"c")`
    Comparison {
        sign: &'a str,
        /// `None` if there is a second path.
        constant: Option<&'a str>,
        /// The steps of its paths together.
        steps: usize,
    },
    /// `#nP`
    Count {
        /// The n, as it is written.
        nodes: &'a str,
        /// The steps of its path.
        steps: usize,
    },
    /// `e`
    Empty,
    /// `l`
    Left,
    /// `r`
    Right,
    /// `L`
    FromLeft,
    /// `R`
    FromRight,
    /// `[T]`
    Stay,
    /// `.PQ`
    Sequence,
    /// `+PQ`
    Union,
    /// `*P`
    Star,
}

impl Form<'_> {
    /// Whether the part is a test; the others are paths.
    pub fn is_test(&self) -> bool {
        matches!(
            self,
            Form::Name(_)
                | Form::Not
                | Form::And
                | Form::Or
                | Form::Comparison { .. }
                | Form::Count { .. }
        )
    }

    /// The steps, of a comparison or a count; those of other parts have no limit.
    pub fn steps(&self) -> Option<usize> {
        match self {
            Form::Comparison { steps, .. } | Form::Count { steps, .. } => Some(*steps),
            _ => None,
        }
    }
}

/// The parts of a rule in the order of their first bytes: each before those
/// inside it.
pub fn parts<'a>(rule: &Rule<'a>) -> Vec<Part<'a>> {
    let mut reader = Reader {
        text: rule.as_str(),
        at: 0,
        parts: Vec::new(),
    };
    reader.test(1);
    assert_eq!(reader.at, reader.text.len(), "an accepted rule is one test");
    reader.parts
}

struct Reader<'a> {
    text: &'a str,
    /// The offset of the next byte.
    at: usize,
    /// What was read so far.
    parts: Vec<Part<'a>>,
}

impl<'a> Reader<'a> {
    /// Reads a test and all inside it.
    fn test(&mut self, nesting: usize) {
        let offset = self.at;
        match self.byte() {
            b':' => {
                let name = self.take_while(is_name_byte);
                self.add(offset, nesting, Role::None, Form::Name(name));
            }
            b'!' => {
                self.add(offset, nesting, Role::None, Form::Not);
                self.test(nesting + 1);
            }
            sign @ (b'&' | b'|') => {
                let form = if sign == b'&' { Form::And } else { Form::Or };
                self.add(offset, nesting, Role::None, form);
                self.test(nesting + 1);
                self.test(nesting + 1);
            }
            b'#' => self.count(offset, nesting),
            _ => self.comparison(offset, nesting),
        }
    }

    /// Reads a count from behind its `#`. The steps are known behind its path.
    fn count(&mut self, offset: usize, nesting: usize) {
        let own = self.parts.len();
        let nodes = self.take_while(|byte| byte.is_ascii_digit());
        let count = |steps| Form::Count { nodes, steps };
        self.add(offset, nesting, Role::None, count(0));
        let steps = self.path(nesting + 1, Role::OnlyPath);
        self.parts[own].form = count(steps);
    }

    /// Reads a comparison from behind its opening bracket. Its sign stands
    /// behind its first path, and the steps are known behind its last.
    fn comparison(&mut self, offset: usize, nesting: usize) {
        let own = self.parts.len();
        let unread = Form::Comparison {
            sign: "",
            constant: None,
            steps: 0,
        };
        self.add(offset, nesting, Role::None, unread);
        let first = self.path(nesting + 1, Role::FirstPath);
        let sign = self.take_while(|byte| b"!<>=".contains(&byte));
        let (constant, second) = match self.text.as_bytes()[self.at] {
            b'"' => {
                self.parts[own + 1].role = Role::OnlyPath;
                (Some(self.constant()), 0)
            }
            _ => (None, self.path(nesting + 1, Role::SecondPath)),
        };
        // The closing bracket.
        self.byte();
        self.parts[own].form = Form::Comparison {
            sign,
            constant,
            steps: first + second,
        };
    }

    /// Reads a constant with its quotes, and returns what is between them.
    fn constant(&mut self) -> &'a str {
        self.byte();
        let constant = self.take_while(|byte| byte != b'"');
        self.byte();
        constant
    }

    /// Reads a path and all inside it, and returns the number of its steps. A
    /// bracket is one step: what is inside it has steps of its own.
    fn path(&mut self, nesting: usize, role: Role) -> usize {
        let offset = self.at;
        let byte = self.byte();
        self.add(offset, nesting, role, path_form(byte));
        let inner = |reader: &mut Self| reader.path(nesting + 1, Role::None);
        match byte {
            b'e' => 0,
            b'[' => {
                self.test(nesting + 1);
                // The closing bracket.
                self.byte();
                1
            }
            b'.' | b'+' => inner(self) + inner(self),
            b'*' => inner(self),
            _ => 1,
        }
    }

    fn add(&mut self, offset: usize, nesting: usize, role: Role, form: Form<'a>) {
        self.parts.push(Part {
            offset,
            nesting,
            role,
            form,
        });
    }

    fn byte(&mut self) -> u8 {
        let byte = self.text.as_bytes()[self.at];
        self.at += 1;
        byte
    }

    /// Takes bytes up to the first one for which the condition fails.
    fn take_while(&mut self, condition: impl Fn(u8) -> bool) -> &'a str {
        let rest = &self.text[self.at..];
        let length = rest.bytes().take_while(|byte| condition(*byte)).count();
        self.at += length;
        &rest[..length]
    }
}

fn is_name_byte(byte: u8) -> bool {
    byte.is_ascii_lowercase() || byte.is_ascii_digit() || byte == b'-'
}

/// What the path is that begins with this byte.
fn path_form(byte: u8) -> Form<'static> {
    match byte {
        b'e' => Form::Empty,
        b'l' => Form::Left,
        b'r' => Form::Right,
        b'L' => Form::FromLeft,
        b'R' => Form::FromRight,
        b'[' => Form::Stay,
        b'.' => Form::Sequence,
        b'+' => Form::Union,
        b'*' => Form::Star,
        _ => unreachable!("no accepted rule has another byte here"),
    }
}
