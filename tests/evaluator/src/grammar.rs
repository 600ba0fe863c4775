//! The grammar of rules, and which byte strings begin some rule.
//!
//! A prefix is followed by keeping every stack of grammar symbols that may
//! still be due behind it. All alternatives are kept, so no look-ahead and no
//! choice of a parser comes in. Every symbol can be completed to some bytes,
//! so a prefix begins some rule exactly if some stack is left.

use std::collections::BTreeSet;
use std::sync::LazyLock;

use crate::document::{is_name_byte, LABEL_LIMIT};

/// "c is 0 to 32 bytes from 0x20 to 0x7E without the double quote"
pub const CONSTANT_LIMIT: usize = 32;
/// "n from 0 to 4,096 in base ten without leading zeros" (02, h)
pub const COUNT_LIMIT: usize = 4_096;

/// All that begins the n of some count: the numbers written out, cut anywhere.
static NUMBER_BEGINS: LazyLock<BTreeSet<String>> = LazyLock::new(|| {
    let numbers = (0..=COUNT_LIMIT).map(|number| number.to_string());
    let begins = |text: String| (0..=text.len()).map(move |end| text[..end].to_string());
    numbers.flat_map(begins).collect()
});

#[derive(Clone, Copy, Debug, PartialEq, Eq, PartialOrd, Ord)]
enum Symbol {
    Byte(u8),
    /// The first byte of a name.
    Letter,
    NameByte,
    ConstantByte,
    Test,
    Path,
    Sign,
    Operand,
    /// At most so many further bytes of a name.
    NameRest(usize),
    /// At most so many further bytes of a constant.
    ConstantRest(usize),
    /// The n of a count.
    Number,
    /// What may come of it behind the digits of this number.
    NumberRest(usize),
}

/// What may still be due; the last symbol comes first.
type Stack = Vec<Symbol>;

/// The grammar: what each symbol that stands for more than one byte may become.
fn alternatives(symbol: Symbol) -> Vec<Vec<Symbol>> {
    use Symbol::*;
    let bytes = |text: &str| -> Vec<Symbol> { text.bytes().map(Byte).collect() };
    match symbol {
        // T: `:name`, `!T`, `&TT`, `|TT`, `(P o P)` or `(P o "c")`; `#nP` (02, h)
        Test => vec![
            vec![Byte(b':'), Letter, NameRest(LABEL_LIMIT - 1)],
            vec![Byte(b'!'), Test],
            vec![Byte(b'&'), Test, Test],
            vec![Byte(b'|'), Test, Test],
            vec![Byte(b'('), Path, Sign, Operand, Byte(b')')],
            vec![Byte(b'#'), Number, Path],
        ],
        // P: `e`, `l`, `r`, `L`, `R`, `[T]`, `.PP`, `+PP`, `*P`
        Path => vec![
            bytes("e"),
            bytes("l"),
            bytes("r"),
            bytes("L"),
            bytes("R"),
            vec![Byte(b'['), Test, Byte(b']')],
            vec![Byte(b'.'), Path, Path],
            vec![Byte(b'+'), Path, Path],
            vec![Byte(b'*'), Path],
        ],
        Sign => ["=", "!=", "<", "<=", ">", ">="].map(bytes).to_vec(),
        Operand => vec![
            vec![Path],
            vec![Byte(b'"'), ConstantRest(CONSTANT_LIMIT), Byte(b'"')],
        ],
        NameRest(0) | ConstantRest(0) => vec![vec![]],
        NameRest(most) => vec![vec![], vec![NameByte, NameRest(most - 1)]],
        ConstantRest(most) => vec![vec![], vec![ConstantByte, ConstantRest(most - 1)]],
        Number => digits_behind(""),
        // Each number that begins another one is a number itself.
        NumberRest(number) => {
            let longer = digits_behind(&number.to_string());
            [vec![vec![]], longer].concat()
        }
        Byte(_) | Letter | NameByte | ConstantByte => unreachable!("a terminal symbol"),
    }
}

/// The digits with which the n of a count goes on behind these ones.
fn digits_behind(digits: &str) -> Vec<Vec<Symbol>> {
    let longer = (0..10).map(|digit| format!("{digits}{digit}"));
    longer
        .filter(|text| NUMBER_BEGINS.contains(text))
        .map(|text| {
            let number = text.parse().expect("few digits");
            vec![
                Symbol::Byte(text.as_bytes()[digits.len()]),
                Symbol::NumberRest(number),
            ]
        })
        .collect()
}

/// Whether the symbol stands for single bytes.
fn is_terminal(symbol: Symbol) -> bool {
    use Symbol::*;
    matches!(symbol, Byte(_) | Letter | NameByte | ConstantByte)
}

fn matches_byte(symbol: Symbol, byte: u8) -> bool {
    match symbol {
        Symbol::Byte(due) => byte == due,
        Symbol::Letter => byte.is_ascii_lowercase(),
        Symbol::NameByte => is_name_byte(byte),
        Symbol::ConstantByte => (0x20..=0x7E).contains(&byte) && byte != b'"',
        _ => false,
    }
}

/// Everything that may be due behind one prefix.
pub struct Due(BTreeSet<Stack>);

impl Due {
    /// Before the first byte a test is due: "A rule is a test T".
    fn at_start() -> Due {
        Due(BTreeSet::from([vec![Symbol::Test]]))
    }

    /// What is due after one more byte; no stack is left if it does not fit.
    fn after(&self, byte: u8) -> Due {
        let fitting = self.replaced(|symbol| matches_byte(symbol, byte));
        let rests = fitting.0.iter().filter_map(|stack| stack.split_last());
        Due(rests.map(|(_, rest)| rest.to_vec()).collect())
    }

    /// The stacks with their first symbols replaced by all their alternatives,
    /// until each is empty (the prefix is a rule) or has a terminal symbol due
    /// first; of these only the wanted ones.
    fn replaced(&self, wanted: impl Fn(Symbol) -> bool) -> Due {
        let mut due = Due(BTreeSet::new());
        for stack in &self.0 {
            due.add(stack.clone(), &wanted);
        }
        due
    }

    fn add(&mut self, mut stack: Stack, wanted: &impl Fn(Symbol) -> bool) {
        let unwanted = |symbol: &Symbol| is_terminal(*symbol) && !wanted(*symbol);
        match stack.last() {
            Some(symbol) if unwanted(symbol) => {}
            Some(symbol) if !is_terminal(*symbol) => {
                let mut choices = alternatives(*symbol);
                // Most are unwanted, and need no copy of the stack.
                choices.retain(|choice| !choice.first().is_some_and(unwanted));
                stack.pop();
                for choice in choices {
                    let mut next = stack.clone();
                    next.extend(choice.iter().rev());
                    self.add(next, wanted);
                }
            }
            _ => {
                self.0.insert(stack);
            }
        }
    }

    /// Whether the prefix is a whole rule.
    pub fn is_whole(&self) -> bool {
        self.0.contains(&Vec::new())
    }

    /// For every stack due, two ways to complete the prefix to a rule.
    pub fn completions(&self) -> Vec<Vec<u8>> {
        let complete = |stack: &Stack, long: bool| -> Vec<u8> {
            let bytes = stack.iter().rev().map(|symbol| filling(*symbol, long));
            bytes.collect::<Vec<_>>().concat()
        };
        let both = |stack| [complete(stack, false), complete(stack, true)];
        self.0.iter().flat_map(both).collect()
    }
}

/// Some bytes that a symbol stands for, in a short and in a long choice.
fn filling(symbol: Symbol, long: bool) -> Vec<u8> {
    use Symbol::*;
    let text = match (symbol, long) {
        (Byte(byte), _) => return vec![byte],
        (NameRest(0) | ConstantRest(0), _) | (NameRest(_) | ConstantRest(_), false) => "",
        (NumberRest(_), _) => "",
        (NameRest(_) | ConstantRest(_), true) => "z",
        (Letter, false) => "a",
        (Letter, true) => "z",
        (NameByte, false) => "a",
        (NameByte, true) => "-",
        (ConstantByte, false) => " ",
        (ConstantByte, true) => "~",
        (Test, false) => ":a",
        (Test, true) => "!(*l<=\"x\")",
        (Path, false) => "e",
        (Path, true) => ".l[:b]",
        (Sign, false) => "=",
        (Sign, true) => ">=",
        (Operand, false) => "e",
        (Operand, true) => "\"c\"",
        (Number, false) => "0",
        (Number, true) => "4096",
    };
    text.as_bytes().to_vec()
}

/// The length of the longest prefix that begins some rule, and what is due
/// behind it. Every prefix of such a prefix begins the same rule, so the first
/// byte that leaves no stack ends the search.
pub fn longest_prefix(rule: &[u8]) -> (usize, Due) {
    let mut due = Due::at_start();
    for (length, byte) in rule.iter().enumerate() {
        let next = due.after(*byte);
        if next.0.is_empty() {
            return (length, due.replaced(|_| true));
        }
        due = next;
    }
    (rule.len(), due.replaced(|_| true))
}
