//! Random legal rules of all constructs, and rules beyond the limits.

use super::library::any_label;
use super::{nearly_numeral, numeral_or_nearly, padded, printable, printable_of, shared_value};
use super::{Random, NAMES};
use crate::amount::amount;
use crate::document::LABEL_LIMIT;
use crate::grammar::{CONSTANT_LIMIT, COUNT_LIMIT};
use crate::rule::{parts, Operand, Path, Sign, Test};
use crate::rule_check::{BYTE_LIMIT, NESTING_LIMIT, STEP_LIMIT, TEST_LIMIT};
use crate::tree::trimmed;

/// A legal rule with at most about so many parts, its names and constants
/// such as libraries have.
pub fn rule(random: &mut Random, size: usize) -> Test {
    draw_legal(|| Drawing::new(random, Words::Shared, size).test(1))
}

/// A legal rule about a library that has these values: every sign occurs, up to
/// the most steps, and the constants are values of the library, or nearly.
pub fn rule_about(random: &mut Random, size: usize, values: &[Vec<u8>]) -> Test {
    draw_legal(|| draw_joined(random, Words::About(values), size, 1, STEP_LIMIT))
}

/// A legal equality between two paths that both wander: each follows some of
/// the steps, often up and down, as long as it likes, and mostly stops where a
/// test holds. So their positions come to many nodes. The tests have about so
/// many parts together.
pub fn wandering_rule(random: &mut Random, size: usize, values: &[Vec<u8>]) -> Test {
    draw_legal(|| {
        let mut drawing = Drawing::new(random, Words::About(values), size);
        let mut steps = STEP_LIMIT;
        let first = drawing.wandering_path(2, &mut steps);
        let second = drawing.wandering_path(2, &mut steps);
        Test::Compare(first, Sign::Equal, Operand::Path(second))
    })
}

/// A legal equality between two paths of any kind, about a library that has
/// these values, with at most about so many parts.
pub fn equality(random: &mut Random, size: usize, values: &[Vec<u8>]) -> Test {
    draw_legal(|| {
        let mut drawing = Drawing::new(random, Words::About(values), size);
        let mut steps = STEP_LIMIT;
        let first = match drawing.is_long(1) {
            true => drawing.long_path(2, steps, &mut steps),
            false => drawing.path(2, &mut steps),
        };
        let second = drawing.path(2, &mut steps);
        Test::Compare(first, Sign::Equal, Operand::Path(second))
    })
}

/// A legal rule for the rule check alone: any names and constants up to the
/// longest, every sign as often as the others, and up to the most steps.
pub fn any_rule(random: &mut Random, size: usize) -> Test {
    draw_legal(|| draw_joined(random, Words::Any, size, 1, STEP_LIMIT))
}

/// The same, but it may have too many tests, too many bytes, and comparisons
/// and counts of too many steps. It reads, and its nesting is legal.
pub fn large_rule(random: &mut Random, size: usize) -> Test {
    draw_joined(random, Words::Any, size, 1, STEP_LIMIT + 4)
}

/// Draws until the limits are kept that the drawing itself does not keep. The
/// rule check is not asked, so that it can be tried with what is drawn.
fn draw_legal(mut draw: impl FnMut() -> Test) -> Test {
    loop {
        let rule = draw();
        let all = parts(&rule);
        let tests = all.iter().filter(|part| part.piece.is_test()).count();
        if tests <= TEST_LIMIT && rule.spell().len() <= BYTE_LIMIT {
            return rule;
        }
    }
}

/// A drawing seldom has many parts, since it closes by chance; so the larger
/// rules are several drawings joined two and two.
fn draw_joined(
    random: &mut Random,
    words: Words,
    size: usize,
    nesting: usize,
    most_steps: usize,
) -> Test {
    const ONE_DRAWING: usize = 30;
    if size > ONE_DRAWING && nesting < NESTING_LIMIT / 2 {
        let part = random.below(size);
        let mut draw = |size| Box::new(draw_joined(random, words, size, nesting + 1, most_steps));
        let (first, second) = (draw(part), draw(size - part));
        return match random.percent(50) {
            true => Test::And(first, second),
            false => Test::Or(first, second),
        };
    }
    let mut drawing = Drawing::new(random, words, size);
    drawing.most_steps = most_steps;
    drawing.test(nesting)
}

/// What names, constants and signs are drawn for.
#[derive(Clone, Copy)]
enum Words<'a> {
    /// Names and constants such as libraries have. Most comparisons are
    /// equalities, since those carry the snippets.
    Shared,
    /// The rule check alone: all that a rule may have.
    Any,
    /// Names such as libraries have and these values, or nearly.
    About(&'a [Vec<u8>]),
}

impl Words<'_> {
    /// Of a hundred comparisons so many are surely equalities.
    fn equalities(self) -> usize {
        match self {
            Words::Shared => 65,
            Words::Any => 0,
            Words::About(_) => 30,
        }
    }

    /// Of a hundred comparisons and counts so many begin with a path of many
    /// steps.
    fn long_paths(self) -> usize {
        match self {
            Words::Shared => 0,
            Words::Any => 5,
            Words::About(_) => 10,
        }
    }
}

/// A rule being drawn, with the number of parts still to be spent.
struct Drawing<'a> {
    random: &'a mut Random,
    words: Words<'a>,
    left: usize,
    most_steps: usize,
}

impl<'a> Drawing<'a> {
    fn new(random: &'a mut Random, words: Words<'a>, size: usize) -> Drawing<'a> {
        Drawing {
            random,
            words,
            left: size,
            most_steps: STEP_LIMIT,
        }
    }

    /// Whether a part at this nesting must have no further parts inside.
    fn must_close(&mut self, nesting: usize) -> bool {
        self.left = self.left.saturating_sub(1);
        self.left == 0 || nesting + 2 > NESTING_LIMIT
    }

    fn test(&mut self, nesting: usize) -> Test {
        if self.must_close(nesting) {
            return self.name();
        }
        match self.random.below(20) {
            0 => self.name(),
            1 | 2 => Test::Not(Box::new(self.test(nesting + 1))),
            3 => Test::And(
                Box::new(self.test(nesting + 1)),
                Box::new(self.test(nesting + 1)),
            ),
            4 => Test::Or(
                Box::new(self.test(nesting + 1)),
                Box::new(self.test(nesting + 1)),
            ),
            5..=8 => self.count(nesting),
            _ => self.comparison(nesting),
        }
    }

    fn name(&mut self) -> Test {
        if let Words::Any = self.words {
            return Test::Name(any_label(self.random));
        }
        let name = self.random.pick(&NAMES).as_bytes().to_vec();
        Test::Name(match self.words {
            Words::About(_) if self.random.percent(5) => nearly_label(self.random, name),
            _ => name,
        })
    }

    fn comparison(&mut self, nesting: usize) -> Test {
        let mut steps = self.most_steps;
        let sign = match self.seldom(self.words.equalities()) {
            true => Sign::Equal,
            false => *self.random.pick(&Sign::ALL),
        };
        let first = match self.is_long(nesting) {
            true => self.long_path(nesting + 1, steps, &mut steps),
            false => self.compared_path(sign, nesting + 1, &mut steps),
        };
        let operand = match self.random.below(5) {
            0 => Operand::Constant(self.constant(sign)),
            _ => Operand::Path(self.compared_path(sign, nesting + 1, &mut steps)),
        };
        Test::Compare(first, sign, operand)
    }

    /// Whether a path directly inside a test at this nesting gets many steps.
    fn is_long(&mut self, nesting: usize) -> bool {
        nesting < NESTING_LIMIT / 2 && self.seldom(self.words.long_paths())
    }

    /// Before an order sign and behind it often one that leads to many nodes, so
    /// that there is a numeral among them.
    fn compared_path(&mut self, sign: Sign, nesting: usize, steps: &mut usize) -> Path {
        let room = *steps >= 2 && nesting + 2 <= NESTING_LIMIT;
        match is_order(sign) && room && self.random.percent(60) {
            true => self.spreading_path(steps),
            false => self.path(nesting, steps),
        }
    }

    /// Two plain steps, either of them again and again.
    fn spreading_path(&mut self, steps: &mut usize) -> Path {
        let [first, second] = [0, 1].map(|_| Box::new(self.plain_step(steps)));
        Path::Repeat(Box::new(Path::Either(first, second)))
    }

    fn count(&mut self, nesting: usize) -> Test {
        let mut steps = self.most_steps;
        let path = match self.is_long(nesting) {
            true => self.long_path(nesting + 1, steps, &mut steps),
            false => self.counted_path(nesting + 1, &mut steps),
        };
        Test::AtLeast(self.number(), path)
    }

    /// Often one that leads to many nodes, so that it matters how many.
    fn counted_path(&mut self, nesting: usize, steps: &mut usize) -> Path {
        let room = nesting + 5 <= NESTING_LIMIT;
        match self.random.below(4) {
            0 if room => self.spreading_path(steps),
            1 if room => self.wandering_path(nesting, steps),
            _ => self.path(nesting, steps),
        }
    }

    /// Mostly a small one, so that as many nodes are reached from some nodes and
    /// not from others; sometimes as many as the library has, one more, or the
    /// most.
    fn number(&mut self) -> usize {
        let nodes = match self.words {
            Words::Any => return any_number(self.random),
            Words::Shared => 1 + self.random.below(12),
            Words::About(values) => values.len(),
        };
        let number = match self.random.below(20) {
            0 => 0,
            1..=5 => 1,
            6..=11 => 2,
            12..=14 => 3,
            15 | 16 => 4 + self.random.below(5),
            17 => nodes,
            18 => nodes + 1,
            _ => COUNT_LIMIT,
        };
        number.min(COUNT_LIMIT)
    }

    /// True in so many cases of a hundred. Nothing is drawn if it never is, so
    /// that a seed's rules depend only on what may happen.
    fn seldom(&mut self, cases: usize) -> bool {
        cases > 0 && self.random.percent(cases)
    }

    /// One in three is padded. Behind an order sign most are numerals.
    fn constant(&mut self, sign: Sign) -> Vec<u8> {
        let mut text = self.bare_constant();
        for _ in 0..3 {
            if is_order(sign) && amount(trimmed(&text)).is_none() {
                text = self.bare_constant();
            }
        }
        match self.random.percent(33) {
            true => padded(self.random, &text, CONSTANT_LIMIT),
            false => text,
        }
    }

    fn bare_constant(&mut self) -> Vec<u8> {
        match self.words {
            Words::Any => return any_constant(self.random),
            Words::About(values) if self.random.percent(85) => {
                let value = self.random.pick(values).clone();
                return nearly_value(self.random, value);
            }
            _ => {}
        }
        match self.random.below(100) {
            0..=69 => shared_value(self.random, 50),
            70..=84 => numeral_or_nearly(self.random),
            _ => {
                let mut text = printable(self.random, CONSTANT_LIMIT);
                text.retain(|byte| *byte != b'"');
                text
            }
        }
    }

    /// So many paths joined two and two, to come near the most steps.
    fn long_path(&mut self, nesting: usize, count: usize, steps: &mut usize) -> Path {
        if count == 1 {
            return self.path(nesting, steps);
        }
        let half = count / 2;
        let first = Box::new(self.long_path(nesting + 1, half, steps));
        let second = Box::new(self.long_path(nesting + 1, count - half, steps));
        match self.random.percent(50) {
            true => Path::Then(first, second),
            false => Path::Either(first, second),
        }
    }

    /// A path that takes no more steps than are left.
    fn path(&mut self, nesting: usize, steps: &mut usize) -> Path {
        if *steps == 0 {
            return Path::Empty;
        }
        if self.must_close(nesting) {
            return self.plain_step(steps);
        }
        let inner = nesting + 1;
        match self.random.below(14) {
            0 => Path::Empty,
            1..=3 => self.plain_step(steps),
            4 | 5 => {
                *steps -= 1;
                Path::Stay(Box::new(self.test(inner)))
            }
            6..=8 => Path::Then(
                Box::new(self.path(inner, steps)),
                Box::new(self.path(inner, steps)),
            ),
            9 | 10 => Path::Either(
                Box::new(self.path(inner, steps)),
                Box::new(self.path(inner, steps)),
            ),
            _ => Path::Repeat(Box::new(self.path(inner, steps))),
        }
    }

    /// `.*P` with a choice of plain steps, then a bracket or little else. It
    /// takes five steps at most.
    fn wandering_path(&mut self, nesting: usize, steps: &mut usize) -> Path {
        let mut choice = self.plain_step(steps);
        for _ in 0..=self.random.below(3) {
            choice = Path::Either(Box::new(choice), Box::new(self.plain_step(steps)));
        }
        let end = match self.random.below(6) {
            0 => Path::Empty,
            1 => self.plain_step(steps),
            _ => {
                *steps -= 1;
                Path::Stay(Box::new(self.test(nesting + 2)))
            }
        };
        Path::Then(Box::new(Path::Repeat(Box::new(choice))), Box::new(end))
    }

    fn plain_step(&mut self, steps: &mut usize) -> Path {
        *steps -= 1;
        let plain = [Path::Left, Path::Right, Path::FromLeft, Path::FromRight];
        self.random.pick(&plain).clone()
    }
}

fn is_order(sign: Sign) -> bool {
    !matches!(sign, Sign::Equal | Sign::Unequal)
}

/// What looks like a numeral, short constants, constants of any length, and the
/// longest.
fn any_constant(random: &mut Random) -> Vec<u8> {
    if random.percent(30) {
        return numeral_or_nearly(random);
    }
    let length = match random.below(8) {
        0 => CONSTANT_LIMIT,
        1 | 2 => random.below(CONSTANT_LIMIT + 1),
        _ => random.below(6),
    };
    let mut text = printable_of(random, length);
    unquote(&mut text);
    text
}

/// The n of a count, of every number of digits and up to the most.
fn any_number(random: &mut Random) -> usize {
    let most = *random.pick(&[10, 100, 1_000, COUNT_LIMIT]);
    match random.percent(20) {
        true => most,
        false => random.below(most),
    }
}

/// A name, one byte longer or shorter.
fn nearly_label(random: &mut Random, mut label: Vec<u8>) -> Vec<u8> {
    match label.len() < LABEL_LIMIT && random.percent(50) {
        true => label.push(*random.pick(b"a-0")),
        false => label.truncate(label.len().max(2) - 1),
    }
    label
}

/// A value as a constant, cut to the longest that there may be. One in three
/// is changed at its end, and a numeral as often to one that is close to it or
/// has its amount.
fn nearly_value(random: &mut Random, mut value: Vec<u8>) -> Vec<u8> {
    value.truncate(CONSTANT_LIMIT);
    if amount(trimmed(&value)).is_some() && random.percent(33) {
        return nearly_numeral(random, trimmed(&value));
    }
    match random.below(12) {
        0 if value.len() < CONSTANT_LIMIT => value.push(*random.pick(b" a~")),
        1 => {
            value.pop();
        }
        2 | 3 => {
            let up = random.percent(50);
            if let Some(last) = value.last_mut() {
                *last = if up { *last + 1 } else { *last - 1 }.clamp(b' ', b'~');
            }
        }
        _ => {}
    }
    unquote(&mut value);
    value
}

/// A constant has no double quote.
fn unquote(text: &mut [u8]) {
    text.iter_mut()
        .filter(|byte| **byte == b'"')
        .for_each(|quote| *quote = b'!');
}

/// A rule of the given nesting, built from the outside inwards: the bytes
/// before each inner part, and the bytes behind all of them. Where a part has
/// others inside, the first begins right behind its own first byte, or behind
/// the number of a count. Steps are few, so that nothing but the nesting can
/// break a limit.
pub fn deep_rule(random: &mut Random, nesting: usize) -> (Vec<&'static str>, Vec<u8>) {
    let tests = [
        ("!", "", true),
        ("&", ":b", true),
        ("|", ":c", true),
        ("&:b", "", true),
        ("|:bc", "", true),
        ("(", "=e)", false),
        ("(", "<\"c\")", false),
        ("(l!=", ")", false),
        ("#3", "", false),
        ("#4096", "", false),
    ];
    let paths = [
        ("*", "", false),
        (".", "e", false),
        (".e", "", false),
        ("+", "e", false),
        ("+e", "", false),
        ("[", "]", true),
        ("[", "]", true),
    ];
    let mut in_test = true;
    let (mut heads, mut tails) = (Vec::new(), Vec::new());
    for _ in 1..nesting {
        let (head, tail, next) = *random.pick(if in_test { &tests[..] } else { &paths[..] });
        heads.push(head);
        tails.push(tail);
        in_test = next;
    }
    let leaf = if in_test { ":a" } else { "e" };
    tails.push(leaf);
    tails.reverse();
    (heads, tails.concat().into_bytes())
}
