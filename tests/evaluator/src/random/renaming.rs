//! Random renamings: a library with other values for its texts and attributes,
//! such that the six signs come out as before (02, n). Words become other words
//! and numerals other numerals in the same order.
//!
//! What is drawn is only proposed; `masking` says whether the signs come out the
//! same. An element has its texts joined, and joined they may be a numeral, or
//! what another node has, and then no longer. The texts of such an element are
//! tied: they are renamed byte by byte, which keeps the signs on whatever they
//! are joined to.

use std::collections::{BTreeMap, BTreeSet};

use super::blanks::surrounded;
use super::numerals::OTHERS;
use super::{nearly_numeral, numeral, printable, Random};
use crate::amount::amount;
use crate::document::{Kind, Library, Node, VALUE_LIMIT};
use crate::masking::{constants, same_signs, signs_agree};
use crate::rule::Test;
use crate::tree::{trimmed, Tree, BLANK};

/// A library with other values.
pub struct Renamed {
    pub library: Library,
    /// How many proposals it took.
    pub proposals: usize,
}

/// So many proposals are made; for the last one all texts are tied.
const MOST_PROPOSALS: usize = 6;

/// Another library that is masked from this one for the rule, or none if the
/// proposals do not keep the signs.
pub fn renamed(random: &mut Random, library: &Library, rule: &Test) -> Option<Renamed> {
    let mut renaming = Renaming::of(random, library, rule);
    if random.percent(15) {
        renaming.tie_all();
    }
    for proposals in 1..=MOST_PROPOSALS {
        if proposals == MOST_PROPOSALS {
            renaming.tie_all();
        }
        let Some(library) = renaming.propose(random) else {
            continue;
        };
        let tree = Tree::of(&library);
        if same_signs(&renaming.tree, &tree, rule) {
            return Some(Renamed { library, proposals });
        }
        renaming.tie_differing(&tree);
    }
    None
}

/// What each value becomes, cut as it is compared.
type Names = BTreeMap<Vec<u8>, Vec<u8>>;

struct Renaming<'a> {
    library: &'a Library,
    tree: Tree,
    /// For each node the texts and attributes that its value is made of and that
    /// are more than blanks: itself, or those inside an element.
    pieces: Vec<Vec<usize>>,
    /// The constants of the rule, cut.
    constants: BTreeSet<Vec<u8>>,
    /// What each byte of a tied value becomes.
    bytes: [u8; 256],
    /// The values, cut, that are renamed byte by byte.
    tied: BTreeSet<Vec<u8>>,
    /// Whether texts may get other blanks at their ends.
    loose: bool,
}

impl Renaming<'_> {
    fn of<'a>(random: &mut Random, library: &'a Library, rule: &Test) -> Renaming<'a> {
        let tree = Tree::of(library);
        let cut = |text: &[u8]| trimmed(text).to_vec();
        let constants: BTreeSet<Vec<u8>> = constants(rule).into_iter().map(cut).collect();
        let mut renaming = Renaming {
            library,
            pieces: (0..tree.size()).map(|v| pieces(library, v)).collect(),
            tree,
            bytes: draw_bytes(random, library, &constants),
            constants,
            tied: BTreeSet::new(),
            loose: random.percent(40),
        };
        renaming.tie_telling();
        renaming
    }

    /// Whether a node's value is joined of several texts.
    fn is_joined(&self, node: usize) -> bool {
        self.pieces[node].len() > 1
    }

    fn is_tied(&self, node: usize) -> bool {
        let mut pieces = self.pieces[node].iter();
        pieces.all(|piece| self.tied.contains(self.tree.compared(*piece)))
    }

    fn tie(&mut self, node: usize) {
        for piece in &self.pieces[node] {
            self.tied.insert(self.tree.compared(*piece).to_vec());
        }
    }

    fn tie_all(&mut self) {
        (0..self.tree.size()).for_each(|node| self.tie(node));
    }

    /// Ties what is likely to differ: where texts are joined to a numeral, to a
    /// constant, or to what a text or an attribute has.
    fn tie_telling(&mut self) {
        let all = 0..self.tree.size();
        let (joined, single): (Vec<usize>, Vec<usize>) = all.partition(|v| self.is_joined(*v));
        let single: BTreeSet<Vec<u8>> = single
            .into_iter()
            .map(|v| self.tree.compared(v).to_vec())
            .collect();
        for node in joined {
            let value = self.tree.compared(node);
            let known = single.contains(value) || self.constants.contains(value);
            if known || amount(value).is_some() {
                self.tie(node);
            }
        }
    }

    /// Ties the texts of each element on which some sign differs.
    fn tie_differing(&mut self, proposed: &Tree) {
        let held = |v: usize| (self.tree.compared(v), proposed.compared(v));
        let agrees = |v: usize| {
            let mut constants = self.constants.iter();
            (0..self.tree.size()).all(|w| signs_agree(held(v), held(w)))
                && constants.all(|c| signs_agree(held(v), (c, c)))
        };
        let differing: Vec<usize> = (0..self.tree.size())
            .filter(|v| self.is_joined(*v) && !agrees(*v))
            .collect();
        differing.into_iter().for_each(|node| self.tie(node));
    }

    /// A library with other values, or none if there is no room for them.
    fn propose(&self, random: &mut Random) -> Option<Library> {
        let mut names = self.settled();
        let (numerals, words): (Vec<&[u8]>, Vec<&[u8]>) = self
            .drawn(&names)
            .into_iter()
            .partition(|value| amount(value).is_some());
        self.name_numerals(random, &numerals, &mut names)?;
        self.name_words(random, &words, &mut names);
        let renamed = |node: &Node| Node {
            value: self.renamed_value(random, node, &names),
            ..node.clone()
        };
        Some(Library {
            nodes: self.library.nodes.iter().map(renamed).collect(),
        })
    }

    /// The values for which nothing is drawn: what is a constant of the rule
    /// stays, and what is made of tied texts is renamed byte by byte. The empty
    /// value is made of none and stays empty.
    fn settled(&self) -> Names {
        let mut names = Names::new();
        for node in 0..self.tree.size() {
            let value = self.tree.compared(node);
            if self.is_tied(node) {
                names.insert(value.to_vec(), self.by_bytes(value));
            } else if self.constants.contains(value) {
                names.insert(value.to_vec(), value.to_vec());
            }
        }
        names
    }

    /// The other values of texts and attributes.
    fn drawn(&self, settled: &Names) -> BTreeSet<&[u8]> {
        let single = (0..self.tree.size()).filter(|v| !self.is_joined(*v));
        single
            .map(|v| self.tree.compared(v))
            .filter(|value| !settled.contains_key(*value))
            .collect()
    }

    fn by_bytes(&self, text: &[u8]) -> Vec<u8> {
        let renamed = |byte: &u8| self.bytes[usize::from(*byte)];
        text.iter().map(renamed).collect()
    }

    /// Numerals become others in the same order, also among the settled ones and
    /// the constants. Those of one amount become others of one amount.
    fn name_numerals(
        &self,
        random: &mut Random,
        numerals: &[&[u8]],
        names: &mut Names,
    ) -> Option<()> {
        let constants = self.constants.iter().filter_map(|c| amount(c));
        let mut fixed: BTreeMap<i64, i64> = constants.map(|own| (own, own)).collect();
        let settled = names.iter();
        fixed.extend(settled.filter_map(|(old, new)| amount(old).zip(amount(new))));
        let drawn = numerals.iter().filter_map(|text| amount(text));
        let drawn = drawn.filter(|own| !fixed.contains_key(own)).collect();
        let amounts = draw_amounts(random, fixed, &drawn)?;
        let mut taken = self.taken(names);
        for text in numerals {
            let mut free = spellings(amounts[&amount(text)?]);
            free.retain(|spelled| !taken.contains(spelled));
            // The shortest comes first.
            let shortest = random.percent(70);
            let spelled = match free.len() {
                0 => return None,
                _ if shortest => free.swap_remove(0),
                _ => random.pick(&free).clone(),
            };
            taken.insert(spelled.clone());
            names.insert(text.to_vec(), spelled);
        }
        Some(())
    }

    /// Words become other words, no two the same.
    fn name_words(&self, random: &mut Random, words: &[&[u8]], names: &mut Names) {
        let mut taken = self.taken(names);
        for word in words {
            let name = loop {
                let name = draw_word(random, words);
                let name = trimmed(&name);
                if !name.is_empty() && amount(name).is_none() && !taken.contains(name) {
                    break name.to_vec();
                }
            };
            taken.insert(name.clone());
            names.insert(word.to_vec(), name);
        }
    }

    /// What no further value may become.
    fn taken(&self, names: &Names) -> BTreeSet<Vec<u8>> {
        let named = names.values().cloned();
        named.chain(self.constants.iter().cloned()).collect()
    }

    /// What a text or an attribute becomes. Blanks at its ends are cut and may be
    /// others; but where texts are joined to something that matters, the blanks
    /// between them stay.
    fn renamed_value(&self, random: &mut Random, node: &Node, names: &Names) -> Vec<u8> {
        let cut = trimmed(&node.value);
        let blanks = match node.kind {
            Kind::Element => return Vec::new(),
            Kind::Attribute => random.percent(50),
            Kind::Text => self.loose && self.tied.is_empty(),
        };
        let name = &names[cut];
        if blanks {
            return surrounded(random, name);
        }
        let front = node.value.iter().take_while(|byte| **byte == BLANK).count();
        let behind = node.value.len() - front - cut.len();
        let front = front.min(VALUE_LIMIT - name.len());
        let behind = behind.min(VALUE_LIMIT - name.len() - front);
        [&vec![BLANK; front], &name[..], &vec![BLANK; behind]].concat()
    }
}

/// The texts inside an element that are more than blanks; another node is its own.
fn pieces(library: &Library, node: usize) -> Vec<usize> {
    let own = &library.nodes[node];
    let behind = node + 1..library.nodes.len();
    let inside = behind.take_while(|v| library.nodes[*v].depth > own.depth);
    let all: Vec<usize> = match own.kind {
        Kind::Element => inside
            .filter(|v| library.nodes[*v].kind == Kind::Text)
            .collect(),
        Kind::Attribute | Kind::Text => vec![node],
    };
    let is_blank = |v: &usize| trimmed(&library.nodes[*v].value).is_empty();
    all.into_iter().filter(|v| !is_blank(v)).collect()
}

/// Another byte for each that occurs, and no two the same. Those of constants
/// stay, and so does what else a numeral is made of: the minus, the point and the
/// zero. The other digits become others in the same order. So numerals stay
/// numerals and keep their order, and other texts stay none, also joined.
fn draw_bytes(random: &mut Random, library: &Library, constants: &BTreeSet<Vec<u8>>) -> [u8; 256] {
    let mut fixed: BTreeSet<u8> = constants.iter().flatten().copied().collect();
    fixed.extend([BLANK, b'-', b'.', b'0']);
    let mut bytes: [u8; 256] = std::array::from_fn(|byte| byte as u8);
    let values = library.nodes.iter().flat_map(|node| &node.value);
    let used: BTreeSet<u8> = values.copied().collect();
    let mut bounds: Vec<u8> = (b'0'..=b'9')
        .filter(|digit| fixed.contains(digit))
        .collect();
    bounds.push(b'9' + 1);
    for bound in bounds.windows(2) {
        let mut places: Vec<u8> = (bound[0] + 1..bound[1]).collect();
        let inside: Vec<u8> = places
            .iter()
            .copied()
            .filter(|d| used.contains(d))
            .collect();
        while places.len() > inside.len() {
            places.remove(random.below(places.len()));
        }
        for (digit, place) in inside.into_iter().zip(places) {
            bytes[usize::from(digit)] = place;
        }
    }
    let others = (BLANK..=b'~').filter(|byte| !byte.is_ascii_digit() && !fixed.contains(byte));
    let others: Vec<u8> = others.collect();
    let mut left = others.clone();
    for byte in others {
        bytes[usize::from(byte)] = left.swap_remove(random.below(left.len()));
    }
    bytes
}

/// The largest amount of a numeral, in ten-thousandths.
const MOST: i64 = 9_999_999_999_999;

/// An amount for each of the drawn ones, in the same order, also among the fixed
/// ones; none if there is no room between two of these.
fn draw_amounts(
    random: &mut Random,
    fixed: BTreeMap<i64, i64>,
    drawn: &BTreeSet<i64>,
) -> Option<BTreeMap<i64, i64>> {
    let ends = [-MOST - 1, MOST + 1].map(|end| (end, end));
    let mut bounds: Vec<(i64, i64)> = fixed.iter().map(|(old, new)| (*old, *new)).collect();
    bounds.extend(ends);
    bounds.sort_unstable();
    let mut amounts = fixed;
    for bound in bounds.windows(2) {
        let inside: Vec<i64> = drawn.range(bound[0].0 + 1..bound[1].0).copied().collect();
        let others = draw_between(random, bound[0].1, bound[1].1, inside.len())?;
        amounts.extend(inside.into_iter().zip(others));
    }
    Some(amounts)
}

/// So many amounts between two others, rising. Mostly they are small and whole.
fn draw_between(random: &mut Random, low: i64, high: i64, count: usize) -> Option<Vec<i64>> {
    if count == 0 {
        return Some(Vec::new());
    }
    // All between them that are multiples of a unit, each divided by it.
    let between = |unit: i64| (low.div_euclid(unit) + 1, (high - 1).div_euclid(unit));
    let has_room = |unit: i64| between(unit).1 - between(unit).0 >= count as i64 - 1;
    let drawn = *random.pick(&[10_000, 10_000, 5_000, 100, 1]);
    let unit = [drawn, 1].into_iter().find(|unit| has_room(*unit))?;
    let (first, last) = between(unit);
    let room = (last - first) as usize + 1;
    let width = room.min(count * random.pick(&[1, 4, 40, 4_000]));
    let latest = last + 1 - width as i64;
    let begin = match random.percent(80) {
        true => (random.below(120) as i64 - 30).clamp(first, latest),
        false => first + random.below((latest - first) as usize + 1) as i64,
    };
    let mut chosen = BTreeSet::new();
    while chosen.len() < count {
        chosen.insert(unit * (begin + random.below(width) as i64));
    }
    Some(chosen.into_iter().collect())
}

/// All numerals of an amount, the shortest first.
fn spellings(amount: i64) -> Vec<Vec<u8>> {
    let (whole, part) = (amount.abs() / 10_000, amount.abs() % 10_000);
    let decimals = format!("{part:04}");
    let least = decimals.trim_end_matches('0').len();
    let signs: &[&str] = match amount {
        0 => &["", "-"],
        1.. => &[""],
        _ => &["-"],
    };
    let mut all = Vec::new();
    for (sign, digits) in signs
        .iter()
        .flat_map(|sign| (1..=9).map(move |some| (sign, some)))
    {
        let whole = format!("{whole:0digits$}");
        if whole.len() > digits {
            continue;
        }
        for behind in least..=4 {
            let point = if behind == 0 { "" } else { "." };
            all.push(format!("{sign}{whole}{point}{}", &decimals[..behind]));
        }
    }
    all.sort_by_key(String::len);
    all.into_iter().map(String::into_bytes).collect()
}

/// Mostly a new word, sometimes one of those that are renamed, or what is nearly
/// a numeral. It may be a numeral, or have been drawn before.
fn draw_word(random: &mut Random, words: &[&[u8]]) -> Vec<u8> {
    match random.below(20) {
        0..=3 => random.pick(words).to_vec(),
        4 | 5 => random.pick(&OTHERS).as_bytes().to_vec(),
        6 => [
            &numeral(random)[..],
            *random.pick(&[&b"e3"[..], b" mg", b"."]),
        ]
        .concat(),
        7 => {
            let longest = *random.pick(&[4, 40, VALUE_LIMIT]);
            printable(random, longest)
        }
        _ => {
            let length = 1 + random.below(8);
            let letter = |_| b'a' + random.below(26) as u8;
            (0..length).map(letter).collect()
        }
    }
}

/// The library with another value for one text or attribute: that of another
/// node, a constant of the rule, a numeral or a word. If it has none of these
/// nodes it stays as it is.
pub fn one_value_changed(random: &mut Random, library: &Library, rule: &Test) -> Library {
    let mut changed = library.clone();
    let is_own = |node: &&mut Node| node.kind != Kind::Element;
    let mut nodes: Vec<&mut Node> = changed.nodes.iter_mut().filter(is_own).collect();
    if nodes.is_empty() {
        return changed;
    }
    let constants = constants(rule);
    let other = random.pick(&library.nodes).value.clone();
    let at = random.below(nodes.len());
    nodes[at].value = match random.below(8) {
        0..=2 => other,
        3 | 4 if !constants.is_empty() => random.pick(&constants).to_vec(),
        5 if amount(trimmed(&other)).is_some() => nearly_numeral(random, trimmed(&other)),
        6 => numeral(random),
        _ => printable(random, 4),
    };
    changed
}
