//! The tree of a document, with labels, values as they are compared, their
//! amounts, and the ranks of both.

use evaluator::amount::amount;
use evaluator::rule::Sign;

/// Stands for no node, and for the rank of no amount.
pub const NONE: u16 = u16::MAX;

pub struct Library<'a> {
    pub left: Vec<u16>,
    pub right: Vec<u16>,
    pub parent: Vec<u16>,
    pub labels: Vec<&'a [u8]>,
    pub values: Vec<Vec<u8>>,
    /// What is no numeral has no amount.
    pub amounts: Vec<Option<i64>>,
    /// Equal values have equal ranks, a smaller value a smaller rank.
    pub ranks: Vec<u16>,
    /// Equal amounts have equal ranks, a smaller amount a smaller rank.
    amount_ranks: Vec<u16>,
}

/// A node's lines as they stand.
struct Entry<'a> {
    depth: usize,
    kind: u8,
    label: &'a [u8],
    value: &'a [u8],
}

impl Library<'_> {
    /// The library of a legal document.
    pub fn read(document: &[u8]) -> Library<'_> {
        let mut lines = document.split(|byte| *byte == b'\n');
        let mut field = || {
            let line = lines.next().expect("a legal document");
            let key = line.iter().position(|byte| *byte == b'=').expect("a key");
            &line[key + 1..]
        };
        let count = numeral(field());
        let entries: Vec<Entry> = (0..count)
            .map(|_| Entry {
                depth: numeral(field()),
                kind: field()[0],
                label: field(),
                value: field(),
            })
            .collect();
        let values = values(&entries);
        let amounts: Vec<Option<i64>> = values.iter().map(|value| amount(value)).collect();
        let mut library = Library {
            left: vec![NONE; count],
            right: vec![NONE; count],
            parent: vec![NONE; count],
            labels: entries.iter().map(|entry| entry.label).collect(),
            ranks: ranks(&values),
            values,
            amount_ranks: amount_ranks(&amounts),
            amounts,
        };
        library.link(&entries);
        library
    }

    pub fn size(&self) -> usize {
        self.labels.len()
    }

    /// The ranks by which a sign compares.
    pub fn ranks_for(&self, sign: Sign) -> &[u16] {
        match sign {
            Sign::Equal | Sign::Unequal => &self.ranks,
            _ => &self.amount_ranks,
        }
    }

    /// Of a node that has a parent, whether it is the left child.
    pub fn is_left(&self, node: usize) -> bool {
        usize::from(self.left[usize::from(self.parent[node])]) == node
    }

    /// A node deeper than the one before it is its left child; any other is
    /// the right child of the last node before it that has its depth.
    fn link(&mut self, entries: &[Entry]) {
        let mut last_of_depth = Vec::new();
        for (node, entry) in entries.iter().enumerate() {
            let depth = entry.depth;
            if depth < last_of_depth.len() {
                let before: usize = last_of_depth[depth];
                self.right[before] = node as u16;
                self.parent[node] = before as u16;
            } else if node > 0 {
                self.left[node - 1] = node as u16;
                self.parent[node] = node as u16 - 1;
            }
            last_of_depth.truncate(depth);
            last_of_depth.push(node);
        }
    }
}

fn numeral(digits: &[u8]) -> usize {
    digits
        .iter()
        .fold(0, |number, digit| 10 * number + usize::from(digit - b'0'))
}

/// The value of an element is joined from the texts inside it, and cut then.
fn values(entries: &[Entry]) -> Vec<Vec<u8>> {
    let value = |(node, entry): (usize, &Entry)| {
        if entry.kind != b'e' {
            return cut(entry.value).to_vec();
        }
        let inside = entries[node + 1..]
            .iter()
            .take_while(|inner| inner.depth > entry.depth);
        let texts = inside.filter(|inner| inner.kind == b't');
        let joined: Vec<u8> = texts.flat_map(|text| text.value).copied().collect();
        cut(&joined).to_vec()
    };
    entries.iter().enumerate().map(value).collect()
}

/// A value or a constant as it is compared: without the blanks at both ends.
pub fn cut(value: &[u8]) -> &[u8] {
    let is_other = |byte: &u8| *byte != b' ';
    let first = value.iter().position(is_other);
    let last = value.iter().rposition(is_other);
    match (first, last) {
        (Some(first), Some(last)) => &value[first..=last],
        _ => &[],
    }
}

fn ranks<T: Ord>(values: &[T]) -> Vec<u16> {
    let mut nodes: Vec<usize> = (0..values.len()).collect();
    nodes.sort_by_key(|node| &values[*node]);
    let mut ranks = vec![0; values.len()];
    for pair in nodes.windows(2) {
        let rise = u16::from(values[pair[0]] < values[pair[1]]);
        ranks[pair[1]] = ranks[pair[0]] + rise;
    }
    ranks
}

fn amount_ranks(amounts: &[Option<i64>]) -> Vec<u16> {
    let ranked = amounts.iter().zip(ranks(amounts));
    ranked
        .map(|(amount, rank)| amount.map_or(NONE, |_| rank))
        .collect()
}
