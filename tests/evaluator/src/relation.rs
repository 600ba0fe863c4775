//! Relations over the nodes of one tree, as square tables of truth values. A
//! row is a set of nodes with a bit for each, so that relations over all nodes
//! of the largest library can be joined too.

#[derive(Clone, Debug, PartialEq, Eq)]
pub struct Relation {
    rows: Vec<Row>,
}

/// The nodes that one node is related to.
#[derive(Clone, Debug, PartialEq, Eq)]
struct Row {
    words: Vec<u64>,
}

impl Row {
    const BITS: usize = 64;

    fn empty(size: usize) -> Row {
        Row {
            words: vec![0; size.div_ceil(Row::BITS)],
        }
    }

    fn has(&self, node: usize) -> bool {
        self.words[node / Row::BITS] >> (node % Row::BITS) & 1 == 1
    }

    fn add(&mut self, node: usize) {
        self.words[node / Row::BITS] |= 1 << (node % Row::BITS);
    }

    /// Adds all nodes of another row.
    fn add_all(&mut self, other: &Row) {
        for (word, more) in self.words.iter_mut().zip(&other.words) {
            *word |= more;
        }
    }

    /// The nodes, rising.
    fn nodes(&self) -> Vec<usize> {
        let mut nodes = Vec::new();
        for (at, word) in self.words.iter().enumerate() {
            let mut left = *word;
            while left != 0 {
                nodes.push(at * Row::BITS + left.trailing_zeros() as usize);
                left &= left - 1;
            }
        }
        nodes
    }
}

impl Relation {
    /// These pairs.
    pub fn of(size: usize, pairs: impl IntoIterator<Item = (usize, usize)>) -> Relation {
        let mut rows = vec![Row::empty(size); size];
        for (v, w) in pairs {
            rows[v].add(w);
        }
        Relation { rows }
    }

    /// The pairs (v, w) for which the given condition holds.
    pub fn where_holds(size: usize, condition: impl Fn(usize, usize) -> bool) -> Relation {
        let pairs = (0..size).flat_map(|v| (0..size).map(move |w| (v, w)));
        Relation::of(size, pairs.filter(|(v, w)| condition(*v, *w)))
    }

    pub fn size(&self) -> usize {
        self.rows.len()
    }

    pub fn has(&self, v: usize, w: usize) -> bool {
        self.rows[v].has(w)
    }

    /// The nodes that v is related to, rising.
    pub fn from(&self, v: usize) -> Vec<usize> {
        self.rows[v].nodes()
    }

    /// The pairs in this relation or in the other.
    pub fn union(&self, other: &Relation) -> Relation {
        let mut union = self.clone();
        for (row, more) in union.rows.iter_mut().zip(&other.rows) {
            row.add_all(more);
        }
        union
    }

    /// The pairs (v, w) with some node between: v to it here, it to w there.
    /// So the row of v is all rows of such nodes laid over one another.
    pub fn then(&self, other: &Relation) -> Relation {
        let row = |v: usize| {
            let mut row = Row::empty(self.size());
            for between in self.from(v) {
                row.add_all(&other.rows[between]);
            }
            row
        };
        Relation {
            rows: (0..self.size()).map(row).collect(),
        }
    }

    /// The reflexive transitive closure. Each node is related to itself; then
    /// the row of a node gets the rows of all nodes that it leads to, again and
    /// again until that adds nothing. By turns the first node and the last one
    /// is the first to get them, since a tree's steps lead up or down: so most
    /// closures take few turns.
    pub fn repeated(&self) -> Relation {
        let next: Vec<Vec<usize>> = (0..self.size()).map(|v| self.from(v)).collect();
        let mut closure = Relation::of(self.size(), (0..self.size()).map(|v| (v, v)));
        loop {
            let falling = closure.follow(&next, (0..self.size()).rev());
            let rising = closure.follow(&next, 0..self.size());
            if !falling && !rising {
                return closure;
            }
        }
    }

    /// Gives each node, one after the other, the rows of those that it leads to,
    /// and tells whether any row grew.
    fn follow(&mut self, next: &[Vec<usize>], nodes: impl Iterator<Item = usize>) -> bool {
        let mut grew = false;
        for v in nodes {
            let mut row = self.rows[v].clone();
            for w in &next[v] {
                row.add_all(&self.rows[*w]);
            }
            grew |= row != self.rows[v];
            self.rows[v] = row;
        }
        grew
    }
}
