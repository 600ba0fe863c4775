//! The meaning of tests and paths (document 000, 1.2.2): a test is a set of
//! nodes, a path is a relation over nodes.

use crate::amount::amount;
use crate::relation::Relation;
use crate::rule::{Operand, Path, Sign, Test};
use crate::tree::{trimmed, Tree};

/// For each node whether the test holds there.
pub fn holds(tree: &Tree, test: &Test) -> Vec<bool> {
    let at_each = |condition: &dyn Fn(usize) -> bool| -> Vec<bool> {
        (0..tree.size()).map(condition).collect()
    };
    match test {
        // "`:name` if v has that label"
        Test::Name(name) => at_each(&|v| tree.labels[v] == *name),
        // "`!` if T fails at v"
        Test::Not(inner) => {
            let inner = holds(tree, inner);
            at_each(&|v| !inner[v])
        }
        // "`&` if both hold"
        Test::And(a, b) => {
            let (a, b) = (holds(tree, a), holds(tree, b));
            at_each(&|v| a[v] && b[v])
        }
        // "`|` if at least one does"
        Test::Or(a, b) => {
            let (a, b) = (holds(tree, a), holds(tree, b));
            at_each(&|v| a[v] || b[v])
        }
        // "A comparison holds at v if some node reached by the first path and
        // some node reached by the second (or c) have values in that relation."
        // Both are cut (02, b).
        Test::Compare(p, sign, operand) => {
            let first = reached_values(tree, p);
            let second = match operand {
                Operand::Path(r) => reached_values(tree, r),
                Operand::Constant(c) => vec![vec![trimmed(c)]; tree.size()],
            };
            let related = |a: &[u8], v: usize| second[v].iter().any(|b| compare(*sign, a, b));
            at_each(&|v| first[v].iter().any(|a| related(a, v)))
        }
        // "holds where P reaches at least n different nodes" (02, h)
        Test::AtLeast(n, p) => {
            let reached = reaches(tree, p);
            at_each(&|v| reached.from(v).len() >= *n)
        }
    }
}

/// For each node what is compared of all nodes that a path reaches from it.
fn reached_values<'a>(tree: &'a Tree, path: &Path) -> Vec<Vec<&'a [u8]>> {
    let reached = reaches(tree, path);
    let compared = |w: usize| tree.compared(w);
    (0..tree.size())
        .map(|v| reached.from(v).into_iter().map(compared).collect())
        .collect()
}

/// The pairs of nodes from and to which a path leads.
pub fn reaches(tree: &Tree, path: &Path) -> Relation {
    reaches_where(tree, path, &|test| holds(tree, test))
}

/// The same, given where the tests in the brackets hold.
pub fn reaches_where(tree: &Tree, path: &Path, holds: &dyn Fn(&Test) -> Vec<bool>) -> Relation {
    let all = || 0..tree.size();
    let inner = |path: &Path| reaches_where(tree, path, holds);
    let child = |children: &[Option<usize>]| -> Vec<(usize, usize)> {
        all().filter_map(|v| Some((v, children[v]?))).collect()
    };
    let parent = |children: &[Option<usize>]| -> Vec<(usize, usize)> {
        child(children).into_iter().map(|(v, w)| (w, v)).collect()
    };
    let pairs = |pairs: Vec<(usize, usize)>| Relation::of(tree.size(), pairs);
    match path {
        // "`e` the empty path"
        Path::Empty => pairs(all().map(|v| (v, v)).collect()),
        // "`l`, `r` to the left or right child"
        Path::Left => pairs(child(&tree.left)),
        Path::Right => pairs(child(&tree.right)),
        // "`L`, `R` from a left or right child to its parent"
        Path::FromLeft => pairs(parent(&tree.left)),
        Path::FromRight => pairs(parent(&tree.right)),
        // "`[T]` stay where T holds"
        Path::Stay(test) => {
            let test = holds(test);
            pairs(all().filter(|v| test[*v]).map(|v| (v, v)).collect())
        }
        // "`.PP` one after the other; `+PP` either; `*P` zero or more times"
        Path::Then(a, b) => inner(a).then(&inner(b)),
        Path::Either(a, b) => inner(a).union(&inner(b)),
        Path::Repeat(a) => inner(a).repeated(),
    }
}

/// "The four order signs hold between two values exactly if both are numerals
/// and their exact amounts are so ordered." and "`=` and `!=` still compare
/// text." (02, f) Values and constants are cut already.
pub fn compare(sign: Sign, a: &[u8], b: &[u8]) -> bool {
    match sign {
        Sign::Equal | Sign::Unequal => related(sign, a, b),
        _ => match (amount(a), amount(b)) {
            (Some(a), Some(b)) => related(sign, &a, &b),
            _ => false,
        },
    }
}

/// Whether two things that have an order are in the relation of a sign.
pub fn related<T: Ord + ?Sized>(sign: Sign, a: &T, b: &T) -> bool {
    match sign {
        Sign::Equal => a == b,
        Sign::Unequal => a != b,
        Sign::Less => a < b,
        Sign::LessOrEqual => a <= b,
        Sign::Greater => a > b,
        Sign::GreaterOrEqual => a >= b,
    }
}
