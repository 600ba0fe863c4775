//! Evaluations with buffers that are kept.

use std::fmt;

use crate::archive::{self, Evaluation};
use crate::library::Library;
use crate::limits::needed_words;
use crate::refusal::{Ground, Refusal};
use crate::rule::Rule;

/// Which of the two evaluations is made. Both select the same nodes.
#[derive(Clone, Copy, Debug, PartialEq, Eq, Hash)]
pub enum Method {
    /// Follows the paths of the rule from each node.
    Plain,
    /// Goes by snippets, and counts them.
    Snippets,
}

/// Selects nodes by one evaluation, and keeps the buffers that it needs.
///
/// The buffers grow to what the largest library so far needs, and are used
/// again by each call.
///
/// Values and constants are compared without the blanks at both their ends:
/// [`Table::value`](crate::Table::value) has an example. `=` and `!=` compare
/// them as text. `<`, `<=`, `>` and `>=` compare the amounts of numerals, and
/// fail where a value or a constant is none. A numeral is a minus or none, 1 to
/// 9 digits, and a point with 1 to 4 digits or none.
///
/// ```
/// use yurzhoad::{Library, Method, Rule, Selector};
///
/// let document = "nodes=4\ndepth=0\nkind=e\nlabel=limit\nvalue=\n\
///                 depth=1\nkind=a\nlabel=low\nvalue=9\n\
///                 depth=1\nkind=a\nlabel=high\nvalue=10\n\
///                 depth=1\nkind=a\nlabel=unit\nvalue=mg\n";
/// let library = Library::check(document)?;
/// let mut selector = Selector::new(Method::Snippets);
/// for (rule, selected) in [("(e<\"9.50\")", 1), ("(e>=\"9.0\")", 2), ("(e<\"z\")", 0)] {
///     let rule = Rule::check(rule)?;
///     assert_eq!(selector.select(&library, &rule).selected(), selected);
/// }
/// # Ok::<(), yurzhoad::Refusal>(())
/// ```
///
/// A count `#nP` holds where the path P reaches at least n different nodes, n
/// being 0 to 4,096: a node that is reached in two ways counts once. `.l*r` leads
/// to all nodes directly inside, attributes included.
///
/// ```
/// use yurzhoad::{Library, Method, Rule, Selector};
///
/// let document = "nodes=5\ndepth=0\nkind=e\nlabel=drug\nvalue=\n\
///                 depth=1\nkind=a\nlabel=name\nvalue=heparin\n\
///                 depth=1\nkind=e\nlabel=strength\nvalue=\n\
///                 depth=1\nkind=e\nlabel=strength\nvalue=\n\
///                 depth=1\nkind=e\nlabel=strength\nvalue=\n";
/// let library = Library::check(document)?;
/// let mut selector = Selector::new(Method::Snippets);
/// for (rule, selected) in [
///     ("#4.l*r", 1),
///     ("#3..l*r[:strength]", 1),
///     ("#4..l*r[:strength]", 0),
///     ("#2+ee", 0),
/// ] {
///     let rule = Rule::check(rule)?;
///     assert_eq!(selector.select(&library, &rule).selected(), selected);
/// }
/// # Ok::<(), yurzhoad::Refusal>(())
/// ```
///
/// ```
/// use yurzhoad::{Library, Method, Rule, Selector};
///
/// let library = Library::check("nodes=1\ndepth=0\nkind=e\nlabel=lib\nvalue=\n")?;
/// let mut selector = Selector::new(Method::Plain);
/// for (rule, selected) in [(":lib", 1), (":drug", 0), ("(e=\"\")", 1)] {
///     let rule = Rule::check(rule)?;
///     assert_eq!(selector.select(&library, &rule).selected(), selected);
/// }
/// # Ok::<(), yurzhoad::Refusal>(())
/// ```
pub struct Selector {
    method: Method,
    scratch: Vec<u16>,
    marks: Vec<u8>,
}

impl Selector {
    /// A selector without buffers; they come with the first call.
    pub fn new(method: Method) -> Selector {
        Selector {
            method,
            scratch: Vec::new(),
            marks: Vec::new(),
        }
    }

    /// The evaluation that is made.
    pub fn method(&self) -> Method {
        self.method
    }

    /// The most nodes for which the buffers do without growing.
    pub fn room(&self) -> usize {
        self.marks.len()
    }

    /// Grows the buffers for libraries of so many nodes, so that no later call
    /// of such a library allocates memory.
    pub fn reserve(&mut self, nodes: usize) {
        if nodes > self.marks.len() {
            // New ones, not longer ones: what a buffer holds does not matter,
            // and memory that comes as zeros is not written twice.
            self.scratch = vec![0; needed_words(nodes)];
            self.marks = vec![0; nodes];
        }
    }

    /// Selects the nodes of a library at which a rule holds.
    ///
    /// The selection borrows the selector: it ends before the next call.
    ///
    /// # Panics
    ///
    /// If the archive refuses the call. The proved evaluations accept every
    /// checked library and rule with these buffers, so this can happen only
    /// with another archive.
    pub fn select(&mut self, library: &Library<'_>, rule: &Rule<'_>) -> Selection<'_> {
        let method = self.method;
        let evaluate = match method {
            Method::Plain => archive::evaluate_plain,
            Method::Snippets => archive::evaluate_snippets,
        };
        let (scratch, marks) = self.lend(library.nodes());
        let evaluation = evaluate(library.bytes(), rule.bytes(), scratch, marks);
        assert_eq!(evaluation.number, 0, "{NOT_PROVED}");
        Selection {
            method,
            evaluation,
            marks,
        }
    }

    /// Selects by some of the values that a rule compares, for a rule that is one
    /// equality between two paths. A node of the list stands for its value; order
    /// and repeats do not matter.
    ///
    /// A node is selected if both paths lead from it to one and the same node, or
    /// if the snippets of these values settle it. These are counted, and with them
    /// all snippets of the equalities in the rule's brackets. It goes by snippets,
    /// whatever the selector's method. By a list of all values it is what
    /// [`select`](Selector::select) does with [`Method::Snippets`].
    ///
    /// ```
    /// use yurzhoad::{Ground, Library, Method, Rule, Selector};
    ///
    /// // The nodes 1 and 3 have the value `a`, and 2 and 4 have `b`.
    /// let texts = ["a", "b", "a", "b"].map(|value| {
    ///     format!("depth=1\nkind=t\nlabel=text\nvalue={value}\n")
    /// });
    /// let document = ["nodes=5\ndepth=0\nkind=e\nlabel=lib\nvalue=\n", &texts.concat()].concat();
    /// let library = Library::check(&document)?;
    /// let rule = Rule::check("(e=.rr)")?;
    /// let mut selector = Selector::new(Method::Snippets);
    /// for (values, selected, snippets) in [
    ///     (&[][..], &[][..], 0),
    ///     (&[3], &[1], 3),
    ///     (&[2], &[2], 3),
    ///     (&[4, 1, 1], &[1, 2], 6),
    /// ] {
    ///     let selection = selector.select_values(&library, &rule, values)?;
    ///     assert_eq!(selection.nodes().collect::<Vec<_>>(), selected);
    ///     assert_eq!(selection.snippets(), Some(snippets));
    /// }
    ///
    /// let refusal = selector.select_values(&library, &rule, &[5]).unwrap_err();
    /// assert_eq!(refusal.ground(), Ground::NoSuchNode);
    /// let rule = Rule::check("!(e=.rr)")?;
    /// let refusal = selector.select_values(&library, &rule, &[1]).unwrap_err();
    /// assert_eq!(refusal.ground(), Ground::OtherComparison);
    /// # Ok::<(), yurzhoad::Refusal>(())
    /// ```
    ///
    /// # Errors
    ///
    /// The refusal, by 23 if the rule is no such equality, else by 13 if the
    /// library has not all nodes of the list.
    ///
    /// # Panics
    ///
    /// If the archive refuses the call on another ground, as with `select`.
    pub fn select_values(
        &mut self,
        library: &Library<'_>,
        rule: &Rule<'_>,
        values: &[u16],
    ) -> Result<Selection<'_>, Refusal> {
        let (document, rule) = (library.bytes(), rule.bytes());
        let (scratch, marks) = self.lend(library.nodes());
        let evaluation = archive::evaluate_values(document, rule, values, scratch, marks);
        if let Some(refusal) = Refusal::explain(evaluation.number, evaluation.place, document, rule)
        {
            let of_list = [Ground::OtherComparison, Ground::NoSuchNode];
            assert!(of_list.contains(&refusal.ground()), "{NOT_PROVED}");
            return Err(refusal);
        }
        Ok(Selection {
            method: Method::Snippets,
            evaluation,
            marks,
        })
    }

    /// Scratch and marks just as long as so many nodes need: what a call does to
    /// its buffers does not depend on the calls before.
    fn lend(&mut self, nodes: usize) -> (&mut [u16], &mut [u8]) {
        self.reserve(nodes);
        (
            &mut self.scratch[..needed_words(nodes)],
            &mut self.marks[..nodes],
        )
    }
}

/// What is wrong if checked things are refused.
const NOT_PROVED: &str =
    "the archive refuses a library and a rule that it accepted: it is not the proved one";

/// Short: the buffers may have millions of words.
impl fmt::Debug for Selector {
    fn fmt(&self, f: &mut fmt::Formatter<'_>) -> fmt::Result {
        f.debug_struct("Selector")
            .field("method", &self.method)
            .field("room", &self.room())
            .finish()
    }
}

/// The nodes that a rule selects in a library.
///
/// ```
/// use yurzhoad::{Library, Method, Rule, Selector};
///
/// let document = "nodes=2\ndepth=0\nkind=e\nlabel=lib\nvalue=\n\
///                 depth=1\nkind=e\nlabel=drug\nvalue=\n";
/// let library = Library::check(document)?;
/// let rule = Rule::check(":drug")?;
/// let mut selector = Selector::new(Method::Snippets);
/// let selection = selector.select(&library, &rule);
/// assert_eq!(selection.selected(), 1);
/// assert_eq!(selection.snippets(), Some(0));
/// assert!(selection.contains(1) && !selection.contains(0));
/// assert_eq!(selection.nodes().collect::<Vec<_>>(), [1]);
/// assert_eq!(selection.marks(), [0, 1]);
/// # Ok::<(), yurzhoad::Refusal>(())
/// ```
#[derive(Clone, Copy, Debug, PartialEq, Eq)]
pub struct Selection<'s> {
    method: Method,
    evaluation: Evaluation,
    marks: &'s [u8],
}

impl<'s> Selection<'s> {
    /// How many nodes are selected.
    pub fn selected(&self) -> usize {
        self.evaluation.selected
    }

    /// How many snippets were counted. The plain evaluation counts none.
    pub fn snippets(&self) -> Option<usize> {
        match self.method {
            Method::Plain => None,
            Method::Snippets => Some(self.evaluation.snippets),
        }
    }

    /// Whether a node is selected. A node that the library does not have is
    /// not.
    pub fn contains(&self, node: usize) -> bool {
        self.marks.get(node) == Some(&1)
    }

    /// The numbers of the selected nodes, rising.
    pub fn nodes(&self) -> impl Iterator<Item = usize> + 's {
        let marks = self.marks;
        (0..marks.len()).filter(move |node| marks[*node] == 1)
    }

    /// The record that the archive handed back.
    pub fn evaluation(&self) -> Evaluation {
        self.evaluation
    }

    /// A byte for each node: 1 if it is selected, and 0 if not.
    pub fn marks(&self) -> &'s [u8] {
        self.marks
    }
}
