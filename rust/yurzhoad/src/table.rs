//! All entries of a library, with what needs more than one of them.

use std::borrow::Cow;
use std::collections::HashMap;
use std::fmt::Write;

use crate::library::{Entries, Entry, Kind};

/// All entries of a library, with their parents, paths and string values; see
/// [`Library::table`](crate::Library::table).
///
/// It shows the text of the document, from which nothing is cut.
///
/// ```
/// use yurzhoad::Library;
///
/// let document = "\
/// nodes=4
/// depth=0
/// kind=e
/// label=drug
/// value=
/// depth=1
/// kind=a
/// label=name
/// value=heparin
/// depth=1
/// kind=t
/// label=text
/// value=5 mg
/// depth=1
/// kind=t
/// label=text
/// value=/ml
/// ";
/// let table = Library::check(document)?.table();
/// assert_eq!(table.path(1), "/drug/@name");
/// assert_eq!(table.path(3), "/drug/text()[2]");
/// assert_eq!(table.parent(3), Some(0));
/// assert_eq!(table.value(0), "5 mg/ml");
/// # Ok::<(), yurzhoad::Refusal>(())
/// ```
#[derive(Clone, Debug)]
pub struct Table<'a> {
    entries: Vec<Entry<'a>>,
    /// For each node the element around it; the first node alone has none.
    parents: Vec<Option<usize>>,
    /// For each node which of its likes it is, from 1.
    ordinals: Vec<usize>,
    /// For each node whether it has likes beside itself.
    repeated: Vec<bool>,
}

impl<'a> Table<'a> {
    pub(crate) fn new(entries: Entries<'a>) -> Table<'a> {
        let entries: Vec<Entry<'a>> = entries.collect();
        let parents = parents(&entries);
        let (ordinals, repeated) = likes(&entries, &parents);
        Table {
            entries,
            parents,
            ordinals,
            repeated,
        }
    }

    /// All entries in document order.
    pub fn entries(&self) -> &[Entry<'a>] {
        &self.entries
    }

    /// The entry of a node.
    ///
    /// # Panics
    ///
    /// If there is no such node.
    pub fn entry(&self, node: usize) -> Entry<'a> {
        self.entries[node]
    }

    /// The element around a node in the document. The first node has none.
    ///
    /// This is not the parent in the binary tree, which rules go by.
    ///
    /// # Panics
    ///
    /// If there is no such node.
    pub fn parent(&self, node: usize) -> Option<usize> {
        self.parents[node]
    }

    /// Where a node stands in the document, as `/lib/drug[2]/@name`.
    ///
    /// A step is the label of an element, `@` and the label of an attribute, or
    /// `text()`. It has a number in brackets, from 1, where the parent has
    /// several such: elements of this label, or texts. No element has several
    /// attributes of one label.
    ///
    /// # Panics
    ///
    /// If there is no such node.
    pub fn path(&self, node: usize) -> String {
        let outward: Vec<usize> = self.outward(node).collect();
        // One string for all steps: a path may have thousands of them.
        let mut path = String::new();
        for node in outward.into_iter().rev() {
            self.push_step(node, &mut path);
        }
        path
    }

    /// The string value of a node: of a text or an attribute its value, of an
    /// element the values of all texts inside it, joined in order.
    ///
    /// Blanks at its ends are shown, though no comparison counts them. So a
    /// name that is padded is selected by the bare name:
    ///
    /// ```
    /// use yurzhoad::{Library, Method, Rule, Selector};
    ///
    /// let document = "nodes=2\ndepth=0\nkind=e\nlabel=drug\nvalue=\n\
    ///                 depth=1\nkind=a\nlabel=name\nvalue=  heparin \n";
    /// let library = Library::check(document)?;
    /// let rule = Rule::check("(e=\"heparin\")")?;
    /// let mut selector = Selector::new(Method::Snippets);
    /// let selection = selector.select(&library, &rule);
    /// assert_eq!(selection.nodes().collect::<Vec<_>>(), [1]);
    /// assert_eq!(library.table().value(1), "  heparin ");
    /// # Ok::<(), yurzhoad::Refusal>(())
    /// ```
    ///
    /// # Panics
    ///
    /// If there is no such node.
    pub fn value(&self, node: usize) -> Cow<'a, str> {
        let entry = self.entries[node];
        if entry.kind != Kind::Element {
            return Cow::Borrowed(entry.value);
        }
        let inside = self.entries[node + 1..]
            .iter()
            .take_while(|other| other.depth > entry.depth);
        let texts = inside.filter(|other| other.kind == Kind::Text);
        // Nothing is copied as long as one text is all there is.
        texts.fold(Cow::Borrowed(""), |joined, text| joined + text.value)
    }

    /// The node, the element around it, and so on to the first node.
    fn outward(&self, node: usize) -> impl Iterator<Item = usize> + '_ {
        std::iter::successors(Some(node), |inner| self.parents[*inner])
    }

    /// The step of a path that leads to this node.
    fn push_step(&self, node: usize, path: &mut String) {
        let entry = self.entries[node];
        path.push_str(match entry.kind {
            Kind::Element => "/",
            Kind::Attribute => "/@",
            Kind::Text => "/text()",
        });
        if entry.kind != Kind::Text {
            path.push_str(entry.label);
        }
        if self.repeated[node] {
            write!(path, "[{}]", self.ordinals[node]).expect("a string takes all that is written");
        }
    }
}

/// The parent of a node is the last node before it that is less deep.
fn parents(entries: &[Entry<'_>]) -> Vec<Option<usize>> {
    // The node that was met last, the element around it, and so on.
    let mut open: Vec<usize> = Vec::new();
    let mut parents = Vec::with_capacity(entries.len());
    for entry in entries {
        open.truncate(entry.depth);
        parents.push(open.last().copied());
        open.push(entry.number);
    }
    parents
}

/// What nodes have in common that are told apart by a number: parent, kind and
/// label. Texts all have the label `text`.
type Likeness<'a> = (Option<usize>, Kind, &'a str);

/// Which of its likes each node is, and whether there are several.
fn likes<'a>(entries: &[Entry<'a>], parents: &[Option<usize>]) -> (Vec<usize>, Vec<bool>) {
    let likeness =
        |entry: &Entry<'a>| -> Likeness<'a> { (parents[entry.number], entry.kind, entry.label) };
    let mut counts: HashMap<Likeness<'a>, usize> = HashMap::new();
    let mut ordinals = Vec::with_capacity(entries.len());
    for entry in entries {
        let count = counts.entry(likeness(entry)).or_default();
        *count += 1;
        ordinals.push(*count);
    }
    let repeated = entries.iter().map(|entry| counts[&likeness(entry)] > 1);
    (ordinals, repeated.collect())
}
