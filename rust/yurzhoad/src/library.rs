//! A library document that the archive accepted, and its entries.

use std::fmt;
use std::iter::FusedIterator;

use crate::archive;
use crate::refusal::Refusal;
use crate::table::Table;

/// A checked library document.
///
/// It borrows the bytes that were checked, so that they cannot change behind
/// it. It is as cheap to copy as the slice. Its values are shown as they stand
/// in the document; a rule compares them without the blanks at their ends.
///
/// ```
/// use yurzhoad::{Kind, Library};
///
/// let document = "\
/// nodes=2
/// depth=0
/// kind=e
/// label=drug
/// value=
/// depth=1
/// kind=t
/// label=text
/// value=5 mg
/// ";
/// let library = Library::check(document)?;
/// assert_eq!(library.nodes(), 2);
///
/// let text = library.entries().find(|entry| entry.kind == Kind::Text).unwrap();
/// assert_eq!((text.number, text.depth, text.value), (1, 1, "5 mg"));
/// # Ok::<(), yurzhoad::Refusal>(())
/// ```
#[derive(Clone, Copy, PartialEq, Eq, Hash)]
pub struct Library<'a> {
    text: &'a str,
    nodes: usize,
}

impl<'a> Library<'a> {
    /// Has the archive check a document. A string does, and so do bytes.
    ///
    /// # Errors
    ///
    /// The refusal, by numbers 1 to 4 and 14.
    ///
    /// ```
    /// use yurzhoad::{Ground, Library};
    ///
    /// let refusal = Library::check("nodes=0\n").unwrap_err();
    /// assert_eq!(refusal.ground(), Ground::NodeCount);
    /// ```
    ///
    /// # Panics
    ///
    /// If an accepted document is no ASCII. The proved check accepts none such.
    pub fn check<T>(document: &'a T) -> Result<Library<'a>, Refusal>
    where
        T: AsRef<[u8]> + ?Sized,
    {
        let bytes = document.as_ref();
        let answer = archive::check_document(bytes);
        match Refusal::explain(answer.number, answer.place, bytes, &[]) {
            Some(refusal) => Err(refusal),
            None => Ok(Library {
                text: std::str::from_utf8(bytes).expect("an accepted document is ASCII"),
                nodes: answer.nodes,
            }),
        }
    }

    /// The document as it was checked.
    pub fn as_str(&self) -> &'a str {
        self.text
    }

    /// The bytes that were checked.
    pub fn bytes(&self) -> &'a [u8] {
        self.text.as_bytes()
    }

    /// The number of nodes, N.
    pub fn nodes(&self) -> usize {
        self.nodes
    }

    /// The entries in document order, read from the lines as they are asked for.
    pub fn entries(&self) -> Entries<'a> {
        Entries {
            // The first line has the number of nodes.
            rest: take_line(self.text).1,
            number: 0,
            nodes: self.nodes,
        }
    }

    /// All entries with their parents, for paths and string values.
    pub fn table(&self) -> Table<'a> {
        Table::new(self.entries())
    }
}

/// Short: a document may have a million bytes.
impl fmt::Debug for Library<'_> {
    fn fmt(&self, f: &mut fmt::Formatter<'_>) -> fmt::Result {
        f.debug_struct("Library")
            .field("bytes", &self.text.len())
            .field("nodes", &self.nodes)
            .finish()
    }
}

/// The kind of a node.
#[derive(Clone, Copy, Debug, PartialEq, Eq, Hash)]
pub enum Kind {
    /// An element, `kind=e`.
    Element,
    /// An attribute, `kind=a`. No two of an element have one label.
    Attribute,
    /// A text, `kind=t`.
    Text,
}

/// A node of a library as its four lines say.
#[derive(Clone, Copy, Debug, PartialEq, Eq, Hash)]
pub struct Entry<'a> {
    /// The number of the node, from 0 in document order.
    pub number: usize,
    /// The depth of the node; the first node alone has depth 0.
    pub depth: usize,
    /// The kind of the node.
    pub kind: Kind,
    /// The label of the node.
    pub label: &'a str,
    /// What stands behind `value=`, with the blanks at its ends. That of an
    /// element is empty; its string value is [`Table::value`].
    pub value: &'a str,
}

/// The entries of a library in document order; see [`Library::entries`].
#[derive(Clone, Debug)]
pub struct Entries<'a> {
    /// The lines that were not read yet.
    rest: &'a str,
    number: usize,
    nodes: usize,
}

impl<'a> Entries<'a> {
    /// What stands behind the key on the next line.
    fn field(&mut self, key: &str) -> &'a str {
        let (line, rest) = take_line(self.rest);
        self.rest = rest;
        line.strip_prefix(key)
            .expect("an accepted document has the line that is due")
    }
}

impl<'a> Iterator for Entries<'a> {
    type Item = Entry<'a>;

    fn next(&mut self) -> Option<Entry<'a>> {
        if self.number == self.nodes {
            return None;
        }
        let depth = self.field("depth=");
        let kind = self.field("kind=");
        let entry = Entry {
            number: self.number,
            depth: depth.parse().expect("an accepted depth is a numeral"),
            kind: match kind {
                "e" => Kind::Element,
                "a" => Kind::Attribute,
                _ => Kind::Text,
            },
            label: self.field("label="),
            value: self.field("value="),
        };
        self.number += 1;
        Some(entry)
    }

    fn size_hint(&self) -> (usize, Option<usize>) {
        let left = self.nodes - self.number;
        (left, Some(left))
    }
}

impl ExactSizeIterator for Entries<'_> {}

impl FusedIterator for Entries<'_> {}

/// The first line without its LF, and what stands behind it.
fn take_line(text: &str) -> (&str, &str) {
    text.split_once('\n')
        .expect("an accepted document has all its lines")
}
