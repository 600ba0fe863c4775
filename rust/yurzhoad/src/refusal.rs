//! Why a document, a rule or a call is refused.

use std::error::Error;
use std::fmt::{self, Display, Formatter};

use crate::excerpt;
use crate::words;

/// The ground of a refusal. Its value is the number.
#[derive(Clone, Copy, Debug, PartialEq, Eq, Hash, PartialOrd, Ord)]
#[non_exhaustive]
#[repr(u16)]
pub enum Ground {
    /// The document has too many bytes.
    DocumentLength = 1,
    /// A line is not of the form that is due there, is missing, is extra or
    /// has no LF.
    LineForm = 2,
    /// The number of nodes is 0 or too large.
    NodeCount = 3,
    /// A tree rule is broken on this line.
    TreeRule = 4,
    /// The rule has too many bytes.
    RuleLength = 5,
    /// The rule does not read on.
    Unreadable = 6,
    /// A part of the rule is nested too deep.
    Nesting = 7,
    /// The rule has too many tests.
    Tests = 8,
    /// A comparison or a count has too many steps.
    Steps = 9,
    /// The scratch is too short.
    ScratchLength = 10,
    /// There are fewer marks than nodes.
    MarksLength = 11,
    /// A node of the list is none of the document.
    NoSuchNode = 13,
    /// The attribute has the label of another one of its element.
    DuplicateAttribute = 14,
    /// The rule is not the comparison that the call is for: one equality between
    /// two paths.
    OtherComparison = 23,
}

impl Ground {
    /// All grounds, by rising numbers. No call hands back 12 or 15 to 22, nor 24 and above.
    pub const ALL: [Ground; 14] = [
        Ground::DocumentLength,
        Ground::LineForm,
        Ground::NodeCount,
        Ground::TreeRule,
        Ground::RuleLength,
        Ground::Unreadable,
        Ground::Nesting,
        Ground::Tests,
        Ground::Steps,
        Ground::ScratchLength,
        Ground::MarksLength,
        Ground::NoSuchNode,
        Ground::DuplicateAttribute,
        Ground::OtherComparison,
    ];

    /// The ground of this number, if there is one.
    pub fn from_number(number: u16) -> Option<Ground> {
        Ground::ALL
            .into_iter()
            .find(|ground| ground.number() == number)
    }

    /// The number: 1 to 11, 13, 14 or 23.
    pub fn number(self) -> u16 {
        self as u16
    }
}

/// A refusal: number, place and words.
///
/// `{}` prints one line. `{:#}` prints the excerpt below it.
///
/// ```
/// use yurzhoad::Rule;
///
/// let refusal = Rule::check(":a!").unwrap_err();
/// assert_eq!((refusal.number(), refusal.place()), (6, 2));
/// assert_eq!(refusal.words(), "it does not read on from here");
/// assert_eq!(refusal.excerpt(), Some("  :a!\n    ^"));
/// ```
#[derive(Clone, Debug, PartialEq, Eq, Hash)]
pub struct Refusal {
    ground: Ground,
    place: usize,
    words: String,
    excerpt: Option<String>,
}

impl Refusal {
    /// The refusal of an answer of the [`archive`](crate::archive), in words:
    /// number and place as they were handed back, and what was handed in. Of a
    /// check, the other of document and rule may be empty.
    ///
    /// `None` if the number is that of no refusal, as 0 is.
    ///
    /// ```
    /// use yurzhoad::{archive, Refusal};
    ///
    /// let document = b"nodes=1\ndepth=0\nkind=e\nlabel=lib\nvalue=\n";
    /// let answer = archive::evaluate_plain(document, b":lib", &mut [], &mut []);
    /// let refusal = Refusal::explain(answer.number, answer.place, document, b":lib").unwrap();
    /// assert_eq!(
    ///     refusal.words(),
    ///     "the scratch is too short: 192 words are needed for 1 node"
    /// );
    /// ```
    pub fn explain(number: u16, place: usize, document: &[u8], rule: &[u8]) -> Option<Refusal> {
        let ground = Ground::from_number(number)?;
        Some(Refusal {
            ground,
            place,
            words: words::of(ground, place, document, rule),
            excerpt: excerpt::of(ground, place, document, rule),
        })
    }

    /// The ground of the refusal.
    pub fn ground(&self) -> Ground {
        self.ground
    }

    /// The number of the ground: 1 to 11, 13, 14 or 23.
    pub fn number(&self) -> u16 {
        self.ground.number()
    }

    /// The place: in a document a line, from 1; in a rule an offset, from 0;
    /// and 0 where the ground has no place.
    pub fn place(&self) -> usize {
        self.place
    }

    /// What is wrong there, in words.
    pub fn words(&self) -> &str {
        &self.words
    }

    /// The line of the document with its number, or the rule with a caret under
    /// the byte: one or two lines without LF at the end. `None` where the
    /// ground has no place.
    pub fn excerpt(&self) -> Option<&str> {
        self.excerpt.as_deref()
    }
}

impl Display for Refusal {
    fn fmt(&self, f: &mut Formatter<'_>) -> fmt::Result {
        let (number, place) = (self.number(), self.place);
        let (refused, at) = match self.ground {
            Ground::DocumentLength => ("document", "place"),
            Ground::LineForm
            | Ground::NodeCount
            | Ground::TreeRule
            | Ground::DuplicateAttribute => ("document", "line"),
            Ground::RuleLength | Ground::OtherComparison => ("rule", "place"),
            Ground::Unreadable | Ground::Nesting | Ground::Tests | Ground::Steps => {
                ("rule", "offset")
            }
            Ground::ScratchLength | Ground::MarksLength | Ground::NoSuchNode => ("call", "place"),
        };
        let words = &self.words;
        write!(
            f,
            "the {refused} is refused: number {number} at {at} {place}: {words}"
        )?;
        match &self.excerpt {
            Some(excerpt) if f.alternate() => write!(f, "\n{excerpt}"),
            _ => Ok(()),
        }
    }
}

impl Error for Refusal {}
