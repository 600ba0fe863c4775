//! A rule that the archive accepted.

use crate::archive;
use crate::refusal::Refusal;

/// A checked rule: one test by which nodes are selected. It asks for a label
/// (`:drug`), compares values that paths lead to (`(l="heparin")`), or counts the
/// nodes that a path leads to (`#3.l*r`), and joins or denies such tests.
///
/// It borrows the bytes that were checked, so that they cannot change behind
/// it. They are kept as they are written, though a constant is compared without
/// the blanks at its ends.
///
/// ```
/// use yurzhoad::Rule;
///
/// let rule = Rule::check(":drug")?;
/// assert_eq!(rule.as_str(), ":drug");
/// # Ok::<(), yurzhoad::Refusal>(())
/// ```
#[derive(Clone, Copy, Debug, PartialEq, Eq, Hash)]
pub struct Rule<'a> {
    text: &'a str,
}

impl<'a> Rule<'a> {
    /// Has the archive check a rule. A string does, and so do bytes.
    ///
    /// # Errors
    ///
    /// The refusal, by numbers 5 to 9.
    ///
    /// ```
    /// use yurzhoad::{Ground, Rule};
    ///
    /// let refusal = Rule::check(&"!".repeat(33)).unwrap_err();
    /// assert_eq!(refusal.ground(), Ground::Nesting);
    /// ```
    ///
    /// # Panics
    ///
    /// If an accepted rule is no ASCII. The proved check accepts none such.
    pub fn check<T>(rule: &'a T) -> Result<Rule<'a>, Refusal>
    where
        T: AsRef<[u8]> + ?Sized,
    {
        let bytes = rule.as_ref();
        let answer = archive::check_rule(bytes);
        match Refusal::explain(answer.number, answer.place, &[], bytes) {
            Some(refusal) => Err(refusal),
            None => Ok(Rule {
                text: std::str::from_utf8(bytes).expect("an accepted rule is ASCII"),
            }),
        }
    }

    /// The rule as it was checked.
    pub fn as_str(&self) -> &'a str {
        self.text
    }

    /// The bytes that were checked.
    pub fn bytes(&self) -> &'a [u8] {
        self.text.as_bytes()
    }
}
