//! Selects the entries of a hospital drug library that a rule picks.
//!
//! A pharmacist's rule, a Regular XPath test, holds or fails at each entry of a
//! library document. Where it holds, the entry is selected: it needs a second
//! pharmacist before release. The checks and the evaluations are done by
//! functions that are proved to meet their contracts. This crate calls them,
//! and adds nothing to what they decide.
//!
//! - [`Library`] is a document that was checked, with its entries to read.
//! - [`Rule`] is a rule that was checked.
//! - [`Selector`] evaluates rules on libraries. It owns the buffers that an
//!   evaluation needs, and uses them again. [`Method`] picks the evaluation.
//!   [`Selector::select_values`] takes an equality by some of its values alone.
//! - [`Selection`] says which nodes are selected.
//! - [`Refusal`] says why a document, a rule or a call is not accepted: a number,
//!   a place and words.
//!
//! What documents and rules look like, and what they mean, is written in the
//! repository's `docs/FORMAT.md`. `=` and `!=` compare values as text, and the
//! order signs compare them as amounts; `#nP` asks for at least n nodes that the
//! path P reaches. [`Selector`] has examples of both.
//!
//! # Building
//!
//! The proved functions come in an archive, `crates/exports/out/libexports.a`.
//! `rt lib` in crates/exports writes it, and so does `.ci/run`. If the archive
//! is elsewhere, name its folder in the environment variable
//! `YURZHOAD_ARCHIVE_DIR`.
//!
//! # Selecting
//!
//! A library of two drugs, each with a name. The rule asks for drugs whose name
//! occurs again in a later drug: `l` leads to the first node inside, `r` to the
//! next node beside.
//!
//! ```
//! use yurzhoad::{Library, Method, Refusal, Rule, Selector};
//!
//! const DOCUMENT: &str = "\
//! nodes=5
//! depth=0
//! kind=e
//! label=lib
//! value=
//! depth=1
//! kind=e
//! label=drug
//! value=
//! depth=2
//! kind=a
//! label=name
//! value=heparin
//! depth=1
//! kind=e
//! label=drug
//! value=
//! depth=2
//! kind=a
//! label=name
//! value=heparin
//! ";
//!
//! fn main() -> Result<(), Refusal> {
//!     let library = Library::check(DOCUMENT)?;
//!     let rule = Rule::check("(.l[:name]=..r*rl)")?;
//!
//!     let mut selector = Selector::new(Method::Snippets);
//!     let selection = selector.select(&library, &rule);
//!     assert_eq!(selection.selected(), 1);
//!     assert_eq!(selection.snippets(), Some(19));
//!     assert_eq!(selection.nodes().collect::<Vec<_>>(), [1]);
//!
//!     // Where the selected nodes stand in the document.
//!     let table = library.table();
//!     let paths: Vec<String> = selection.nodes().map(|node| table.path(node)).collect();
//!     assert_eq!(paths, ["/lib/drug[1]"]);
//!
//!     // The other evaluation selects the same nodes, and counts no snippets.
//!     let mut plain = Selector::new(Method::Plain);
//!     let other = plain.select(&library, &rule);
//!     assert_eq!(other.marks(), selection.marks());
//!     assert_eq!(other.snippets(), None);
//!     Ok(())
//! }
//! ```
//!
//! # Refusals
//!
//! `{}` prints one line, and `{:#}` also the line of the document, or the rule
//! with a caret under the byte.
//!
//! ```
//! use yurzhoad::{Ground, Library, Rule};
//!
//! let refusal = Rule::check("&:drug(l=\"hep\"").unwrap_err();
//! assert_eq!((refusal.number(), refusal.place()), (6, 14));
//! assert_eq!(refusal.ground(), Ground::Unreadable);
//!
//! let refusal = Rule::check("(le=e)").unwrap_err();
//! assert_eq!(
//!     format!("{refusal:#}"),
//!     "\
//! the rule is refused: number 6 at offset 2: it does not read on from here
//!   (le=e)
//!     ^"
//! );
//!
//! let refusal = Library::check("nodes=1\ndepth=0\nkind=a\n").unwrap_err();
//! assert_eq!(
//!     format!("{refusal:#}"),
//!     "\
//! the document is refused: number 4 at line 3: the first node is an element
//!   3 | kind=a"
//! );
//! ```
//!
//! # What a call hands back
//!
//! Below all this is the module [`archive`], with the five functions as the
//! archive has them. Each hands back a record. Its `number` is 0 if the call is
//! accepted; else it is the number of the [`Ground`], and `place` says where:
//! a line of the document from 1, or an offset of the rule from 0. If the call
//! is accepted, `nodes` is the number of nodes, `selected` that of the marked
//! nodes, and `snippets` that of the snippets, which the snippet evaluation
//! counts. If it is refused, these are 0 and no buffer is changed.
//!
//! # Buffers
//!
//! An evaluation writes to two buffers, and they must not overlap each other or
//! what is read. A [`Selector`] sees to it. Where buffers are lent by hand, too
//! short ones are refused by number 10 or 11:
//!
//! ```
//! use yurzhoad::archive::evaluate_plain;
//! use yurzhoad::limits::needed_words;
//!
//! let document = b"nodes=1\ndepth=0\nkind=e\nlabel=lib\nvalue=\n";
//! let mut scratch = vec![0; needed_words(1) - 1];
//! let mut marks = vec![0; 1];
//! let answer = evaluate_plain(document, b":lib", &mut scratch, &mut marks);
//! assert_eq!((answer.number, answer.selected), (10, 0));
//! ```
//!
//! Overlapping ones are refused by the compiler. Here the marks would be
//! written into the document:
//!
//! ```compile_fail,E0502
//! use yurzhoad::archive::evaluate_plain;
//! use yurzhoad::limits::needed_words;
//!
//! let mut document = b"nodes=1\ndepth=0\nkind=e\nlabel=lib\nvalue=\n".to_vec();
//! let mut scratch = vec![0; needed_words(1)];
//! evaluate_plain(&document, b":lib", &mut scratch, &mut document);
//! ```
//!
//! Scratch and marks cannot be one buffer, since their items differ:
//!
//! ```compile_fail,E0308
//! use yurzhoad::archive::evaluate_plain;
//! use yurzhoad::limits::needed_words;
//!
//! let document = b"nodes=1\ndepth=0\nkind=e\nlabel=lib\nvalue=\n";
//! let mut scratch = vec![0_u16; needed_words(1) + 1];
//! let (words, marks) = scratch.split_at_mut(needed_words(1));
//! evaluate_plain(document, b":lib", words, marks);
//! ```
//!
//! And a selection is gone before its marks are written again:
//!
//! ```compile_fail,E0499
//! use yurzhoad::{Library, Method, Rule, Selector};
//!
//! let library = Library::check("nodes=1\ndepth=0\nkind=e\nlabel=lib\nvalue=\n")?;
//! let (one, other) = (Rule::check(":lib")?, Rule::check(":drug")?);
//! let mut selector = Selector::new(Method::Plain);
//! let first = selector.select(&library, &one);
//! let second = selector.select(&library, &other);
//! assert_ne!(first.selected(), second.selected());
//! # Ok::<(), yurzhoad::Refusal>(())
//! ```

#![deny(unsafe_code)]
#![deny(unsafe_op_in_unsafe_fn)]
#![warn(missing_docs)]

#[allow(unsafe_code)]
pub mod archive;
mod excerpt;
mod library;
pub mod limits;
mod refusal;
mod rule;
mod selector;
mod table;
mod words;

pub use library::{Entries, Entry, Kind, Library};
pub use refusal::{Ground, Refusal};
pub use rule::Rule;
pub use selector::{Method, Selection, Selector};
pub use table::Table;

/// The Rust that README shows, run as a test.
#[cfg(doctest)]
#[doc = include_str!("../../../README.md")]
struct Readme;
