//! A selector of the crate `yurzhoad`, and the command over it, beside the bare
//! call of the archive: what the wrappers cost.

use std::cell::RefCell;
use std::ffi::OsString;
use std::hint::black_box;

use crate::timing::{ratio, time, Subject, Times};
use evaluator::document::{spell, NODE_LIMIT};
use evaluator::samples::libraries::formulary;
use yurzhoad::archive::{evaluate_plain, evaluate_snippets};
use yurzhoad::limits::needed_words;
use yurzhoad::{Library, Method, Rule, Selector};

/// What a rule is, and the rule: the cheapest there are, where a wrapper would
/// show most, and one with snippets.
const RULES: [(&str, &str); 2] = [("a name", ":drug"), ("an equality", "(.l[:name]=..r*rl)")];

const METHODS: [(&str, Method); 2] = [("plain", Method::Plain), ("snippets", Method::Snippets)];

pub fn print() {
    let document = spell(&formulary(NODE_LIMIT));
    let library = Library::check(&document).expect("an accepted document");
    for (name, rule) in RULES {
        let rule = Rule::check(rule).expect("an accepted rule");
        println!("\n{name}: {}, {NODE_LIMIT} nodes", rule.as_str());
        for (method_name, method) in METHODS {
            let subjects = subjects(method, &library, &rule);
            let selected = assert_same_counts(&subjects);
            let times = time(&subjects);
            println!("  {method_name}, {selected} marked");
            for (subject, its) in subjects.iter().zip(&times) {
                print_line(subject.name, its, &times[0]);
            }
        }
    }
}

/// The bare call first: the others are held against it.
fn subjects<'a>(method: Method, library: &'a Library, rule: &'a Rule) -> [Subject<'a>; 3] {
    [
        bare(method, library, rule),
        wrapped(method, library, rule),
        command(method, library, rule),
    ]
}

/// The call of the archive, with buffers that were lent before.
fn bare<'a>(method: Method, library: &'a Library, rule: &'a Rule) -> Subject<'a> {
    let nodes = library.nodes();
    let buffers = RefCell::new((vec![0; needed_words(nodes)], vec![0; nodes]));
    let evaluate = match method {
        Method::Plain => evaluate_plain,
        Method::Snippets => evaluate_snippets,
    };
    let call = move || {
        let (scratch, marks) = &mut *buffers.borrow_mut();
        evaluate(
            black_box(library.bytes()),
            black_box(rule.bytes()),
            scratch,
            marks,
        )
        .selected
    };
    Subject {
        name: "bare",
        bytes: library.bytes().len(),
        call: Box::new(call),
    }
}

/// The same by a selector that is kept.
fn wrapped<'a>(method: Method, library: &'a Library, rule: &'a Rule) -> Subject<'a> {
    let selector = RefCell::new(Selector::new(method));
    let call = move || {
        let mut selector = selector.borrow_mut();
        let selection = selector.select(black_box(library), black_box(rule));
        selection.selected()
    };
    Subject {
        name: "selector",
        bytes: library.bytes().len(),
        call: Box::new(call),
    }
}

/// `yurzhoad select` without the start of its process: it reads the library,
/// checks both, has buffers of its own, and prints each node with its path.
fn command<'a>(method: Method, library: &'a Library, rule: &'a Rule) -> Subject<'a> {
    let mut arguments = vec!["select", rule.as_str(), "-"];
    if method == Method::Plain {
        arguments.push("--plain");
    }
    let arguments: Vec<OsString> = arguments.into_iter().map(OsString::from).collect();
    let call = move || {
        let (mut out, mut err) = (Vec::new(), Vec::new());
        let mut input = black_box(library.bytes());
        let status = yurzhoad_command::run(&arguments, &mut input, &mut out, &mut err);
        assert_eq!(status, 0);
        out.iter().filter(|byte| **byte == b'\n').count()
    };
    Subject {
        name: "command",
        bytes: library.bytes().len(),
        call: Box::new(call),
    }
}

fn assert_same_counts(subjects: &[Subject; 3]) -> usize {
    let [bare, wrapped, command] = subjects.each_ref().map(|subject| (subject.call)());
    assert_eq!((bare, bare), (wrapped, command));
    bare
}

fn print_line(name: &str, its: &Times, bare: &Times) {
    println!(
        "    {name:10}{:9.1} ({:.1}) us, {} times the bare call",
        its.median * 1e6,
        its.fastest * 1e6,
        ratio(its, bare, 3),
    );
}

#[cfg(test)]
mod tests {
    use super::{assert_same_counts, subjects, METHODS, RULES};
    use evaluator::document::spell;
    use evaluator::samples::libraries::formulary;
    use yurzhoad::{Library, Rule};

    #[test]
    fn what_is_timed_counts_alike() {
        let document = spell(&formulary(300));
        let library = Library::check(&document).expect("an accepted document");
        for (name, rule) in RULES {
            let rule = Rule::check(rule).expect("an accepted rule");
            for (_, method) in METHODS {
                let selected = assert_same_counts(&subjects(method, &library, &rule));
                assert!(selected > 0, "{name}");
            }
        }
    }
}
