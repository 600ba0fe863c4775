//! `yurzhoad select`: the nodes of a library at which a rule holds.

use std::io::{self, Write};

use yurzhoad::{Library, Method, Rule, Selection, Selector, Table};

use crate::failure::Failure;
use crate::input::Input;
use crate::json;
use crate::output::counted;

/// Which evaluations are made.
#[derive(Clone, Debug, PartialEq, Eq)]
pub enum Evaluations {
    Snippets,
    Plain,
    Both,
    /// By snippets, with the values of these nodes alone.
    Values(Vec<u16>),
}

impl Evaluations {
    /// The one whose nodes are written, and the one that it is compared with.
    fn methods(&self) -> (Method, Option<Method>) {
        match self {
            Evaluations::Snippets | Evaluations::Values(_) => (Method::Snippets, None),
            Evaluations::Plain => (Method::Plain, None),
            Evaluations::Both => (Method::Snippets, Some(Method::Plain)),
        }
    }
}

/// How nodes are selected and written.
#[derive(Clone, Debug, PartialEq, Eq)]
pub struct Options {
    pub evaluations: Evaluations,
    /// Only how many nodes are selected, and not which.
    pub count: bool,
    pub json: bool,
}

/// Checks both, selects, and writes the selected nodes. The library is judged
/// first, as an evaluation does.
pub fn select(
    rule: &Input,
    library: &Input,
    options: Options,
    out: &mut dyn Write,
    err: &mut dyn Write,
) -> Result<(), Failure> {
    let library = library.checked_library()?;
    let checked = rule.checked_rule()?;
    let (method, other) = options.evaluations.methods();
    let mut selector = Selector::new(method);
    let selection = match &options.evaluations {
        Evaluations::Values(nodes) => selector
            .select_values(&library, &checked, nodes)
            .map_err(|refusal| rule.refused_with(refusal))?,
        _ => selector.select(&library, &checked),
    };
    if let Some(other) = other {
        let agreed = compare(&library, &checked, &selection, other)?;
        // If standard error is gone, the status says it too.
        let _ = writeln!(err, "yurzhoad: {agreed}");
    }
    Ok(write(&library, &selection, &options, out)?)
}

/// Makes the other evaluation too, the plain one, and says that it agrees.
fn compare(
    library: &Library<'_>,
    rule: &Rule<'_>,
    snippets: &Selection<'_>,
    other: Method,
) -> Result<String, Failure> {
    let mut selector = Selector::new(other);
    let plain = selector.select(library, rule);
    match difference(
        (snippets.selected(), snippets.marks()),
        (plain.selected(), plain.marks()),
    ) {
        Some(words) => Err(Failure::Differ(format!(
            "{words}; by the proof this cannot happen: report it, with the rule and the library"
        ))),
        None => Ok(format!(
            "both evaluations agree: {} of {} selected",
            plain.selected(),
            counted(library.nodes(), "node")
        )),
    }
}

/// How the count and the marks of the snippet evaluation differ from those of
/// the plain one, if they do.
fn difference(snippets: (usize, &[u8]), plain: (usize, &[u8])) -> Option<String> {
    let marks = snippets.1.iter().zip(plain.1);
    if let Some(node) = marks.into_iter().position(|(one, other)| one != other) {
        let (yes, no) = match snippets.1[node] {
            1 => ("snippet", "plain"),
            _ => ("plain", "snippet"),
        };
        return Some(format!(
            "the evaluations differ at node {node}: the {yes} evaluation selects it, \
             the {no} evaluation does not"
        ));
    }
    match snippets.0 == plain.0 {
        true => None,
        false => Some(format!(
            "the evaluations differ: the snippet evaluation counts {} selected, \
             the plain evaluation {}",
            counted(snippets.0, "node"),
            plain.0
        )),
    }
}

fn write(
    library: &Library<'_>,
    selection: &Selection<'_>,
    options: &Options,
    out: &mut dyn Write,
) -> io::Result<()> {
    match (options.json, options.count) {
        (true, true) => writeln!(out, "{{{}}}", counts(selection)),
        (true, false) => write_object(&library.table(), selection, out),
        (false, true) => writeln!(out, "{}", selection.selected()),
        (false, false) => write_lines(&library.table(), selection, out),
    }
}

/// A line for each node. No field has a tab, so a tab ends each but the last.
fn write_lines(
    table: &Table<'_>,
    selection: &Selection<'_>,
    out: &mut dyn Write,
) -> io::Result<()> {
    for node in selection.nodes() {
        let (path, label) = (table.path(node), table.entry(node).label);
        writeln!(out, "{node}\t{path}\t{label}\t{}", table.value(node))?;
    }
    Ok(())
}

/// The object's members without the nodes.
fn counts(selection: &Selection<'_>) -> String {
    let snippets = match selection.snippets() {
        Some(snippets) => snippets.to_string(),
        // It is not 0: they were not counted.
        None => "null".to_string(),
    };
    let selected = selection.selected();
    format!("\"accepted\":true,\"selected\":{selected},\"snippets\":{snippets}")
}

/// Node by node: all their values together may be far longer than the library.
fn write_object(
    table: &Table<'_>,
    selection: &Selection<'_>,
    out: &mut dyn Write,
) -> io::Result<()> {
    write!(out, "{{{},\"nodes\":[", counts(selection))?;
    for (index, node) in selection.nodes().enumerate() {
        let comma = if index > 0 { "," } else { "" };
        let path = json::string(&table.path(node));
        let label = json::string(table.entry(node).label);
        let value = json::string(&table.value(node));
        write!(
            out,
            "{comma}{{\"node\":{node},\"path\":{path},\"label\":{label},\"value\":{value}}}"
        )?;
    }
    writeln!(out, "]}}")
}

#[cfg(test)]
mod tests {
    use super::{difference, Evaluations};
    use yurzhoad::Method;

    /// No output could show that one evaluation was compared with itself.
    #[test]
    fn both_are_two() {
        let both = (Method::Snippets, Some(Method::Plain));
        assert_eq!(Evaluations::Both.methods(), both);
        assert_eq!(Evaluations::Plain.methods(), (Method::Plain, None));
        assert_eq!(Evaluations::Snippets.methods(), (Method::Snippets, None));
        let by_values = Evaluations::Values(vec![0]);
        assert_eq!(by_values.methods(), (Method::Snippets, None));
    }

    #[test]
    fn equal_marks_and_counts_do_not_differ() {
        assert_eq!(difference((1, &[0, 1]), (1, &[0, 1])), None);
    }

    #[test]
    fn the_first_node_that_differs_is_told() {
        let told = difference((1, &[0, 1, 0]), (2, &[0, 0, 1]));
        assert_eq!(
            told.as_deref(),
            Some(
                "the evaluations differ at node 1: the snippet evaluation selects it, \
                 the plain evaluation does not"
            )
        );
        let told = difference((0, &[0]), (1, &[1]));
        assert_eq!(
            told.as_deref(),
            Some(
                "the evaluations differ at node 0: the plain evaluation selects it, \
                 the snippet evaluation does not"
            )
        );
    }

    #[test]
    fn counts_differ_too() {
        let told = difference((1, &[0, 1]), (2, &[0, 1]));
        assert_eq!(
            told.as_deref(),
            Some(
                "the evaluations differ: the snippet evaluation counts 1 node selected, \
                 the plain evaluation 2"
            )
        );
    }
}
