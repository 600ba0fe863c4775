//! Runs a property on random input, and reports a failure with its seed and a
//! small input.

use std::panic::{catch_unwind, AssertUnwindSafe};

use evaluator::document::{self, Library, Node};
use evaluator::rule_check;
use evaluator::shrink::{shrink, shrink_rule};

/// Whether the property panics.
fn fails(property: impl FnOnce()) -> bool {
    catch_unwind(AssertUnwindSafe(property)).is_err()
}

/// Asserts a property of bytes.
pub fn assert_on_bytes(seed: u64, bytes: &[u8], property: impl Fn(&[u8])) {
    if fails(|| property(bytes)) {
        let small = shrink(bytes, |bytes| fails(|| property(bytes)));
        panic!("seed {seed}, shrunk to:\n{}", small.escape_ascii());
    }
}

/// Asserts a property of an accepted document and an accepted rule. Of a
/// failure the rule is made small, then the document, then the rule again;
/// only accepted pairs are tried.
pub fn assert_on_pair(seed: u64, library: &Library, rule: &[u8], property: impl Fn(&[u8], &[u8])) {
    let fails_on = |nodes: &[Node], rule: &[u8]| {
        let document = spell_nodes(nodes);
        document::check(&document).number == 0
            && rule_check::check(rule).number == 0
            && fails(|| property(&document, rule))
    };
    if !fails(|| property(&spell_nodes(&library.nodes), rule)) {
        return;
    }
    let rule = shrink_rule(rule, |rule| fails_on(&library.nodes, rule), || true);
    let nodes = shrink(&library.nodes, |nodes| fails_on(nodes, &rule));
    let rule = shrink_rule(&rule, |rule| fails_on(&nodes, rule), || true);
    panic!(
        "seed {seed}, shrunk to:\n{}\n{}",
        String::from_utf8_lossy(&rule),
        String::from_utf8_lossy(&spell_nodes(&nodes))
    );
}

fn spell_nodes(nodes: &[Node]) -> Vec<u8> {
    let nodes = nodes.to_vec();
    document::spell(&Library { nodes })
}
