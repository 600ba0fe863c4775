//! The proved functions in the archive against the evaluator, which is written
//! from document 01 and the requests (b), (d), (f), (h) and (k) of document 02 and
//! not from their code; and, for request (n), the archive on one document against the
//! archive on the same document with names masked.
//!
//! The proof holds of the source; these tests run what was compiled from it,
//! through the calling convention that other languages use.

mod agreement;
mod amounts;
mod at_least;
mod branching_counts;
mod broken_names;
mod damaged_evaluations;
mod damaged_value_calls;
mod drug_names;
mod evaluation_agreement;
mod evaluation_limits;
mod evaluation_refusals;
mod every_short_rule;
mod every_small_change;
mod every_small_rule_change;
mod fixed_documents;
mod fixed_evaluations;
mod fixed_rules;
mod large_documents;
mod large_evaluations;
mod large_value_lists;
mod lent_memory;
mod many_attributes;
mod masked_agreement;
mod masked_names;
mod padded_large;
mod padded_values;
mod plain_beside_snippets;
mod program_runs;
mod random_documents;
mod random_evaluations;
mod random_repeats;
mod random_rules;
mod rule_agreement;
mod rule_limits;
mod rules_seen;
mod snippet_counts;
mod value_calls;
mod value_orders;
mod value_parts;
mod value_refusals;
