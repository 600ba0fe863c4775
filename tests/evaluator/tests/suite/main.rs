//! What document 01 and the requests (b), (d), (f), (h), (k) and (n) of document 02 say,
//! tried on this evaluator: the examples, every row of the table of refusals, and
//! the promises on random documents and rules.

mod amounts;
mod at_least;
mod blanks;
mod calls;
mod document_refusals;
mod examples;
mod failure;
mod masking;
mod meanings;
mod place_chains;
mod program_runs;
mod random_documents;
mod random_pairs;
mod random_rules;
mod relations;
mod repeated_labels;
mod rule_refusals;
mod samples;
mod shrinking;
mod snippet_counts;
mod value_lists;
mod word_positions;
