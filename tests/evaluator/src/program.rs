//! The program: from the bytes of standard input to the text printed.

use crate::evaluate::{evaluate, Evaluation, Outcome};

/// "Up to 65,536 bytes are read; longer input prints number 1."
pub const INPUT_LIMIT: usize = 65_536;
/// "The program lends 32,768 words and 4,096 marks".
const WORDS: usize = 32_768;
const MARKS: usize = 4_096;

pub fn program(input: &[u8]) -> String {
    if input.len() > INPUT_LIMIT {
        let too_long = Outcome {
            number: 1,
            place: 0,
            selected: 0,
            snippets: 0,
        };
        return print(too_long, &[]);
    }
    // "the rule, LF, the document" and "Without an LF all of it is the rule."
    let (rule, document) = match input.iter().position(|byte| *byte == b'\n') {
        Some(length) => (&input[..length], &input[length + 1..]),
        None => (input, &input[input.len()..]),
    };
    let (outcome, marks) = evaluate(document, rule, WORDS, MARKS, Evaluation::Snippets);
    print(outcome, &marks.unwrap_or_default())
}

/// "The first four lines are always there, as in the record; `node=` follows
/// for each marked node, rising."
fn print(outcome: Outcome, marks: &[u8]) -> String {
    let mut text = format!(
        "number={}\nplace={}\nselected={}\nsnippets={}\n",
        outcome.number, outcome.place, outcome.selected, outcome.snippets
    );
    for (node, mark) in marks.iter().enumerate() {
        if *mark == 1 {
            text += &format!("node={node}\n");
        }
    }
    text
}
