//! Request (b) of document 02: what is cut of values and constants, and that
//! nothing else changes.

use evaluator::document::{self, spell, Library};
use evaluator::evaluate::{evaluate, needed_words, Evaluation, Outcome};
use evaluator::meaning::compare;
use evaluator::random::{branching_library, library, padded_ends, rule_about, Random};
use evaluator::rule::{Path, Sign};
use evaluator::samples::document;
use evaluator::snippets::settle;
use evaluator::tree::{trimmed, Tree, BLANK};
use evaluator::uncut::{counts_differ, marks_differ};
use evaluator::{backward, meaning, reader};

#[test]
fn both_ends_are_cut_and_no_more() {
    for (text, due) in [
        ("", ""),
        (" ", ""),
        ("     ", ""),
        ("a", "a"),
        (" a", "a"),
        ("a ", "a"),
        ("   a  ", "a"),
        ("a b", "a b"),
        ("  a   b c  ", "a   b c"),
    ] {
        assert_eq!(trimmed(text.as_bytes()), due.as_bytes(), "{text:?}");
    }
}

#[test]
fn no_other_byte_is_a_blank() {
    for byte in (0..=255).filter(|byte| *byte != BLANK) {
        assert_eq!(trimmed(&[byte]), [byte]);
        assert_eq!(trimmed(&[byte, BLANK, byte]), [byte, BLANK, byte]);
        assert_eq!(trimmed(&[BLANK, byte, BLANK, BLANK]), [byte]);
    }
    assert_eq!(BLANK, b' ');
}

#[test]
fn every_short_text_is_cut_to_what_has_no_blank_at_its_ends() {
    let bytes = [b' ', b'!', b'a'];
    for length in 0..=7 {
        for choice in 0..3_usize.pow(length) {
            let byte = |place: u32| bytes[choice / 3_usize.pow(place) % 3];
            let text: Vec<u8> = (0..length).map(byte).collect();
            let cut = trimmed(&text);
            assert!(!cut.starts_with(b" ") && !cut.ends_with(b" "));
            // With blanks around it, it is the text.
            let fits = |front: &usize| {
                let behind = text.len() - cut.len() - front;
                text == [&vec![BLANK; *front], cut, &vec![BLANK; behind]].concat()
            };
            assert!((0..=text.len() - cut.len()).any(|front| fits(&front)));
        }
    }
}

/// The cut values of a root and all inside it.
fn compared(rows: &[(char, usize, &str, &str)]) -> Vec<String> {
    let tree = Tree::of(&document::read(&document(rows)).expect("a legal document"));
    let cut = |v: usize| String::from_utf8_lossy(tree.compared(v)).into_owned();
    (0..tree.size()).map(cut).collect()
}

#[test]
fn an_element_is_cut_after_its_texts_are_joined() {
    let text = |value| ('t', 1, "text", value);
    // The root's texts, and what is left of the root.
    let cases: [(&[&str], &str); 14] = [
        (&[], ""),
        (&["", ""], ""),
        (&[" ", "", "  "], ""),
        (&[" ", "a"], "a"),
        (&["a", " "], "a"),
        (&[" ", " ", "a", " ", "  "], "a"),
        (&[" a ", " b "], "a  b"),
        (&["a ", "b"], "a b"),
        (&["a", " b"], "a b"),
        (&["a", " ", "b"], "a b"),
        (&["a", "  ", "", " ", "b"], "a   b"),
        (&[" a", "b "], "ab"),
        (&["", " a b ", ""], "a b"),
        (&["  a", " ", " ", " b", "  "], "a   b"),
    ];
    for (texts, due) in cases {
        let mut rows = vec![('e', 0, "lib", "")];
        rows.extend(texts.iter().map(|value| text(*value)));
        assert_eq!(compared(&rows)[0], due, "{texts:?}");
        // An attribute is no part of it, and is cut by itself.
        rows.insert(1, ('a', 1, "name", " x "));
        assert_eq!(compared(&rows)[..2], [due, "x"], "{texts:?}");
        // Blanks at the ends of an inner element are inside the outer one.
        let inner = texts.iter().map(|value| ('t', 2, "text", *value));
        let mut rows = vec![('e', 0, "lib", ""), text("<"), ('e', 1, "drug", "")];
        rows.extend(inner.chain([text(">")]));
        let values = compared(&rows);
        assert_eq!(values[0], format!("<{}>", texts.concat()), "{texts:?}");
        assert_eq!(values[2], due, "{texts:?}");
    }
}

#[test]
fn the_string_value_is_not_altered() {
    let rows = [
        ('e', 0, "lib", ""),
        ('a', 1, "a", " x "),
        ('t', 1, "text", " y "),
    ];
    let library = document::read(&document(&rows)).expect("a legal document");
    let tree = Tree::of(&library);
    assert_eq!(tree.values, [b" y ", b" x ", b" y "]);
    assert_eq!(library.nodes[1].value, b" x ");
}

/// A text in several spellings of which it is left.
fn spellings(text: &str) -> [String; 4] {
    [("", ""), (" ", ""), ("", " "), ("  ", "   ")]
        .map(|(front, behind)| format!("{front}{text}{behind}"))
}

#[test]
fn every_sign_compares_cut_values_with_cut_constants() {
    let texts = ["", "a", "ab", "a b", "a  b", "!", "9", "10", "-0.5"];
    let pairs = texts.iter().flat_map(|a| texts.map(|b| (*a, b)));
    for (value, constant) in pairs {
        for (front, spelled) in spellings(value).iter().enumerate() {
            let rows = [('e', 0, "lib", ""), ('a', 1, "n", spelled.as_str())];
            let library = document::read(&document(&rows)).expect("a legal document");
            let tree = Tree::of(&library);
            for sign in Sign::ALL {
                let constant_as = &spellings(constant)[(front + value.len()) % 4];
                let shown = String::from_utf8_lossy(sign.spell()).into_owned();
                let rule = format!("(e{shown}\"{constant_as}\")");
                let test = reader::read(rule.as_bytes());
                let due = compare(sign, value.as_bytes(), constant.as_bytes());
                for holds in [meaning::holds, backward::holds] {
                    assert_eq!(holds(&tree, &test)[1], due, "{spelled:?}: {rule}");
                }
            }
        }
    }
}

#[test]
fn groups_become_equal_by_being_cut() {
    // 1 to 4 are a row of attributes; only cut they are one group.
    let row = |values: [&str; 4]| {
        let labels = ["n1", "n2", "n3", "n4"];
        let mut rows = vec![('e', 0, "lib", "")];
        rows.extend(labels.into_iter().zip(values).map(|(l, v)| ('a', 1, l, v)));
        Tree::of(&document::read(&document(&rows)).expect("a legal document"))
    };
    let repeat = |step: Path| Path::Repeat(Box::new(step));
    let settled = |tree: &Tree| {
        let (p, r) = (repeat(Path::Right), repeat(Path::FromRight));
        settle(tree, &p, &r).snippets
    };
    let bare = settled(&row(["a", "a", "a", "a"]));
    assert!(!bare.is_empty());
    assert_eq!(settled(&row([" a", "a ", "  a  ", "a"])), bare);
    assert_ne!(settled(&row(["a b", "a  b", "ab", "a"])), bare);
    assert_eq!(settled(&row(["", " ", "  ", ""])), settled(&row([""; 4])));
}

/// What both evaluations hand back of an accepted pair.
fn evaluated(library: &Library, rule: &[u8]) -> [(Outcome, Option<Vec<u8>>); 2] {
    let (document, nodes) = (spell(library), library.nodes.len());
    [Evaluation::Plain, Evaluation::Snippets]
        .map(|kind| evaluate(&document, rule, needed_words(nodes), nodes, kind))
}

#[test]
fn blanks_that_are_cut_change_no_mark_and_no_count() {
    let (mut some, mut counted, mut mattered) = (0, 0, 0);
    for seed in 0..2_000 {
        let random = &mut Random::new(seed);
        let nodes = 1 + random.below(20);
        let bare = match random.percent(50) {
            true => library(random, nodes),
            false => branching_library(random, nodes),
        };
        let rule = rule_about(random, 10, &Tree::of(&bare).values);
        let longer = padded_ends(random, &bare);
        let due = evaluated(&bare, &rule.spell());
        let shown = rule.spell().escape_ascii().to_string();
        assert_eq!(
            evaluated(&longer, &rule.spell()),
            due,
            "seed {seed}: {shown}"
        );
        let selected = due[1].0.selected;
        some += usize::from(selected > 0 && selected < nodes);
        counted += usize::from(due[1].0.snippets > 0);
        mattered += usize::from(marks_differ(&longer, &rule));
    }
    println!("{some} marked some nodes, {counted} had snippets, {mattered} mattered");
    assert!(some > 500 && counted > 300 && mattered > 200);
}

#[test]
fn what_would_hold_uncut_is_told_apart() {
    let rows = [
        ('e', 0, "lib", ""),
        ('a', 1, "n", "9"),
        ('a', 1, "m", " 9"),
        ('a', 1, "k", "10"),
    ];
    let library = document::read(&document(&rows)).expect("a legal document");
    for (rule, marks, counts) in [
        ("(e=r)", true, true),
        // With its blank the second is no numeral.
        ("(e<r)", true, false),
        ("(e>=r)", true, false),
        ("(e>r)", false, false),
        ("(e=\"9\")", true, false),
        ("(l=\"9 \")", true, false),
        ("(e>\"9\")", false, false),
        ("(e<\"b\")", false, false),
        (":n", false, false),
    ] {
        let test = reader::read(rule.as_bytes());
        assert_eq!(marks_differ(&library, &test), marks, "{rule}");
        assert_eq!(counts_differ(&library, &test), counts, "{rule}");
    }
}
