//! Rules at the limits: nesting 32, 64 tests, 14 steps and 1,024 bytes.

use crate::rule_agreement::assert_judged;
use evaluator::samples::rules::constants;
use evaluator::samples::{joined, steps};

/// Bytes before a part inside another and behind it.
type Around = (&'static str, &'static str);

const AROUND_TESTS: [Around; 5] = [
    ("!", ""),
    ("&", ":b"),
    ("&:b", ""),
    ("|", ":b"),
    ("|:b", ""),
];
const AROUND_PATHS: [Around; 5] = [("*", ""), (".", "e"), (".e", ""), ("+", "e"), ("+e", "")];
/// A comparison or a count, and a bracket: two parts around the test inside.
const AROUND_BOTH: [Around; 6] = [
    ("([", "]=e)"),
    ("(e>=[", "])"),
    ("([", "]!=\"c\")"),
    ("(l<[", "])"),
    ("#1[", "]"),
    ("#4096[", "]"),
];

fn wrap((before, behind): Around, times: usize, leaf: &str) -> String {
    [&before.repeat(times), leaf, &behind.repeat(times)].concat()
}

/// The rule is accepted up to nesting 32. Above it 7 stays, at the place
/// given, as long as the first byte of the part there does.
fn assert_nesting(rule: &str, nesting: usize, place: usize) {
    let name = format!("nesting {nesting}");
    if nesting <= 32 {
        return assert_judged(name, rule.as_bytes(), (0, 0));
    }
    assert_judged(&name, rule.as_bytes(), (7, place));
    assert_judged(&name, &rule.as_bytes()[..=place], (7, place));
    assert_judged(&name, &rule.as_bytes()[..place], (6, place));
    assert_judged(
        &name,
        &[&rule.as_bytes()[..place], b"X"].concat(),
        (6, place),
    );
}

#[test]
fn nesting_31_to_34_of_tests() {
    for nesting in 31..=34 {
        for around in AROUND_TESTS {
            let rule = wrap(around, nesting - 1, ":a");
            // What is inside the part at nesting 32 begins behind one byte.
            assert_nesting(&rule, nesting, 31 * around.0.len() + 1);
        }
    }
}

#[test]
fn nesting_31_to_34_of_paths() {
    for nesting in 31..=34 {
        for around in AROUND_PATHS {
            // The comparison or the count is one more part around them all.
            let path = wrap(around, nesting - 2, "l");
            let place = 30 * around.0.len() + 1;
            assert_nesting(&format!("({path}=e)"), nesting, 1 + place);
            assert_nesting(&format!("({path}<\"c\")"), nesting, 1 + place);
            assert_nesting(&format!("(e<={path})"), nesting, 4 + place);
            assert_nesting(&format!("#0{path}"), nesting, 2 + place);
            assert_nesting(&format!("#4096{path}"), nesting, 5 + place);
        }
    }
}

#[test]
fn nesting_31_to_34_of_comparisons_counts_and_brackets() {
    for nesting in 31..=34 {
        for around in AROUND_BOTH {
            // Two parts a time, and inside them one part or two.
            let leaves = match nesting % 2 {
                1 => [":a", ":b"],
                _ => ["(e=e)", "#27e"],
            };
            for leaf in leaves {
                let rule = wrap(around, (nesting - 1) / 2, leaf);
                assert_nesting(&rule, nesting, 16 * around.0.len());
            }
        }
    }
}

#[test]
fn tests_63_to_66() {
    for leaf in [":a", "(e=e)", "(.l*R<=\"(:!\")", "#1e", "#4096.l*R"] {
        for sign in ["&", "|"] {
            // 32 leaves and 31 signs, 33 leaves and 32 signs.
            let (most, above) = (joined(sign, leaf, 32), joined(sign, leaf, 33));
            let last = above.len() - leaf.len();
            assert_judged("63 tests", most.as_bytes(), (0, 0));
            assert_judged("64 tests", format!("!{most}").as_bytes(), (0, 0));
            assert_judged("65 tests", above.as_bytes(), (8, last));
            let rule = format!("!{above}");
            assert_judged("66 tests", rule.as_bytes(), (8, 1 + last - leaf.len()));
            // The comparison around a bracket is a test; the bracket is none.
            let inside = format!("([{most}]=e)");
            assert_judged("64 tests", inside.as_bytes(), (0, 0));
            let inside = format!("([{above}]=e)");
            assert_judged("66 tests", inside.as_bytes(), (8, 2 + last - leaf.len()));
            // A count is one test, with any number.
            let counted = format!("#10[{most}]");
            assert_judged("64 tests", counted.as_bytes(), (0, 0));
            let counted = format!("#10[{above}]");
            assert_judged("66 tests", counted.as_bytes(), (8, 4 + last - leaf.len()));
            let second = format!("(e=[!{most}])");
            assert_judged(
                "65 tests",
                second.as_bytes(),
                (8, second.len() - 2 - leaf.len()),
            );
        }
    }
}

/// Every kind of step, alone or with an empty path, which is none. What is
/// inside a bracket is not counted again.
fn kinds_of_step() -> Vec<String> {
    let plain = ["l", "r", "L", "R", "*l", ".er", "+L*e"];
    let mut kinds: Vec<String> = plain.map(String::from).into();
    let inside = joined(".", "l", 14);
    let (compared, counted) = (format!("({inside}=e)"), format!("#14{inside}"));
    for test in [":a", &compared, "([:a]>[:b])", &counted, "#2[#1e]"] {
        kinds.push(format!("[{test}]"));
    }
    kinds
}

#[test]
fn steps_13_to_16() {
    for count in 13..=16 {
        let due = if count <= 14 { (0, 0) } else { (9, 1) };
        let assert_steps = |rule: String| {
            assert_judged(format_args!("{count} steps"), rule.as_bytes(), due);
        };
        for step in kinds_of_step() {
            for sign in [".", "+"] {
                let path = joined(sign, &step, count);
                assert_steps(format!("!({path}=e)"));
                assert_steps(format!("!(e!={path})"));
                assert_steps(format!("!({path}<\"c\")"));
                assert_steps(format!("!#0{path}"));
                assert_steps(format!("!#4096{path}"));
            }
            for first in 1..count {
                let paths = [first, count - first].map(|steps| joined(".", &step, steps));
                assert_steps(format!("!({}>={})", paths[0], paths[1]));
            }
        }
    }
}

#[test]
fn steps_13_to_16_inside_a_bracket() {
    for count in 13..=16 {
        let inner = format!("({}=e)", steps(count));
        let due = |place| if count <= 14 { (0, 0) } else { (9, place) };
        let name = format!("{count} steps inside");
        assert_judged(&name, format!("([{inner}]=e)").as_bytes(), due(2));
        // Those of the outer comparison neither add to them nor hide them.
        let outer = format!("(.[{inner}]{}<[{inner}])", steps(12));
        assert_judged(&name, outer.as_bytes(), due(3));
        let outer = format!("(.[{inner}]{}<[{inner}])", steps(13));
        assert_judged(&name, outer.as_bytes(), (9, 0));
        // The comparison behind one with a bracket starts from 0 again.
        let both = format!("&([(l=r)]=e){inner}");
        assert_judged(&name, both.as_bytes(), due("&([(l=r)]=e)".len()));
    }
}

#[test]
fn steps_13_to_16_of_comparisons_and_counts() {
    let due = |heavy: &[(usize, usize)]| {
        let first = heavy.iter().find(|(steps, _)| *steps > 14);
        first.map_or((0, 0), |(_, place)| (9, *place))
    };
    for (first, second) in (13..=16).flat_map(|one| (13..=16).map(move |other| (one, other))) {
        let name = format!("{first} and {second} steps");
        let compared = |count: usize| format!("({}=e)", steps(count));
        let counted = |count: usize| format!("#20{}", steps(count));
        let behind = |one: String, other: String| {
            let at = 1 + one.len();
            let rule = format!("&{one}{other}");
            assert_judged(&name, rule.as_bytes(), due(&[(first, 1), (second, at)]));
        };
        behind(compared(first), counted(second));
        behind(counted(first), compared(second));
        behind(counted(first), counted(second));
        // The second in a bracket of the first, which is one of its steps.
        let around = steps(first - 1);
        for inner in [compared(second), counted(second)] {
            let rule = format!("#300.[{inner}]{around}");
            assert_judged(&name, rule.as_bytes(), due(&[(first, 0), (second, 6)]));
        }
        let rule = format!("(e=.{around}[{}])", counted(second));
        let place = 5 + around.len();
        assert_judged(&name, rule.as_bytes(), due(&[(first, 0), (second, place)]));
    }
}

/// A rule of just so many bytes: empty paths joined two and two, each but one
/// with a `.`; another `*` if the number of bytes asks for it.
fn empty_paths(bytes: usize) -> String {
    let stars = "*".repeat((bytes - 5) % 2);
    let path = joined(".", "e", (bytes - 5) / 2 + 1);
    format!("({stars}{path}=e)")
}

#[test]
fn bytes_1_023_to_1_025() {
    for bytes in 1_023..=1_025 {
        let unread = |place| if bytes <= 1_024 { (6, place) } else { (5, 0) };
        for rule in [constants(bytes), empty_paths(bytes)] {
            assert_eq!(rule.len(), bytes);
            let due = if bytes <= 1_024 { (0, 0) } else { (5, 0) };
            assert_judged("whole", rule.as_bytes(), due);
            let mut damaged = rule.into_bytes();
            let last = bytes - 1;
            damaged[last] = b'X';
            assert_judged("wrong at its end", &damaged, unread(last));
            damaged[500] = b'\n';
            assert_judged("wrong inside", &damaged, unread(500));
            damaged[0] = 0;
            assert_judged("wrong at its start", &damaged, unread(0));
        }
        // Longer by one byte, so that a rule of 1,024 bytes is too long.
        let longer = constants(bytes - 1) + " ";
        assert_judged("a byte behind", longer.as_bytes(), unread(bytes - 1));
    }
}

#[test]
fn length_is_judged_before_all_else() {
    for byte in [0, b'!', b'(', b'x', 255] {
        for length in [1_025, 2_048, 100_000] {
            assert_judged("too long", &vec![byte; length], (5, 0));
        }
    }
    let longest = |byte: u8| vec![byte; 1_024];
    assert_judged("longest", &longest(b'x'), (6, 0));
    assert_judged("longest", &longest(b'('), (6, 1));
    assert_judged("longest", &longest(b'!'), (7, 32));
}

#[test]
fn names_of_16_and_17_bytes_and_constants_of_32_and_33() {
    let name = |bytes| "n".repeat(bytes);
    let constant = |bytes| "~".repeat(bytes);
    for (before, behind) in [("", ""), ("!", ""), ("|", ":b"), ("([", "]=e)")] {
        let named = |bytes| format!("{before}:{}{behind}", name(bytes));
        let begin = before.len();
        assert_judged("name", named(16).as_bytes(), (0, 0));
        assert_judged("name", named(17).as_bytes(), (6, begin + 17));
        let quoted = |bytes| format!("{before}(e=\"{}\"){behind}", constant(bytes));
        assert_judged("constant", quoted(32).as_bytes(), (0, 0));
        assert_judged("constant", quoted(33).as_bytes(), (6, begin + 36));
    }
}
