//! Random rules explained: the parts that are told against those of the
//! evaluator, which has a reader of its own.

use evaluator::amount::amount;
use evaluator::random::{any_rule, deep_rule, rule, Random};
use evaluator::rule::{counts, parts, Operand, Part, Path, Piece, Sign, Test};
use evaluator::rule_check::{read, steps_of, NESTING_LIMIT, STEP_LIMIT, TEST_LIMIT};
use evaluator::tree::trimmed;

use crate::desk::{run_inside, Desk, Ran};

/// So many rules, most of them explained inside this process.
const CASES: u64 = 4_000;
/// Every so many by the program.
const BY_PROGRAM: u64 = 40;

/// Legal rules of all sizes and depths.
fn draw(random: &mut Random) -> Vec<u8> {
    let size = 2 + random.below(120);
    match random.below(4) {
        0 => rule(random, size).spell(),
        1 => {
            let nesting = 1 + random.below(NESTING_LIMIT);
            let (heads, behind) = deep_rule(random, nesting);
            [heads.concat().as_bytes(), &behind].concat()
        }
        _ => any_rule(random, size).spell(),
    }
}

/// What the line of a part begins with behind its role, from its meaning.
fn meaning(piece: Piece<'_>) -> String {
    match piece {
        Piece::Test(Test::Name(name)) => {
            format!("the label is `{}`", String::from_utf8_lossy(name))
        }
        Piece::Test(Test::Not(_)) => "this does not hold:".to_string(),
        Piece::Test(Test::And(..)) => "both of these hold:".to_string(),
        Piece::Test(Test::Or(..)) => "at least one of these holds:".to_string(),
        Piece::Test(Test::Compare(_, sign, _)) => format!("{}: some node", sign_name(*sign)),
        Piece::Test(Test::AtLeast(nodes, _)) => {
            format!("count: the path reaches at least {}", nodes_words(*nodes))
        }
        Piece::Path(path) => path_words(path).to_string(),
    }
}

fn nodes_words(nodes: usize) -> String {
    match nodes {
        0 => "0 nodes, which holds everywhere".to_string(),
        1 => "1 node".to_string(),
        _ => format!("{nodes} different nodes"),
    }
}

fn sign_name(sign: Sign) -> &'static str {
    match sign {
        Sign::Equal => "equality",
        Sign::Unequal => "inequality",
        Sign::Less => "less",
        Sign::LessOrEqual => "less or equal",
        Sign::Greater => "greater",
        Sign::GreaterOrEqual => "greater or equal",
    }
}

fn path_words(path: &Path) -> &'static str {
    match path {
        Path::Empty => "stay at the node",
        Path::Left => "to the first node inside, attributes included",
        Path::Right => "to the next sibling",
        Path::FromLeft => "from the first node inside back to the element around it",
        Path::FromRight => "back to the sibling before",
        Path::Stay(_) => "stay at the node if",
        Path::Then(..) => "one after the other:",
        Path::Either(..) => "either of these:",
        Path::Repeat(_) => "zero or more times:",
    }
}

/// The paths directly inside comparisons and counts, with what stands before
/// their words.
fn roles(all: &[Part<'_>]) -> Vec<(*const Path, &'static str)> {
    let mut roles: Vec<(*const Path, &'static str)> = Vec::new();
    for part in all {
        match part.piece {
            Piece::Test(Test::Compare(first, _, Operand::Path(second))) => {
                roles.push((first, "first path: "));
                roles.push((second, "second path: "));
            }
            Piece::Test(Test::Compare(only, _, Operand::Constant(_)) | Test::AtLeast(_, only)) => {
                roles.push((only, "path: "));
            }
            _ => {}
        }
    }
    roles
}

fn assert_line(line: &str, width: usize, part: &Part<'_>, roles: &[(*const Path, &str)]) {
    let role = match part.piece {
        Piece::Path(path) => roles.iter().find(|(own, _)| std::ptr::eq(*own, path)),
        Piece::Test(_) => None,
    };
    let role = role.map_or("", |(_, role)| role);
    let indent = " ".repeat(2 * (part.nesting - 1));
    let (offset, words) = (part.offset, meaning(part.piece));
    let due = format!("{offset:width$}  {indent}{role}{words}");
    assert!(line.starts_with(&due), "{line}\n{due}");
    if let Piece::Test(Test::Compare(_, sign, operand)) = part.piece {
        assert_order_told(line, *sign, operand);
    }
    match part.piece {
        Piece::Test(Test::Compare(_, _, Operand::Constant(text))) => {
            let text = String::from_utf8_lossy(text);
            let compared = text.trim_matches(' ');
            assert!(line.contains(&format!(" \"{compared}\"")), "{line}");
            let told = line.contains("blanks at the ends do not count)");
            assert_eq!(told, compared != text, "{line}");
        }
        Piece::Test(Test::Compare(..)) => {
            assert!(line.contains(" some node reached by the second"), "{line}");
        }
        // Nothing is said of a part but what it is.
        _ => assert_eq!(line, due),
    }
}

/// What the order signs compare is told, and where they never hold.
fn assert_order_told(line: &str, sign: Sign, operand: &Operand) {
    let order = !matches!(sign, Sign::Equal | Sign::Unequal);
    let note = match operand {
        _ if !order => "",
        Operand::Constant(text) if amount(trimmed(text)).is_none() => {
            ", compared by amount: it never holds, since the constant is no numeral"
        }
        _ => ", compared by amount: 9 is less than 10; it fails on values that are no numerals",
    };
    assert!(line.ends_with(note), "{line}");
    let told = line.contains(", compared by amount: ");
    // A constant might have these words too.
    assert!(
        told == order || matches!(operand, Operand::Constant(_)),
        "{line}"
    );
}

/// The steps of each comparison and each count, with its offset.
fn steps(all: &[Part<'_>]) -> Vec<(usize, usize)> {
    let of = |part: &Part<'_>| Some((part.offset, steps_of(part.piece.test()?)?));
    all.iter().filter_map(of).collect()
}

fn summary(all: &[Part<'_>]) -> String {
    let tests = all.iter().filter(|part| part.piece.is_test()).count();
    let nesting = all.iter().map(|part| part.nesting).max().unwrap_or(0);
    let plural = |number: usize| if number == 1 { "" } else { "s" };
    let compared = match &steps(all)[..] {
        [] => "no comparison or count".to_string(),
        [(_, one)] => format!("{one} step{} of {STEP_LIMIT}", plural(*one)),
        several => {
            let each = several.iter().map(|(at, steps)| format!("{steps} at {at}"));
            let each: Vec<String> = each.collect();
            format!("steps of {STEP_LIMIT}: {}", each.join(", "))
        }
    };
    let ending = plural(tests);
    format!(
        "{tests} test{ending} of {TEST_LIMIT}, nesting {nesting} of {NESTING_LIMIT}, {compared}"
    )
}

fn assert_explained(ran: &Ran, test: &Test) {
    assert_eq!((ran.status, ran.err.as_str()), (0, ""));
    let all = parts(test);
    let lines: Vec<&str> = ran.out.lines().collect();
    assert_eq!(lines.len(), all.len() + 3);
    assert_eq!(lines[0], "A node is selected if");
    let last = all.last().expect("a rule is a part");
    let width = last.offset.to_string().len();
    let roles = roles(&all);
    for (line, part) in lines[1..].iter().zip(&all) {
        assert_line(line, width, part, &roles);
    }
    let due = summary(&all);
    assert_eq!(lines[all.len() + 1..], ["", &due]);
}

/// How much the rules exercised.
#[derive(Default)]
struct Exercise {
    parts: usize,
    nesting: usize,
    tests: usize,
    steps: usize,
    /// Of all rules together.
    counts: usize,
}

#[test]
fn random_rules_are_explained_part_by_part() {
    let desk = Desk::new();
    let mut seen = Exercise::default();
    for seed in 0..CASES {
        let rule = draw(&mut Random::new(seed));
        let Ok(test) = read(&rule) else {
            panic!("seed {seed} draws a rule that is refused");
        };
        let text = String::from_utf8(rule).expect("a rule is ASCII");
        let ran = match seed % BY_PROGRAM {
            0 => desk.run(["explain", "--", &text]),
            _ => run_inside(b"", ["explain", "--", &text]),
        };
        println!("seed {seed}: {text}");
        assert_explained(&ran, &test);
        let checked = run_inside(text.as_bytes(), ["check", "--rule", "-"]);
        let all = parts(&test);
        assert_eq!(checked.out, format!("accepted: {}\n", summary(&all)));
        seen.parts = seen.parts.max(all.len());
        seen.nesting = all
            .iter()
            .map(|part| part.nesting)
            .fold(seen.nesting, usize::max);
        let tests = all.iter().filter(|part| part.piece.is_test()).count();
        seen.tests = seen.tests.max(tests);
        seen.counts += counts(&test).len();
        seen.steps = steps(&all)
            .iter()
            .map(|(_, steps)| *steps)
            .fold(seen.steps, usize::max);
    }
    assert!(seen.parts > 150, "{}", seen.parts);
    assert_eq!(seen.nesting, NESTING_LIMIT);
    assert!(seen.tests > 50, "{}", seen.tests);
    assert_eq!(seen.steps, STEP_LIMIT);
    assert!(seen.counts > 2_000, "{}", seen.counts);
}
