//! Fixed cases about request (h) of document 02: how a count is spelled, what it
//! holds of, and what it leaves to the comparisons inside it. Each expectation
//! is worked out by hand.

use super::counts::{self, row, CountCase};
use super::rules::{accepted, case, nots, unread, RuleCase};
use super::selections::{on, on_mixed, on_x, Marked, SelectionCase};
use super::{balanced, document, joined, steps, X};

// ── How it is spelled ──

/// Counts of every form: all have between them each number of digits, the most
/// and the least, and every kind of path behind it.
pub const SPELLED: [&str; 16] = [
    "#0e",
    "#1l",
    "#9r",
    "#10L",
    "#99R",
    "#100[:a]",
    "#999.lr",
    "#1000+lr",
    "#3999*l",
    "#4000e",
    "#4095e",
    "#4096.l*r",
    "!#1e",
    "&#1e|#2l:a",
    "#2..l*r[#1.l*r]",
    "(.l[#3.l*r]=[!#0e])",
];

pub(super) fn spelled() -> Vec<RuleCase> {
    let mut cases: Vec<RuleCase> = SPELLED.map(accepted).into();
    for number in 0..=4_096 {
        cases.push(accepted(format!("#{number}e")));
    }
    cases
}

/// n is a number from 0 to 4,096 without leading zeros, and the place is that of
/// the first byte with which no such number and no path goes on.
pub(super) fn unread_numbers() -> Vec<RuleCase> {
    let mut cases = unread([
        ("#", 1),
        ("#e", 1),
        ("#l", 1),
        ("##1e", 1),
        ("#-1e", 1),
        ("#+1e", 1),
        ("# 1e", 1),
        ("#\u{661}e", 1),
        ("#/e", 1),
        ("#:e", 1),
        ("#0", 2),
        ("#00e", 2),
        ("#01e", 2),
        ("#0000e", 2),
        ("#12", 3),
        ("#4096", 5),
        ("#4097e", 4),
        ("#4097", 4),
        ("#4098e", 4),
        ("#4099e", 4),
        ("#4100e", 4),
        ("#4960e", 4),
        ("#5000e", 4),
        ("#9999e", 4),
        ("#40960", 5),
        ("#40960e", 5),
        ("#40961e", 5),
        ("#10000e", 5),
        ("#00000000001e", 2),
    ]);
    cases.push(case(format!("#{}e", "9".repeat(1_000)), 6, 4));
    cases.push(case(format!("#1{}e", "0".repeat(1_000)), 6, 5));
    for number in 4_097..=9_999 {
        cases.push(case(format!("#{number}e"), 6, 4));
    }
    cases
}

/// A count for every text of up to five digits. It is refused where the text
/// goes on as no number from 0 to 4,096 does: behind a leading zero, and at the
/// digit with which it is too large.
pub fn every_number() -> Vec<RuleCase> {
    let begins = |text: &str| {
        let small = text.parse().is_ok_and(|number: usize| number <= 4_096);
        small && (text == "0" || !text.starts_with('0'))
    };
    let judged = |text: &String| {
        let ends = 1..=text.len();
        let read = ends.take_while(|end| begins(&text[..*end])).count();
        match read == text.len() && read > 0 {
            true => accepted(format!("#{text}e")),
            false => case(format!("#{text}e"), 6, 1 + read),
        }
    };
    let mut cases = Vec::new();
    let mut texts = vec![String::new()];
    for _ in 0..=5 {
        cases.extend(texts.iter().map(judged));
        let longer = |text: &String| (0..10).map(|digit| format!("{text}{digit}")).collect();
        texts = texts.iter().flat_map::<Vec<String>, _>(longer).collect();
    }
    cases
}

/// Behind n comes a path and nothing else.
pub(super) fn unread_counts() -> Vec<RuleCase> {
    unread([
        ("#1:a", 2),
        ("#1!:a", 2),
        ("#1(e=e)", 2),
        ("#1#1e", 2),
        ("#1)", 2),
        ("#1]", 2),
        ("#1 e", 2),
        ("#1,000e", 2),
        ("#1.5e", 3),
        ("#1\"e\"", 2),
        ("#1ee", 3),
        ("#1e)", 3),
        ("#1e1", 3),
        ("#1.l", 4),
        ("#1.l)", 4),
        ("#1*", 3),
        ("#1[e]", 3),
        ("#1[:a", 5),
        ("#1[#1e", 6),
        ("#1[#e]", 4),
        ("(#1e=e)", 1),
        ("(e=#1e)", 3),
        ("(e#1e)", 2),
        ("(#1=e)", 1),
        (":#1e", 1),
        (":a#1e", 2),
        ("&#1e", 4),
        ("&#1e#", 5),
        ("([#12]=e)", 5),
        ("([#4097l]=e)", 6),
    ])
}

/// n is no part; the path is one, one deeper than its count.
pub(super) fn nesting() -> Vec<RuleCase> {
    vec![
        accepted(format!("{}#1e", nots(30))),
        accepted(format!("{}#4096e", nots(30))),
        case(format!("{}#1e", nots(31)), 7, 33),
        case(format!("{}#4096l", nots(31)), 7, 36),
        case(format!("{}#1e", nots(32)), 7, 32),
        accepted(format!("#1{}e", "*".repeat(30))),
        case(format!("#1{}e", "*".repeat(31)), 7, 33),
        case(format!("#100{}e", "*".repeat(31)), 7, 35),
        accepted(format!("{}#1[:a]", nots(29))),
        case(format!("{}#1[:a]", nots(30)), 7, 33),
        // A count and its bracket are two parts around what is inside.
        accepted(format!("{}:a{}", "#1[".repeat(15), "]".repeat(15))),
        accepted(format!("{}#1e{}", "#1[".repeat(15), "]".repeat(15))),
        case(format!("{}!#1e{}", "#1[".repeat(15), "]".repeat(15)), 7, 48),
        case(format!("{}:a{}", "#10[".repeat(16), "]".repeat(16)), 7, 64),
        // In what does not read, a part begun inside the prefix.
        case(format!("{}#", nots(31)), 6, 32),
        case(format!("{}#1", nots(31)), 6, 33),
        case(format!("{}#01", nots(31)), 6, 33),
        case(format!("{}#1!", nots(31)), 6, 33),
        case(format!("{}#1*", nots(31)), 7, 33),
        case(format!("{}#1ex", nots(31)), 7, 33),
        case(format!("{}#4097e", nots(31)), 6, 35),
        case(format!("{}#", nots(32)), 7, 32),
        case(format!("{}#0", nots(32)), 7, 32),
        case(format!("{}#4097", nots(32)), 7, 32),
        case(format!("&#{}:a", nots(32)), 6, 2),
        case(format!("&{}:a#", nots(32)), 7, 32),
    ]
}

/// "It is one test".
pub(super) fn tests() -> Vec<RuleCase> {
    let (full, above) = (joined("|", "#1e", 32), joined("|", "#1e", 33));
    let (names, inside) = (balanced(32), format!("#1[!{}]", balanced(32)));
    vec![
        accepted(full.as_str()),
        accepted(format!("!{full}")),
        case(above.as_str(), 8, above.len() - 3),
        case(format!("!!{full}"), 8, 2 + full.len() - 3),
        accepted(format!("#4096[{names}]")),
        case(inside.as_str(), 8, inside.len() - 3),
        accepted(format!("#1[{full}]")),
        case(format!("&#1[{names}]#1e"), 8, names.len() + 2),
    ]
}

/// "its path has its own 14 steps, and 9 has its `#` as place"
pub(super) fn step_limit() -> Vec<RuleCase> {
    let (most, above) = (steps(14), steps(15));
    let mut cases = Vec::new();
    for number in ["0", "1", "27", "4096"] {
        cases.extend([
            accepted(format!("#{number}{most}")),
            case(format!("#{number}{above}"), 9, 0),
            case(format!("!!#{number}{above}"), 9, 2),
            case(format!("&:abc#{number}{above}"), 9, 5),
        ]);
    }
    cases.extend([
        accepted(format!("#1.e+e**{most}")),
        // A bracket is one step, and what is inside it has its own.
        accepted(format!("#1.[#1{most}]{}", steps(13))),
        accepted(format!("#1.[({most}=e)]{}", steps(13))),
        accepted(format!("(.[#1{most}]{}=e)", steps(13))),
        case(format!("#1.[:a]{most}"), 9, 0),
    ]);
    cases
}

/// "of comparisons and counts above 14 the first is named"
pub(super) fn first_above() -> Vec<RuleCase> {
    let count = |steps: &str| format!("#12{steps}");
    let compared = |steps: &str| format!("({steps}=e)");
    let (most, above) = (steps(14), steps(15));
    let (good, long) = (count(&most), count(&above));
    let (good_one, long_one) = (compared(&most), compared(&above));
    let pair = |first: &str, second: &str| format!("&{first}{second}");
    let many = pair(&long, &balanced(33));
    vec![
        // One behind the other.
        case(pair(&long, &long_one), 9, 1),
        case(pair(&long_one, &long), 9, 1),
        case(pair(&long, &long), 9, 1),
        case(pair(&good, &long_one), 9, 1 + good.len()),
        case(pair(&good_one, &long), 9, 1 + good_one.len()),
        case(pair(&good, &long), 9, 1 + good.len()),
        // One inside the other: the outer one begins first.
        case(format!("(.[{long}]{most}=e)"), 9, 0),
        case(format!("#12.[{long_one}]{most}"), 9, 0),
        case(format!("#12.[{long}]{most}"), 9, 0),
        // Only the inner one is above.
        case(format!("(.[{long}]{}=e)", steps(13)), 9, 3),
        case(format!("(e=[{long}])"), 9, 4),
        case(format!("#12.[{long_one}]{}", steps(13)), 9, 5),
        case(format!("#12.[{long}]{}", steps(13)), 9, 5),
        // Two inside one, in both orders.
        case(format!("(.[{long}][{long_one}]<e)"), 9, 3),
        case(format!("#1.[{long_one}][{long}]"), 9, 4),
        case(format!("#1.[{good_one}][{long}]"), 9, 6 + good_one.len()),
        // Every other number goes before it.
        case(format!("{long})"), 6, long.len()),
        case(format!("&{long}#"), 6, long.len() + 2),
        case(format!("&{long}{}:a", nots(32)), 7, long.len() + 32),
        case(many.as_str(), 8, many.len() - "|:a:a".len()),
    ]
}

// ── What it holds of ──

pub(super) fn numbers() -> Vec<SelectionCase> {
    let all: &[usize] = &[0, 1, 2, 3, 4];
    on_x(&[
        ("#0e", all),
        ("#0l", all),
        ("#0[:no]", all),
        ("#1e", all),
        ("#2e", &[]),
        ("#1l", &[0, 1, 3]),
        ("#1r", &[1]),
        ("#1L", &[1, 2, 4]),
        ("#1R", &[3]),
        ("#1[:drug]", &[1, 3]),
        ("#1+lr", &[0, 1, 3]),
        ("#2+lr", &[1]),
        ("#3+lr", &[]),
        ("#2+el", &[0, 1, 3]),
        ("#2*l", &[0, 1, 3]),
        ("#3*l", &[0]),
        ("#4*l", &[]),
        // As many as there are nodes, one more, and the most.
        ("#5*+lr", &[0]),
        ("#6*+lr", &[]),
        ("#5*+l+r+LR", all),
        ("#6*+l+r+LR", &[]),
        ("#4096*+l+r+LR", &[]),
        ("!#1l", &[2, 4]),
        ("!#0l", &[]),
        ("!#4096*+l+r+LR", all),
        // Just one of them.
        ("&#1.l*r!#2.l*r", &[1, 3]),
    ])
}

/// Down to 2 and 3 and up again both lead from 1 to itself.
pub(super) fn once() -> Vec<SelectionCase> {
    let all: &[usize] = &[0, 1, 2, 3, 4];
    on_x(&[
        ("#2+ll", &[]),
        ("#1+ll", &[0, 1, 3]),
        ("#2+ee", &[]),
        ("#2*e", &[]),
        ("#2**e", &[]),
        ("#2.l*e", &[]),
        ("#2.+lr+LR", &[]),
        ("#1.+lr+LR", &[0, 1, 3]),
        ("#2.*e+e[:drug]", &[]),
        ("#3+*l*.l*l", &[0]),
        ("#6.*+l+r+LR*+l+r+LR", &[]),
        ("#5.*+l+r+LR*+l+r+LR", all),
    ])
}

/// `.l*r` leads to the nodes directly inside and `.l*+lr` to all inside, in the
/// document; `*+lr` leads to all below, in the binary tree.
pub(super) fn inside() -> Vec<SelectionCase> {
    on_mixed(&[
        ("#1.l*r", &[0, 1, 4]),
        ("#2.l*r", &[0, 1]),
        ("#3.l*r", &[1]),
        ("#4.l*r", &[1]),
        ("#5.l*r", &[]),
        ("#1.l*+lr", &[0, 1, 4]),
        ("#2.l*+lr", &[0, 1]),
        ("#5.l*+lr", &[0, 1]),
        ("#6.l*+lr", &[0]),
        ("#7.l*+lr", &[0]),
        ("#8.l*+lr", &[]),
        ("#8*+lr", &[0]),
        ("#7*+lr", &[0, 1]),
        ("#5*+lr", &[0, 1, 2]),
        ("#4*+lr", &[0, 1, 2, 3]),
        ("#3*+lr", &[0, 1, 2, 3, 4]),
        ("#2*+lr", &[0, 1, 2, 3, 4]),
        ("#3*+LR", &[2, 3, 4, 5, 6, 7]),
        ("#5*+LR", &[4, 5, 6]),
        ("#6*+LR", &[5, 6]),
        ("#7*+LR", &[]),
        ("#2.r*r", &[2, 3]),
        ("#3.r*r", &[2]),
        ("#1..l*r[:text]", &[0, 1, 4]),
        ("#2..l*r[:text]", &[1]),
        ("#3..l*r[:text]", &[]),
    ])
}

/// Comparisons in brackets of counts, counts in brackets of comparisons, and
/// counts in counts.
pub(super) fn nested() -> Vec<SelectionCase> {
    on_mixed(&[
        ("#1..l*r[(e=\"c\")]", &[1]),
        ("#2..l*r[(e=\"c\")]", &[]),
        ("#1..l*r[(e!=\"c\")]", &[0, 1, 4]),
        ("#2..l*r[(e!=\"c\")]", &[0, 1]),
        ("#3..l*r[(e!=\"c\")]", &[1]),
        // The value of a node inside is that of the element around it.
        ("#1..l*r[(e=.*RL)]", &[0, 4]),
        ("#2..l*r[(e=.*RL)]", &[]),
        ("([#2.l*r]=\"abc\")", &[0, 1]),
        ("([#3.l*r]=\"abc\")", &[1]),
        ("([#0l]=\"abc\")", &[0, 1]),
        ("(.l[#4.l*r]=e)", &[0]),
        ("(.*r[#1.l*r]=\"b\")", &[2, 3, 4]),
        ("(.*r[!#1.l*r]=\"c\")", &[2, 3, 4, 6]),
        ("#1..l*r[#1.l*r]", &[0, 1]),
        ("#2..l*r[#1.l*r]", &[]),
        ("#1..l*r[#1..l*r[#1.l*r]]", &[0]),
        ("#1..l*r[!#1.l*r]", &[0, 1, 4]),
        ("#3..l*r[!#1.l*r]", &[1]),
        ("#1..l*r[#0.l*r]", &[0, 1, 4]),
        ("#3..l*r[(.r[#1e]=.r[(e!=\"\")])]", &[1]),
        ("([#1..l*r[(.l[#1e]=e)]]=e)", &[1]),
        ("&#1L#3.l*r", &[1]),
        ("|#4.l*r(e=\"zz\")", &[1, 2]),
    ])
}

/// "At least three concentrations": drugs 1, 9 and 14 with three, two and none;
/// a fourth one of 1 is inside a care area.
pub(super) fn concentrations() -> Vec<SelectionCase> {
    let concentration = |depth| ('e', depth, "concentration", "");
    let library = document(&[
        ('e', 0, "library", ""),
        ('e', 1, "drug", ""),
        ('a', 2, "name", "heparin"),
        concentration(2),
        ('t', 3, "text", "5"),
        concentration(2),
        ('e', 2, "area", ""),
        concentration(3),
        concentration(2),
        ('e', 1, "drug", ""),
        concentration(2),
        ('t', 3, "text", "5"),
        concentration(2),
        ('t', 3, "text", "10"),
        ('e', 1, "drug", ""),
    ]);
    let cases: [Marked; 11] = [
        ("&:drug#3..l*r[:concentration]", &[1]),
        ("&:drug#2..l*r[:concentration]", &[1, 9]),
        ("&:drug#1..l*r[:concentration]", &[1, 9]),
        ("&:drug#0..l*r[:concentration]", &[1, 9, 14]),
        ("&:drug#4..l*r[:concentration]", &[]),
        ("&:drug#4..l*+lr[:concentration]", &[1]),
        ("&:drug#5..l*+lr[:concentration]", &[]),
        ("&:drug!#3..l*r[:concentration]", &[9, 14]),
        ("&:drug#2..l*r[(e>=\"5\")]", &[9]),
        ("#2..l*r[#2..l*r[:concentration]]", &[0]),
        ("#3..l*r[#2..l*r[:concentration]]", &[]),
    ];
    on(&library, &cases)
}

/// A row of seven: from node v so many are behind it and so many before it.
pub(super) fn rows() -> Vec<SelectionCase> {
    let cases: [Marked; 14] = [
        ("#7.l*r", &[0]),
        ("#8.l*r", &[]),
        ("#7*r", &[1]),
        ("#6*r", &[1, 2]),
        ("#4*r", &[1, 2, 3, 4]),
        ("#4.r*r", &[1, 2, 3]),
        ("#4*R", &[4, 5, 6, 7]),
        ("#7*+rR", &[1, 2, 3, 4, 5, 6, 7]),
        ("#8*+rR", &[]),
        ("#8*+l+rR", &[0]),
        ("#2*.rr", &[1, 2, 3, 4, 5]),
        ("#4*.rr", &[1]),
        ("#3+.rr.RR", &[]),
        ("#2+.rr.RR", &[3, 4, 5]),
    ];
    on(&row(&["a", "b", "a", "c", "a", "b", "a"]), &cases)
}

// ── Snippets ──

/// "It yields no snippets", and the equalities inside it have theirs.
pub(super) fn snippets() -> Vec<CountCase> {
    let cases = [
        ("#2*l", 0),
        ("#0e", 0),
        ("#3.*l[(e!=e)]", 0),
        ("#1[(e=\"\")]", 0),
        ("#1[(e=e)]", 4),
        ("#0[(e=e)]", 4),
        // The session's.
        ("#4096[(.l[:name]=..r*rl)]", 19),
        ("#1[#1[(e=e)]]", 4),
        ("&(e=e)#3.*l[(e=e)]", 8),
        ("(*[#1[(e=e)]]<\"a\")", 4),
        ("#2.[(e=e)]+l[(e=e)]", 8),
        // Where the brackets hold, a start comes to its bracket: so each of the
        // two stretches has two positions of the one path and two of the other.
        ("([#1l]=[#1l])", 16),
        ("([#9e]=[#9e])", 4),
    ];
    let case = |(rule, count)| counts::case(X.as_bytes(), rule, count);
    cases.map(case).into()
}
