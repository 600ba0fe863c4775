//! `yurzhoad select RULE LIBRARY` on fixed libraries.

use evaluator::samples::documents::with_line;
use evaluator::samples::selections::{CASES_ON_X, GROUPS};
use evaluator::samples::{document, X};

use crate::desk::{accepted, failed, run_inside, Desk, Ran};

/// Document X as lines of `select`.
const LINES: [&str; 5] = [
    "0\t/lib\tlib\t\n",
    "1\t/lib/drug[1]\tdrug\t\n",
    "2\t/lib/drug[1]/@name\tname\theparin\n",
    "3\t/lib/drug[2]\tdrug\t\n",
    "4\t/lib/drug[2]/@name\tname\theparin\n",
];

#[test]
fn the_cases_m_on_document_x() {
    let desk = Desk::with("x.txt", X);
    for (rule, nodes) in CASES_ON_X {
        let lines: String = nodes.iter().map(|node| LINES[*node]).collect();
        let count = format!("{}\n", nodes.len());
        assert_eq!(desk.run(["select", rule, "x.txt"]), accepted(&lines));
        let plain = desk.run(["select", "--plain", rule, "x.txt"]);
        assert_eq!(plain, accepted(&lines));
        let counted = desk.run(["select", "--count", rule, "x.txt"]);
        assert_eq!(counted, accepted(&count));
        let both = desk.run(["select", "--both", rule, "x.txt"]);
        assert_eq!(both, agreed(&lines, nodes.len(), "5 nodes"));
    }
}

fn agreed(out: &str, selected: usize, nodes: &str) -> Ran {
    let err = format!("yurzhoad: both evaluations agree: {selected} of {nodes} selected\n");
    Ran {
        status: 0,
        out: out.to_string(),
        err,
    }
}

#[test]
fn both_with_each_kind_of_output() {
    let desk = Desk::with("x.txt", X);
    let rule = "(.l[:name]=..r*rl)";
    assert_eq!(
        desk.run(["select", "--both", "--count", rule, "x.txt"]),
        agreed("1\n", 1, "5 nodes")
    );
    assert_eq!(
        desk.run(["select", "--both", "--json", rule, "x.txt"]),
        agreed(
            "{\"accepted\":true,\"selected\":1,\"snippets\":19,\"nodes\":[{\"node\":1,\
             \"path\":\"/lib/drug[1]\",\"label\":\"drug\",\"value\":\"\"}]}\n",
            1,
            "5 nodes"
        )
    );
    desk.put("one.txt", document(&[('e', 0, "lib", "")]));
    assert_eq!(
        desk.run(["select", "--both", "--count", ":lib", "one.txt"]),
        agreed("1\n", 1, "1 node")
    );
}

#[test]
fn every_fixed_selection_of_the_evaluator() {
    let mut cases = 0;
    for (name, selections) in GROUPS {
        for case in selections() {
            let ran = run_inside(&case.document, ["select", case.rule, "-"]);
            assert_eq!((ran.status, ran.err.as_str()), (0, ""), "{name}");
            let fields = |line: &str| line.split('\t').count();
            assert!(ran.out.lines().all(|line| fields(line) == 4), "{name}");
            let number = |line: &str| line.split('\t').next().and_then(|text| text.parse().ok());
            let nodes: Option<Vec<usize>> = ran.out.lines().map(number).collect();
            assert_eq!(nodes.as_deref(), Some(case.marked), "{name}: {}", case.rule);
            cases += 1;
        }
    }
    assert!(cases > 50, "{cases}");
}

#[test]
fn paths_and_values_of_every_kind() {
    let library = document(&[
        ('e', 0, "lib", ""),
        ('e', 1, "drug", ""),
        ('a', 2, "name", " a \\ \"b\" "),
        ('a', 2, "area", ""),
        ('t', 2, "text", "5"),
        ('e', 2, "text", ""),
        ('t', 3, "text", " mg"),
        ('t', 2, "text", "/ml"),
    ]);
    let desk = Desk::with("lib.txt", library);
    let due = "0\t/lib\tlib\t5 mg/ml\n\
               1\t/lib/drug\tdrug\t5 mg/ml\n\
               2\t/lib/drug/@name\tname\t a \\ \"b\" \n\
               3\t/lib/drug/@area\tarea\t\n\
               4\t/lib/drug/text()[1]\ttext\t5\n\
               5\t/lib/drug/text\ttext\t mg\n\
               6\t/lib/drug/text/text()\ttext\t mg\n\
               7\t/lib/drug/text()[2]\ttext\t/ml\n";
    assert_eq!(desk.run(["select", "(e=e)", "lib.txt"]), accepted(due));
}

/// Selected by the bare name, and shown as they stand in the library.
#[test]
fn padded_values_are_selected_and_shown_with_their_blanks() {
    let library = document(&[
        ('e', 0, "lib", ""),
        ('a', 1, "name", "  heparin "),
        ('a', 1, "note", "   "),
        ('t', 1, "text", " 5 "),
        ('t', 1, "text", "mg "),
    ]);
    let desk = Desk::with("lib.txt", &library);
    let name = "1\t/lib/@name\tname\t  heparin \n";
    let selected = [
        ("(e=\"heparin\")", name),
        ("(e=\" heparin  \")", name),
        ("(e=\"\")", "2\t/lib/@note\tnote\t   \n"),
        ("(e=\"5\")", "3\t/lib/text()[1]\ttext\t 5 \n"),
        ("(e=\"5 mg\")", "0\t/lib\tlib\t 5 mg \n"),
        ("(e=\"5mg\")", ""),
    ];
    for (rule, line) in selected {
        let both = desk.run(["select", "--both", rule, "lib.txt"]);
        assert_eq!(both, agreed(line, line.lines().count(), "5 nodes"));
    }
    let object = "{\"accepted\":true,\"selected\":1,\"snippets\":0,\"nodes\":[{\"node\":1,\
                  \"path\":\"/lib/@name\",\"label\":\"name\",\"value\":\"  heparin \"}]}\n";
    let json = desk.run(["select", "--json", "(e=\"heparin\")", "lib.txt"]);
    assert_eq!(json, accepted(object));
    let kept = std::fs::read(desk.path("lib.txt")).expect("a file");
    assert_eq!(kept, library);
}

/// Drugs with at least so many nodes directly inside.
#[test]
fn entries_are_selected_by_a_count() {
    let desk = Desk::with("x.txt", X);
    let (library, drugs) = (LINES[0], [LINES[1], LINES[3]].concat());
    for (rule, lines) in [
        ("#2.l*r", library),
        ("&:drug#1.l*r", &drugs),
        ("&:drug!#2.l*r", &drugs),
        ("#5*+l+r+LR", &LINES.concat()),
        ("#6*+l+r+LR", ""),
        ("#4096e", ""),
    ] {
        let both = desk.run(["select", "--both", rule, "x.txt"]);
        assert_eq!(both, agreed(lines, lines.lines().count(), "5 nodes"));
    }
    let counted = desk.run(["select", "--count", "#2.l*r", "x.txt"]);
    assert_eq!(counted, accepted("1\n"));
}

#[test]
fn refusals_name_the_library_or_the_rule() {
    let desk = Desk::with("x.txt", X);
    desk.put("bad.txt", with_line(7, "kind=x"));
    let library = "yurzhoad: bad.txt: the document is refused: number 2 at line 7: due here is \
                   `kind=` and one of `e`, `a` and `t`\n  7 | kind=x\n";
    let rule = "yurzhoad: the rule is refused: number 6 at offset 2: \
                it does not read on from here\n  :a!\n    ^\n";
    for option in ["--plain", "--both", "--count"] {
        let run = |rule, library| desk.run(["select", option, rule, library]);
        assert_eq!(run(":a", "bad.txt"), failed(1, library));
        assert_eq!(run(":a!", "x.txt"), failed(1, rule));
        // The library is judged first.
        assert_eq!(run(":a!", "bad.txt"), failed(1, library));
    }
}
