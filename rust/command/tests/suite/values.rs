//! `yurzhoad select --values NODES`: an equality by some of its values.

use evaluator::samples::value_lists::GROUPS;
use evaluator::samples::{document, X};

use crate::desk::{accepted, failed, run_inside, Desk};
use crate::json::Json;

/// The list as it is written behind the option.
fn spelled(values: &[u16]) -> String {
    let numbers: Vec<String> = values.iter().map(u16::to_string).collect();
    numbers.join(",")
}

#[test]
fn every_fixed_list_of_the_evaluator() {
    let mut cases = 0;
    for (name, lists) in GROUPS {
        for case in lists() {
            let list = spelled(case.values);
            let run = |option| {
                let arguments = ["select", "--values", &list, option, case.rule, "-"];
                run_inside(&case.document, arguments)
            };
            let origin = format!("{name}: {} by {list}", case.rule);
            let counted = format!("{}\n", case.marked.len());
            assert_eq!(run("--count"), accepted(&counted), "{origin}");
            let ran = run("--json");
            assert_eq!((ran.status, ran.err.as_str()), (0, ""), "{origin}");
            let object = Json::read(&ran.out);
            let snippets = Json::Number(case.snippets);
            assert_eq!(object.member("snippets"), &snippets, "{origin}");
            let Json::List(nodes) = object.member("nodes") else {
                panic!("{origin}: a list of nodes");
            };
            let numbers = nodes.iter().map(|node| node.member("node"));
            let marked: Vec<Json> = case.marked.iter().copied().map(Json::Number).collect();
            assert!(numbers.eq(&marked), "{origin}");
            cases += 1;
        }
    }
    assert!(cases > 30, "{cases}");
}

/// The nodes 1 and 3 have the value a, and 2 and 4 have b.
#[test]
fn lists_of_every_form() {
    let mut rows = vec![('e', 0, "lib", "")];
    rows.extend(["a", "b", "a", "b"].map(|value| ('t', 1, "text", value)));
    let desk = Desk::with("lib.txt", document(&rows));
    let (first, second) = (
        "1\t/lib/text()[1]\ttext\ta\n",
        "2\t/lib/text()[2]\ttext\tb\n",
    );
    let both = [first, second].concat();
    for (list, lines) in [
        ("", ""),
        ("0", ""),
        ("3", first),
        ("003", first),
        ("4", second),
        ("1,3,1", first),
        ("2,1", &both),
        ("4,3,2,1,0", &both),
    ] {
        let ran = desk.run(["select", "--values", list, "(e=.rr)", "lib.txt"]);
        assert_eq!(ran, accepted(lines), "{list}");
        let behind = desk.run(["select", "(e=.rr)", "lib.txt", "--values", list]);
        assert_eq!(behind, accepted(lines), "{list}");
    }
    // Two lists are one.
    let two = [
        "select", "--values", "1", "--values", "2", "(e=.rr)", "lib.txt",
    ];
    assert_eq!(desk.run(two), accepted(&both));
    // What the whole rule selects.
    assert_eq!(desk.run(["select", "(e=.rr)", "lib.txt"]), accepted(&both));
}

#[test]
fn other_nodes_and_other_rules_are_refused() {
    let desk = Desk::with("x.txt", X);
    let node = "yurzhoad: the call is refused: number 13 at place 0: \
                a node of the list is not in the document, which has 5 nodes\n";
    for list in ["5", "0,1,5", "65535", "65536", "99999999999999999999999"] {
        let ran = desk.run(["select", "--values", list, "(e=e)", "x.txt"]);
        assert_eq!(ran, failed(1, node), "{list}");
        let ran = desk.run_on(b"(e=e)\n", ["select", "--values", list, "-", "x.txt"]);
        assert_eq!(ran, failed(1, node), "{list}");
    }
    let rule = "the rule is refused: number 23 at place 0: \
                it is not one equality between two paths\n";
    for other in [":drug", "!(e=e)", "(e=\"\")", "(e<e)", "#1e"] {
        // It comes before the nodes.
        let ran = desk.run(["select", "--values", "7", other, "x.txt"]);
        assert_eq!(ran, failed(1, &format!("yurzhoad: {rule}")), "{other}");
        let ran = desk.run_on(other.as_bytes(), ["select", "--values", "0", "-", "x.txt"]);
        let named = format!("yurzhoad: standard input: {rule}");
        assert_eq!(ran, failed(1, &named), "{other}");
    }
    let ran = desk.run(["select", "--json", "--values", "5", "(e=e)", "x.txt"]);
    let object = "{\"accepted\":false,\"number\":13,\"place\":0,\"words\":\"a node of the list \
                  is not in the document, which has 5 nodes\"}\n";
    assert_eq!((ran.status, ran.out.as_str()), (1, object));
    // The library and the rule are judged before.
    let ran = desk.run(["select", "--values", "5", "(e=e", "x.txt"]);
    assert!(ran.err.contains("number 6 at offset 4"), "{}", ran.err);
}
