//! `--json`: the very text of the objects, and that they read as JSON.

use std::collections::BTreeMap;
use std::iter::Peekable;
use std::str::Chars;

use evaluator::samples::documents::with_line;
use evaluator::samples::{document, X};

use crate::desk::{accepted, named_twice, Desk, Ran};

/// A value of JSON, as far as the command has any.
#[derive(Debug, PartialEq, Eq)]
pub enum Json {
    Null,
    Bool(bool),
    Number(usize),
    String(String),
    List(Vec<Json>),
    Object(BTreeMap<String, Json>),
}

impl Json {
    /// Reads one line that is one value; anything else panics.
    pub fn read(line: &str) -> Json {
        let text = line.strip_suffix('\n').expect("the line ends in LF");
        let mut rest = text.chars().peekable();
        let value = Json::value(&mut rest);
        assert_eq!(rest.next(), None, "something stands behind the value");
        value
    }

    pub fn member(&self, name: &str) -> &Json {
        match self {
            Json::Object(members) => &members[name],
            other => panic!("{other:?} has no members"),
        }
    }

    fn value(rest: &mut Peekable<Chars<'_>>) -> Json {
        match rest.peek() {
            Some('{') => Json::Object(list(rest, '}', member).into_iter().collect()),
            Some('[') => Json::List(list(rest, ']', Json::value)),
            Some('"') => Json::String(string(rest)),
            _ => word(rest),
        }
    }
}

/// What stands between brackets, with commas between.
fn list<T>(
    rest: &mut Peekable<Chars<'_>>,
    end: char,
    item: fn(&mut Peekable<Chars<'_>>) -> T,
) -> Vec<T> {
    rest.next();
    let mut items = Vec::new();
    if rest.next_if_eq(&end).is_some() {
        return items;
    }
    loop {
        items.push(item(rest));
        match rest.next() {
            Some(',') => {}
            other => {
                assert_eq!(other, Some(end));
                return items;
            }
        }
    }
}

fn member(rest: &mut Peekable<Chars<'_>>) -> (String, Json) {
    let name = string(rest);
    assert_eq!(rest.next(), Some(':'));
    (name, Json::value(rest))
}

fn string(rest: &mut Peekable<Chars<'_>>) -> String {
    assert_eq!(rest.next(), Some('"'));
    let mut text = String::new();
    loop {
        match rest.next().expect("a string ends") {
            '"' => return text,
            '\\' => match rest.next() {
                Some(escaped @ ('"' | '\\')) => text.push(escaped),
                other => panic!("{other:?} needs no escape"),
            },
            control if control < ' ' => panic!("{control:?} is not escaped"),
            other => text.push(other),
        }
    }
}

fn word(rest: &mut Peekable<Chars<'_>>) -> Json {
    let mut word = String::new();
    while let Some(character) = rest.next_if(char::is_ascii_alphanumeric) {
        word.push(character);
    }
    match word.as_str() {
        "null" => Json::Null,
        "true" => Json::Bool(true),
        "false" => Json::Bool(false),
        number => Json::Number(number.parse().expect("a number")),
    }
}

/// A refusal: the object, and the words besides.
fn assert_refused(ran: Ran, object: &str, first_line: &str) {
    assert_eq!(ran.out, object);
    assert_eq!(ran.err.lines().next(), Some(first_line));
    assert_eq!(ran.status, 1);
    assert_eq!(Json::read(&ran.out).member("accepted"), &Json::Bool(false));
}

#[test]
fn checks_as_objects() {
    let desk = Desk::with("x.txt", X);
    desk.put("bad.txt", with_line(3, "kind=a"));
    assert_eq!(
        desk.run(["check", "--json", "x.txt"]),
        accepted("{\"accepted\":true,\"nodes\":5}\n")
    );
    assert_eq!(
        desk.run(["check", "--json", "--rule", "|(.l[:name]=..r*rl)(r=e)"]),
        accepted("{\"accepted\":true,\"tests\":4,\"nesting\":6,\"steps\":5}\n")
    );
    assert_eq!(
        desk.run(["check", "--json", "--rule", ":drug"]),
        accepted("{\"accepted\":true,\"tests\":1,\"nesting\":1,\"steps\":0}\n")
    );
    assert_refused(
        desk.run(["check", "--json", "bad.txt"]),
        "{\"accepted\":false,\"number\":4,\"place\":3,\
         \"words\":\"the first node is an element\"}\n",
        "yurzhoad: bad.txt: the document is refused: number 4 at line 3: \
         the first node is an element",
    );
    assert_refused(
        desk.run(["check", "--json", "--rule", "(e"]),
        "{\"accepted\":false,\"number\":6,\"place\":2,\
         \"words\":\"it ends here and is not whole\"}\n",
        "yurzhoad: the rule is refused: number 6 at offset 2: it ends here and is not whole",
    );
}

#[test]
fn an_attribute_given_twice_as_an_object() {
    let desk = Desk::with("lib.txt", named_twice());
    for arguments in [
        &["check", "--json", "lib.txt"][..],
        &["select", "--json", ":drug", "lib.txt"],
    ] {
        assert_refused(
            desk.run(arguments),
            "{\"accepted\":false,\"number\":14,\"place\":16,\"words\":\"the element has an \
             attribute with this label already, on line 8\"}\n",
            "yurzhoad: lib.txt: the document is refused: number 14 at line 16: the element has an \
             attribute with this label already, on line 8",
        );
    }
}

#[test]
fn a_refusal_of_what_was_cut_is_the_same_in_words_and_in_the_object() {
    let desk = Desk::with("long.txt", vec![b'x'; 1_048_577]);
    assert_refused(
        desk.run(["select", "--json", ":a", "long.txt"]),
        "{\"accepted\":false,\"number\":1,\"place\":0,\
         \"words\":\"it has more than the 1048576 bytes that are allowed\"}\n",
        "yurzhoad: long.txt: the document is refused: number 1 at place 0: \
         it has more than the 1048576 bytes that are allowed",
    );
}

#[test]
fn selections_as_objects() {
    let desk = Desk::with("x.txt", X);
    let rule = "(.l[:name]=..r*rl)";
    let node = "{\"node\":1,\"path\":\"/lib/drug[1]\",\"label\":\"drug\",\"value\":\"\"}";
    let object = |snippets: &str, nodes: &str| {
        accepted(&format!(
            "{{\"accepted\":true,\"selected\":1,\"snippets\":{snippets}{nodes}}}\n"
        ))
    };
    let nodes = format!(",\"nodes\":[{node}]");
    let run = |option: &str| desk.run(["select", "--json", option, rule, "x.txt"]);
    assert_eq!(
        desk.run(["select", "--json", rule, "x.txt"]),
        object("19", &nodes)
    );
    assert_eq!(run("--plain"), object("null", &nodes));
    assert_eq!(run("--count"), object("19", ""));
    let none = accepted("{\"accepted\":true,\"selected\":0,\"snippets\":0,\"nodes\":[]}\n");
    assert_eq!(desk.run(["select", "--json", "(e!=e)", "x.txt"]), none);
    assert_refused(
        desk.run(["select", "--json", "--both", ":a!", "x.txt"]),
        "{\"accepted\":false,\"number\":6,\"place\":2,\
         \"words\":\"it does not read on from here\"}\n",
        "yurzhoad: the rule is refused: number 6 at offset 2: it does not read on from here",
    );
}

#[test]
fn values_are_escaped() {
    let all: String = (' '..='~').collect();
    let library = document(&[
        ('e', 0, "lib", ""),
        ('a', 1, "name", "\"\\\"\\\\"),
        ('t', 1, "text", &all),
    ]);
    let desk = Desk::with("lib.txt", library);
    let ran = desk.run(["select", "--json", "!:lib", "lib.txt"]);
    let escaped = all.replace('\\', "\\\\").replace('"', "\\\"");
    let due = format!(
        "{{\"accepted\":true,\"selected\":2,\"snippets\":0,\"nodes\":[\
         {{\"node\":1,\"path\":\"/lib/@name\",\"label\":\"name\",\
         \"value\":\"\\\"\\\\\\\"\\\\\\\\\"}},\
         {{\"node\":2,\"path\":\"/lib/text()\",\"label\":\"text\",\
         \"value\":\"{escaped}\"}}]}}\n"
    );
    assert_eq!(ran, accepted(&due));
    let object = Json::read(&ran.out);
    let Json::List(nodes) = object.member("nodes") else {
        panic!("a list of nodes");
    };
    assert_eq!(
        nodes[0].member("value"),
        &Json::String("\"\\\"\\\\".to_string())
    );
    assert_eq!(nodes[1].member("value"), &Json::String(all));
}
