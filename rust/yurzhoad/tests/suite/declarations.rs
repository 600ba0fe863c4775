//! The declarations of the archive's functions and records against the proved
//! code, text against text: the linker compares nothing but the names.

use crate::file;

/// The fields of a record, each as `number: u16`.
fn fields(source: &str, record: &str) -> Vec<String> {
    let head = format!("pub struct {record} {{");
    let (_, behind) = source.split_once(&head).expect(record);
    let (body, _) = behind.split_once('}').expect("the end of the record");
    let lines = body.lines().map(str::trim);
    lines
        .filter_map(|line| line.strip_prefix("pub "))
        .map(|field| field.trim_end_matches(',').to_string())
        .collect()
}

/// What stands between these, without blanks and line ends.
fn between<'a>(source: &'a str, head: &str, end: &str) -> &'a str {
    let (_, behind) = source.split_once(head).expect(head);
    behind.split_once(end).expect(end).0
}

/// The types of the parameters, and of what is handed back.
fn types(signature: &str) -> Vec<String> {
    let (parameters, back) = signature.split_once(')').expect("parameters");
    let named = parameters.split(',').filter_map(|one| one.split_once(':'));
    let mut types: Vec<String> = named.map(|(_, kind)| kind.trim().to_string()).collect();
    types.push(back.trim().trim_start_matches("->").trim().to_string());
    types
}

/// The types by which the C convention passes one of the proved code.
fn passed(kind: &str) -> Vec<String> {
    let by_pointer = |pointer: &str| vec![pointer.to_string(), "usize".to_string()];
    match kind {
        "&[u8]" => by_pointer("*const u8"),
        "&[u16]" => by_pointer("*const u16"),
        "&mut [u16]" => by_pointer("*mut u16"),
        "&mut [u8]" => by_pointer("*mut u8"),
        other => vec![other.to_string()],
    }
}

#[test]
fn records_have_the_fields_of_the_proved_ones() {
    let declared = file("rust/yurzhoad/src/archive.rs");
    let verdicts = file("crates/verdicts/src/lib.rt");
    let evaluation = file("crates/evaluation/src/lib.rt");
    let records = [
        ("DocumentAnswer", &verdicts, 3),
        ("RuleAnswer", &verdicts, 2),
        ("Evaluation", &evaluation, 4),
    ];
    for (record, proved, count) in records {
        let due = fields(proved, record);
        assert_eq!(due.len(), count, "{record}");
        assert_eq!(fields(&declared, record), due, "{record}");
    }
}

#[test]
fn functions_have_the_signatures_of_the_proved_ones() {
    let declared = file("rust/yurzhoad/src/archive.rs");
    let block = between(&declared, "extern \"C\" {\n", "\n}\n");
    let proved = file("crates/exports/src/lib.rt");
    let names: Vec<&str> = proved
        .split("pub extern \"C\" fn ")
        .skip(1)
        .map(|behind| behind.split_once('(').expect("parameters").0)
        .collect();
    assert_eq!(names.len(), 5);
    assert_eq!(block.matches("fn ").count(), names.len());
    for name in names {
        let ours = types(between(block, &format!("fn {name}("), ";"));
        let theirs = types(between(&proved, &format!("fn {name}("), "ensures"));
        let due: Vec<String> = theirs.iter().flat_map(|kind| passed(kind)).collect();
        assert_eq!(ours, due, "{name}");
    }
}
