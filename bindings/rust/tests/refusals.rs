//! Each refusal, with its number, its place and its words.

mod common;

use common::{FAULTS, SCHEMA};
use kormaglen::{
    count_facets, end_of_prefix, export_block, facet_of_text, find_field, import_lines,
    migrate_block, terms_of_block, text_of_facet, text_of_term, Document, DocumentReason,
    JsonFault, LineReason, QueryReason, Refusal, Schema, SchemaReason, Version,
};
use std::error::Error;
use std::fmt::Display;

/// Words say more than a number does, and aren't those of an unknown one.
fn expect_words(error: impl Display) {
    let words = error.to_string();
    assert!(words.contains(' '), "{words}");
    assert!(!words.contains("unknown status") && !words.contains("unknown reason"), "{words}");
}

fn expect_status(refusal: Refusal, status: u32) {
    assert_eq!(refusal.status(), status, "{refusal:?}");
    expect_words(refusal);
}

#[test]
fn refusals_without_a_place_have_numbers_and_words() {
    expect_status(text_of_facet(b"\xff").unwrap_err(), 3);
    expect_status(facet_of_text("a").unwrap_err(), 4);
    expect_status(facet_of_text("").unwrap_err(), 4);
    expect_status(Schema::open(b"{").unwrap_err(), 5);
    expect_status(find_field(SCHEMA, "none").unwrap_err(), 7);
    expect_status(migrate_block(Version::V2, b"", Version::V1).unwrap_err(), 9);
    expect_status(end_of_prefix(b"\xff\xff").unwrap_err(), 10);
    expect_status(text_of_term(b"").unwrap_err(), 17);
    let mut schema = Schema::open(SCHEMA).unwrap();
    expect_status(Document::new().to_json(&mut schema).unwrap_err(), 15);
    expect_status(Document::new().write(&mut schema, Version::V2).unwrap_err(), 15);
}

#[test]
fn a_schema_is_refused_alike_by_each_call() {
    for (json, refusal) in [
        (&b"{"[..], Refusal::InvalidJson),
        (b"{}", Refusal::BadSchema { reason: SchemaReason::BadEntry, entry: 0 }),
    ] {
        assert_eq!(Schema::open(json).unwrap_err(), refusal);
        assert_eq!(import_lines(json, b"{}"), Err(refusal));
        assert_eq!(export_block(json, Version::V2, b""), Err(refusal));
        assert_eq!(find_field(json, "a"), Err(refusal));
    }
}

fn schema_refusal(refusal: Refusal) -> (SchemaReason, u64) {
    match refusal {
        Refusal::BadSchema { reason, entry } => (reason, entry),
        other => panic!("{other:?}"),
    }
}

/// A good entry, and then one of this type with these options.
fn second_entry(kind: &str, options: &str) -> String {
    let good = r#"{"name":"a","type":"facet","options":{"stored":true}}"#;
    format!(r#"[{good},{{"name":"b","type":"{kind}","options":{{{options}}}}}]"#)
}

#[test]
fn a_schema_is_refused_with_the_entry_and_the_key() {
    let rows = [
        ("facet", r#""stored":7"#, 10, "stored"),
        ("f64", r#""indexed":true,"stored":true"#, 5, "f64"),
        ("word", r#""stored":true"#, 7, "type"),
        ("u64", r#""stored":true"#, 9, "indexed"),
        ("u64", r#""indexed":true"#, 10, "stored"),
        ("date", r#""indexed":true,"stored":true"#, 11, "fieldnorms"),
        ("bytes", r#""indexed":true,"stored":true"#, 12, "fast"),
        ("text", r#""fast":7"#, 13, "fast"),
        ("u64", r#""indexed":true,"stored":true,"coerce":7"#, 14, "coerce"),
        (
            "date",
            r#""indexed":true,"fieldnorms":true,"stored":true,"precision":"h""#,
            15,
            "precision",
        ),
        ("text", r#""indexing":7"#, 16, "indexing"),
        ("text", r#""indexing":{"record":"all"}"#, 17, "record"),
        ("text", r#""indexing":{"fieldnorms":7}"#, 18, "fieldnorms"),
        ("text", r#""indexing":{"tokenizer":7}"#, 19, "tokenizer"),
        ("text", r#""fast":{"with_tokenizer":7}"#, 20, "with_tokenizer"),
        ("json_object", r#""stored":true,"fast":true,"expand_dots_enabled":7"#, 21, "expand_dots"),
    ];
    for (kind, options, number, word) in rows {
        let refusal = Schema::open(second_entry(kind, options).as_bytes()).unwrap_err();
        let (reason, entry) = schema_refusal(refusal);
        assert_eq!((reason.number(), entry), (number, 2), "{kind} {options}");
        expect_words(refusal);
        let words = refusal.to_string();
        assert!(words.contains(word) && words.contains(": entry 2: "), "{words}");
    }
}

#[test]
fn an_entry_is_refused_as_a_whole() {
    let rows = [
        (r#"[7]"#, SchemaReason::BadEntry, 1),
        (r#"[{"type":"facet","options":{"stored":true}}]"#, SchemaReason::Name, 1),
        (r#"[{"name":7,"type":"facet","options":{"stored":true}}]"#, SchemaReason::Name, 1),
        (r#"[{"name":"a","options":{"stored":true}}]"#, SchemaReason::Type, 1),
        (r#"[{"name":"a","type":"facet"}]"#, SchemaReason::Options, 1),
    ];
    for (json, wanted, place) in rows {
        let refusal = Schema::open(json.as_bytes()).unwrap_err();
        let (reason, entry) = schema_refusal(refusal);
        assert_eq!((reason, entry), (wanted, place), "{json}");
        expect_words(refusal);
    }
}

#[test]
fn a_name_is_refused() {
    let entry = |name: &str| second_entry("facet", r#""stored":true"#).replace("\"b\"", name);
    for (name, wanted, number) in [
        (r#""""#, SchemaReason::BadName, 1),
        (r#""-b""#, SchemaReason::BadName, 1),
        (r#""a""#, SchemaReason::SameName, 2),
    ] {
        let refusal = Schema::open(entry(name).as_bytes()).unwrap_err();
        let (reason, _) = schema_refusal(refusal);
        assert_eq!((reason, reason.number()), (wanted, number), "{name}");
        expect_words(refusal);
    }
}

#[test]
fn a_document_is_refused_with_the_reason() {
    // After the number of pairs, 1, and the number of the field comes the code of the type.
    let long_number = [&b"\0"[..], &[0; 9], b"\x82"].concat();
    let late_date = [&b"\x05"[..], &i64::MAX.to_le_bytes()].concat();
    let number_as_key = [&b"\x0d\x82\x01"[..], &[0; 8], b"\x0b"].concat();
    let rows: [(Version, &[u8], DocumentReason, u32); 12] = [
        (Version::V2, b"", DocumentReason::UnexpectedEnd, 1),
        (Version::V2, b"\x0e", DocumentReason::UnknownType, 2),
        (Version::V2, b"\x07\x01", DocumentReason::UnknownExtension, 3),
        (Version::V2, b"\x06\0\0\0\0\0\0\0\0", DocumentReason::Float, 4),
        (Version::V2, &long_number, DocumentReason::BadNumber, 5),
        (Version::V2, b"\x09\x02", DocumentReason::BadBool, 6),
        (Version::V2, b"\0\x81\xff", DocumentReason::NotUtf8, 7),
        (Version::V2, b"\x0d\x81\0\x81a", DocumentReason::OddObject, 8),
        (Version::V1, &late_date, DocumentReason::DateRange, 9),
        (Version::V1, b"\x08x", DocumentReason::OldJson, 10),
        (Version::V1, b"\x08{\"a\":0.5}", DocumentReason::OldFloat, 11),
        (Version::V2, &number_as_key, DocumentReason::KeyNoText, 12),
    ];
    for (version, value, reason, number) in rows {
        let document = [b"\x81\0\0\0\0", value].concat();
        let refusal = Document::read(version, &document).unwrap_err();
        assert_eq!(refusal, Refusal::BadDocument { reason, start: 0 }, "{value:?}");
        assert_eq!((reason.number(), refusal.status()), (number, 8));
        expect_words(refusal);
        // In a block, it begins after a document without a pair.
        let block = [b"\x80", &document[..]].concat();
        let later = Refusal::BadDocument { reason, start: 1 };
        assert_eq!(export_block(SCHEMA, version, &block), Err(later));
        assert_eq!(migrate_block(version, &block, Version::V2), Err(later));
        assert_eq!(terms_of_block(0, version, &block), Err(later));
        let mut schema = Schema::open(SCHEMA).unwrap();
        assert_eq!(schema.values_of_block("u", version, &block), Err(later));
        assert_eq!(schema.terms_of_block(version, &block).unwrap_err(), later);
        assert!(later.to_string().contains(": at byte 1: "));
    }
}

#[test]
fn a_document_without_terms_is_told_with_the_field_and_the_reason() {
    let mut schema = Schema::open(
        br#"[{"name":"u","type":"u64","options":{"indexed":true,"stored":true}},
{"name":"j","type":"json_object","options":{"stored":true,"fast":false,"indexing":{}}}]"#,
    )
    .unwrap();
    // The field, and the code and the bytes of its value.
    let rows: [(&[u8], DocumentReason, u32); 4] = [
        (b"\x02\0\0\0\0\x81a", DocumentReason::ForeignField, 15),
        (b"\0\0\0\0\0\x81a", DocumentReason::WrongType, 16),
        (b"\x01\0\0\0\x0d\x82\0\x81\0\0\x81v", DocumentReason::NulInKey, 17),
        (b"\x01\0\0\0\x04\x81v", DocumentReason::NoTerm, 18),
    ];
    for (pair, reason, number) in rows {
        let block = [b"\x80\x81", pair].concat();
        let mut found = schema.terms_of_block(Version::V2, &block).unwrap();
        let fault = found.next().unwrap().unwrap_err();
        assert_eq!((fault.document, fault.reason), (1, reason));
        assert_eq!(fault.field, u32::from(pair[0]));
        assert_eq!(reason.number(), number);
        assert!(fault.to_string().starts_with(&format!("document 1: field {}: ", pair[0])));
        expect_words(fault);
        for _ in 0..3 {
            assert!(found.next().is_none());
        }
        // It can be read.
        assert!(schema.values_of_block("u", Version::V2, &block).is_ok());
    }
    assert_eq!(schema.values_of_block("none", Version::V2, b""), Err(Refusal::NoField));
    assert_eq!(schema.values_of_block("j.a", Version::V2, b""), Err(Refusal::NoField));
}

#[test]
fn a_pair_is_refused_with_its_number() {
    let pairs: [(u64, &[u8]); 4] = [(7, b""), (1, b"a\0b"), (7, b"\xff"), (1, b"\xff")];
    for (first, pair) in [(0, 2), (1, 1), (2, 0), (3, 0)] {
        let refusal = count_facets(b"", pairs[first..].to_vec()).unwrap_err();
        assert_eq!(refusal, Refusal::BadPair { pair });
        expect_status(refusal, 14);
        assert!(refusal.to_string().ends_with(&format!(": pair {pair}")));
    }
    assert_eq!(count_facets(b"\xff", pairs), Err(Refusal::NotUtf8));
}

#[test]
fn a_line_is_refused_with_the_reason_and_the_field() {
    let rows = [
        ("null", LineReason::InvalidJson, 1, None),
        ("", LineReason::InvalidJson, 1, None),
        ("{\"u\":-1}", LineReason::Overflow, 2, Some(1)),
        ("{\"u\":\"x\"}", LineReason::WrongType, 3, Some(1)),
        ("{\"f\":\"x\"}", LineReason::BadText, 4, Some(2)),
        ("{\"d\":\"9999-01-01T00:00:00Z\"}", LineReason::BadText, 4, Some(3)),
        ("{\"y\":[\"AA==\",\"!\"]}", LineReason::BadBase64, 5, Some(4)),
        ("{\"j\":{\"a\":0.5}}", LineReason::Float, 6, Some(5)),
    ];
    let mut schema = Schema::open(SCHEMA).unwrap();
    for (line, reason, number, field) in rows {
        let lines = format!("{line}\n{{\"s\":\"a\"}}");
        let imported = schema.import_lines(lines.as_bytes()).unwrap();
        let refusal = imported.lines[0].unwrap_err();
        assert_eq!((refusal.reason, refusal.field), (reason, field), "{line}");
        assert_eq!((reason.number(), imported.lines[1]), (number, Ok(8)));
        expect_words(refusal);
        if let Some(field) = field {
            assert!(refusal.to_string().starts_with(&format!("field {field}: ")));
        }
        let parsed = Document::parse(&mut schema, line.as_bytes()).unwrap_err();
        assert_eq!(parsed, Refusal::BadLine(refusal));
        expect_status(parsed, 11);
    }
}

#[test]
fn a_line_that_is_no_json_object_is_refused_with_the_fault_and_the_byte() {
    let mut schema = Schema::open(SCHEMA).unwrap();
    for (line, fault, byte, words) in FAULTS {
        let lines = [b"{\"s\":\"a\"}\n", line, b"\n{}\n"].concat();
        for imported in [schema.import_lines(&lines), import_lines(SCHEMA, &lines)] {
            let answers = imported.unwrap().lines;
            assert_eq!((answers[0], answers[2]), (Ok(8), Ok(1)));
            let refusal = answers[1].unwrap_err();
            assert_eq!((refusal.reason, refusal.field), (LineReason::InvalidJson, None));
            assert_eq!((refusal.fault, refusal.byte), (Some(fault), byte), "{line:?}");
            let place = byte.map_or(String::new(), |byte| format!(" at byte {byte}"));
            assert_eq!(fault.to_string(), words);
            assert_eq!(refusal.to_string(), format!("{}: {words}{place}", refusal.reason));
            let parsed = Document::parse(&mut schema, line).unwrap_err();
            assert_eq!(parsed, Refusal::BadLine(refusal));
            assert!(parsed.to_string().ends_with(&format!(": {refusal}")), "{parsed}");
        }
    }
    // The last list lies within the others and the object.
    for (lists, wanted) in [(126, None), (127, Some((Some(JsonFault::TooDeep), Some(132))))] {
        let line = format!("{{\"no\":{}{}}}", "[".repeat(lists), "]".repeat(lists));
        let refusal = schema.import_lines(line.as_bytes()).unwrap().lines[0].err();
        assert_eq!(refusal.map(|refusal| (refusal.fault, refusal.byte)), wanted);
    }
}

#[test]
fn a_foreign_field_is_refused_with_its_number() {
    let mut schema = Schema::open(SCHEMA).unwrap();
    let (mut document, _) = Document::read(Version::V2, b"\x81\x02\x01\0\0\0\x81a").unwrap();
    let refusal = document.write(&mut schema, Version::V2).unwrap_err();
    assert_eq!(refusal, Refusal::ForeignField { field: 258 });
    expect_status(refusal, 12);
    assert!(refusal.to_string().contains("258"));
    // The document stays, and is printed without the field.
    assert_eq!(document.to_json(&mut schema).unwrap(), "{}");
}

fn expect_query(
    refused: Option<Refusal>,
    wanted: QueryReason,
    number: u32,
    wanted_field: Option<u32>,
) {
    let Some(Refusal::BadQuery(refusal)) = refused else { panic!("{refused:?}") };
    assert_eq!((refusal.reason, refusal.field), (wanted, wanted_field));
    assert_eq!(refusal.reason.number(), number);
    expect_words(refusal);
    expect_status(Refusal::BadQuery(refusal), 13);
    let named = wanted_field.map(|field| format!("field {field}: "));
    assert!(named.map_or(true, |named| refusal.to_string().starts_with(&named)));
}

#[test]
fn a_query_is_refused_with_the_reason_and_the_field() {
    let mut schema = Schema::open(
        br#"[{"name":"s","type":"text","options":{}},
{"name":"u","type":"u64","options":{"indexed":true,"stored":true}},
{"name":"f","type":"facet","options":{"stored":true}},
{"name":"y","type":"bytes","options":{"indexed":true,"fast":false,"stored":true}},
{"name":"j","type":"json_object","options":{"stored":true,"fast":false,"indexing":{}}}]"#,
    )
    .unwrap();
    let rows = [
        ("s", "x", QueryReason::NotIndexed, 1, 0),
        ("j", "x", QueryReason::PathEnds, 2, 4),
        ("j.a\0", "x", QueryReason::NulInPath, 3, 4),
        ("u", "x", QueryReason::WrongType, 13, 1),
        ("u", "18446744073709551616", QueryReason::WrongType, 13, 1),
        ("f", "x", QueryReason::BadText, 14, 2),
        ("y", "!", QueryReason::BadBase64, 15, 3),
    ];
    for (path, text, reason, number, field) in rows {
        expect_query(schema.terms_of_text(path, text).err(), reason, number, Some(field));
        let range = format!("[{text} TO *]");
        expect_query(schema.ranges_of_text(path, &range).err(), reason, number, Some(field));
    }
    let backwards = schema.ranges_of_text("u", "[2 TO 1]").err();
    expect_query(backwards, QueryReason::Backwards, 5, Some(1));
    expect_query(schema.ranges_of_text("none", "1").err(), QueryReason::NoRange, 4, None);
    assert_eq!(schema.ranges_of_text("none", "*"), Err(Refusal::NoField));
    assert_eq!(schema.terms_of_text("none", "1"), Err(Refusal::NoField));
}

#[test]
fn refusals_are_errors() {
    fn boxed(refusal: Refusal) -> Box<dyn Error + Send + Sync> {
        Box::new(refusal)
    }
    assert!(boxed(Refusal::Closed).source().is_none());
    assert_eq!(Version::try_from(0), Err(Refusal::WrongVersion));
    assert_eq!(Version::try_from(3), Ok(Version::V3));
}
