//! Each call once. The expected bytes are worked out from the formats by hand.

mod common;

use common::{stored_number, stored_text, SCHEMA};
use kormaglen::{
    count_facets, end_of_prefix, export_block, facet_of_text, find_field, import_lines,
    migrate_block, term_of_text, terms_of_block, text_of_facet, text_of_term, Document,
    DocumentReason, Refusal, Schema, Value, Version,
};
use std::net::Ipv6Addr;

#[test]
fn lines_are_stored() {
    let imported = import_lines(SCHEMA, b"{\"s\":\"a\"}\n{\"u\":258}\n{}").unwrap();
    let wanted = [stored_text("a"), stored_number(258), b"\x80".to_vec()];
    assert_eq!(imported.block, wanted.concat());
    assert_eq!(imported.lines, [Ok(8), Ok(14), Ok(1)]);
}

#[test]
fn a_block_is_printed() {
    let block = [stored_text("a"), stored_number(258), b"\x80".to_vec()].concat();
    let lines = "{\"s\":[\"a\"]}\n{\"u\":[258]}\n{}\n";
    assert_eq!(export_block(SCHEMA, Version::V2, &block).unwrap(), lines);
}

#[test]
fn a_block_is_carried_over() {
    // In version 2 an object has twice the number of its entries, and its keys have a code.
    let old = b"\x81\x05\0\0\0\x0d\x82\0\x81a\0\x81b";
    let new = b"\x81\x05\0\0\0\x0d\x81\x81a\0\x81b";
    assert_eq!(migrate_block(Version::V2, old, Version::V3).unwrap(), new);
    assert_eq!(migrate_block(Version::V3, new, Version::V2).unwrap(), old);
    // A date of version 1 has microseconds: 2 of them are 2000 nanoseconds.
    let date = |number: i64| [&b"\x81\x03\0\0\0\x05"[..], &number.to_le_bytes()].concat();
    assert_eq!(migrate_block(Version::V1, &date(2), Version::V2).unwrap(), date(2000));
}

#[test]
fn a_path_names_a_field() {
    let field = find_field(SCHEMA, "j.a.b").unwrap();
    assert_eq!((field.number, field.rest), (5, "a.b"));
    let whole = find_field(SCHEMA, "u").unwrap();
    assert_eq!((whole.number, whole.rest), (1, ""));
}

#[test]
fn a_facet_is_encoded_and_printed() {
    assert_eq!(facet_of_text("/a/b\\/c").unwrap(), b"a\0b/c");
    assert_eq!(text_of_facet(b"a\0b/c").unwrap(), "/a/b\\/c");
    // Each byte is one that is escaped, so the text is the longest there is.
    assert_eq!(text_of_facet(b"//").unwrap(), "/\\/\\/");
}

#[test]
fn terms_are_listed() {
    let block = [stored_number(1), b"\x80".to_vec(), stored_number(258)].concat();
    let terms = terms_of_block(1, Version::V2, &block).unwrap();
    let found: Vec<_> = terms.iter().map(|term| (term.document, &term.bytes[..])).collect();
    // The number of the field and the value have their highest byte first.
    let one = b"\0\0\0\x01u\0\0\0\0\0\0\0\x01";
    let other = b"\0\0\0\x01u\0\0\0\0\0\0\x01\x02";
    assert_eq!(found, [(0, &one[..]), (2, &other[..])]);
    assert_eq!(terms_of_block(3, Version::V2, &block).unwrap(), []);
}

#[test]
fn the_terms_of_a_prefix_have_ends() {
    assert_eq!(term_of_text(258, "ab").unwrap(), b"\0\0\x01\x02sab");
    assert_eq!(end_of_prefix(b"\0\0\0\0sab").unwrap(), b"\0\0\0\0sac");
    assert_eq!(end_of_prefix(b"a\xff\xff").unwrap(), b"b");
}

#[test]
fn terms_have_texts() {
    let texts = [
        (&b"\0\0\0\x01sAda"[..], "Ada"),
        (b"\0\0\0\0s", ""),
        (b"\0\0\0\0u\xff\xff\xff\xff\xff\xff\xff\xff", "18446744073709551615"),
        (b"\0\0\0\0i\x7f\xff\xff\xff\xff\xff\xff\xff", "-1"),
        (b"\0\0\0\0o\0\0\0\0\0\0\0\0", "false"),
        // A second and a half after 1970, in nanoseconds from the least number on.
        (b"\0\0\0\0d\x80\0\0\0\x59\x68\x2f\0", "1970-01-01T00:00:01.5Z"),
        (b"\0\0\0\0hshop\0a/b", "/shop/a\\/b"),
        (b"\0\0\0\0b\0\x01", "AAE="),
        (b"\0\0\0\0p\0\0\0\0\0\0\0\0\0\0\0\0\0\0\0\x01", "::1"),
        (b"\0\0\0\0ja\x01b\0o\0\0\0\0\0\0\0\x01", "true"),
    ];
    for (term, text) in texts {
        assert_eq!(text_of_term(term).unwrap(), text);
    }
    for bytes in [&b""[..], b"\0\0\0\0", b"\0\0\0\0x", b"\0\0\0\0s\xff", b"\0\0\0\0ja\0"] {
        assert_eq!(text_of_term(bytes), Err(Refusal::NotATerm));
    }
    let mut schema = Schema::open(INDEXED).unwrap();
    for term in schema.terms_of_text("u", "7").unwrap() {
        assert_eq!(text_of_term(&term).unwrap(), "7");
    }
}

/// Fields that are indexed: 0 of texts, 1 of numbers, 2 of JSON objects.
const INDEXED: &[u8] = br#"[{"name":"s","type":"text","options":{"indexing":{}}},
{"name":"u","type":"u64","options":{"indexed":true,"stored":true}},
{"name":"j","type":"json_object","options":{"stored":true,"fast":false,"indexing":{}}}]"#;

#[test]
fn a_field_has_values_of_each_kind() {
    // The value of a field in a document of one pair: the code of its type, and what that has.
    let rows: [(&[u8], Value); 12] = [
        (b"\x0b", Value::Null),
        (b"\0\x81a", Value::Text("a".to_string())),
        (b"\x01\xff\xff\xff\xff\xff\xff\xff\xff", Value::U64(u64::MAX)),
        (b"\x02\xfe\xff\xff\xff\xff\xff\xff\xff", Value::I64(-2)),
        (b"\x09\x01", Value::Bool(true)),
        (b"\x05\xff\xff\xff\xff\xff\xff\xff\xff", Value::Date(-1)),
        (b"\x03\x83a\0b", Value::Facet(b"a\0b".to_vec())),
        (b"\x04\x82\0\xff", Value::Bytes(vec![0, 255])),
        (b"\x0a\x01\0\0\0\0\0\0\0\0\0\0\0\0\0\0\0", Value::IpAddr(Ipv6Addr::LOCALHOST)),
        (b"\x07\0\x81x\x80", Value::Json(r#"{"text":"x","tokens":[]}"#.to_string())),
        (b"\x0c\x82\x0b\0\x81y", Value::Json(r#"[null,"y"]"#.to_string())),
        (b"\x0d\x82\0\x81k\x0b", Value::Json(r#"{"k":null}"#.to_string())),
    ];
    let mut schema = Schema::open(SCHEMA).unwrap();
    for (value, wanted) in rows {
        // A document without a pair, and one with another field before.
        let head = b"\x80\x82\x01\0\0\0\x0b\0\0\0\0";
        let values =
            schema.values_of_block("s", Version::V2, &[&head[..], value].concat()).unwrap();
        assert_eq!((values.len(), values[0].document), (1, 1), "{wanted:?}");
        assert_eq!(values[0].value, wanted);
    }
    assert_eq!(schema.values_of_block("s", Version::V2, b""), Ok(vec![]));
    // This needs more room than the first buffer has.
    let many = stored_text("").repeat(5000);
    assert_eq!(schema.values_of_block("s", Version::V2, &many).unwrap().len(), 5000);
}

/// The terms of a block by a schema, each with the number of its document. All have some.
fn terms_by(schema: &mut Schema, block: &[u8]) -> Vec<(u64, Vec<u8>)> {
    let found: Result<Vec<_>, _> = schema.terms_of_block(Version::V2, block).unwrap().collect();
    found.unwrap().into_iter().map(|term| (term.document, term.bytes)).collect()
}

#[test]
fn documents_have_terms_by_a_schema() {
    let mut schema = Schema::open(INDEXED).unwrap();
    let lines = b"{\"u\":258,\"j\":{\"a\":[7,\"b\"]}}\n";
    let block = [stored_number(258), schema.import_lines(lines).unwrap().block].concat();
    // As keys are stored in the order of their bytes, `j` comes before `u`.
    let wanted = [
        (0, &b"\0\0\0\x01u\0\0\0\0\0\0\x01\x02"[..]),
        (1, b"\0\0\0\x02ja\0i\x80\0\0\0\0\0\0\x07"),
        (1, b"\0\0\0\x02ja\0sb"),
        (1, b"\0\0\0\x01u\0\0\0\0\0\0\x01\x02"),
    ];
    let found = terms_by(&mut schema, &block);
    assert_eq!(found, wanted.map(|(document, bytes)| (document, bytes.to_vec())));
    assert_eq!(terms_by(&mut schema, b""), []);
}

#[test]
fn terms_that_begin_alike_are_whole() {
    let mut schema = Schema::open(INDEXED).unwrap();
    let line =
        r#"{"j":{"key":{"inner":[7,7,263,"value","val","values"],"inners":true},"keys":""}}"#;
    // The keys stand with a byte 1 between two, and a zero byte after them. Of a number with a sign
    // the highest bit is turned.
    let terms = [
        &b"\0\0\0\x02jkey\x01inner\0i\x80\0\0\0\0\0\0\x07"[..],
        b"\0\0\0\x02jkey\x01inner\0i\x80\0\0\0\0\0\0\x07",
        b"\0\0\0\x02jkey\x01inner\0i\x80\0\0\0\0\0\x01\x07",
        b"\0\0\0\x02jkey\x01inner\0svalue",
        b"\0\0\0\x02jkey\x01inner\0sval",
        b"\0\0\0\x02jkey\x01inner\0svalues",
        b"\0\0\0\x02jkey\x01inners\0o\0\0\0\0\0\0\0\x01",
        b"\0\0\0\x02jkeys\0s",
    ];
    let block = schema.import_lines(format!("{line}\n{{}}\n{line}\n").as_bytes()).unwrap().block;
    let of = |document| terms.map(|bytes| (document, bytes.to_vec()));
    assert_eq!(terms_by(&mut schema, &block), [of(0), of(2)].concat());
    for (path, text) in [("j.key.inner", "263"), ("j.key.inners", "true"), ("j.keys", "")] {
        let asked = schema.terms_of_text(path, text).unwrap();
        assert!(asked.iter().any(|term| terms.contains(&&term[..])), "{path}");
    }
}

/// Fields that are indexed: 0 of dates, 1 of JSON objects.
const DATED: &[u8] = br#"[{"name":"added","type":"date",
"options":{"indexed":true,"fieldnorms":true,"stored":true}},
{"name":"j","type":"json_object","options":{"stored":true,"fast":false,"indexing":{}}}]"#;

/// The terms of 1970 and of the second after it: the nanoseconds with the highest bit turned.
const DATES: [&[u8]; 2] = [b"\0\0\0\0d\x80\0\0\0\0\0\0\0", b"\0\0\0\0d\x80\0\0\0\x3b\x9a\xca\0"];

/// Expects of three documents a term of the first and the last, and a fault of the one between.
fn expect_fault_between(schema: &mut Schema, block: &[u8], terms: [&[u8]; 2]) {
    let mut found = schema.terms_of_block(Version::V2, block).unwrap();
    let first = found.next().unwrap().unwrap();
    assert_eq!((first.document, &first.bytes[..]), (0, terms[0]));
    let fault = found.next().unwrap().unwrap_err();
    assert_eq!((fault.document, fault.field, fault.reason), (1, 0, DocumentReason::WrongType));
    let last = found.next().unwrap().unwrap();
    assert_eq!((last.document, &last.bytes[..]), (2, terms[1]));
    assert!(found.next().is_none());
    // Where all have to have terms, the fault ends it.
    let all: Result<Vec<_>, _> = schema.terms_of_block(Version::V2, block).unwrap().collect();
    assert_eq!(all, Err(fault));
}

#[test]
fn a_number_in_a_field_of_dates_is_told_between_the_others() {
    let mut schema = Schema::open(DATED).unwrap();
    let lines = r#"{"added":"1970-01-01T00:00:00Z"}
{"added":1714564800}
{"added":"1970-01-01T00:00:01.5Z"}"#;
    let block = schema.import_lines(lines.as_bytes()).unwrap().block;
    // The code of a date is 5, that of a number with a sign 2.
    let stored = b"\x81\0\0\0\0\x05\0\0\0\0\0\0\0\0\x81\0\0\0\0\x02\xc0\x2e\x32\x66\0\0\0\0";
    assert!(block.starts_with(stored));
    expect_fault_between(&mut schema, &block, DATES);
}

#[test]
fn a_document_with_a_fault_has_none_of_its_terms() {
    let mut schema = Schema::open(DATED).unwrap();
    let date = &b"\x81\0\0\0\0\x05\0\0\0\0\0\0\0\0"[..];
    // The number 7 at the key k, and after it a text in the field of dates.
    let object = &b"\x01\0\0\0\x0d\x82\0\x81k\x01\x07\0\0\0\0\0\0\0"[..];
    let block = [date, b"\x82", object, b"\0\0\0\0\0\x81a", b"\x81", object].concat();
    let terms = [DATES[0], b"\0\0\0\x01jk\0i\x80\0\0\0\0\0\0\x07"];
    expect_fault_between(&mut schema, &block, terms);
}

#[test]
fn documents_are_counted_by_facets() {
    let pairs: [(u64, &[u8]); 6] =
        [(1, b"a\0b"), (2, b"a\0b\0c"), (1, b"a\0d"), (1, b"a\0b\0x"), (3, b"a"), (4, b"e\0f")];
    let counted = |parent: &[u8]| {
        let counts = count_facets(parent, pairs).unwrap();
        let entries = counts.into_iter().map(|count| (count.child, count.documents));
        entries.collect::<Vec<_>>()
    };
    assert_eq!(counted(b"a"), [(b"a\0b".to_vec(), 2), (b"a\0d".to_vec(), 1)]);
    assert_eq!(counted(b""), [(b"a".to_vec(), 3), (b"e".to_vec(), 1)]);
    assert_eq!(counted(b"g"), []);
    assert_eq!(count_facets(b"", [(0, ""); 0]), Ok(vec![]));
}

#[test]
fn texts_of_queries_have_terms() {
    let mut schema = Schema::open(INDEXED).unwrap();
    assert_eq!(schema.terms_of_text("s", "Ada L").unwrap(), [b"\0\0\0\0sAda L"]);
    let number = schema.terms_of_text("u", "258").unwrap();
    assert_eq!(number, [b"\0\0\0\x01u\0\0\0\0\0\0\x01\x02"]);
    // Below JSON objects the keys stand after the field, and a text that is a number has both
    // terms. Of a signed number the highest bit is turned.
    let below = schema.terms_of_text("j.a.b", "7").unwrap();
    let (text, signed) =
        (&b"\0\0\0\x02ja\x01b\0s7"[..], &b"\0\0\0\x02ja\x01b\0i\x80\0\0\0\0\0\0\x07"[..]);
    assert_eq!(below, [text, signed]);
    // This needs more room than the first buffer has.
    let long = "n".repeat(5000);
    assert_eq!(schema.terms_of_text("s", &long).unwrap()[0][5..], *long.as_bytes());
}

#[test]
fn texts_of_queries_bound_ranges() {
    let mut schema = Schema::open(INDEXED).unwrap();
    for (text, wanted) in [
        ("*", [true; 4]),
        ("[10 TO 20}", [false, true, true, false]),
        ("{10 TO *]", [false, false, true, true]),
        ("{* TO 10}", [true, false, false, false]),
    ] {
        let ranges = schema.ranges_of_text("u", text).unwrap();
        assert_eq!(ranges.len(), 1);
        let within = ["9", "10", "19", "20"].map(|number| {
            let term = schema.terms_of_text("u", number).unwrap().remove(0);
            ranges[0].contains(&term)
        });
        assert_eq!(within, wanted, "{text}");
    }
    // Of numbers, and of texts.
    assert_eq!(schema.ranges_of_text("j.a", "[7 TO 9]").unwrap().len(), 2);
}

#[test]
fn a_schema_is_used_many_times() {
    let mut schema = Schema::open(SCHEMA).unwrap();
    for _ in 0..3 {
        let imported = schema.import_lines(b"{\"u\":258}\nnull\n").unwrap();
        assert_eq!(imported.block, stored_number(258));
        assert_eq!(imported.lines.len(), 2);
        let lines = schema.export_block(Version::V2, &imported.block).unwrap();
        assert_eq!(lines, "{\"u\":[258]}\n");
        assert_eq!(schema.find_field("j.a.b").unwrap().rest, "a.b");
        assert_eq!(schema.find_field("none"), Err(Refusal::NoField));
    }
}

#[test]
fn a_schema_is_printed_with_all_options() {
    // What isn't given has its default, and keys are written in byte order.
    let rows = [
        (r#"{"name":"a","type":"facet","options":{"stored":true}}"#, r#"{"stored":true}"#),
        (
            r#"{"type":"u64", "name":"a", "options":{"stored":true,"indexed":true}}"#,
            r#"{"fast":false,"fieldnorms":true,"indexed":true,"stored":true}"#,
        ),
        (
            r#"{"name":"a","other":7,"type":"json_object","options":{"stored":true,"fast":true}}"#,
            r#"{"expand_dots_enabled":false,"fast":true,"indexing":null,"stored":true}"#,
        ),
    ];
    for (entry, options) in rows {
        let mut schema = Schema::open(format!("[ {entry} ]").as_bytes()).unwrap();
        let text = schema.to_json().unwrap();
        assert!(text.starts_with(&format!(r#"[{{"name":"a","options":{options},"type":""#)));
        assert_eq!(Schema::open(text.as_bytes()).unwrap().to_json().unwrap(), text);
    }
    // This needs more room than the first buffer has.
    let name = "n".repeat(5000);
    let entry = format!(r#"{{"name":"{name}","options":{{"stored":true}},"type":"facet"}}"#);
    let json = format!("[{entry}]");
    assert_eq!(Schema::open(json.as_bytes()).unwrap().to_json().unwrap(), json);
}

#[test]
fn a_document_is_parsed_written_and_read() {
    let mut schema = Schema::open(SCHEMA).unwrap();
    let mut document = Document::parse(&mut schema, b"{\"j\":{\"a\":\"b\"}}").unwrap();
    assert_eq!(document.to_json(&mut schema).unwrap(), "{\"j\":[{\"a\":\"b\"}]}");
    let bytes = document.write(&mut schema, Version::V3).unwrap();
    assert_eq!(bytes, b"\x81\x05\0\0\0\x0d\x81\x81a\0\x81b");
    let (mut read, len) = Document::read(Version::V3, &[&bytes, &b"more"[..]].concat()).unwrap();
    assert_eq!(len, bytes.len());
    assert_eq!(read.to_json(&mut schema).unwrap(), "{\"j\":[{\"a\":\"b\"}]}");
    assert_eq!(read.read_again(Version::V2, b"\x80"), Ok(1));
    assert_eq!(read.to_json(&mut schema).unwrap(), "{}");
}

#[test]
fn documents_are_appended_to_a_block() {
    let mut schema = Schema::open(SCHEMA).unwrap();
    let mut block = stored_text("a");
    let mut document = Document::parse(&mut schema, b"{\"u\":258}").unwrap();
    assert_eq!(document.append_to(&mut block, &mut schema, Version::V2), Ok(14));
    let whole = [stored_text("a"), stored_number(258)].concat();
    assert_eq!(block, whole);
    let refused = document.append_to(&mut block, &mut schema, Version::V1);
    assert_eq!(refused, Err(Refusal::WrongVersion));
    assert_eq!(block, whole);
}

#[test]
fn results_that_need_more_than_the_first_buffer_are_whole() {
    let mut schema = Schema::open(SCHEMA).unwrap();
    let text = "a".repeat(5000);
    let line = format!("{{\"s\":[\"{text}\"]}}");
    let mut document = Document::parse(&mut schema, line.as_bytes()).unwrap();
    assert_eq!(document.to_json(&mut schema).unwrap(), line);
    // 5000 is 39 * 128 + 8: the least group first, and the last byte with its high bit.
    let head = [0x81, 0, 0, 0, 0, 0, 8, 0x80 | 39];
    let bytes = document.write(&mut schema, Version::V2).unwrap();
    assert_eq!(bytes, [&head, text.as_bytes()].concat());
    // Of each number of two bytes 14 are stored.
    let lines = format!("{{\"u\":[{}1]}}", "1,".repeat(4999));
    let imported = schema.import_lines(lines.as_bytes()).unwrap();
    assert_eq!(imported.lines, [Ok(2 + 5000 * 13)]);
    assert_eq!(imported.block.len(), 2 + 5000 * 13);
}
