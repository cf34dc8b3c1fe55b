//! Handles on threads, handles without a document, and inputs without a byte.

mod common;

use common::{stored_number, stored_text, SCHEMA};
use kormaglen::{
    documents, end_of_prefix, export_block, facet_of_text, find_field, import_lines, migrate_block,
    term_of_text, terms, terms_of_block, text_of_facet, Document, DocumentReason, ImportedBlocks,
    LineReason, Refusal, Schema, SchemaTerms, Terms, Version,
};
use std::thread;

#[test]
fn handles_are_used_and_dropped_on_another_thread() {
    let mut schema = Schema::open(SCHEMA).unwrap();
    let mut document = Document::parse(&mut schema, b"{\"u\":258}").unwrap();
    let used = thread::spawn(move || {
        let bytes = document.write(&mut schema, Version::V2).unwrap();
        document.parse_again(&mut schema, b"{\"s\":\"a\"}").unwrap();
        (bytes, document.write(&mut schema, Version::V2).unwrap())
    });
    assert_eq!(used.join().unwrap(), (stored_number(258), stored_text("a")));
    // One that was refused holds nothing, and is dropped elsewhere, too.
    let mut closed = Document::new();
    closed.read_again(Version::V2, b"\x81").unwrap_err();
    thread::spawn(move || drop(closed)).join().unwrap();
}

#[test]
fn a_handle_comes_back_from_another_thread() {
    let open = thread::spawn(|| Schema::open(SCHEMA).unwrap());
    let mut schema = open.join().unwrap();
    // It is lent to one thread after the other.
    for number in 0..4 {
        let line = format!("{{\"u\":{number}}}");
        thread::scope(|scope| {
            let lent = scope.spawn(|| schema.import_lines(line.as_bytes()));
            assert_eq!(lent.join().unwrap().unwrap().block, stored_number(number));
        });
    }
    assert_eq!(schema.find_field("u").unwrap().number, 1);
}

#[test]
fn eight_threads_use_a_handle_each() {
    thread::scope(|scope| {
        for number in 0..8 {
            scope.spawn(move || {
                let mut schema = Schema::open(SCHEMA).unwrap();
                let mut document = Document::new();
                for round in 0..500 {
                    let value = 1000 * number + round;
                    let line = format!("{{\"u\":{value}}}");
                    let block = schema.import_lines(line.as_bytes()).unwrap().block;
                    assert_eq!(block, stored_number(value));
                    document.read_again(Version::V2, &block).unwrap();
                    let json = document.to_json(&mut schema).unwrap();
                    assert_eq!(json, format!("{{\"u\":[{value}]}}"));
                }
            });
        }
    });
}

#[test]
fn iterators_are_sent() {
    fn sent<T: Send>() {}
    sent::<Terms<'_>>();
    sent::<SchemaTerms>();
    sent::<ImportedBlocks<'_, &[u8]>>();
    sent::<Refusal>();
}

#[test]
fn a_document_that_was_refused_is_closed_until_another_one_comes() {
    let mut schema = Schema::open(SCHEMA).unwrap();
    let mut document = Document::parse(&mut schema, b"{\"u\":258}").unwrap();
    assert!(document.parse_again(&mut schema, b"{\"u\":-1}").is_err());
    assert_eq!(document.to_json(&mut schema), Err(Refusal::Closed));
    assert_eq!(document.write(&mut schema, Version::V2), Err(Refusal::Closed));
    assert_eq!(document.read_again(Version::V2, b"\x80"), Ok(1));
    assert_eq!(document.write(&mut schema, Version::V2).unwrap(), b"\x80");
    assert!(document.read_again(Version::V2, b"").is_err());
    assert_eq!(document.to_json(&mut schema), Err(Refusal::Closed));
    // The block has what it had.
    let mut block = stored_text("a");
    let refused = document.append_to(&mut block, &mut schema, Version::V2);
    assert_eq!((refused, block), (Err(Refusal::Closed), stored_text("a")));
}

#[test]
fn a_document_goes_with_any_schema() {
    let mut schema = Schema::open(SCHEMA).unwrap();
    let mut document = Document::parse(&mut schema, b"{\"u\":258,\"s\":\"a\"}").unwrap();
    drop(schema);
    let json = br#"[{"name":"t","type":"text","options":{"stored":true}}]"#;
    let mut other = Schema::open(json).unwrap();
    assert_eq!(document.to_json(&mut other).unwrap(), "{\"t\":[\"a\"]}");
    let refused = document.write(&mut other, Version::V2);
    assert_eq!(refused, Err(Refusal::ForeignField { field: 1 }));
}

#[test]
fn inputs_without_a_byte_have_answers() {
    let none = import_lines(SCHEMA, b"").unwrap();
    assert_eq!((none.block.len(), none.lines.len()), (0, 0));
    assert_eq!(export_block(SCHEMA, Version::V1, b"").unwrap(), "");
    assert_eq!(migrate_block(Version::V1, b"", Version::V3).unwrap(), b"");
    assert_eq!(terms_of_block(0, Version::V2, b"").unwrap(), []);
    assert_eq!(term_of_text(0, "").unwrap(), b"\0\0\0\0s");
    assert_eq!(end_of_prefix(b""), Err(Refusal::NoEnd));
    assert_eq!(find_field(SCHEMA, ""), Err(Refusal::NoField));
    assert_eq!(facet_of_text(""), Err(Refusal::NotAFacet));
    assert_eq!(facet_of_text("/").unwrap(), b"");
    assert_eq!(text_of_facet(b"").unwrap(), "/");
    assert_eq!(documents(Version::V2, b"").count(), 0);
    assert_eq!(terms(0, Version::V2, b"").count(), 0);
    assert!(Schema::open(b"").is_err());
}

#[test]
fn handles_have_answers_for_inputs_without_a_byte() {
    let mut schema = Schema::open(b"[]").unwrap();
    assert_eq!(schema.import_lines(b"").unwrap().lines, []);
    assert_eq!(schema.export_block(Version::V2, b"").unwrap(), "");
    assert_eq!(schema.terms_of_block(Version::V2, b"").unwrap().count(), 0);
    assert_eq!(schema.import_reader(&b""[..]).count(), 0);
    let reason = DocumentReason::UnexpectedEnd;
    let refusal = Document::read(Version::V2, b"").unwrap_err();
    assert_eq!(refusal, Refusal::BadDocument { reason, start: 0 });
    match Document::parse(&mut schema, b"").unwrap_err() {
        Refusal::BadLine(line) => assert_eq!(line.reason, LineReason::InvalidJson),
        other => panic!("{other:?}"),
    }
    // An empty line is a line, and no JSON object.
    assert_eq!(schema.import_lines(b"\n").unwrap().lines.len(), 1);
}

#[test]
fn handles_are_printed_without_what_they_hold() {
    assert_eq!(format!("{:?}", Schema::open(b"[]").unwrap()), "Schema { .. }");
    assert_eq!(format!("{:?}", Document::default()), "Document { .. }");
}
