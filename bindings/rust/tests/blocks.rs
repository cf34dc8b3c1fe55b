//! The documents and the terms of a block, one by one.

mod common;

use common::{stored_number, stored_text, SCHEMA};
use kormaglen::{
    documents, terms, terms_of_block, Document, DocumentReason, Refusal, Schema, Version,
};

/// Two documents, one whose truth value is 2, and one more.
fn broken_in_the_middle() -> Vec<u8> {
    let broken = b"\x81\0\0\0\0\x09\x02".to_vec();
    [stored_text("a"), stored_number(258), broken, stored_text("b")].concat()
}

/// The refusal of the third document: it begins after 8 and 14 bytes.
const BROKEN: Refusal = Refusal::BadDocument { reason: DocumentReason::BadBool, start: 22 };

#[test]
fn documents_come_in_order_with_their_places() {
    let mut schema = Schema::open(SCHEMA).unwrap();
    let block = [stored_text("a"), b"\x80".to_vec(), stored_number(258)].concat();
    let mut found = documents(Version::V2, &block);
    let mut rows = Vec::new();
    assert_eq!(found.size_hint(), (1, Some(23)));
    while let Some(document) = found.next() {
        rows.push((document.unwrap().to_json(&mut schema).unwrap(), found.offset()));
    }
    let wanted = [("{\"s\":[\"a\"]}", 8), ("{}", 9), ("{\"u\":[258]}", 23)];
    assert_eq!(rows, wanted.map(|(text, place)| (text.to_owned(), place)));
    assert_eq!(found.size_hint(), (0, Some(0)));
    assert!(found.next().is_none());
}

#[test]
fn documents_before_a_broken_one_come_and_none_after_it() {
    let block = broken_in_the_middle();
    let mut found = documents(Version::V2, &block);
    assert!(found.next().unwrap().is_ok());
    assert!(found.next().unwrap().is_ok());
    assert_eq!(found.next().unwrap().unwrap_err(), BROKEN);
    assert_eq!(found.offset(), 22);
    assert_eq!(found.size_hint(), (0, Some(0)));
    for _ in 0..3 {
        assert!(found.next().is_none());
    }
    assert_eq!(found.offset(), 22);
}

#[test]
fn one_document_serves_for_all_of_a_block() {
    let mut schema = Schema::open(SCHEMA).unwrap();
    let block = broken_in_the_middle();
    let mut found = documents(Version::V2, &block);
    let mut document = Document::new();
    assert_eq!(found.read_into(&mut document), Some(Ok(&stored_text("a")[..])));
    assert_eq!(document.to_json(&mut schema).unwrap(), "{\"s\":[\"a\"]}");
    assert_eq!(found.read_into(&mut document), Some(Ok(&stored_number(258)[..])));
    assert_eq!(document.to_json(&mut schema).unwrap(), "{\"u\":[258]}");
    assert_eq!(found.read_into(&mut document), Some(Err(BROKEN)));
    assert_eq!(document.to_json(&mut schema), Err(Refusal::Closed));
    assert_eq!(found.read_into(&mut document), None);
}

#[test]
fn a_copy_of_an_iterator_goes_on_from_there() {
    let block = [stored_text("a"), stored_number(258), b"\x80".to_vec()].concat();
    let mut found = documents(Version::V2, &block);
    found.next().unwrap().unwrap();
    assert_eq!((found.clone().count(), found.count()), (2, 2));
}

#[test]
fn a_block_that_ends_early_is_refused_wherever_it_is_cut() {
    let block = [stored_text("a"), stored_number(258)].concat();
    for len in 0..block.len() {
        let whole = usize::from(len >= 8);
        let results: Vec<_> = documents(Version::V2, &block[..len]).collect();
        let is_cut = len != 0 && len != 8;
        assert_eq!(results.len(), whole + usize::from(is_cut), "{len} bytes");
        if is_cut {
            let start = 8 * whole as u64;
            let reason = DocumentReason::UnexpectedEnd;
            let last = results.into_iter().last().unwrap();
            assert_eq!(last.unwrap_err(), Refusal::BadDocument { reason, start });
        }
    }
}

#[test]
fn terms_come_one_by_one_as_all_at_once() {
    let mut schema = Schema::open(SCHEMA).unwrap();
    let mut lines = String::new();
    for number in 0..300 {
        lines += &format!("{{\"u\":[{number},{number}],\"s\":\"a\"}}\n{{}}\n{{\"s\":\"b\"}}\n");
    }
    let block = schema.import_lines(lines.as_bytes()).unwrap().block;
    let found: Result<Vec<_>, _> = terms(1, Version::V2, &block).collect();
    let found = found.unwrap();
    assert_eq!(found.len(), 600);
    for (term, place) in found.iter().zip(0u64..) {
        // Each third document has two equal numbers.
        assert_eq!(term.document, place / 2 * 3);
        let wanted = [&b"\0\0\0\x01u"[..], &(place / 2).to_be_bytes()].concat();
        assert_eq!(term.bytes, wanted);
    }
    assert_eq!(terms_of_block(1, Version::V2, &block).unwrap(), found);
    assert_eq!(terms(2, Version::V2, &block).count(), 0);
}

#[test]
fn terms_before_a_broken_document_come_and_none_after_it() {
    let block = broken_in_the_middle();
    let mut found = terms(0, Version::V2, &block);
    let first = found.next().unwrap().unwrap();
    assert_eq!((first.document, &first.bytes[..]), (0, &b"\0\0\0\0sa"[..]));
    assert_eq!(found.next().unwrap().unwrap_err(), BROKEN);
    for _ in 0..3 {
        assert!(found.next().is_none());
    }
    assert_eq!(terms_of_block(0, Version::V2, &block).unwrap_err(), BROKEN);
}

#[test]
fn terms_of_a_date_are_cut_to_the_second() {
    // -1500000000 nanoseconds become -1000000000, counted from -2^63 with the highest byte first.
    let value = (-1_500_000_000i64).to_le_bytes();
    let block = [&b"\x81\x03\0\0\0\x05"[..], &value].concat();
    let key = (-1_000_000_000i64).wrapping_sub(i64::MIN).to_be_bytes();
    let term = terms(3, Version::V2, &block).next().unwrap().unwrap();
    assert_eq!(term.bytes, [&b"\0\0\0\x03d"[..], &key].concat());
}

#[test]
fn all_ways_to_read_a_block_agree_also_on_changed_ones() {
    let mut schema = Schema::open(SCHEMA).unwrap();
    let lines = br#"{"s":"a","j":{"k":[1,true,null]}}
{"u":258,"f":"/a/b"}
{}
{"s":"b"}"#;
    let whole = schema.import_lines(lines).unwrap().block;
    let mut refused = 0;
    for place in 0..whole.len() {
        for byte in [0, 1, 9, 13, 14, 127, 128, 129, 255] {
            let mut block = whole.clone();
            block[place] = byte;
            let one_by_one: Result<Vec<_>, _> = documents(Version::V2, &block).collect();
            let printed = schema.export_block(Version::V2, &block);
            assert_eq!(printed.as_ref().err(), one_by_one.as_ref().err(), "{place} {byte}");
            if let (Ok(printed), Ok(documents)) = (&printed, one_by_one) {
                let texts = documents.into_iter().map(|mut one| one.to_json(&mut schema));
                let texts: Vec<String> = texts.map(Result::unwrap).collect();
                assert!(texts.iter().map(String::as_str).eq(printed.lines()));
            }
            let listed: Result<Vec<_>, _> = terms(0, Version::V2, &block).collect();
            assert_eq!(listed, terms_of_block(0, Version::V2, &block));
            refused += usize::from(printed.is_err());
        }
    }
    assert!(refused > 0);
}
