//! Each call with random bytes: none panics, and what is written is read back.

mod common;

use common::SCHEMA;
use kormaglen::{
    count_facets, documents, end_of_prefix, export_block, facet_of_text, find_field, import_lines,
    migrate_block, term_of_text, terms, terms_of_block, text_of_facet, text_of_term, Document,
    DocumentReason, Refusal, Schema, Version,
};

const ROUNDS: u64 = 3000;
const VERSIONS: [Version; 3] = [Version::V1, Version::V2, Version::V3];

/// Bytes that blocks and lines are likely to have.
const BLOCK_BYTES: &[u8] = b"\0\0\0\x80\x81\x82\x83\x01\x05\x07\x08\x09\x0a\x0b\x0c\x0d\x7f\xffa{}";
const LINE_BYTES: &[u8] = b"{}[]\"\"::,,\\/sufdyj019.-e \ntrue\xc3\xa9";

/// Numbers that are the same in each run, by Marsaglia's shifts.
struct Random(u64);

impl Random {
    fn below(&mut self, end: usize) -> usize {
        self.0 ^= self.0 << 13;
        self.0 ^= self.0 >> 7;
        self.0 ^= self.0 << 17;
        (self.0 % end as u64) as usize
    }

    fn bytes_of(&mut self, choices: &[u8]) -> Vec<u8> {
        let len = self.below(40);
        (0..len).map(|_| choices[self.below(choices.len())]).collect()
    }

    /// The bytes with some of them changed.
    fn changed(&mut self, bytes: &[u8], choices: &[u8]) -> Vec<u8> {
        let mut changed = bytes.to_vec();
        for _ in 0..1 + self.below(3) {
            let place = self.below(changed.len());
            changed[place] = choices[self.below(choices.len())];
        }
        changed
    }
}

fn is_no_room(refusal: &Refusal) -> bool {
    matches!(refusal, Refusal::BadDocument { reason: DocumentReason::NoRoom, .. })
}

#[test]
fn blocks_of_random_bytes_are_read_or_refused() {
    let mut random = Random(1);
    let (mut schema, mut document) = (Schema::open(SCHEMA).unwrap(), Document::new());
    let lines = b"{\"s\":\"a\",\"j\":{\"k\":[1,true,null]}}\n{\"y\":\"AA==\",\"u\":1}\n";
    let whole = schema.import_lines(lines).unwrap().block;
    for round in 0..ROUNDS {
        let block = match round % 2 {
            0 => random.bytes_of(BLOCK_BYTES),
            _ => random.changed(&whole, BLOCK_BYTES),
        };
        for version in VERSIONS {
            let exported = schema.export_block(version, &block);
            assert_eq!(export_block(SCHEMA, version, &block), exported);
            let listed: Result<Vec<_>, _> = terms(0, version, &block).collect();
            assert_eq!(terms_of_block(0, version, &block), listed);
            let values = schema.values_of_block("s", version, &block);
            // Values of other fields need no room.
            let refused = listed.as_ref().err().filter(|refusal| !is_no_room(refusal));
            if refused.is_some() || listed.is_ok() {
                assert_eq!(values.as_ref().err(), refused);
            }
            if let (Ok(values), Ok(terms)) = (values, &listed) {
                // A value has one term at most: null, arrays and objects have none.
                assert!(values.len() >= terms.len());
            }
            let count = documents(version, &block).count();
            match schema.terms_of_block(version, &block) {
                Ok(found) => {
                    assert!(exported.is_ok());
                    let numbers: Vec<u64> = found
                        .map(|each| each.map_or_else(|it| it.document, |it| it.document))
                        .collect();
                    assert!(numbers.windows(2).all(|pair| pair[0] <= pair[1]));
                    assert!(numbers.iter().all(|number| *number < count as u64));
                }
                Err(refusal) => assert_eq!(exported, Err(refusal)),
            }
            match migrate_block(version, &block, Version::V3) {
                Ok(migrated) => {
                    assert_eq!(documents(Version::V3, &migrated).count(), count);
                    assert_eq!(schema.export_block(Version::V3, &migrated), exported);
                }
                Err(refusal) => assert_eq!(exported, Err(refusal)),
            }
            if document.read_again(version, &block).is_ok() {
                let text = document.to_json(&mut schema).unwrap();
                assert!(exported.map_or(true, |lines| lines.starts_with(&text)));
                let _ = document.write(&mut schema, Version::V2);
            }
        }
    }
}

#[test]
fn lines_and_schemas_of_random_bytes_are_read_or_refused() {
    let mut random = Random(2);
    let mut schema = Schema::open(SCHEMA).unwrap();
    let line = b"{\"s\":\"a\",\"j\":{\"k\":[1,true,null]},\"d\":\"1970-01-01T00:00:00Z\"}\n";
    for round in 0..ROUNDS {
        let lines = match round % 2 {
            0 => random.bytes_of(LINE_BYTES),
            _ => random.changed(line, LINE_BYTES),
        };
        let imported = schema.import_lines(&lines).unwrap();
        assert_eq!(import_lines(SCHEMA, &lines).unwrap(), imported);
        let ends_open = lines.last().map_or(false, |byte| *byte != b'\n');
        let feeds = lines.iter().filter(|byte| **byte == b'\n').count();
        assert_eq!(imported.lines.len(), feeds + usize::from(ends_open));
        let stored: u64 = imported.lines.iter().flatten().sum();
        assert_eq!(stored, imported.block.len() as u64);
        let printed = schema.export_block(Version::V2, &imported.block).unwrap();
        let again = schema.import_lines(printed.as_bytes()).unwrap();
        assert_eq!(again.block, imported.block);
        let json = random.changed(SCHEMA, LINE_BYTES);
        if let Ok(mut other) = Schema::open(&json) {
            let text = other.to_json().unwrap();
            let mut read = Schema::open(text.as_bytes()).unwrap();
            assert_eq!(read.to_json().unwrap(), text);
        }
        let _ = Schema::open(&lines);
    }
}

#[test]
fn random_texts_have_terms_and_facets_or_are_refused() {
    let mut random = Random(3);
    for _ in 0..ROUNDS {
        let bytes = random.bytes_of(b"/\\.ab\0sufdyj\xc3\xa9\xff");
        let text = String::from_utf8_lossy(&bytes);
        let term = term_of_text(7, &text).unwrap();
        assert_eq!(term, [b"\0\0\0\x07s", text.as_bytes()].concat());
        assert_eq!(text_of_term(&term).unwrap(), text);
        let _ = text_of_term(&bytes);
        if let Ok(end) = end_of_prefix(&bytes) {
            assert!(end > bytes);
        }
        if let Ok(field) = find_field(SCHEMA, &text) {
            assert!(text.ends_with(field.rest));
        }
        if let Ok(encoded) = facet_of_text(&text) {
            let named = text_of_facet(&encoded).unwrap();
            assert_eq!(facet_of_text(&named).unwrap(), encoded);
        }
        assert_eq!(text_of_facet(&bytes).is_ok(), std::str::from_utf8(&bytes).is_ok());
        let counted = count_facets(b"", [(7, &bytes)]);
        assert_eq!(counted.is_ok(), std::str::from_utf8(&bytes).is_ok());
        for count in counted.iter().flatten() {
            assert!(count.documents == 1 && bytes.starts_with(&count.child));
        }
    }
}
