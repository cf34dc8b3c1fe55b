//! What several tests need.

use kormaglen::JsonFault;
use std::fs;

/// A field of each kind that refuses values in its own way: 0 of texts, 1 of numbers, 2 of facets,
/// 3 of dates, 4 of bytes, 5 of JSON objects.
#[allow(dead_code)]
pub const SCHEMA: &[u8] = br#"[{"name":"s","type":"text","options":{"stored":true}},
{"name":"u","type":"u64","options":{"indexed":false,"stored":true}},
{"name":"f","type":"facet","options":{"stored":true}},
{"name":"d","type":"date","options":{"indexed":false,"fieldnorms":false,"stored":true}},
{"name":"y","type":"bytes","options":{"indexed":false,"fast":false,"stored":true}},
{"name":"j","type":"json_object","options":{"stored":true,"fast":false}}]"#;

/// Lines that are no JSON objects, by RFC 8259: why, at which byte, if it is one, and the library's
/// words. The last four are cut off, so that the byte is the line's length.
#[allow(dead_code)]
pub const FAULTS: [(&[u8], JsonFault, Option<u64>, &str); 10] = [
    (b"{\"age\" 7}", JsonFault::Colon, Some(7), "a colon was expected"),
    (b"{\"\xc3\xa9\" 7}", JsonFault::Colon, Some(6), "a colon was expected"),
    (b"{\"\xff\":1}", JsonFault::NotUtf8, None, "it is not UTF-8"),
    (b"null", JsonFault::NoObject, None, "it is JSON, but no object"),
    (b"{\"u\":1e999}", JsonFault::NumberTooLarge, Some(5), "the number is too large"),
    (b"{\"u\":1} {", JsonFault::TextEnd, Some(8), "the end of the text was expected"),
    (b"{\"u\":", JsonFault::Value, Some(5), "a value was expected"),
    (b"{\"u\":1\r", JsonFault::CommaOrObjectEnd, Some(7), "a comma or } was expected"),
    (
        b"{\"s\":\"\xc3\xa9",
        JsonFault::StringCharacter,
        Some(8),
        "a character or the closing quote was expected",
    ),
    (b"", JsonFault::Value, Some(0), "a value was expected"),
];

/// A stored document with a text in field 0, of version 2: one pair, the field's number in four
/// bytes, the code 0 of texts, and the length. Numbers of variable length below 128 are one byte
/// with its high bit set.
#[allow(dead_code)]
pub fn stored_text(text: &str) -> Vec<u8> {
    assert!(text.len() < 128);
    let head = [0x81, 0, 0, 0, 0, 0, 0x80 | text.len() as u8];
    [&head, text.as_bytes()].concat()
}

/// A stored document with a number in field 1, of version 2: the code 1 of numbers, and eight
/// bytes, the lowest first.
#[allow(dead_code)]
pub fn stored_number(number: u64) -> Vec<u8> {
    [&[0x81, 1, 0, 0, 0, 1][..], &number.to_le_bytes()].concat()
}

/// The most memory that this process had so far, in bytes, where the system says so.
#[allow(dead_code)]
pub fn peak() -> Option<u64> {
    let status = fs::read_to_string("/proc/self/status").ok()?;
    let line = status.lines().find(|line| line.starts_with("VmHWM:"))?;
    line.split_whitespace().nth(1)?.parse::<u64>().ok().map(|kib| kib << 10)
}
