//! How much memory the terms of a long key take. It is the only test of its process, so that no other
//! one takes memory meanwhile.

mod common;

use common::peak;
use kormaglen::{Schema, Version};

const SCHEMA: &[u8] = br#"[{"name":"j","type":"json_object",
"options":{"stored":true,"fast":false,"indexing":{}}}]"#;

/// A line of one key of so many letters over half as many numbers.
fn line_of(letters: usize) -> String {
    let numbers: Vec<String> = (0..letters / 2).map(|number| number.to_string()).collect();
    format!("{{\"j\":{{\"{}\":[{}]}}}}", "k".repeat(letters), numbers.join(","))
}

/// The terms of the last line are 785 MB, one after the other.
#[test]
fn terms_of_a_long_key_take_memory_in_proportion_to_the_block() {
    if peak().is_none() {
        println!("the system doesn't say how much memory a process takes");
        return;
    }
    let mut schema = Schema::open(SCHEMA).unwrap();
    for letters in [5_000, 10_000, 20_000, 40_000] {
        let before = peak().unwrap();
        let block = schema.import_lines(line_of(letters).as_bytes()).unwrap().block;
        let found = schema.terms_of_block(Version::V2, &block).unwrap();
        // The field in four bytes, a code, the key, a zero byte, a code and a number.
        let lens = found.map(|term| term.unwrap().bytes.len());
        assert_eq!(lens.filter(|len| *len == 4 + 1 + letters + 1 + 1 + 8).count(), letters / 2);
        let more = peak().unwrap() - before;
        println!("a key of {letters} letters: {} KiB more", more >> 10);
        assert!(more < (1 << 20) + 100 * letters as u64, "{letters} letters: {more} bytes more");
    }
}
