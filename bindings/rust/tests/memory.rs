//! How much memory many lines take. It is the only test of its process, so that no other one takes
//! memory meanwhile.

mod common;

use common::{peak, SCHEMA};
use kormaglen::{documents, terms, Document, Schema, Version};
use std::io::{self, Read};

/// How many bytes of lines are imported.
const INPUT: u64 = 50 << 20;
/// How many bytes more may be taken: some chunks of 1 MiB, what is stored of one, and its answers.
const ROOM: u64 = 12 << 20;

/// The lines, which are made as they are read.
struct Lines {
    line: Vec<u8>,
    at: usize,
}

impl Read for Lines {
    fn read(&mut self, buffer: &mut [u8]) -> io::Result<usize> {
        let len = buffer.len().min(self.line.len() - self.at);
        buffer[..len].copy_from_slice(&self.line[self.at..self.at + len]);
        self.at = (self.at + len) % self.line.len();
        Ok(len)
    }
}

fn expect_little(before: u64, task: &str) {
    let more = peak().unwrap() - before;
    println!("{task}: {} KiB more", more >> 10);
    assert!(more < ROOM, "{task}: {more} bytes more");
}

#[test]
fn many_lines_and_blocks_take_little_memory() {
    if peak().is_none() {
        println!("the system doesn't say how much memory a process takes");
        return;
    }
    let mut schema = Schema::open(SCHEMA).unwrap();
    let line = b"{\"s\":\"a text of some words\",\"u\":258,\"f\":\"/first/second\"}\n".to_vec();
    let (len, mut lines, mut stored) = (line.len() as u64, 0, 0);
    let before = peak().unwrap();
    for part in schema.import_reader(Lines { line: line.clone(), at: 0 }.take(INPUT / len * len)) {
        let part = part.unwrap();
        lines += part.lines.len() as u64;
        stored += part.block.len() as u64;
    }
    assert_eq!(lines, INPUT / len);
    expect_little(before, "50 MiB of lines");

    let one = schema.import_lines(&line).unwrap().block;
    assert_eq!(stored, lines * one.len() as u64);
    let block = one.repeat(lines as usize);
    let before = peak().unwrap();
    assert_eq!(terms(1, Version::V2, &block).filter(Result::is_ok).count() as u64, lines);
    expect_little(before, "the terms of a block");

    let before = peak().unwrap();
    let mut document = Document::new();
    let mut found = documents(Version::V2, &block);
    let mut count = 0;
    while let Some(bytes) = found.read_into(&mut document) {
        count += bytes.map(|_| 1).unwrap();
    }
    assert_eq!(count, lines);
    expect_little(before, "the documents of a block");
}
