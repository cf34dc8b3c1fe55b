//! Lines of readers.

mod common;

use common::{stored_text, FAULTS, SCHEMA};
use kormaglen::{ImportError, Imported, Refusal, Schema};
use std::io::{self, Read};

/// Gives a fixed number of bytes at a time, one interruption before each part, and an error after them all,
/// if there is one.
struct Parts<'t> {
    rest: &'t [u8],
    size: usize,
    is_interrupted: bool,
    error: Option<io::ErrorKind>,
}

impl<'t> Parts<'t> {
    fn new(rest: &'t [u8], size: usize) -> Parts<'t> {
        Parts { rest, size, is_interrupted: false, error: None }
    }

    fn failing(self, kind: io::ErrorKind) -> Parts<'t> {
        Parts { error: Some(kind), ..self }
    }
}

impl Read for Parts<'_> {
    fn read(&mut self, buffer: &mut [u8]) -> io::Result<usize> {
        self.is_interrupted = !self.is_interrupted;
        if self.is_interrupted {
            return Err(io::ErrorKind::Interrupted.into());
        }
        match (self.rest.is_empty(), self.error) {
            (true, Some(kind)) => Err(kind.into()),
            _ => {
                let len = self.size.min(self.rest.len()).min(buffer.len());
                let (part, rest) = self.rest.split_at(len);
                buffer[..len].copy_from_slice(part);
                self.rest = rest;
                Ok(len)
            }
        }
    }
}

/// What all blocks have together.
fn joined(parts: Vec<Imported>) -> (Vec<u8>, usize, usize) {
    let stored = parts.iter().flat_map(|part| &part.lines).filter(|line| line.is_ok()).count();
    let lines = parts.iter().map(|part| part.lines.len()).sum();
    (parts.into_iter().flat_map(|part| part.block).collect(), lines, stored)
}

#[test]
fn lines_are_imported_alike_in_chunks_of_any_size() {
    let mut schema = Schema::open(SCHEMA).unwrap();
    let lines =
        b"{\"s\":\"a\"}\n\nnull\n{\"s\":\"a longer text than the others\"}\r\n{}\n{\"s\":\"b\"}";
    let long = stored_text("a longer text than the others");
    let block = [stored_text("a"), long, b"\x80".to_vec(), stored_text("b")].concat();
    for chunk in 0..=lines.len() + 2 {
        for size in [1, 2, 7, 100] {
            let reader = Parts::new(lines, size);
            let parts = schema.import_reader(reader).with_chunk(chunk);
            let parts: Result<Vec<_>, _> = parts.collect();
            assert_eq!(joined(parts.unwrap()), (block.clone(), 6, 4), "{chunk} {size}");
        }
    }
}

#[test]
fn lines_are_refused_alike_in_chunks_of_any_size() {
    let mut schema = Schema::open(SCHEMA).unwrap();
    let mut lines = Vec::new();
    for (line, ..) in FAULTS {
        lines.extend_from_slice(&[b"{\"s\":\"a\"}\n", line, b"\n"].concat());
    }
    for chunk in 0..=lines.len() + 2 {
        let parts = schema.import_reader(&lines[..]).with_chunk(chunk);
        let answers: Vec<_> = parts.flat_map(|part| part.unwrap().lines).collect();
        assert_eq!(answers.len(), 2 * FAULTS.len());
        for (pair, (_, fault, byte, _)) in answers.chunks(2).zip(FAULTS) {
            let refusal = pair[1].unwrap_err();
            assert_eq!((pair[0], refusal.fault, refusal.byte), (Ok(8), Some(fault), byte));
        }
    }
}

#[test]
fn a_last_line_feed_begins_no_line() {
    let mut schema = Schema::open(SCHEMA).unwrap();
    for (lines, count) in [("{}\n", 1), ("{}\n\n", 2), ("{}", 1), ("\n", 1), ("", 0)] {
        for chunk in 1..5 {
            let parts = schema.import_reader(lines.as_bytes()).with_chunk(chunk);
            let counted: usize = parts.map(|part| part.unwrap().lines.len()).sum();
            assert_eq!(counted, count, "{lines:?}");
        }
    }
}

#[test]
fn lines_before_a_failure_come_and_then_the_failure() {
    let mut schema = Schema::open(SCHEMA).unwrap();
    for chunk in 1..30 {
        // What is there of the last line is a whole document, but it may go on.
        let reader = Parts::new(b"{\"s\":\"a\"}\n{}\n{}", 4).failing(io::ErrorKind::TimedOut);
        let mut parts = schema.import_reader(reader).with_chunk(chunk);
        let (mut imported, mut errors) = (Vec::new(), Vec::new());
        for part in &mut parts {
            match part {
                Ok(part) => imported.push(part),
                Err(ImportError::Read(error)) => errors.push(error.kind()),
                Err(other) => panic!("{other:?}"),
            }
        }
        assert_eq!(joined(imported), ([stored_text("a"), b"\x80".to_vec()].concat(), 2, 2));
        assert_eq!(errors, [io::ErrorKind::TimedOut]);
        assert!(parts.next().is_none());
    }
    // The schema serves on.
    assert_eq!(schema.import_lines(b"{}").unwrap().block, b"\x80");
}

#[test]
fn a_failure_prints_as_that_of_the_reader() {
    let mut schema = Schema::open(SCHEMA).unwrap();
    let reader = Parts::new(b"", 1).failing(io::ErrorKind::TimedOut);
    let error = schema.import_reader(reader).next().unwrap().unwrap_err();
    assert_eq!(error.to_string(), "timed out");
    let refused = ImportError::Refused(Refusal::Memory);
    assert_eq!(refused.to_string(), Refusal::Memory.to_string());
}

#[test]
fn a_line_may_be_as_long_as_the_limit() {
    let mut schema = Schema::open(SCHEMA).unwrap();
    let line = b"{\"s\":\"of 20 bytes.\"}";
    assert_eq!(line.len(), 20);
    let lines = [&line[..], b"\n{}\n", line].concat();
    for chunk in 1..60 {
        for limit in 0..30 {
            let blocks = schema.import_reader(Parts::new(&lines, 7)).with_chunk(chunk);
            let parts: Vec<_> = blocks.with_line_limit(limit).collect();
            let is_long = parts.iter().any(|part| matches!(part, Err(ImportError::LongLine)));
            // Both long lines have 20 bytes. A chunk of more holds one with its line feed.
            assert!(limit < 20 || !is_long, "{chunk} {limit}");
            assert!(limit >= 20 || chunk > 20 || is_long, "{chunk} {limit}");
            let imported: Vec<_> = parts.into_iter().filter_map(Result::ok).collect();
            assert!(is_long || joined(imported).1 == 3);
        }
    }
}
