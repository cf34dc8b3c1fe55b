//! Lines of a reader, imported a chunk at a time.

use crate::blocks::Imported;
use crate::refusal::Refusal;
use crate::schema::Schema;
use std::error::Error;
use std::fmt;
use std::io::{self, Read};
use std::iter::FusedIterator;
use std::mem;

/// How many bytes are read at a time where nothing else is said.
const CHUNK: usize = 1 << 20;

/// Why the import of a reader's lines ended early.
///
/// ```
/// use kormaglen::{ImportError, Schema};
/// use std::io::{self, Read};
///
/// struct Slow;
///
/// impl Read for Slow {
///     fn read(&mut self, _: &mut [u8]) -> io::Result<usize> {
///         Err(io::ErrorKind::TimedOut.into())
///     }
/// }
///
/// let mut schema = Schema::open(b"[]")?;
/// match schema.import_reader(Slow).next() {
///     Some(Err(ImportError::Read(error))) => assert_eq!(error.kind(), io::ErrorKind::TimedOut),
///     other => panic!("{other:?}"),
/// }
/// # Ok::<(), kormaglen::Refusal>(())
/// ```
#[non_exhaustive]
#[derive(Debug)]
pub enum ImportError {
    /// The reader failed.
    Read(io::Error),
    /// The library refused the lines: `Memory` or `TooLarge`.
    Refused(Refusal),
    /// A line is longer than [`ImportedBlocks::with_line_limit`] allows.
    LongLine,
}

/// Prints what the reader's error or the refusal prints, or that a line is too long.
impl fmt::Display for ImportError {
    fn fmt(&self, f: &mut fmt::Formatter<'_>) -> fmt::Result {
        match self {
            ImportError::Read(error) => error.fmt(f),
            ImportError::Refused(refusal) => refusal.fmt(f),
            ImportError::LongLine => f.write_str("a line is longer than allowed"),
        }
    }
}

impl Error for ImportError {
    fn source(&self) -> Option<&(dyn Error + 'static)> {
        match self {
            ImportError::Read(error) => error.source(),
            ImportError::Refused(refusal) => refusal.source(),
            ImportError::LongLine => None,
        }
    }
}

/// An iterator over the blocks of a reader's lines, see [`Schema::import_reader`]. Each block has
/// the documents of whole lines, in order, and answers them as
/// [`import_lines`](crate::import_lines()) does. Together the blocks are the block of all lines.
///
/// Where the reader fails, or a line is longer than allowed, the whole lines before that come
/// first, then the error. After an error it gives nothing more.
///
/// ```
/// let mut schema = kormaglen::Schema::open(b"[]")?;
/// let mut block = Vec::new();
/// for imported in schema.import_reader(&b"{}\n{}\n{}"[..]) {
///     block.extend_from_slice(&imported?.block);
/// }
/// assert_eq!(block, b"\x80\x80\x80");
/// # Ok::<(), Box<dyn std::error::Error>>(())
/// ```
#[must_use = "lines are imported as blocks are asked for"]
pub struct ImportedBlocks<'s, R> {
    schema: &'s mut Schema,
    reader: R,
    chunk: usize,
    line_limit: usize,
    // Bytes that were read, but not yet imported. They are the start of a line.
    pending: Vec<u8>,
    state: State,
}

/// What is to be done after the bytes that were read.
enum State {
    Reads,
    Failed(ImportError),
    Ended,
}

impl<'s, R: Read> ImportedBlocks<'s, R> {
    pub(crate) fn new(schema: &'s mut Schema, reader: R) -> ImportedBlocks<'s, R> {
        ImportedBlocks {
            schema,
            reader,
            chunk: CHUNK,
            line_limit: usize::MAX,
            pending: Vec::new(),
            state: State::Reads,
        }
    }

    /// Has about `bytes` bytes of lines be read and imported at a time, in place of 1 MiB; 0 is
    /// taken as 1. A line that is longer is imported alone.
    ///
    /// ```
    /// let mut schema = kormaglen::Schema::open(b"[]")?;
    /// let blocks = schema.import_reader(&b"{}\n{}\n{}\n"[..]).with_chunk(7);
    /// let counts: Vec<usize> = blocks.map(|imported| imported.unwrap().lines.len()).collect();
    /// assert_eq!(counts, [2, 1]);
    /// # Ok::<(), kormaglen::Refusal>(())
    /// ```
    pub fn with_chunk(mut self, bytes: usize) -> Self {
        self.chunk = bytes.max(1);
        self
    }

    /// Has a line of more than `bytes` bytes, and of more than a chunk, be an error, so that no
    /// input takes more memory than that. Without this call there is no limit.
    ///
    /// ```
    /// use kormaglen::{ImportError, Schema};
    ///
    /// let mut schema = Schema::open(b"[]")?;
    /// let lines = [b"{}\n".to_vec(), vec![b' '; 5000]].concat();
    /// let mut blocks = schema.import_reader(&lines[..]).with_chunk(100).with_line_limit(1000);
    /// assert_eq!(blocks.next().unwrap()?.lines.len(), 1);
    /// assert!(matches!(blocks.next(), Some(Err(ImportError::LongLine))));
    /// assert!(blocks.next().is_none());
    /// # Ok::<(), Box<dyn std::error::Error>>(())
    /// ```
    pub fn with_line_limit(mut self, bytes: usize) -> Self {
        self.line_limit = bytes;
        self
    }

    /// Reads a chunk, and on until it has a line feed, or until the reader ends or fails. It
    /// returns how many of the pending bytes are whole lines.
    fn read_lines(&mut self) -> usize {
        let most = self.chunk.max(self.line_limit.saturating_add(1));
        while let State::Reads = self.state {
            let before = self.pending.len();
            // A long line is read in parts that double, so that it is moved but a few times.
            let wanted = self.chunk.max(before.saturating_mul(2)).min(most);
            let mut part = self.reader.by_ref().take((wanted - before) as u64);
            match part.read_to_end(&mut self.pending) {
                Ok(read) if before + read < wanted => self.state = State::Ended,
                Ok(_) => {}
                Err(error) => self.state = State::Failed(ImportError::Read(error)),
            }
            let line_feed = self.pending[before..].iter().rposition(|byte| *byte == b'\n');
            if let Some(place) = line_feed {
                return before + place + 1;
            }
            if matches!(self.state, State::Reads) && self.pending.len() >= most {
                self.state = State::Failed(ImportError::LongLine);
            }
        }
        match self.state {
            // The last line may lack its line feed.
            State::Ended => self.pending.len(),
            _ => 0,
        }
    }
}

impl<R: Read> Iterator for ImportedBlocks<'_, R> {
    type Item = Result<Imported, ImportError>;

    fn next(&mut self) -> Option<Result<Imported, ImportError>> {
        let whole = self.read_lines();
        if whole == 0 {
            self.pending.clear();
            return match mem::replace(&mut self.state, State::Ended) {
                State::Failed(error) => Some(Err(error)),
                _ => None,
            };
        }
        let imported = self.schema.import_lines(&self.pending[..whole]);
        self.pending.drain(..whole);
        if imported.is_err() {
            self.pending.clear();
            self.state = State::Ended;
        }
        Some(imported.map_err(ImportError::Refused))
    }
}

impl<R: Read> FusedIterator for ImportedBlocks<'_, R> {}

impl<R> fmt::Debug for ImportedBlocks<'_, R> {
    fn fmt(&self, f: &mut fmt::Formatter<'_>) -> fmt::Result {
        f.debug_struct("ImportedBlocks").field("chunk", &self.chunk).finish_non_exhaustive()
    }
}
