//! Blocks of stored documents: lines of JSON become one, and one becomes lines or another one.

use crate::buffer::{append_with_lines, filled, filled_text, reserve, Room};
use crate::calls::{self, Answer, LineAnswer};
use crate::refusal::{LineRefusal, Refusal};

/// A version of the document store. Nothing in a block says which one it has.
///
/// ```
/// use kormaglen::{Refusal, Version};
///
/// assert_eq!(Version::try_from(2), Ok(Version::V2));
/// assert_eq!(Version::V2.number(), 2);
/// assert_eq!(Version::try_from(4), Err(Refusal::WrongVersion));
/// ```
#[non_exhaustive]
#[derive(Clone, Copy, Debug, PartialEq, Eq, PartialOrd, Ord, Hash)]
pub enum Version {
    /// The oldest one, whose dates have microseconds. It is read, but not written.
    V1 = 1,
    /// The one that tantivy 0.26.2 writes. `import_lines` writes it.
    V2 = 2,
    /// The shortest one, whose objects' keys have no code. It isn't tantivy's.
    V3 = 3,
}

impl Version {
    /// The number of the version: 1, 2 or 3.
    ///
    /// ```
    /// assert_eq!(kormaglen::Version::V3.number(), 3);
    /// ```
    pub fn number(self) -> u32 {
        self as u32
    }
}

impl TryFrom<u32> for Version {
    type Error = Refusal;

    /// The version of a number; another one than 1, 2 and 3 is `Refusal::WrongVersion`.
    fn try_from(number: u32) -> Result<Version, Refusal> {
        match number {
            1 => Ok(Version::V1),
            2 => Ok(Version::V2),
            3 => Ok(Version::V3),
            _ => Err(Refusal::WrongVersion),
        }
    }
}

/// A block of stored documents, and what became of each line.
///
/// ```
/// let mut schema = kormaglen::Schema::open(
///     br#"[{"name":"name","type":"text","options":{"stored":true}}]"#,
/// )?;
/// let imported = schema.import_lines(b"{\"name\":\"Ada\"}\n{\"name\":7}\n")?;
/// for (line, number) in imported.lines.iter().zip(1..) {
///     match line {
///         Ok(bytes) => println!("line {number} takes {bytes} bytes"),
///         Err(refusal) => println!("line {number}: {refusal}"),
///     }
/// }
/// assert_eq!(imported.lines[0], Ok(imported.block.len() as u64));
/// assert!(imported.lines[1].is_err());
/// # Ok::<(), kormaglen::Refusal>(())
/// ```
#[non_exhaustive]
#[derive(Clone, Debug, PartialEq, Eq)]
pub struct Imported {
    /// The documents, one after the other, in version 2 of the store.
    pub block: Vec<u8>,
    /// For each line how many bytes its document takes in the block, or why it has none.
    pub lines: Vec<Result<u64, LineRefusal>>,
}

/// Stores the documents of lines of JSON, one after the other in version 2, and answers each line.
/// A line ends at a line feed, and the last one may lack it. A line that is refused stores nothing,
/// and the next line follows.
///
/// The schema is its JSON, which is read anew. [`Schema`](crate::Schema) reads it once for many
/// calls.
///
/// ```
/// let schema = br#"[{"name":"name","type":"text","options":{"stored":true}}]"#;
/// let imported = kormaglen::import_lines(schema, b"{\"name\":\"Ada\"}\n")?;
/// // One pair, of field 0, with a text of three bytes.
/// assert_eq!(imported.block, b"\x81\0\0\0\0\0\x83Ada");
/// # Ok::<(), kormaglen::Refusal>(())
/// ```
///
/// # Errors
///
/// `InvalidJson` and `BadSchema` of the schema, `Memory`, `TooLarge`.
pub fn import_lines(schema: &[u8], lines: &[u8]) -> Result<Imported, Refusal> {
    imported(lines, |block, answers| calls::import_lines(schema, lines, block, answers))
}

/// What a call imports of lines.
pub(crate) fn imported(
    text: &[u8],
    call: impl FnMut(&mut [u8], &mut [LineAnswer]) -> Answer,
) -> Result<Imported, Refusal> {
    let line_feeds = text.iter().filter(|byte| **byte == b'\n').count();
    let room = Room { bytes: text.len(), lines: line_feeds + 1 };
    let (mut block, mut answers) = (Vec::new(), Vec::new());
    append_with_lines(&mut block, &mut answers, room, call)?;
    let mut lines = Vec::new();
    reserve(&mut lines, answers.len())?;
    lines.extend(answers.into_iter().map(line));
    Ok(Imported { block, lines })
}

fn line(answer: LineAnswer) -> Result<u64, LineRefusal> {
    match answer.status {
        0 => Ok(answer.bytes),
        status => Err(LineRefusal::of_numbers(status, answer.field, answer.bytes)),
    }
}

/// The documents of a block as lines of JSON with the names of the schema's fields, each with a
/// line feed. Values of fields that the schema doesn't have are left out.
///
/// The schema is its JSON, which is read anew. [`Schema`](crate::Schema) reads it once for many
/// calls.
///
/// ```
/// use kormaglen::{export_block, Version};
///
/// let schema = br#"[{"name":"name","type":"text","options":{"stored":true}}]"#;
/// let lines = export_block(schema, Version::V2, b"\x81\0\0\0\0\0\x83Ada")?;
/// assert_eq!(lines, "{\"name\":[\"Ada\"]}\n");
/// # Ok::<(), kormaglen::Refusal>(())
/// ```
///
/// # Errors
///
/// `InvalidJson` and `BadSchema` of the schema, `BadDocument` of the first document that can't be
/// read, `Memory`, `TooLarge`.
pub fn export_block(schema: &[u8], version: Version, block: &[u8]) -> Result<String, Refusal> {
    exported(block, |lines| calls::export_block(schema, version.number(), block, lines))
}

/// What a call exports of a block.
pub(crate) fn exported(
    block: &[u8],
    call: impl FnMut(&mut [u8]) -> Answer,
) -> Result<String, Refusal> {
    // Names and punctuation take more than the field numbers and codes that they stand for.
    filled_text(block.len() + block.len() / 2, call)
}

/// The documents of a block, of any version, in version 2 or 3.
///
/// ```
/// use kormaglen::{migrate_block, Version};
///
/// // An object with the key `a` and the value `b`: in version 3 a key has no code.
/// let block = b"\x81\0\0\0\0\x0d\x82\0\x81a\0\x81b";
/// let migrated = migrate_block(Version::V2, block, Version::V3)?;
/// assert_eq!(migrated, b"\x81\0\0\0\0\x0d\x81\x81a\0\x81b");
/// # Ok::<(), kormaglen::Refusal>(())
/// ```
///
/// # Errors
///
/// `WrongVersion` where `to` is version 1, `BadDocument` of the first document that can't be read,
/// `Memory`, `TooLarge`.
pub fn migrate_block(from: Version, block: &[u8], to: Version) -> Result<Vec<u8>, Refusal> {
    filled(block.len(), |migrated| {
        calls::migrate_block(from.number(), block, to.number(), migrated)
    })
}
