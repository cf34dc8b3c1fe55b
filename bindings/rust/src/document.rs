//! One document at a time.

use crate::blocks::Version;
use crate::buffer::{append, filled, filled_text, size};
use crate::calls::DocumentHandle;
use crate::refusal::Refusal;
use crate::schema::Schema;
use std::fmt;

/// How many bytes of a document are asked for at first.
const FIRST_ROOM: usize = 1024;

/// One document, or none. Its memory serves the next document that is read or parsed in its place,
/// and is given back where its value ends.
///
/// ```
/// use kormaglen::{Document, Schema, Version};
///
/// let mut schema = Schema::open(
///     br#"[{"name":"age","type":"u64","options":{"indexed":true,"stored":true}}]"#,
/// )?;
/// let mut document = Document::parse(&mut schema, br#"{"age":36}"#)?;
/// let bytes = document.write(&mut schema, Version::V2)?;
/// let (mut read, len) = Document::read(Version::V2, &bytes)?;
/// assert_eq!(len, bytes.len());
/// assert_eq!(read.to_json(&mut schema)?, r#"{"age":[36]}"#);
/// # Ok::<(), kormaglen::Refusal>(())
/// ```
///
/// As a [`Schema`] it can be moved to another thread, but isn't `Sync`:
///
/// ```compile_fail,E0277
/// fn share<T: Sync>(_: &T) {}
/// share(&kormaglen::Document::new());
/// ```
pub struct Document {
    handle: DocumentHandle,
}

impl Document {
    /// A value that holds no document yet, and no memory.
    ///
    /// ```
    /// use kormaglen::{Document, Refusal, Schema};
    ///
    /// let mut schema = Schema::open(b"[]")?;
    /// let mut document = Document::new();
    /// assert_eq!(document.to_json(&mut schema), Err(Refusal::Closed));
    /// document.parse_again(&mut schema, b"{}")?;
    /// assert_eq!(document.to_json(&mut schema)?, "{}");
    /// # Ok::<(), Refusal>(())
    /// ```
    pub const fn new() -> Document {
        Document { handle: DocumentHandle::closed() }
    }

    /// The document with which the bytes begin, and how many bytes it takes.
    ///
    /// ```
    /// use kormaglen::{Document, Version};
    ///
    /// let (_, len) = Document::read(Version::V2, b"\x80 and more")?;
    /// assert_eq!(len, 1);
    /// # Ok::<(), kormaglen::Refusal>(())
    /// ```
    ///
    /// # Errors
    ///
    /// `BadDocument` at 0 where the bytes begin with no document, `Memory`.
    pub fn read(version: Version, bytes: &[u8]) -> Result<(Document, usize), Refusal> {
        let mut document = Document::new();
        let len = document.read_again(version, bytes)?;
        Ok((document, len))
    }

    /// Reads the document with which the bytes begin, in place of this one and in its memory, and
    /// returns how many bytes it takes.
    ///
    /// ```
    /// use kormaglen::{Document, Version};
    ///
    /// let mut document = Document::new();
    /// assert_eq!(document.read_again(Version::V2, b"\x81\0\0\0\0\0\x81a")?, 8);
    /// assert_eq!(document.read_again(Version::V2, b"\x80")?, 1);
    /// # Ok::<(), kormaglen::Refusal>(())
    /// ```
    ///
    /// # Errors
    ///
    /// `BadDocument` at 0 where the bytes begin with no document, `Memory`. Then there is no
    /// document, and each call but `read_again` and `parse_again` is refused as `Closed`.
    pub fn read_again(&mut self, version: Version, bytes: &[u8]) -> Result<usize, Refusal> {
        size(self.handle.read(version.number(), bytes).accepted()?.bytes)
    }

    /// The document of a line of JSON.
    ///
    /// ```
    /// use kormaglen::{Document, Schema};
    ///
    /// let mut schema = Schema::open(
    ///     br#"[{"name":"name","type":"text","options":{"stored":true}}]"#,
    /// )?;
    /// let mut document = Document::parse(&mut schema, br#"{"name":["Ada","Augusta"]}"#)?;
    /// assert_eq!(document.to_json(&mut schema)?, r#"{"name":["Ada","Augusta"]}"#);
    /// # Ok::<(), kormaglen::Refusal>(())
    /// ```
    ///
    /// # Errors
    ///
    /// `BadLine`, `Memory`.
    pub fn parse(schema: &mut Schema, line: &[u8]) -> Result<Document, Refusal> {
        let mut document = Document::new();
        document.parse_again(schema, line)?;
        Ok(document)
    }

    /// Parses a line of JSON in place of this document and in its memory.
    ///
    /// ```
    /// use kormaglen::{Document, Refusal, Schema};
    ///
    /// let mut schema = Schema::open(b"[]")?;
    /// let mut document = Document::parse(&mut schema, b"{}")?;
    /// assert!(document.parse_again(&mut schema, b"[]").is_err());
    /// assert_eq!(document.to_json(&mut schema), Err(Refusal::Closed));
    /// # Ok::<(), Refusal>(())
    /// ```
    ///
    /// # Errors
    ///
    /// `BadLine`, `Memory`. Then there is no document, and each call but `read_again` and
    /// `parse_again` is refused as `Closed`.
    pub fn parse_again(&mut self, schema: &mut Schema, line: &[u8]) -> Result<(), Refusal> {
        self.handle.parse(schema.handle(), line).accepted()?;
        Ok(())
    }

    /// The document as JSON with the names of the schema's fields. Values of fields that the schema
    /// doesn't have are left out.
    ///
    /// ```
    /// use kormaglen::{Document, Schema, Version};
    ///
    /// let mut schema = Schema::open(b"[]")?;
    /// let (mut document, _) = Document::read(Version::V2, b"\x81\0\0\0\0\0\x81a")?;
    /// assert_eq!(document.to_json(&mut schema)?, "{}");
    /// # Ok::<(), kormaglen::Refusal>(())
    /// ```
    ///
    /// # Errors
    ///
    /// `Closed` where there is no document, `Memory`, `TooLarge`.
    pub fn to_json(&mut self, schema: &mut Schema) -> Result<String, Refusal> {
        filled_text(FIRST_ROOM, |text| self.handle.write_json(schema.handle(), text))
    }

    /// The values of stored fields, as version 2 or 3 has them.
    ///
    /// ```
    /// use kormaglen::{Document, Schema, Version};
    ///
    /// let mut schema = Schema::open(
    ///     br#"[{"name":"name","type":"text","options":{"stored":true}}]"#,
    /// )?;
    /// let mut document = Document::parse(&mut schema, br#"{"name":"a"}"#)?;
    /// assert_eq!(document.write(&mut schema, Version::V2)?, b"\x81\0\0\0\0\0\x81a");
    /// # Ok::<(), kormaglen::Refusal>(())
    /// ```
    ///
    /// # Errors
    ///
    /// `ForeignField` of the first field that the schema doesn't have, `WrongVersion` of version 1,
    /// `Closed` where there is no document, `Memory`, `TooLarge`.
    pub fn write(&mut self, schema: &mut Schema, version: Version) -> Result<Vec<u8>, Refusal> {
        filled(FIRST_ROOM, |bytes| self.handle.write(schema.handle(), version.number(), bytes))
    }

    /// As [`Document::write`], after the documents of a block. It returns how many bytes the
    /// document takes.
    ///
    /// ```
    /// use kormaglen::{Document, Schema, Version};
    ///
    /// let mut schema = Schema::open(b"[]")?;
    /// let mut document = Document::parse(&mut schema, b"{}")?;
    /// let mut block = Vec::new();
    /// document.append_to(&mut block, &mut schema, Version::V2)?;
    /// document.append_to(&mut block, &mut schema, Version::V2)?;
    /// assert_eq!(block, b"\x80\x80");
    /// # Ok::<(), kormaglen::Refusal>(())
    /// ```
    ///
    /// # Errors
    ///
    /// As those of [`Document::write`]. Then the block has what it had before.
    pub fn append_to(
        &mut self,
        block: &mut Vec<u8>,
        schema: &mut Schema,
        version: Version,
    ) -> Result<usize, Refusal> {
        append(block, FIRST_ROOM, |bytes| {
            self.handle.write(schema.handle(), version.number(), bytes)
        })
    }
}

impl Default for Document {
    /// As [`Document::new`].
    fn default() -> Document {
        Document::new()
    }
}

impl fmt::Debug for Document {
    fn fmt(&self, f: &mut fmt::Formatter<'_>) -> fmt::Result {
        f.debug_struct("Document").finish_non_exhaustive()
    }
}
