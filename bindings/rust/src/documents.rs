//! The documents of a block, one by one.

use crate::blocks::Version;
use crate::document::Document;
use crate::refusal::Refusal;
use std::fmt;
use std::iter::FusedIterator;

/// The documents of a block, one after the other. The block is read as far as documents are asked
/// for.
///
/// ```
/// use kormaglen::{documents, Schema, Version};
///
/// let mut schema = Schema::open(
///     br#"[{"name":"name","type":"text","options":{"stored":true}}]"#,
/// )?;
/// let block = schema.import_lines(b"{\"name\":\"a\"}\n{\"name\":\"b\"}\n")?.block;
/// let mut texts = Vec::new();
/// for document in documents(Version::V2, &block) {
///     texts.push(document?.to_json(&mut schema)?);
/// }
/// assert_eq!(texts, [r#"{"name":["a"]}"#, r#"{"name":["b"]}"#]);
/// # Ok::<(), kormaglen::Refusal>(())
/// ```
pub fn documents(version: Version, block: &[u8]) -> Documents<'_> {
    Documents { version, block, offset: 0, is_refused: false }
}

/// An iterator over the documents of a block, see [`documents`]. After an error it gives nothing
/// more.
///
/// ```
/// use kormaglen::{documents, DocumentReason, Refusal, Version};
///
/// // One document without a pair, and one whose pair is missing.
/// let mut found = documents(Version::V2, b"\x80\x81");
/// assert!(found.next().unwrap().is_ok());
/// let reason = DocumentReason::UnexpectedEnd;
/// let refusal = found.next().unwrap().unwrap_err();
/// assert_eq!(refusal, Refusal::BadDocument { reason, start: 1 });
/// assert!(found.next().is_none());
/// ```
#[derive(Clone)]
#[must_use = "documents are read as they are asked for"]
pub struct Documents<'b> {
    version: Version,
    block: &'b [u8],
    offset: usize,
    is_refused: bool,
}

impl<'b> Documents<'b> {
    /// At which byte of the block the next document begins. After an error this is where the
    /// document begins that is refused, and in the end it is the length of the block.
    ///
    /// ```
    /// use kormaglen::{documents, Version};
    ///
    /// let mut found = documents(Version::V2, b"\x81\0\0\0\0\0\x81a\x80");
    /// assert_eq!(found.offset(), 0);
    /// found.next().unwrap()?;
    /// assert_eq!(found.offset(), 8);
    /// found.next().unwrap()?;
    /// assert_eq!(found.offset(), 9);
    /// # Ok::<(), kormaglen::Refusal>(())
    /// ```
    pub fn offset(&self) -> usize {
        self.offset
    }

    /// Reads the next document in place of another one and in its memory, and returns its bytes in
    /// the block. In the end it is `None`, and the other document stays.
    ///
    /// ```
    /// use kormaglen::{documents, Document, Schema, Version};
    ///
    /// let mut schema = Schema::open(
    ///     br#"[{"name":"name","type":"text","options":{"stored":true}}]"#,
    /// )?;
    /// let mut found = documents(Version::V2, b"\x80\x81\0\0\0\0\0\x81a");
    /// let mut document = Document::new();
    /// let mut lens = Vec::new();
    /// while let Some(bytes) = found.read_into(&mut document) {
    ///     lens.push(bytes?.len());
    /// }
    /// assert_eq!(lens, [1, 8]);
    /// assert_eq!(document.to_json(&mut schema)?, r#"{"name":["a"]}"#);
    /// # Ok::<(), kormaglen::Refusal>(())
    /// ```
    ///
    /// # Errors
    ///
    /// `BadDocument` with the byte of the block at which the document begins, `Memory`. Then there
    /// is no document, and no other one follows.
    pub fn read_into(&mut self, document: &mut Document) -> Option<Result<&'b [u8], Refusal>> {
        let rest = self.rest();
        if rest.is_empty() {
            return None;
        }
        match document.read_again(self.version, rest) {
            Ok(len) => {
                self.offset += len;
                Some(Ok(&rest[..len]))
            }
            Err(refusal) => {
                self.is_refused = true;
                Some(Err(refusal.after(self.offset)))
            }
        }
    }

    /// The bytes that are still to be read.
    fn rest(&self) -> &'b [u8] {
        if self.is_refused {
            &[]
        } else {
            &self.block[self.offset..]
        }
    }
}

impl Iterator for Documents<'_> {
    type Item = Result<Document, Refusal>;

    fn next(&mut self) -> Option<Result<Document, Refusal>> {
        let mut document = Document::new();
        let read = self.read_into(&mut document)?;
        Some(read.map(|_| document))
    }

    /// A document takes one byte at least.
    fn size_hint(&self) -> (usize, Option<usize>) {
        let rest = self.rest().len();
        (rest.min(1), Some(rest))
    }
}

impl FusedIterator for Documents<'_> {}

/// Prints the version and the offset. The block may be large.
impl fmt::Debug for Documents<'_> {
    fn fmt(&self, f: &mut fmt::Formatter<'_>) -> fmt::Result {
        f.debug_struct("Documents")
            .field("version", &self.version)
            .field("offset", &self.offset)
            .finish_non_exhaustive()
    }
}
