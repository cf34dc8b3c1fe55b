//! The terms of stored values, and where those of a prefix end.

use crate::blocks::Version;
use crate::buffer::{append, filled, filled_text, size};
use crate::calls;
use crate::document::Document;
use crate::documents::{documents, Documents};
use crate::records::{first_bytes, first_number, first_slice, records_in};
use crate::refusal::{Refusal, TermFault};
use std::fmt;
use std::iter::FusedIterator;

/// A term of a stored value.
///
/// ```
/// use kormaglen::{terms_of_block, Version};
///
/// let terms = terms_of_block(0, Version::V2, b"\x81\0\0\0\0\0\x83Ada")?;
/// assert_eq!(terms[0].document, 0);
/// // The number of the field, the code of texts, and the text.
/// assert_eq!(terms[0].bytes, b"\0\0\0\0sAda");
/// # Ok::<(), kormaglen::Refusal>(())
/// ```
#[non_exhaustive]
#[derive(Clone, Debug, PartialEq, Eq, Hash)]
pub struct Term {
    /// The number of its document in the block, from 0.
    pub document: u64,
    /// Its bytes. Terms are compared as these, and so by field, then by type, then by value.
    pub bytes: Vec<u8>,
}

/// The terms of a field's values in the documents of a block, in their order, all at once. A date
/// is cut to the second, as it is indexed, and a text is whole. Null, arrays and objects have no
/// term.
///
/// ```
/// use kormaglen::{terms_of_block, Version};
///
/// let block = b"\x81\0\0\0\0\0\x81a\x80\x81\0\0\0\0\0\x81b";
/// let terms = terms_of_block(0, Version::V2, block)?;
/// assert_eq!((terms[0].document, &terms[0].bytes[..]), (0, &b"\0\0\0\0sa"[..]));
/// assert_eq!((terms[1].document, &terms[1].bytes[..]), (2, &b"\0\0\0\0sb"[..]));
/// # Ok::<(), kormaglen::Refusal>(())
/// ```
///
/// # Errors
///
/// `BadDocument` of the first document that can't be read, `Memory`, `TooLarge`.
pub fn terms_of_block(field: u32, version: Version, block: &[u8]) -> Result<Vec<Term>, Refusal> {
    let records = filled(block.len().saturating_mul(2), |terms| {
        calls::terms_of_block(field, version.number(), block, terms)
    })?;
    records_in(&records, first_term)
}

/// As [`terms_of_block`], but the terms of one document at a time, so that it takes no more memory
/// than these.
///
/// ```
/// use kormaglen::{terms, Version};
///
/// let block = b"\x81\0\0\0\0\0\x81a\x80\x81\0\0\0\0\0\x81b";
/// for term in terms(0, Version::V2, block) {
///     let term = term?;
///     println!("document {}: {:?}", term.document, term.bytes);
/// }
/// # Ok::<(), kormaglen::Refusal>(())
/// ```
pub fn terms(field: u32, version: Version, block: &[u8]) -> Terms<'_> {
    Terms {
        field,
        version,
        documents: documents(version, block),
        document: Document::new(),
        number: 0,
        records: Vec::new(),
        given: 0,
        is_refused: false,
    }
}

/// An iterator over the terms of a field's values in a block, see [`terms`]. After an error it
/// gives nothing more.
///
/// ```
/// use kormaglen::{terms, DocumentReason, Refusal, Version};
///
/// let mut found = terms(0, Version::V2, b"\x81\0\0\0\0\0\x81a\x81");
/// assert_eq!(found.next().unwrap()?.bytes, b"\0\0\0\0sa");
/// let reason = DocumentReason::UnexpectedEnd;
/// let refusal = found.next().unwrap().unwrap_err();
/// assert_eq!(refusal, Refusal::BadDocument { reason, start: 8 });
/// assert!(found.next().is_none());
/// # Ok::<(), Refusal>(())
/// ```
#[must_use = "terms are listed as they are asked for"]
pub struct Terms<'b> {
    field: u32,
    version: Version,
    documents: Documents<'b>,
    // The document that is being read; its memory serves them all.
    document: Document,
    // How many documents were read.
    number: u64,
    // The terms of the last document, and how many bytes of them were given.
    records: Vec<u8>,
    given: usize,
    is_refused: bool,
}

impl Terms<'_> {
    /// The next term of the last document that was read.
    fn next_of_document(&mut self) -> Option<Result<Term, Refusal>> {
        let mut rest = &self.records[self.given..];
        let term = first_term(&mut rest)?;
        self.given = self.records.len() - rest.len();
        // The library had this document alone.
        Some(term.map(|term| Term { document: self.number - 1, ..term }))
    }

    /// Lists the terms of the next document, if there is one.
    fn list_next(&mut self) -> Option<Result<(), Refusal>> {
        let start = self.documents.offset();
        let bytes = match self.documents.read_into(&mut self.document)? {
            Ok(bytes) => bytes,
            Err(refusal) => return Some(Err(refusal)),
        };
        self.number += 1;
        self.given = 0;
        self.records.clear();
        let listed = append(&mut self.records, bytes.len().saturating_mul(2), |terms| {
            calls::terms_of_block(self.field, self.version.number(), bytes, terms)
        });
        Some(listed.map(|_| ()).map_err(|refusal| refusal.after(start)))
    }
}

impl Iterator for Terms<'_> {
    type Item = Result<Term, Refusal>;

    fn next(&mut self) -> Option<Result<Term, Refusal>> {
        while !self.is_refused {
            let given = match self.next_of_document() {
                Some(term) => Some(term),
                None => self.list_next()?.err().map(Err),
            };
            if let Some(result) = given {
                self.is_refused = result.is_err();
                return Some(result);
            }
        }
        None
    }
}

impl FusedIterator for Terms<'_> {}

/// Prints the field, and how far the block was read. The block may be large.
impl fmt::Debug for Terms<'_> {
    fn fmt(&self, f: &mut fmt::Formatter<'_>) -> fmt::Result {
        f.debug_struct("Terms")
            .field("field", &self.field)
            .field("documents", &self.documents)
            .finish_non_exhaustive()
    }
}

/// Takes the first term of a list of the library's, which has for each the number of its document
/// and its length, and the term.
fn first_term(list: &mut &[u8]) -> Option<Result<Term, Refusal>> {
    let (document, len) = (first_number(list)?, first_number(list)?);
    Some(first_bytes(list, len)?.map(|bytes| Term { document, bytes }))
}

/// What stands with a fault in place of how many bytes a term shares with the one before it.
const NO_TERMS: u64 = u64::MAX;

/// An iterator over the terms of a block by a schema, and over the faults of documents that have a
/// value without one, in the order of documents, see
/// [`Schema::terms_of_block`](crate::Schema::terms_of_block). It goes on after a fault.
///
/// It holds the library's list, which has of each term what differs from the one before. The bytes of
/// a term are put into a vector of its own as it is asked for. Where memory for that is refused, the
/// program is aborted, as by every `Vec` that grows.
///
/// ```
/// use kormaglen::{Schema, Version};
///
/// let mut schema = Schema::open(
///     br#"[{"name":"age","type":"u64","options":{"indexed":true,"stored":true}}]"#,
/// )?;
/// let block = schema.import_lines(b"{\"age\":[258,7]}\n")?.block;
/// let mut terms = schema.terms_of_block(Version::V2, &block)?;
/// assert_eq!(terms.next().unwrap().unwrap().bytes, b"\0\0\0\0u\0\0\0\0\0\0\x01\x02");
/// assert_eq!(terms.next().unwrap().unwrap().bytes, b"\0\0\0\0u\0\0\0\0\0\0\0\x07");
/// assert!(terms.next().is_none());
/// # Ok::<(), kormaglen::Refusal>(())
/// ```
#[must_use = "terms are put together as they are asked for"]
#[derive(Clone)]
pub struct SchemaTerms {
    // For each term the number of its document, how many of its first bytes are those of the term
    // before it, and how many others follow, and these.
    records: Vec<u8>,
    // How many bytes of the records were read.
    read: usize,
    // The last term.
    last: Vec<u8>,
}

impl SchemaTerms {
    pub(crate) fn new(records: Vec<u8>) -> SchemaTerms {
        SchemaTerms { records, read: 0, last: Vec::new() }
    }
}

impl Iterator for SchemaTerms {
    type Item = Result<Term, TermFault>;

    fn next(&mut self) -> Option<Result<Term, TermFault>> {
        let mut list = &self.records[self.read..];
        let (document, shared) = (first_number(&mut list)?, first_number(&mut list)?);
        let len = first_number(&mut list)?;
        let mut rest = first_slice(&mut list, len)?;
        self.read = self.records.len() - list.len();
        if shared == NO_TERMS {
            let (reason, field) = (first_number(&mut rest)?, first_number(&mut rest)?);
            return Some(Err(TermFault::of_numbers(document, reason, field)));
        }
        self.last.truncate(size(shared).ok()?);
        self.last.extend_from_slice(rest);
        Some(Ok(Term { document, bytes: self.last.clone() }))
    }
}

impl FusedIterator for SchemaTerms {}

/// Prints how many bytes of the list were read, and how many it has. The list may be large.
impl fmt::Debug for SchemaTerms {
    fn fmt(&self, f: &mut fmt::Formatter<'_>) -> fmt::Result {
        f.debug_struct("SchemaTerms")
            .field("read", &self.read)
            .field("bytes", &self.records.len())
            .finish_non_exhaustive()
    }
}

/// The term of a text. The terms of all texts that begin with it begin with this term.
///
/// ```
/// assert_eq!(kormaglen::term_of_text(1, "Ad")?, b"\0\0\0\x01sAd");
/// # Ok::<(), kormaglen::Refusal>(())
/// ```
///
/// # Errors
///
/// `Memory`, `TooLarge`.
pub fn term_of_text(field: u32, text: &str) -> Result<Vec<u8>, Refusal> {
    filled(text.len() + 5, |term| calls::term_of_text(field, text.as_bytes(), term))
}

/// The text of a term's value: a text as it is, a number in decimal, `true` or `false`, and a date, a
/// facet, bytes and an address as the library's JSON has them. Of a term of a value in a JSON object
/// it is the text of that value. [`Schema::terms_of_text`](crate::Schema::terms_of_text) reads it.
///
/// ```
/// use kormaglen::{text_of_term, Refusal};
///
/// assert_eq!(text_of_term(b"\0\0\0\x01u\0\0\0\0\0\0\0\x24")?, "36");
/// assert_eq!(text_of_term(b"\0\0\0\x02ja\x01b\0sAda")?, "Ada");
/// assert_eq!(text_of_term(b"\0\0\0\x01u\x24"), Err(Refusal::NotATerm));
/// # Ok::<(), Refusal>(())
/// ```
///
/// # Errors
///
/// `NotATerm` where the bytes are no term, or are one of a text or a facet that isn't UTF-8;
/// `Memory`, `TooLarge`.
pub fn text_of_term(term: &[u8]) -> Result<String, Refusal> {
    // What takes more room than this, as bytes and dates, is asked for again.
    filled_text(term.len() + 16, |text| calls::text_of_term(term, text))
}

/// The least byte string above all that begin with a prefix: the terms that begin with it are those
/// from the prefix on and below this.
///
/// ```
/// use kormaglen::{end_of_prefix, Refusal};
///
/// assert_eq!(end_of_prefix(b"\0\0\0\x01sAd")?, b"\0\0\0\x01sAe");
/// assert_eq!(end_of_prefix(b"\xff"), Err(Refusal::NoEnd));
/// # Ok::<(), Refusal>(())
/// ```
///
/// # Errors
///
/// `NoEnd` where the prefix is empty or has no byte but 255, `Memory`.
pub fn end_of_prefix(prefix: &[u8]) -> Result<Vec<u8>, Refusal> {
    filled(prefix.len(), |end| calls::end_of_prefix(prefix, end))
}
