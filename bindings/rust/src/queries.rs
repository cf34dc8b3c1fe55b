//! The terms and the ranges of terms that texts of queries have.

use crate::records::{first_bytes, first_number};
use crate::refusal::Refusal;

/// The byte strings from one on, up to another one, in the order of terms.
///
/// ```
/// use kormaglen::Schema;
///
/// let mut schema = Schema::open(
///     br#"[{"name":"age","type":"u64","options":{"indexed":true,"stored":true}}]"#,
/// )?;
/// let ranges = schema.ranges_of_text("age", "[10 TO 20}")?;
/// let term = schema.terms_of_text("age", "19")?.remove(0);
/// assert!(ranges[0].contains(&term));
/// assert!(ranges[0].start <= term);
/// # Ok::<(), kormaglen::Refusal>(())
/// ```
#[non_exhaustive]
#[derive(Clone, Debug, PartialEq, Eq, Hash)]
pub struct TermRange {
    /// The terms in the range are not below this.
    pub start: Vec<u8>,
    /// They are below this, where there is an end.
    pub end: Option<Vec<u8>>,
}

impl TermRange {
    /// Whether the bytes of a term are in the range.
    ///
    /// ```
    /// let mut schema = kormaglen::Schema::open(
    ///     br#"[{"name":"age","type":"u64","options":{"indexed":true,"stored":true}}]"#,
    /// )?;
    /// let ranges = schema.ranges_of_text("age", "{10 TO *]")?;
    /// assert!(!ranges[0].contains(&schema.terms_of_text("age", "10")?[0]));
    /// assert!(ranges[0].contains(&schema.terms_of_text("age", "11")?[0]));
    /// # Ok::<(), kormaglen::Refusal>(())
    /// ```
    pub fn contains(&self, term: &[u8]) -> bool {
        let is_below = |end: &Vec<u8>| term < end.as_slice();
        self.start.as_slice() <= term && self.end.as_ref().map_or(true, is_below)
    }
}

/// Takes the first term of a list, which has for each its length and the term.
pub(crate) fn first_term(list: &mut &[u8]) -> Option<Result<Vec<u8>, Refusal>> {
    let len = first_number(list)?;
    first_bytes(list, len)
}

/// Takes the first range of a list, which has for each the lengths of its start and its end, and
/// then both. The length of an end that isn't there is 2^64 - 1.
pub(crate) fn first_range(list: &mut &[u8]) -> Option<Result<TermRange, Refusal>> {
    let (start_len, end_len) = (first_number(list)?, first_number(list)?);
    let start = match first_bytes(list, start_len)? {
        Ok(start) => start,
        Err(refusal) => return Some(Err(refusal)),
    };
    if end_len == u64::MAX {
        return Some(Ok(TermRange { start, end: None }));
    }
    let end = first_bytes(list, end_len)?;
    Some(end.map(|end| TermRange { start, end: Some(end) }))
}
