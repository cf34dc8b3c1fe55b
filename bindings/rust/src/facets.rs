//! Facets as texts and as bytes, and documents that are counted by them.

use crate::buffer::{filled, filled_text, reserve};
use crate::calls;
use crate::records::{first_bytes, first_number, records_in};
use crate::refusal::Refusal;

/// The encoded facet that a text as `/first/second` names: the steps with a zero byte between each
/// two of them. A backslash or a slash of a step stands after a backslash in the text.
///
/// ```
/// use kormaglen::{facet_of_text, Refusal};
///
/// assert_eq!(facet_of_text("/staff/research")?, b"staff\0research");
/// assert_eq!(facet_of_text("staff"), Err(Refusal::NotAFacet));
/// # Ok::<(), Refusal>(())
/// ```
///
/// # Errors
///
/// `NotAFacet` where the text doesn't begin with `/`, `Memory`, `TooLarge`.
pub fn facet_of_text(text: &str) -> Result<Vec<u8>, Refusal> {
    filled(text.len(), |encoded| calls::facet_of_text(text.as_bytes(), encoded))
}

/// The text that names an encoded facet.
///
/// ```
/// use kormaglen::{text_of_facet, Refusal};
///
/// assert_eq!(text_of_facet(b"staff\0research")?, "/staff/research");
/// assert_eq!(text_of_facet(b"\xff"), Err(Refusal::NotUtf8));
/// # Ok::<(), Refusal>(())
/// ```
///
/// # Errors
///
/// `NotUtf8`, `Memory`, `TooLarge`.
pub fn text_of_facet(encoded: &[u8]) -> Result<String, Refusal> {
    // Each byte becomes two at most, after the first slash.
    filled_text(encoded.len().saturating_mul(2) + 1, |text| calls::text_of_facet(encoded, text))
}

/// A child of a facet, and how many documents have a facet at or below it.
///
/// ```
/// use kormaglen::{count_facets, text_of_facet};
///
/// let counts = count_facets(b"", [(0, "staff\0research"), (1, "staff")])?;
/// assert_eq!((text_of_facet(&counts[0].child)?.as_str(), counts[0].documents), ("/staff", 2));
/// # Ok::<(), kormaglen::Refusal>(())
/// ```
#[non_exhaustive]
#[derive(Clone, Debug, PartialEq, Eq, Hash)]
pub struct FacetCount {
    /// The encoded child.
    pub child: Vec<u8>,
    /// How many documents there are: at least one.
    pub documents: u64,
}

/// Counts documents by the children of a facet. Each pair is the number of a document and an encoded
/// facet of it, in any order. There is a count for each child of the parent at or below which a facet
/// of the pairs lies, in the order of facets; a document counts once for a child. The root is empty.
///
/// ```
/// use kormaglen::{count_facets, facet_of_text, Refusal};
///
/// let mut pairs = Vec::new();
/// for (document, facet) in [(0, "/shop/shoes"), (1, "/shop/hats/red"), (1, "/shop/hats/blue")] {
///     pairs.push((document, facet_of_text(facet)?));
/// }
/// let counts = count_facets(b"shop", pairs)?;
/// assert_eq!((&counts[0].child[..], counts[0].documents), (&b"shop\0hats"[..], 1));
/// assert_eq!((&counts[1].child[..], counts[1].documents), (&b"shop\0shoes"[..], 1));
/// assert_eq!(count_facets(b"", [(0, b"\xff")]), Err(Refusal::BadPair { pair: 0 }));
/// # Ok::<(), Refusal>(())
/// ```
///
/// # Errors
///
/// `NotUtf8` where the parent isn't UTF-8, `BadPair` of the first pair whose facet isn't, `Memory`,
/// `TooLarge`.
pub fn count_facets<F: AsRef<[u8]>>(
    parent: &[u8],
    pairs: impl IntoIterator<Item = (u64, F)>,
) -> Result<Vec<FacetCount>, Refusal> {
    let mut records = Vec::new();
    for (document, facet) in pairs {
        append_pair(&mut records, document, facet.as_ref())?;
    }
    let counted = filled(records.len(), |counts| calls::count_facets(parent, &records, counts));
    match counted {
        Ok(counts) => records_in(&counts, first_count),
        // (the library says at which byte the record begins)
        Err(Refusal::BadPair { pair }) => {
            Err(Refusal::BadPair { pair: pairs_before(&records, pair) })
        }
        Err(refusal) => Err(refusal),
    }
}

/// Appends the record of a pair: both numbers in eight bytes, the lowest first, and the facet.
fn append_pair(records: &mut Vec<u8>, document: u64, facet: &[u8]) -> Result<(), Refusal> {
    reserve(records, facet.len().saturating_add(16))?;
    records.extend_from_slice(&document.to_le_bytes());
    records.extend_from_slice(&(facet.len() as u64).to_le_bytes());
    records.extend_from_slice(facet);
    Ok(())
}

/// How many pairs stand before a byte of their records.
fn pairs_before(records: &[u8], start: u64) -> u64 {
    let (mut rest, mut pairs) = (records, 0);
    while ((records.len() - rest.len()) as u64) < start && first_count(&mut rest).is_some() {
        pairs += 1;
    }
    pairs
}

/// Takes the first record of a number and a facet.
fn first_count(list: &mut &[u8]) -> Option<Result<FacetCount, Refusal>> {
    let (documents, len) = (first_number(list)?, first_number(list)?);
    Some(first_bytes(list, len)?.map(|child| FacetCount { child, documents }))
}
