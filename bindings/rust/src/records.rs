//! The records of which a call writes a list: numbers of eight bytes, the lowest first, and bytes
//! whose length is one of these.

use crate::buffer::{reserve, size};
use crate::refusal::Refusal;

/// Takes the first record of a list. It gives none where the list is empty.
pub(crate) type First<T> = fn(&mut &[u8]) -> Option<Result<T, Refusal>>;

/// Takes a number of eight bytes, the lowest first.
pub(crate) fn first_number(list: &mut &[u8]) -> Option<u64> {
    let number = u64::from_le_bytes(list.get(..8)?.try_into().ok()?);
    *list = &list[8..];
    Some(number)
}

/// Takes this many bytes, where they lie.
pub(crate) fn first_slice<'l>(list: &mut &'l [u8], len: u64) -> Option<&'l [u8]> {
    let len = size(len).ok()?;
    let taken = list.get(..len)?;
    *list = &list[len..];
    Some(taken)
}

/// Takes this many bytes, as a vector.
pub(crate) fn first_bytes(list: &mut &[u8], len: u64) -> Option<Result<Vec<u8>, Refusal>> {
    let taken = first_slice(list, len)?;
    let mut bytes = Vec::new();
    Some(reserve(&mut bytes, taken.len()).map(|()| {
        bytes.extend_from_slice(taken);
        bytes
    }))
}

/// All records of a list.
pub(crate) fn records_in<T>(mut list: &[u8], first: First<T>) -> Result<Vec<T>, Refusal> {
    let mut records = Vec::new();
    while let Some(record) = first(&mut list) {
        reserve(&mut records, 1)?;
        records.push(record?);
    }
    Ok(records)
}
