//! The values of a field in the documents of a block.

use crate::records::{first_bytes, first_number};
use crate::refusal::Refusal;
use std::net::Ipv6Addr;

/// A value as it is stored, whatever type its field has.
///
/// ```
/// use kormaglen::{Schema, Value, Version};
///
/// let mut schema = Schema::open(
///     br#"[{"name":"age","type":"u64","options":{"indexed":true,"stored":true}}]"#,
/// )?;
/// let block = schema.import_lines(b"{\"age\":[36,37]}\n")?.block;
/// let ages = schema.values_of_block("age", Version::V2, &block)?;
/// assert_eq!(ages[1].value, Value::U64(37));
/// # Ok::<(), kormaglen::Refusal>(())
/// ```
#[non_exhaustive]
#[derive(Clone, Debug, PartialEq, Eq, Hash)]
pub enum Value {
    /// No value.
    Null,
    /// A text.
    Text(String),
    /// A number from 0 to 2^64 - 1.
    U64(u64),
    /// A number from -2^63 to 2^63 - 1.
    I64(i64),
    /// A truth value.
    Bool(bool),
    /// A date: its nanoseconds since 1970 at UTC.
    Date(i64),
    /// An encoded facet. [`text_of_facet`](crate::text_of_facet()) gives its text.
    Facet(Vec<u8>),
    /// Bytes.
    Bytes(Vec<u8>),
    /// An IPv6 address. One of version 4 is mapped.
    IpAddr(Ipv6Addr),
    /// The JSON of a pre-tokenized text, an array or an object.
    Json(String),
    /// A value of a kind that this crate has no name for.
    Unknown {
        /// The number of the kind.
        kind: u64,
        /// Its bytes.
        bytes: Vec<u8>,
    },
}

/// A value of a field.
///
/// ```
/// use kormaglen::{Schema, Value, Version};
///
/// let mut schema = Schema::open(
///     br#"[{"name":"name","type":"text","options":{"stored":true}}]"#,
/// )?;
/// let values = schema.values_of_block("name", Version::V2, b"\x80\x81\0\0\0\0\0\x83Ada")?;
/// assert_eq!(values[0].document, 1);
/// assert_eq!(values[0].value, Value::Text("Ada".to_string()));
/// # Ok::<(), kormaglen::Refusal>(())
/// ```
#[non_exhaustive]
#[derive(Clone, Debug, PartialEq, Eq, Hash)]
pub struct FieldValue {
    /// The number of its document in the block, from 0.
    pub document: u64,
    /// The value.
    pub value: Value,
}

/// The value of this kind that has these bytes.
fn value_of(kind: u64, bytes: Vec<u8>) -> Result<Value, Refusal> {
    let eight = <[u8; 8]>::try_from(bytes.as_slice());
    let sixteen = <[u8; 16]>::try_from(bytes.as_slice());
    let text = |bytes| String::from_utf8(bytes).map_err(|_| Refusal::NotUtf8);
    Ok(match (kind, eight, sixteen) {
        (0, ..) => Value::Null,
        (1, ..) => Value::Text(text(bytes)?),
        (2, Ok(number), _) => Value::U64(u64::from_le_bytes(number)),
        (3, Ok(number), _) => Value::I64(i64::from_le_bytes(number)),
        (4, ..) => Value::Bool(bytes == [1]),
        (5, Ok(nanoseconds), _) => Value::Date(i64::from_le_bytes(nanoseconds)),
        (6, ..) => Value::Facet(bytes),
        (7, ..) => Value::Bytes(bytes),
        (8, _, Ok(octets)) => Value::IpAddr(Ipv6Addr::from(octets)),
        (9, ..) => Value::Json(text(bytes)?),
        _ => Value::Unknown { kind, bytes },
    })
}

/// Takes the first value of a list of the library's, which has for each the number of its document,
/// its kind and its length, and its bytes.
pub(crate) fn first_value(list: &mut &[u8]) -> Option<Result<FieldValue, Refusal>> {
    let (document, kind) = (first_number(list)?, first_number(list)?);
    let len = first_number(list)?;
    let bytes = first_bytes(list, len)?;
    Some(bytes.and_then(|bytes| Ok(FieldValue { document, value: value_of(kind, bytes)? })))
}

#[cfg(test)]
mod tests {
    use super::{value_of, Value};

    #[test]
    fn a_kind_without_a_name_is_kept() {
        let unknown = Value::Unknown { kind: 10, bytes: vec![7] };
        assert_eq!(value_of(10, vec![7]), Ok(unknown));
        // The library has eight bytes for a number.
        let short = Value::Unknown { kind: 2, bytes: vec![7] };
        assert_eq!(value_of(2, vec![7]), Ok(short));
    }
}
