//! Why a call was refused.

use crate::calls::{self, Answer};
use crate::reasons::{
    ArgumentReason, DocumentReason, JsonFault, LineReason, QueryReason, SchemaReason,
};
use crate::reasons::{BAD_ARGUMENT, BAD_DOCUMENT, BAD_LINE, BAD_QUERY, BAD_SCHEMA};
use std::error::Error;
use std::fmt;

const OK: u32 = 0;
const TOO_SMALL: u32 = 1;
const NO_MEMORY: u32 = 2;
const NOT_UTF8: u32 = 3;
const NOT_A_FACET: u32 = 4;
const INVALID_JSON: u32 = 5;
const NO_FIELD: u32 = 7;
const WRONG_VERSION: u32 = 9;
const NO_END: u32 = 10;
const FOREIGN_FIELD: u32 = 12;
const BAD_PAIR: u32 = 14;
const CLOSED: u32 = 15;
const NOT_A_TERM: u32 = 17;

/// Why a call was refused. It prints as the library's words, with the entry, the byte or the field.
///
/// ```
/// use kormaglen::{Refusal, Schema};
///
/// let json = br#"[{"name":"age","type":"u64","options":{"indexed":true,"stored":true}}]"#;
/// let mut schema = Schema::open(json)?;
/// assert_eq!(schema.find_field("name"), Err(Refusal::NoField));
/// println!("{}", Refusal::NoField);
/// # Ok::<(), Refusal>(())
/// ```
#[non_exhaustive]
#[derive(Clone, Copy, Debug, PartialEq, Eq, Hash)]
pub enum Refusal {
    /// What is to be written takes more bytes than a buffer of this machine can have.
    TooLarge {
        /// How many bytes it takes.
        bytes: u64,
    },
    /// Memory was refused, to the library or for a buffer.
    Memory,
    /// A text isn't UTF-8.
    NotUtf8,
    /// A facet's text doesn't begin with `/`.
    NotAFacet,
    /// The schema isn't JSON.
    InvalidJson,
    /// The JSON describes no schema.
    BadSchema {
        /// Why it doesn't.
        reason: SchemaReason,
        /// The number of the entry that is wrong, from 1, or 0 where none is named.
        entry: u64,
    },
    /// The path names no field.
    NoField,
    /// A document is refused.
    BadDocument {
        /// Why it is.
        reason: DocumentReason,
        /// At which byte of the block it begins.
        start: u64,
    },
    /// The call has no such version of the store: no version has this number, or the call doesn't
    /// write this one.
    WrongVersion,
    /// No byte string is above all that begin with the prefix.
    NoEnd,
    /// There is no document of a line.
    BadLine(LineRefusal),
    /// The document has a field that the schema doesn't have.
    ForeignField {
        /// The field's number.
        field: u32,
    },
    /// A text of a query has no terms, or no ranges of them.
    BadQuery(QueryRefusal),
    /// The facet of a pair isn't UTF-8.
    BadPair {
        /// The number of the pair, from 0.
        pair: u64,
    },
    /// The document's value holds nothing.
    Closed,
    /// A pointer of the call is refused. What this crate hands over is never refused so.
    BadArgument {
        /// Why it is.
        reason: ArgumentReason,
        /// The number of the pointer among those of the call, from 1.
        pointer: u64,
    },
    /// The bytes are no term, or are one of a text or a facet that isn't UTF-8.
    NotATerm,
    /// An answer that this crate has no name for.
    Unknown {
        /// The number of the answer.
        status: u32,
        /// The number of its reason.
        detail: u32,
        /// The place that it names.
        place: u64,
    },
}

impl Refusal {
    /// The number that the C header has for this refusal.
    ///
    /// ```
    /// assert_eq!(kormaglen::Refusal::Closed.status(), 15);
    /// ```
    pub fn status(&self) -> u32 {
        match self {
            Refusal::TooLarge { .. } => TOO_SMALL,
            Refusal::Memory => NO_MEMORY,
            Refusal::NotUtf8 => NOT_UTF8,
            Refusal::NotAFacet => NOT_A_FACET,
            Refusal::InvalidJson => INVALID_JSON,
            Refusal::BadSchema { .. } => BAD_SCHEMA,
            Refusal::NoField => NO_FIELD,
            Refusal::BadDocument { .. } => BAD_DOCUMENT,
            Refusal::WrongVersion => WRONG_VERSION,
            Refusal::NoEnd => NO_END,
            Refusal::BadLine(_) => BAD_LINE,
            Refusal::ForeignField { .. } => FOREIGN_FIELD,
            Refusal::BadQuery(_) => BAD_QUERY,
            Refusal::BadPair { .. } => BAD_PAIR,
            Refusal::Closed => CLOSED,
            Refusal::BadArgument { .. } => BAD_ARGUMENT,
            Refusal::NotATerm => NOT_A_TERM,
            Refusal::Unknown { status, .. } => *status,
        }
    }

    /// The same refusal of a document that the call had as the first of its block, whereas it
    /// begins after this number of bytes.
    pub(crate) fn after(self, bytes: usize) -> Refusal {
        match self {
            Refusal::BadDocument { reason, start } => {
                Refusal::BadDocument { reason, start: start.saturating_add(bytes as u64) }
            }
            other => other,
        }
    }
}

impl fmt::Display for Refusal {
    fn fmt(&self, f: &mut fmt::Formatter<'_>) -> fmt::Result {
        f.write_str(calls::status_text(self.status()))?;
        match self {
            Refusal::TooLarge { bytes } => write!(f, ": {bytes} bytes are needed"),
            Refusal::BadSchema { reason, entry: 0 } => write!(f, ": {reason}"),
            Refusal::BadSchema { reason, entry } => write!(f, ": entry {entry}: {reason}"),
            Refusal::BadDocument { reason, start } => write!(f, ": at byte {start}: {reason}"),
            Refusal::BadLine(line) => write!(f, ": {line}"),
            Refusal::ForeignField { field } => write!(f, ": field {field}"),
            Refusal::BadQuery(query) => write!(f, ": {query}"),
            Refusal::BadPair { pair } => write!(f, ": pair {pair}"),
            Refusal::BadArgument { reason, pointer } => write!(f, ": pointer {pointer}: {reason}"),
            Refusal::Unknown { status, detail, place } => {
                write!(f, ": status {status}, detail {detail}, place {place}")
            }
            _ => Ok(()),
        }
    }
}

impl Error for Refusal {}

/// Why a line has no document. It prints as the number of the field, and the library's words for
/// the reason; of a line that is no JSON object also as those for the fault, and the byte.
///
/// ```
/// use kormaglen::{LineReason, Schema};
///
/// let json = br#"[{"name":"age","type":"u64","options":{"indexed":true,"stored":true}}]"#;
/// let imported = Schema::open(json)?.import_lines(b"{\"age\":\"old\"}\n")?;
/// let refusal = imported.lines[0].unwrap_err();
/// assert_eq!(refusal.reason, LineReason::WrongType);
/// assert_eq!(refusal.field, Some(0));
/// assert!(refusal.to_string().starts_with("field 0: "));
/// # Ok::<(), kormaglen::Refusal>(())
/// ```
///
/// ```
/// use kormaglen::{JsonFault, LineReason, Schema};
///
/// let imported = Schema::open(b"[]")?.import_lines(b"{\"age\" 7}\n")?;
/// let refusal = imported.lines[0].unwrap_err();
/// assert_eq!(refusal.reason, LineReason::InvalidJson);
/// assert_eq!((refusal.fault, refusal.byte), (Some(JsonFault::Colon), Some(7)));
/// assert!(refusal.to_string().ends_with(": a colon was expected at byte 7"));
/// # Ok::<(), kormaglen::Refusal>(())
/// ```
#[non_exhaustive]
#[derive(Clone, Copy, Debug, PartialEq, Eq, Hash)]
pub struct LineRefusal {
    /// Why it hasn't.
    pub reason: LineReason,
    /// The number of the field whose value is refused, where it is one that is.
    pub field: Option<u32>,
    /// Why it is no JSON object, where that is the reason.
    pub fault: Option<JsonFault>,
    /// How many bytes of the line come before the fault, unless it is of the line as a whole.
    pub byte: Option<u64>,
}

impl LineRefusal {
    /// Of the status of a line, and of the other two numbers that the library answers with it.
    pub(crate) fn of_numbers(status: u32, number: u32, byte: u64) -> LineRefusal {
        let reason = LineReason::of_number(status);
        let fault = (reason == LineReason::InvalidJson).then(|| JsonFault::of_number(number));
        LineRefusal {
            reason,
            field: reason.has_field().then_some(number),
            fault,
            byte: fault.filter(|fault| fault.has_byte()).map(|_| byte),
        }
    }
}

impl fmt::Display for LineRefusal {
    fn fmt(&self, f: &mut fmt::Formatter<'_>) -> fmt::Result {
        if let Some(field) = self.field {
            write!(f, "field {field}: ")?;
        }
        write!(f, "{}", self.reason)?;
        if let Some(fault) = self.fault {
            write!(f, ": {fault}")?;
        }
        match self.byte {
            Some(byte) => write!(f, " at byte {byte}"),
            None => Ok(()),
        }
    }
}

impl Error for LineRefusal {}

/// Why a text of a query has no terms, or no ranges of them. It prints as the number of the field,
/// and the library's words for the reason.
///
/// ```
/// use kormaglen::{QueryReason, Refusal, Schema};
///
/// let json = br#"[{"name":"age","type":"u64","options":{"indexed":true,"stored":true}}]"#;
/// match Schema::open(json)?.terms_of_text("age", "old") {
///     Err(Refusal::BadQuery(refusal)) => {
///         assert_eq!(refusal.reason, QueryReason::WrongType);
///         assert_eq!(refusal.field, Some(0));
///         assert!(refusal.to_string().starts_with("field 0: "));
///     }
///     other => panic!("{other:?}"),
/// }
/// # Ok::<(), Refusal>(())
/// ```
#[non_exhaustive]
#[derive(Clone, Copy, Debug, PartialEq, Eq, Hash)]
pub struct QueryRefusal {
    /// Why it hasn't.
    pub reason: QueryReason,
    /// The number of the field that the path names, unless the text is no range.
    pub field: Option<u32>,
}

impl QueryRefusal {
    fn of_numbers(detail: u32, field: u32) -> QueryRefusal {
        let reason = QueryReason::of_number(detail);
        QueryRefusal { reason, field: reason.has_field().then_some(field) }
    }
}

impl fmt::Display for QueryRefusal {
    fn fmt(&self, f: &mut fmt::Formatter<'_>) -> fmt::Result {
        match self.field {
            Some(field) => write!(f, "field {field}: {}", self.reason),
            None => write!(f, "{}", self.reason),
        }
    }
}

impl Error for QueryRefusal {}

/// Why a document has no terms by a schema. It prints as the numbers of the document and the field,
/// and the library's words for the reason.
///
/// ```
/// use kormaglen::{DocumentReason, Schema, Version};
///
/// let json = br#"[{"name":"age","type":"u64","options":{"indexed":true,"stored":true}}]"#;
/// // A text in field 0.
/// let mut terms = Schema::open(json)?.terms_of_block(Version::V2, b"\x81\0\0\0\0\0\x81a")?;
/// let fault = terms.next().unwrap().unwrap_err();
/// assert_eq!((fault.document, fault.field), (0, 0));
/// assert_eq!(fault.reason, DocumentReason::WrongType);
/// assert!(fault.to_string().starts_with("document 0: field 0: "));
/// # Ok::<(), kormaglen::Refusal>(())
/// ```
#[non_exhaustive]
#[derive(Clone, Copy, Debug, PartialEq, Eq, Hash)]
pub struct TermFault {
    /// The number of the document in the block, from 0.
    pub document: u64,
    /// The number of the field whose value has no term.
    pub field: u32,
    /// Why it has none: `ForeignField`, `WrongType`, `NulInKey` or `NoTerm`.
    pub reason: DocumentReason,
}

impl TermFault {
    /// Of numbers of the library's, which has eight bytes for each.
    pub(crate) fn of_numbers(document: u64, reason: u64, field: u64) -> TermFault {
        let number = |wide| u32::try_from(wide).unwrap_or(u32::MAX);
        let reason = DocumentReason::of_number(number(reason));
        TermFault { document, field: number(field), reason }
    }
}

impl fmt::Display for TermFault {
    fn fmt(&self, f: &mut fmt::Formatter<'_>) -> fmt::Result {
        write!(f, "document {}: field {}: {}", self.document, self.field, self.reason)
    }
}

impl Error for TermFault {}

impl Answer {
    /// The answer itself, unless it is a refusal.
    pub(crate) fn accepted(self) -> Result<Answer, Refusal> {
        match self.status {
            OK => Ok(self),
            _ => Err(self.refusal()),
        }
    }

    /// Whether a buffer was too small.
    pub(crate) fn is_too_small(&self) -> bool {
        self.status == TOO_SMALL
    }

    fn refusal(self) -> Refusal {
        let Answer { status, detail, place, bytes, .. } = self;
        let field = u32::try_from(place);
        match (status, field) {
            (TOO_SMALL, _) => Refusal::TooLarge { bytes },
            (NO_MEMORY, _) => Refusal::Memory,
            (NOT_UTF8, _) => Refusal::NotUtf8,
            (NOT_A_FACET, _) => Refusal::NotAFacet,
            (INVALID_JSON, _) => Refusal::InvalidJson,
            (BAD_SCHEMA, _) => {
                Refusal::BadSchema { reason: SchemaReason::of_number(detail), entry: place }
            }
            (NO_FIELD, _) => Refusal::NoField,
            (BAD_DOCUMENT, _) => {
                Refusal::BadDocument { reason: DocumentReason::of_number(detail), start: place }
            }
            (WRONG_VERSION, _) => Refusal::WrongVersion,
            (NO_END, _) => Refusal::NoEnd,
            (BAD_LINE, Ok(number)) => {
                Refusal::BadLine(LineRefusal::of_numbers(detail, number, bytes))
            }
            (FOREIGN_FIELD, Ok(field)) => Refusal::ForeignField { field },
            (BAD_QUERY, Ok(field)) => Refusal::BadQuery(QueryRefusal::of_numbers(detail, field)),
            (BAD_PAIR, _) => Refusal::BadPair { pair: place },
            (CLOSED, _) => Refusal::Closed,
            (BAD_ARGUMENT, _) => {
                Refusal::BadArgument { reason: ArgumentReason::of_number(detail), pointer: place }
            }
            (NOT_A_TERM, _) => Refusal::NotATerm,
            _ => Refusal::Unknown { status, detail, place },
        }
    }
}

#[cfg(test)]
mod tests {
    use super::{calls, Answer, LineRefusal, Refusal};
    use crate::reasons::{
        ArgumentReason, DocumentReason, JsonFault, LineReason, QueryReason, SchemaReason,
    };

    fn refused(status: u32, detail: u32, place: u64) -> Refusal {
        Answer { status, detail, place, bytes: 7, lines: 0 }.accepted().unwrap_err()
    }

    #[test]
    fn each_number_is_that_of_its_refusal_and_has_its_words() {
        for status in (1..100).chain([u32::MAX]) {
            let refusal = refused(status, 1, 2);
            assert_eq!(refusal.status(), status);
            assert!(refusal.to_string().starts_with(calls::status_text(status)));
            let is_known = calls::status_text(status) != calls::status_text(u32::MAX);
            assert_eq!(matches!(refusal, Refusal::Unknown { .. }), !is_known, "{status}");
        }
    }

    #[test]
    fn each_reason_has_a_name_where_the_library_has_words() {
        for number in (1..100).chain([u32::MAX]) {
            let names = [
                (6, matches!(SchemaReason::of_number(number), SchemaReason::Unknown(_))),
                (8, matches!(DocumentReason::of_number(number), DocumentReason::Unknown(_))),
                (11, matches!(LineReason::of_number(number), LineReason::Unknown(_))),
                (13, matches!(QueryReason::of_number(number), QueryReason::Unknown(_))),
                (16, matches!(ArgumentReason::of_number(number), ArgumentReason::Unknown(_))),
            ];
            for (status, is_unknown) in names {
                let has_words = !calls::detail_text(status, number).is_empty();
                assert_eq!(has_words, !is_unknown, "{status} {number}");
                let words = refused(status, number, 2).to_string();
                assert_eq!(words.contains(&format!("unknown reason {number}")), is_unknown);
            }
        }
    }

    #[test]
    fn each_fault_has_a_name_where_the_library_has_words() {
        for number in (0..100).chain([u32::MAX]) {
            let fault = JsonFault::of_number(number);
            let has_words = !calls::json_fault_text(number).is_empty();
            assert_eq!(has_words, !matches!(fault, JsonFault::Unknown(_)), "{number}");
            assert_eq!(fault.number(), number);
            let Refusal::BadLine(line) = refused(11, 1, number.into()) else { panic!("{number}") };
            assert_eq!(line, LineRefusal::of_numbers(1, number, 7));
            assert_eq!((line.field, line.fault), (None, Some(fault)));
            assert_eq!(line.byte, (![0, 3].contains(&number)).then_some(7));
            let words = line.to_string();
            assert_eq!(words.contains(&format!("unknown reason {number}")), !has_words);
            assert_eq!(words.ends_with(" at byte 7"), line.byte.is_some(), "{words}");
            // With another reason, the number is that of a field.
            let other = LineRefusal::of_numbers(3, number, 7);
            assert_eq!((other.field, other.fault, other.byte), (Some(number), None, None));
        }
    }

    #[test]
    fn places_are_kept_whole() {
        let place = u64::from(u32::MAX) + 1;
        let entry = Refusal::BadSchema { reason: SchemaReason::BadName, entry: place };
        assert_eq!(refused(6, 1, place), entry);
        let start = Refusal::BadDocument { reason: DocumentReason::Float, start: place };
        assert_eq!(refused(8, 4, place), start);
        assert_eq!(start.after(usize::MAX).after(1).status(), 8);
        // A field's number has 32 bits.
        let unknown = Refusal::Unknown { status: 12, detail: 0, place };
        assert_eq!(refused(12, 0, place), unknown);
        assert_eq!(refused(11, 3, place), Refusal::Unknown { status: 11, detail: 3, place });
        assert_eq!(refused(13, 1, place), Refusal::Unknown { status: 13, detail: 1, place });
        assert_eq!(refused(12, 0, place - 1), Refusal::ForeignField { field: u32::MAX });
    }

    #[test]
    fn the_whole_of_a_schema_has_no_entry() {
        assert!(!refused(6, 4, 0).to_string().contains("entry 0"));
        assert!(refused(6, 4, 1).to_string().contains("entry 1: "));
    }
}
