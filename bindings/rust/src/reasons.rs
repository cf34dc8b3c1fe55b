//! The numbers of reasons, by name. Their words are the library's.

use crate::calls;
use std::fmt;

/// The library's status of a schema that is refused.
pub(crate) const BAD_SCHEMA: u32 = 6;
/// The library's status of a document that is refused.
pub(crate) const BAD_DOCUMENT: u32 = 8;
/// The library's status of a line that is refused.
pub(crate) const BAD_LINE: u32 = 11;
/// The library's status of a text of a query that is refused.
pub(crate) const BAD_QUERY: u32 = 13;
/// The library's status of a pointer that is refused.
pub(crate) const BAD_ARGUMENT: u32 = 16;

/// Makes an enum of numbers, with a variant for every other number, so that a library that has more
/// of them is no error. The words of a number are given by a function of the library's.
macro_rules! reasons {
    (
        $(#[$about:meta])*
        $name:ident, by $words:expr;
        $($(#[$says:meta])* $variant:ident = $number:literal,)*
    ) => {
        $(#[$about])*
        #[non_exhaustive]
        #[derive(Clone, Copy, Debug, PartialEq, Eq, Hash)]
        pub enum $name {
            $($(#[$says])* $variant,)*
            /// A number that this crate has no name for.
            Unknown(u32),
        }

        impl $name {
            pub(crate) fn of_number(number: u32) -> $name {
                match number {
                    $($number => $name::$variant,)*
                    other => $name::Unknown(other),
                }
            }

            /// The number that the C header has for this reason.
            ///
            /// ```
            #[doc = concat!("let reason = kormaglen::", stringify!($name), "::Unknown(99);")]
            /// assert_eq!(reason.number(), 99);
            /// ```
            pub fn number(self) -> u32 {
                match self {
                    $($name::$variant => $number,)*
                    $name::Unknown(number) => number,
                }
            }
        }

        /// Prints the library's words for the reason.
        impl fmt::Display for $name {
            fn fmt(&self, f: &mut fmt::Formatter<'_>) -> fmt::Result {
                let words_of: fn(u32) -> &'static str = $words;
                match words_of(self.number()) {
                    "" => write!(f, "unknown reason {}", self.number()),
                    words => f.write_str(words),
                }
            }
        }
    };
}

reasons! {
    /// Why a text of JSON describes no schema.
    ///
    /// ```
    /// use kormaglen::{Refusal, Schema, SchemaReason};
    ///
    /// let twice = br#"[{"name":"a","type":"facet","options":{"stored":true}},
    ///     {"name":"a","type":"facet","options":{"stored":true}}]"#;
    /// match Schema::open(twice) {
    ///     Err(Refusal::BadSchema { reason, .. }) => {
    ///         assert_eq!(reason, SchemaReason::SameName);
    ///         assert_eq!(reason.number(), 2);
    ///     }
    ///     other => panic!("{other:?}"),
    /// }
    /// ```
    SchemaReason, by |number| calls::detail_text(BAD_SCHEMA, number);
    /// A field's name is empty or begins with `-`.
    BadName = 1,
    /// Two fields have the same name.
    SameName = 2,
    /// There are more fields than numbers for them.
    TooManyFields = 3,
    /// An entry isn't an object; at entry 0, the whole isn't an array.
    BadEntry = 4,
    /// The type of a field is `f64`, which the library doesn't have.
    FloatField = 5,
    /// `name` isn't a text, or is missing.
    Name = 6,
    /// `type` isn't the word of a type, or is missing.
    Type = 7,
    /// `options` isn't an object, or is missing.
    Options = 8,
    /// `indexed` isn't true or false, or is missing where it is required.
    Indexed = 9,
    /// `stored` isn't true or false, or is missing where it is required.
    Stored = 10,
    /// `fieldnorms` isn't true or false, or is missing where it is required.
    Fieldnorms = 11,
    /// `fast` isn't true or false, or is missing where it is required.
    Fast = 12,
    /// `fast` of a text or JSON field isn't true, false or an object with `with_tokenizer`, or is
    /// missing where it is required.
    FastOfText = 13,
    /// `coerce` isn't true or false.
    Coerce = 14,
    /// `precision` isn't the word of a precision.
    Precision = 15,
    /// `indexing` isn't an object.
    Indexing = 16,
    /// `record` isn't the word of what an index keeps.
    Record = 17,
    /// `fieldnorms` of `indexing` isn't true or false.
    IndexingFieldnorms = 18,
    /// `tokenizer` isn't a text.
    Tokenizer = 19,
    /// `with_tokenizer` isn't a text.
    WithTokenizer = 20,
    /// `expand_dots_enabled` isn't true or false.
    ExpandDots = 21,
}

reasons! {
    /// Why a document of a block is refused, or has no terms by a schema.
    ///
    /// ```
    /// use kormaglen::{Document, DocumentReason, Refusal, Version};
    ///
    /// // The byte says that one pair follows, but nothing does.
    /// match Document::read(Version::V2, b"\x81") {
    ///     Err(Refusal::BadDocument { reason, .. }) => {
    ///         assert_eq!(reason, DocumentReason::UnexpectedEnd);
    ///         assert_eq!(reason.number(), 1);
    ///     }
    ///     other => panic!("{other:?}"),
    /// }
    /// ```
    DocumentReason, by |number| calls::detail_text(BAD_DOCUMENT, number);
    /// The bytes end inside the document.
    UnexpectedEnd = 1,
    /// A value has a code that names no type.
    UnknownType = 2,
    /// The code of an extension is followed by a byte that names none.
    UnknownExtension = 3,
    /// A value is a floating-point number, which the library doesn't have.
    Float = 4,
    /// A number of variable length is 2^64 or more, or has more than ten bytes.
    BadNumber = 5,
    /// A truth value is neither 0 nor 1.
    BadBool = 6,
    /// A text or a facet isn't UTF-8.
    NotUtf8 = 7,
    /// An object has an odd number of keys and values.
    OddObject = 8,
    /// The nanoseconds of a date of version 1 don't fit 64 bits.
    DateRange = 9,
    /// An object in the old form isn't JSON.
    OldJson = 10,
    /// An object in the old form has a number that isn't a whole one of 64 bits.
    OldFloat = 11,
    /// A key of an object isn't a text.
    KeyNoText = 12,
    /// The document needs more memory than 4294967295 bytes.
    NoRoom = 13,
    /// More than 2^64 - 1 bytes were read.
    TooLong = 14,
    /// It can be read, but has no terms: a field is none of the schema's.
    ForeignField = 15,
    /// It can be read, but has no terms: a value isn't of its field's type.
    WrongType = 16,
    /// It can be read, but has no terms: a key in a value of a field of JSON objects has U+0000.
    NulInKey = 17,
    /// It can be read, but has no terms: a facet, bytes, an address or a pre-tokenized text stands in
    /// a value of a field of JSON objects.
    NoTerm = 18,
}

reasons! {
    /// Why a line has no document.
    ///
    /// ```
    /// use kormaglen::{LineReason, Schema};
    ///
    /// let mut schema = Schema::open(b"[]")?;
    /// let imported = schema.import_lines(b"null\n")?;
    /// let reason = imported.lines[0].unwrap_err().reason;
    /// assert_eq!(reason, LineReason::InvalidJson);
    /// assert_eq!(reason.number(), 1);
    /// # Ok::<(), kormaglen::Refusal>(())
    /// ```
    LineReason, by |number| calls::detail_text(BAD_LINE, number);
    /// The line is no JSON object: [`LineRefusal::fault`](crate::LineRefusal::fault) says why.
    InvalidJson = 1,
    /// A number doesn't fit the field's type.
    Overflow = 2,
    /// A value is of another kind than the field's.
    WrongType = 3,
    /// A text is no date, address or facet.
    BadText = 4,
    /// A text isn't the standard base64 of any bytes.
    BadBase64 = 5,
    /// A number isn't whole, or doesn't fit 64 bits.
    Float = 6,
    /// The values need more than 4294967295 bytes.
    NoRoom = 7,
}

reasons! {
    /// Why a line is no JSON object. `NotUtf8` and `NoObject` are of the line as a whole; the others
    /// are at a byte of it, which is the line's length where the line ends too early.
    ///
    /// ```
    /// use kormaglen::{JsonFault, Schema};
    ///
    /// let mut schema = Schema::open(b"[]")?;
    /// let imported = schema.import_lines(b"{\"age\" 7}\n")?;
    /// let fault = imported.lines[0].unwrap_err().fault.unwrap();
    /// assert_eq!(fault, JsonFault::Colon);
    /// assert_eq!(fault.number(), 8);
    /// assert_eq!(fault.to_string(), "a colon was expected");
    /// # Ok::<(), kormaglen::Refusal>(())
    /// ```
    JsonFault, by calls::json_fault_text;
    /// The line isn't UTF-8.
    NotUtf8 = 0,
    /// The list that begins at the byte lies within 127 others.
    TooDeep = 1,
    /// The number at the byte is too large for a float.
    NumberTooLarge = 2,
    /// The line is JSON, and no object.
    NoObject = 3,
    /// A value was expected.
    Value = 4,
    /// A value or `]` was expected.
    ValueOrArrayEnd = 5,
    /// A key was expected.
    Key = 6,
    /// A key or `}` was expected.
    KeyOrObjectEnd = 7,
    /// A colon was expected.
    Colon = 8,
    /// A comma or `]` was expected.
    CommaOrArrayEnd = 9,
    /// A comma or `}` was expected.
    CommaOrObjectEnd = 10,
    /// The end of the line was expected.
    TextEnd = 11,
    /// A character of a text, an escape or the closing quote was expected.
    StringCharacter = 12,
    /// One of `"\/bfnrtu` was expected, after a backslash.
    Escape = 13,
    /// A hexadecimal digit was expected.
    HexadecimalDigit = 14,
    /// A hexadecimal digit below `c` was expected, after `\ud`: no high surrogate stands before.
    HexadecimalDigitBelowC = 15,
    /// The escape of a low surrogate was expected, after that of a high one.
    LowSurrogate = 16,
    /// A digit was expected.
    Digit = 17,
    /// A digit or a sign was expected.
    DigitOrSign = 18,
    /// The rest of `true`, `false` or `null` was expected.
    Word = 19,
}

reasons! {
    /// Why a text of a query has no terms, or no ranges of them.
    ///
    /// ```
    /// use kormaglen::{QueryReason, Refusal, Schema};
    ///
    /// let json = br#"[{"name":"age","type":"u64","options":{"indexed":true,"stored":true}}]"#;
    /// let mut schema = Schema::open(json)?;
    /// match schema.ranges_of_text("age", "[20 TO 10]") {
    ///     Err(Refusal::BadQuery(refusal)) => {
    ///         assert_eq!(refusal.reason, QueryReason::Backwards);
    ///         assert_eq!(refusal.reason.number(), 5);
    ///     }
    ///     other => panic!("{other:?}"),
    /// }
    /// # Ok::<(), Refusal>(())
    /// ```
    QueryReason, by |number| calls::detail_text(BAD_QUERY, number);
    /// The field isn't indexed.
    NotIndexed = 1,
    /// The path ends at a field of JSON objects.
    PathEnds = 2,
    /// The path below a field of JSON objects has U+0000.
    NulInPath = 3,
    /// The text is neither `*` nor two bounds in brackets with ` TO ` between them.
    NoRange = 4,
    /// The range's start is above its end.
    Backwards = 5,
    /// A number doesn't fit the field's type. Kept for numbers that are no texts.
    Overflow = 12,
    /// A text is no number that fits, no truth value or no date, whichever the field has.
    WrongType = 13,
    /// A date is out of its range, or a text is no address or facet.
    BadText = 14,
    /// A text isn't the standard base64 of any bytes.
    BadBase64 = 15,
    /// A number isn't whole, or doesn't fit 64 bits. Kept for numbers that are no texts.
    Float = 16,
}

reasons! {
    /// Why a pointer of a call is refused. What this crate hands over is never refused so.
    ///
    /// ```
    /// use kormaglen::ArgumentReason;
    ///
    /// assert_eq!(ArgumentReason::Overlap.number(), 4);
    /// println!("{}", ArgumentReason::Overlap);
    /// ```
    ArgumentReason, by |number| calls::detail_text(BAD_ARGUMENT, number);
    /// It is null, and has a length.
    Null = 1,
    /// No buffer has this length.
    TooLarge = 2,
    /// It isn't aligned for what it points to.
    Unaligned = 3,
    /// The buffer overlaps one that stands before it in the call, and one of the two is written.
    Overlap = 4,
}

impl QueryReason {
    /// Whether the reason is about one field.
    pub(crate) fn has_field(self) -> bool {
        self != QueryReason::NoRange
    }
}

impl LineReason {
    /// Whether the reason is about the value of one field.
    pub(crate) fn has_field(self) -> bool {
        !matches!(self, LineReason::InvalidJson | LineReason::NoRoom)
    }
}

impl JsonFault {
    /// Whether the fault is at a byte of the line, and not of the line as a whole.
    pub(crate) fn has_byte(self) -> bool {
        !matches!(self, JsonFault::NotUtf8 | JsonFault::NoObject)
    }
}
