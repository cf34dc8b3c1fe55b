//! A schema that is read once, and the field that a path names.

use crate::blocks::{exported, imported, Imported, Version};
use crate::buffer::{filled, filled_text, size};
use crate::calls::{self, Answer, FoundField, SchemaHandle};
use crate::queries::{first_range, first_term, TermRange};
use crate::reader::ImportedBlocks;
use crate::records::records_in;
use crate::refusal::Refusal;
use crate::terms::SchemaTerms;
use crate::values::{first_value, FieldValue};
use std::fmt;
use std::io::Read;

/// How many bytes of a schema's JSON are asked for at first.
const FIRST_ROOM: usize = 4096;

/// How many bytes of terms or ranges are asked for at first.
const QUERY_ROOM: usize = 256;

/// A schema whose JSON is read once, for any number of calls, and the memory that reading lines
/// needs. It is given up where its value ends.
///
/// ```
/// use kormaglen::{Schema, Version};
///
/// let mut schema = Schema::open(
///     br#"[{"name":"age","type":"u64","options":{"indexed":true,"stored":true}}]"#,
/// )?;
/// let imported = schema.import_lines(b"{\"age\":36}\n")?;
/// assert_eq!(schema.export_block(Version::V2, &imported.block)?, "{\"age\":[36]}\n");
/// # Ok::<(), kormaglen::Refusal>(())
/// ```
///
/// A schema can be moved to another thread:
///
/// ```
/// let mut schema = kormaglen::Schema::open(b"[]")?;
/// let thread = std::thread::spawn(move || schema.import_lines(b"{}\n"));
/// assert_eq!(thread.join().unwrap()?.block, b"\x80");
/// # Ok::<(), kormaglen::Refusal>(())
/// ```
///
/// Two threads can't use the same one, since each call takes it by `&mut`:
///
/// ```compile_fail,E0499
/// let mut schema = kormaglen::Schema::open(b"[]").unwrap();
/// std::thread::scope(|scope| {
///     scope.spawn(|| schema.import_lines(b"{}\n"));
///     scope.spawn(|| schema.import_lines(b"{}\n"));
/// });
/// ```
///
/// Nor can they have references to the same one, as a `Schema` isn't `Sync`:
///
/// ```compile_fail,E0277
/// fn share<T: Sync>(_: &T) {}
/// share(&kormaglen::Schema::open(b"[]").unwrap());
/// ```
pub struct Schema {
    handle: SchemaHandle,
}

impl Schema {
    /// The schema that a text of JSON describes, as tantivy writes it.
    ///
    /// ```
    /// use kormaglen::{Refusal, Schema, SchemaReason};
    ///
    /// assert!(Schema::open(b"[]").is_ok());
    /// assert_eq!(Schema::open(b"[").unwrap_err(), Refusal::InvalidJson);
    /// let refusal = Schema::open(br#"[{"name":"age"}]"#).unwrap_err();
    /// assert_eq!(refusal, Refusal::BadSchema { reason: SchemaReason::Type, entry: 1 });
    /// ```
    ///
    /// # Errors
    ///
    /// `InvalidJson`, `BadSchema`, `Memory`.
    pub fn open(json: &[u8]) -> Result<Schema, Refusal> {
        let (handle, answer) = SchemaHandle::open(json);
        answer.accepted()?;
        Ok(Schema { handle })
    }

    /// The schema as JSON, with all options written out. [`Schema::open`] reads it again.
    ///
    /// ```
    /// let mut schema = kormaglen::Schema::open(b" [ ] ")?;
    /// assert_eq!(schema.to_json()?, "[]");
    /// # Ok::<(), kormaglen::Refusal>(())
    /// ```
    ///
    /// # Errors
    ///
    /// `Memory`, `TooLarge`.
    pub fn to_json(&mut self) -> Result<String, Refusal> {
        filled_text(FIRST_ROOM, |text| self.handle.write_json(text))
    }

    /// As [`import_lines`](crate::import_lines()), by this schema.
    ///
    /// ```
    /// let mut schema = kormaglen::Schema::open(b"[]")?;
    /// // A document without a pair takes one byte.
    /// let imported = schema.import_lines(b"{}\nnull\n{}")?;
    /// assert_eq!(imported.block, b"\x80\x80");
    /// assert_eq!(imported.lines.len(), 3);
    /// # Ok::<(), kormaglen::Refusal>(())
    /// ```
    ///
    /// # Errors
    ///
    /// `Memory`, `TooLarge`.
    pub fn import_lines(&mut self, lines: &[u8]) -> Result<Imported, Refusal> {
        imported(lines, |block, answers| self.handle.import_lines(lines, block, answers))
    }

    /// Imports the lines of a reader, a block of them at a time. It takes the memory of a chunk, of
    /// what is stored of it, and of the longest line.
    ///
    /// ```
    /// let mut schema = kormaglen::Schema::open(b"[]")?;
    /// let mut line = 0;
    /// for imported in schema.import_reader(&b"{}\n{}\nnull\n"[..]) {
    ///     let imported = imported?;
    ///     // Here the block is written somewhere.
    ///     for answer in &imported.lines {
    ///         line += 1;
    ///         if let Err(refusal) = answer {
    ///             println!("line {line}: {refusal}");
    ///         }
    ///     }
    /// }
    /// assert_eq!(line, 3);
    /// # Ok::<(), Box<dyn std::error::Error>>(())
    /// ```
    pub fn import_reader<R: Read>(&mut self, reader: R) -> ImportedBlocks<'_, R> {
        ImportedBlocks::new(self, reader)
    }

    /// As [`export_block`](crate::export_block()), by this schema.
    ///
    /// ```
    /// use kormaglen::{DocumentReason, Refusal, Schema, Version};
    ///
    /// let mut schema = Schema::open(b"[]")?;
    /// assert_eq!(schema.export_block(Version::V2, b"\x80\x80")?, "{}\n{}\n");
    /// let refusal = schema.export_block(Version::V2, b"\x80\x81").unwrap_err();
    /// let reason = DocumentReason::UnexpectedEnd;
    /// assert_eq!(refusal, Refusal::BadDocument { reason, start: 1 });
    /// # Ok::<(), Refusal>(())
    /// ```
    ///
    /// # Errors
    ///
    /// `BadDocument` of the first document that can't be read, `Memory`, `TooLarge`.
    pub fn export_block(&mut self, version: Version, block: &[u8]) -> Result<String, Refusal> {
        exported(block, |lines| self.handle.export_block(version.number(), block, lines))
    }

    /// The values of the field that has this name in the documents of a block, in their order. Values
    /// of other fields are tested, and passed over. The name is the whole name of a field, and no path.
    ///
    /// ```
    /// use kormaglen::{Schema, Value, Version};
    ///
    /// let mut schema = Schema::open(
    ///     br#"[{"name":"age","type":"u64","options":{"indexed":true,"stored":true}}]"#,
    /// )?;
    /// let block = schema.import_lines(b"{\"age\":36}\n{}\n{\"age\":7}\n")?.block;
    /// let ages = schema.values_of_block("age", Version::V2, &block)?;
    /// assert_eq!((ages[0].document, &ages[0].value), (0, &Value::U64(36)));
    /// assert_eq!((ages[1].document, &ages[1].value), (2, &Value::U64(7)));
    /// # Ok::<(), kormaglen::Refusal>(())
    /// ```
    ///
    /// # Errors
    ///
    /// `NoField` where no field has the name, `BadDocument` of the first document that can't be read,
    /// `Memory`, `TooLarge`.
    pub fn values_of_block(
        &mut self,
        name: &str,
        version: Version,
        block: &[u8],
    ) -> Result<Vec<FieldValue>, Refusal> {
        let (name, version) = (name.as_bytes(), version.number());
        let values = filled(block.len().saturating_mul(2), |values| {
            self.handle.values_of_block(name, version, block, values)
        })?;
        records_in(&values, first_value)
    }

    /// As [`terms_of_block`](crate::terms_of_block()), of all fields that are indexed by this schema,
    /// and also of the values in JSON objects: the terms of each document, in their order. A document
    /// that has a value without a term by this schema has a [`TermFault`](crate::TermFault) in place of
    /// its terms.
    ///
    /// The library lists them at once, and a term is put together as it is asked for. So what is held is
    /// in proportion to the block, however long the keys of JSON objects are.
    ///
    /// ```
    /// use kormaglen::{DocumentReason, Schema, TermFault, Version};
    ///
    /// let mut schema = Schema::open(
    ///     br#"[{"name":"age","type":"u64","options":{"indexed":true,"stored":true}}]"#,
    /// )?;
    /// // An age of 258, a text in its place, and an age of 7.
    /// let block = b"\x81\0\0\0\0\x01\x02\x01\0\0\0\0\0\0\x81\0\0\0\0\0\x81a\
    ///     \x81\0\0\0\0\x01\x07\0\0\0\0\0\0\0";
    /// for found in schema.terms_of_block(Version::V2, block)? {
    ///     match found {
    ///         Ok(term) => assert!(term.document == 0 || term.document == 2),
    ///         Err(fault) => {
    ///             assert_eq!((fault.document, fault.field), (1, 0));
    ///             assert_eq!(fault.reason, DocumentReason::WrongType);
    ///         }
    ///     }
    /// }
    /// // Where all documents have to have terms:
    /// let all: Result<Vec<_>, TermFault> = schema.terms_of_block(Version::V2, block)?.collect();
    /// assert_eq!(all.unwrap_err().document, 1);
    /// # Ok::<(), kormaglen::Refusal>(())
    /// ```
    ///
    /// # Errors
    ///
    /// `BadDocument` of the first document that can't be read, `Memory`, `TooLarge`.
    pub fn terms_of_block(
        &mut self,
        version: Version,
        block: &[u8],
    ) -> Result<SchemaTerms, Refusal> {
        // A number takes 14 bytes of a block, and 37 with its term.
        let records = filled(block.len().saturating_mul(3), |terms| {
            self.handle.terms_of_block(version.number(), block, terms)
        })?;
        Ok(SchemaTerms::new(records))
    }

    /// As [`find_field`](crate::find_field()), by this schema.
    ///
    /// ```
    /// use kormaglen::{Refusal, Schema};
    ///
    /// let mut schema = Schema::open(
    ///     br#"[{"name":"more","type":"json_object","options":{"stored":true,"fast":false}}]"#,
    /// )?;
    /// let field = schema.find_field("more.tags")?;
    /// assert_eq!((field.number, field.rest), (0, "tags"));
    /// assert_eq!(schema.find_field("less"), Err(Refusal::NoField));
    /// # Ok::<(), Refusal>(())
    /// ```
    ///
    /// # Errors
    ///
    /// `NoField` where the path names none.
    pub fn find_field<'p>(&mut self, path: &'p str) -> Result<Field<'p>, Refusal> {
        found(path, |found| self.handle.find_field(path.as_bytes(), found))
    }

    /// The terms that a text of a query has at what the path names, in their order. In a field that
    /// isn't of JSON objects it is the one term of the value that the text writes: a number in
    /// decimal, true or false, a date by RFC 3339, a facet's path, base64, an address, or the text
    /// itself. At a path into JSON objects the text has the term of itself, and also those of the
    /// number, the truth value and the date that it writes.
    ///
    /// ```
    /// let mut schema = kormaglen::Schema::open(
    ///     br#"[{"name":"age","type":"u64","options":{"indexed":true,"stored":true}}]"#,
    /// )?;
    /// let terms = schema.terms_of_text("age", "258")?;
    /// // The number of the field, the code of numbers, and the number with its highest byte first.
    /// assert_eq!(terms, [b"\0\0\0\0u\0\0\0\0\0\0\x01\x02"]);
    /// # Ok::<(), kormaglen::Refusal>(())
    /// ```
    ///
    /// # Errors
    ///
    /// `NoField` where the path names none, `BadQuery` where the field isn't indexed, the path ends
    /// at a field of JSON objects or has U+0000, or the text is no value of the field's type;
    /// `Memory`, `TooLarge`.
    pub fn terms_of_text(&mut self, path: &str, text: &str) -> Result<Vec<Vec<u8>>, Refusal> {
        let (path, text) = (path.as_bytes(), text.as_bytes());
        let terms = filled(QUERY_ROOM, |terms| self.handle.terms_of_text(path, text, terms))?;
        records_in(&terms, first_term)
    }

    /// The ranges of terms that a text of a query bounds at what the path names, in their order.
    /// The text is `*`, or two bounds with ` TO ` between them: `[` and `]` stand by a bound that is
    /// within the range, `{` and `}` by one that isn't, and `*` is no bound. A field that isn't of
    /// JSON objects has one range. At a path into JSON objects there is a range for each kind of
    /// value that both bounds write: dates, numbers below 2^63, truth values, texts, and numbers
    /// from 2^63 on.
    ///
    /// ```
    /// let mut schema = kormaglen::Schema::open(
    ///     br#"[{"name":"age","type":"u64","options":{"indexed":true,"stored":true}}]"#,
    /// )?;
    /// let ranges = schema.ranges_of_text("age", "[10 TO 20}")?;
    /// assert_eq!(ranges.len(), 1);
    /// for (text, is_within) in [("9", false), ("10", true), ("19", true), ("20", false)] {
    ///     let term = &schema.terms_of_text("age", text)?[0];
    ///     assert_eq!(ranges[0].contains(term), is_within);
    /// }
    /// # Ok::<(), kormaglen::Refusal>(())
    /// ```
    ///
    /// # Errors
    ///
    /// Those of `terms_of_text` for the path and each bound, and `BadQuery` where the text bounds no
    /// range or the bounds run backwards.
    pub fn ranges_of_text(&mut self, path: &str, text: &str) -> Result<Vec<TermRange>, Refusal> {
        let (path, text) = (path.as_bytes(), text.as_bytes());
        let ranges = filled(QUERY_ROOM, |ranges| self.handle.ranges_of_text(path, text, ranges))?;
        records_in(&ranges, first_range)
    }

    pub(crate) fn handle(&mut self) -> &mut SchemaHandle {
        &mut self.handle
    }
}

impl fmt::Debug for Schema {
    fn fmt(&self, f: &mut fmt::Formatter<'_>) -> fmt::Result {
        f.debug_struct("Schema").finish_non_exhaustive()
    }
}

/// The field that a path names.
///
/// ```
/// use kormaglen::find_field;
///
/// let options = r#"{"stored":true,"fast":false}"#;
/// let schema = format!(r#"[{{"name":"more","type":"json_object","options":{options}}}]"#);
/// let field = find_field(schema.as_bytes(), "more.tags.first")?;
/// assert_eq!(field.number, 0);
/// assert_eq!(field.rest, "tags.first");
/// # Ok::<(), kormaglen::Refusal>(())
/// ```
#[non_exhaustive]
#[derive(Clone, Copy, Debug, PartialEq, Eq, Hash)]
pub struct Field<'p> {
    /// The field's number.
    pub number: u32,
    /// The rest of the path: the path into the field's JSON objects. It is empty where the whole
    /// path names the field.
    pub rest: &'p str,
}

/// The field that a path of a query names, as `author.name`: the field of the whole path, or of the
/// part before the last dot that names one.
///
/// The schema is its JSON, which is read anew. [`Schema`] reads it once for many calls.
///
/// ```
/// let schema = br#"[{"name":"age","type":"u64","options":{"indexed":true,"stored":true}}]"#;
/// assert_eq!(kormaglen::find_field(schema, "age")?.number, 0);
/// # Ok::<(), kormaglen::Refusal>(())
/// ```
///
/// # Errors
///
/// `InvalidJson` and `BadSchema` of the schema, `NoField` where the path names none, `Memory`.
pub fn find_field<'p>(schema: &[u8], path: &'p str) -> Result<Field<'p>, Refusal> {
    found(path, |found| calls::find_field(schema, path.as_bytes(), found))
}

/// What a call finds of a path.
fn found(path: &str, call: impl FnOnce(&mut FoundField) -> Answer) -> Result<Field<'_>, Refusal> {
    let mut found = FoundField::default();
    call(&mut found).accepted()?;
    // The rest begins after a dot or at the path's end, so it is there.
    let rest = path.get(size(found.rest)?..).unwrap_or_default();
    Ok(Field { number: found.field, rest })
}
