//! Schemas, stored documents, terms and facets of tantivy 0.26.2, by the calls of the proved
//! library Kormaglen.
//!
//! ```
//! use kormaglen::{Schema, Version};
//!
//! let mut schema = Schema::open(
//!     br#"[{"name":"name","type":"text","options":{"stored":true}}]"#,
//! )?;
//! let imported = schema.import_lines(b"{\"name\":\"Ada\"}\n")?;
//! assert_eq!(schema.export_block(Version::V2, &imported.block)?, "{\"name\":[\"Ada\"]}\n");
//! # Ok::<(), kormaglen::Refusal>(())
//! ```
//!
//! A block is stored documents, one after the other. What is done with it:
//!
//! | task | call |
//! |---|---|
//! | make one of lines of JSON | [`Schema::import_lines`], of a reader [`Schema::import_reader`] |
//! | print it as lines of JSON | [`Schema::export_block`] |
//! | write it in another version of the store | [`migrate_block`] |
//! | read its documents one by one | [`documents()`] |
//! | list the values of a field | [`Schema::values_of_block`] |
//! | list the terms of all fields | [`Schema::terms_of_block`] |
//! | list the terms of a field | [`terms()`], all at once [`terms_of_block`] |
//! | find the terms of a prefix | [`term_of_text`], [`end_of_prefix`] |
//! | print a term | [`text_of_term`] |
//! | find those of a query's text | [`Schema::terms_of_text`], [`Schema::ranges_of_text`] |
//!
//! A [`Document`] is one document at a time. [`Schema::find_field`] finds the field that a path
//! names, and [`facet_of_text`] and [`text_of_facet`] encode and print facets, by which
//! [`count_facets`] counts documents.
//!
//! # Refusals
//!
//! Each call that can be refused returns a [`Refusal`], which prints the reason in words. No call
//! panics, whatever its input is. After a refusal what a call was given is as it was, but for a
//! [`Document`] that another one was to replace. A [`TermFault`] says of one document of a block why
//! it has no terms by a schema, and the terms of the others come.
//!
//! # Threads
//!
//! A [`Schema`] and a [`Document`] can be moved to another thread, and be used and dropped there.
//! Each call changes what it is given of them while it runs, so it takes them by `&mut`. Threads
//! that import by the same schema open it once each. Calls that are given no `Schema` and no
//! `Document` are safe from any thread.

#![warn(missing_docs, missing_debug_implementations)]
#![deny(unsafe_code, unsafe_op_in_unsafe_fn)]

mod blocks;
mod buffer;
#[allow(unsafe_code)]
mod calls;
mod document;
mod documents;
mod facets;
mod queries;
mod reader;
mod reasons;
mod records;
mod refusal;
mod schema;
mod terms;
mod values;

pub use blocks::{export_block, import_lines, migrate_block, Imported, Version};
pub use document::Document;
pub use documents::{documents, Documents};
pub use facets::{count_facets, facet_of_text, text_of_facet, FacetCount};
pub use queries::TermRange;
pub use reader::{ImportError, ImportedBlocks};
pub use reasons::{
    ArgumentReason, DocumentReason, JsonFault, LineReason, QueryReason, SchemaReason,
};
pub use refusal::{LineRefusal, QueryRefusal, Refusal, TermFault};
pub use schema::{find_field, Field, Schema};
pub use terms::{
    end_of_prefix, term_of_text, terms, terms_of_block, text_of_term, SchemaTerms, Term, Terms,
};
pub use values::{FieldValue, Value};

/// The version of the library that is linked. That of a library that was built without its proof
/// says so.
///
/// ```
/// assert!(kormaglen::library_version().starts_with("0.1."));
/// ```
pub fn library_version() -> &'static str {
    calls::version()
}

// The examples of the page are tests, too.
#[cfg(doctest)]
#[doc = include_str!("../README.md")]
struct Readme;
