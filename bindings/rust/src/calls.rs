//! The calls of the library, each with slices and handles. This is the one module with `unsafe`
//! code.
//!
//! What every call below relies on: the pointer of a slice has as many bytes after it as the slice
//! is long. A slice that is written is lent by `&mut`, so it overlaps no other one of the call. The
//! library keeps no pointer after a call.

use std::ffi::CStr;
use std::os::raw::{c_char, c_void};
use std::ptr::null_mut;

/// What a call answers.
#[repr(C)]
#[derive(Clone, Copy, Debug)]
pub(crate) struct Answer {
    pub(crate) status: u32,
    pub(crate) detail: u32,
    pub(crate) place: u64,
    pub(crate) bytes: u64,
    pub(crate) lines: u64,
}

/// What became of a line.
#[repr(C)]
#[derive(Clone, Copy, Debug, Default)]
pub(crate) struct LineAnswer {
    pub(crate) status: u32,
    pub(crate) field: u32,
    pub(crate) bytes: u64,
}

/// What was found of a path.
#[repr(C)]
#[derive(Clone, Copy, Debug, Default)]
pub(crate) struct FoundField {
    pub(crate) field: u32,
    pub(crate) rest: u64,
}

/// A handle as the library has it. One with a null pointer is closed.
#[repr(C)]
struct Handle {
    at: *mut c_void,
}

const CLOSED: Handle = Handle { at: null_mut() };

mod c {
    use super::{c_char, Answer, FoundField, Handle, LineAnswer};

    extern "C" {
        pub(super) fn kormaglen_version() -> *const c_char;
        pub(super) fn kormaglen_status_text(status: u32) -> *const c_char;
        pub(super) fn kormaglen_detail_text(status: u32, detail: u32) -> *const c_char;
        pub(super) fn kormaglen_json_fault_text(fault: u32) -> *const c_char;
        pub(super) fn kormaglen_import_lines(
            schema: *const u8,
            schema_len: usize,
            lines: *const u8,
            lines_len: usize,
            block: *mut u8,
            block_len: usize,
            answers: *mut LineAnswer,
            answers_len: usize,
        ) -> Answer;
        pub(super) fn kormaglen_export_block(
            schema: *const u8,
            schema_len: usize,
            version: u32,
            block: *const u8,
            block_len: usize,
            lines: *mut u8,
            lines_len: usize,
        ) -> Answer;
        pub(super) fn kormaglen_migrate_block(
            from: u32,
            block: *const u8,
            block_len: usize,
            to: u32,
            migrated: *mut u8,
            migrated_len: usize,
        ) -> Answer;
        pub(super) fn kormaglen_find_field(
            schema: *const u8,
            schema_len: usize,
            path: *const u8,
            path_len: usize,
            found: *mut FoundField,
        ) -> Answer;
        pub(super) fn kormaglen_facet_of_text(
            text: *const u8,
            text_len: usize,
            encoded: *mut u8,
            encoded_len: usize,
        ) -> Answer;
        pub(super) fn kormaglen_text_of_facet(
            encoded: *const u8,
            encoded_len: usize,
            text: *mut u8,
            text_len: usize,
        ) -> Answer;
        pub(super) fn kormaglen_count_facets(
            parent: *const u8,
            parent_len: usize,
            pairs: *const u8,
            pairs_len: usize,
            counts: *mut u8,
            counts_len: usize,
        ) -> Answer;
        pub(super) fn kormaglen_terms_of_block(
            field: u32,
            version: u32,
            block: *const u8,
            block_len: usize,
            terms: *mut u8,
            terms_len: usize,
        ) -> Answer;
        pub(super) fn kormaglen_term_of_text(
            field: u32,
            text: *const u8,
            text_len: usize,
            term: *mut u8,
            term_len: usize,
        ) -> Answer;
        pub(super) fn kormaglen_text_of_term(
            term: *const u8,
            term_len: usize,
            text: *mut u8,
            text_len: usize,
        ) -> Answer;
        pub(super) fn kormaglen_end_of_prefix(
            prefix: *const u8,
            prefix_len: usize,
            end: *mut u8,
            end_len: usize,
        ) -> Answer;
        pub(super) fn kormaglen_schema_open(
            json: *const u8,
            json_len: usize,
            schema: *mut Handle,
        ) -> Answer;
        pub(super) fn kormaglen_schema_close(schema: *mut Handle);
        pub(super) fn kormaglen_schema_to_json(
            schema: *mut Handle,
            text: *mut u8,
            text_len: usize,
        ) -> Answer;
        pub(super) fn kormaglen_schema_import_lines(
            schema: *mut Handle,
            lines: *const u8,
            lines_len: usize,
            block: *mut u8,
            block_len: usize,
            answers: *mut LineAnswer,
            answers_len: usize,
        ) -> Answer;
        pub(super) fn kormaglen_schema_export_block(
            schema: *mut Handle,
            version: u32,
            block: *const u8,
            block_len: usize,
            lines: *mut u8,
            lines_len: usize,
        ) -> Answer;
        pub(super) fn kormaglen_schema_find_field(
            schema: *mut Handle,
            path: *const u8,
            path_len: usize,
            found: *mut FoundField,
        ) -> Answer;
        pub(super) fn kormaglen_schema_values_of_block(
            schema: *mut Handle,
            name: *const u8,
            name_len: usize,
            version: u32,
            block: *const u8,
            block_len: usize,
            values: *mut u8,
            values_len: usize,
        ) -> Answer;
        pub(super) fn kormaglen_schema_terms_of_block(
            schema: *mut Handle,
            version: u32,
            with_faults: u32,
            block: *const u8,
            block_len: usize,
            terms: *mut u8,
            terms_len: usize,
        ) -> Answer;
        pub(super) fn kormaglen_schema_terms_of_text(
            schema: *mut Handle,
            path: *const u8,
            path_len: usize,
            text: *const u8,
            text_len: usize,
            terms: *mut u8,
            terms_len: usize,
        ) -> Answer;
        pub(super) fn kormaglen_schema_ranges_of_text(
            schema: *mut Handle,
            path: *const u8,
            path_len: usize,
            text: *const u8,
            text_len: usize,
            ranges: *mut u8,
            ranges_len: usize,
        ) -> Answer;
        pub(super) fn kormaglen_document_read(
            version: u32,
            bytes: *const u8,
            bytes_len: usize,
            document: *mut Handle,
        ) -> Answer;
        pub(super) fn kormaglen_document_parse(
            schema: *mut Handle,
            line: *const u8,
            line_len: usize,
            document: *mut Handle,
        ) -> Answer;
        pub(super) fn kormaglen_document_to_json(
            document: *mut Handle,
            schema: *mut Handle,
            text: *mut u8,
            text_len: usize,
        ) -> Answer;
        pub(super) fn kormaglen_document_write(
            document: *mut Handle,
            schema: *mut Handle,
            version: u32,
            bytes: *mut u8,
            bytes_len: usize,
        ) -> Answer;
        pub(super) fn kormaglen_document_close(document: *mut Handle);
    }
}

/// The words at a pointer of the library's. They are empty where they aren't UTF-8.
///
/// # Safety
///
/// The pointer is of a text that ends with a zero byte, and that nobody writes or frees.
unsafe fn words(text: *const c_char) -> &'static str {
    // SAFETY: the caller says so.
    unsafe { CStr::from_ptr(text) }.to_str().unwrap_or_default()
}

pub(crate) fn version() -> &'static str {
    // SAFETY: the text is a constant of the library's.
    unsafe { words(c::kormaglen_version()) }
}

pub(crate) fn status_text(status: u32) -> &'static str {
    // SAFETY: the text is a constant of the library's, for every number.
    unsafe { words(c::kormaglen_status_text(status)) }
}

pub(crate) fn detail_text(status: u32, detail: u32) -> &'static str {
    // SAFETY: the text is a constant of the library's, for all numbers.
    unsafe { words(c::kormaglen_detail_text(status, detail)) }
}

pub(crate) fn json_fault_text(fault: u32) -> &'static str {
    // SAFETY: the text is a constant of the library's, for every number.
    unsafe { words(c::kormaglen_json_fault_text(fault)) }
}

pub(crate) fn import_lines(
    schema: &[u8],
    lines: &[u8],
    block: &mut [u8],
    answers: &mut [LineAnswer],
) -> Answer {
    // SAFETY: all four are slices, and those that are written overlap no other.
    unsafe {
        c::kormaglen_import_lines(
            schema.as_ptr(),
            schema.len(),
            lines.as_ptr(),
            lines.len(),
            block.as_mut_ptr(),
            block.len(),
            answers.as_mut_ptr(),
            answers.len(),
        )
    }
}

pub(crate) fn export_block(schema: &[u8], version: u32, block: &[u8], lines: &mut [u8]) -> Answer {
    // SAFETY: all three are slices, and the one that is written overlaps no other.
    unsafe {
        c::kormaglen_export_block(
            schema.as_ptr(),
            schema.len(),
            version,
            block.as_ptr(),
            block.len(),
            lines.as_mut_ptr(),
            lines.len(),
        )
    }
}

pub(crate) fn migrate_block(from: u32, block: &[u8], to: u32, migrated: &mut [u8]) -> Answer {
    let (bytes, len) = (block.as_ptr(), block.len());
    // SAFETY: both are slices, and they don't overlap.
    unsafe {
        c::kormaglen_migrate_block(from, bytes, len, to, migrated.as_mut_ptr(), migrated.len())
    }
}

pub(crate) fn find_field(schema: &[u8], path: &[u8], found: &mut FoundField) -> Answer {
    let (json, json_len) = (schema.as_ptr(), schema.len());
    // SAFETY: the slices are read, and `found` is written.
    unsafe { c::kormaglen_find_field(json, json_len, path.as_ptr(), path.len(), found) }
}

pub(crate) fn facet_of_text(text: &[u8], encoded: &mut [u8]) -> Answer {
    let (room, room_len) = (encoded.as_mut_ptr(), encoded.len());
    // SAFETY: both are slices, and they don't overlap.
    unsafe { c::kormaglen_facet_of_text(text.as_ptr(), text.len(), room, room_len) }
}

pub(crate) fn text_of_facet(encoded: &[u8], text: &mut [u8]) -> Answer {
    let (room, room_len) = (text.as_mut_ptr(), text.len());
    // SAFETY: both are slices, and they don't overlap.
    unsafe { c::kormaglen_text_of_facet(encoded.as_ptr(), encoded.len(), room, room_len) }
}

pub(crate) fn count_facets(parent: &[u8], pairs: &[u8], counts: &mut [u8]) -> Answer {
    // SAFETY: all three are slices, and the one that is written overlaps no other.
    unsafe {
        c::kormaglen_count_facets(
            parent.as_ptr(),
            parent.len(),
            pairs.as_ptr(),
            pairs.len(),
            counts.as_mut_ptr(),
            counts.len(),
        )
    }
}

pub(crate) fn terms_of_block(field: u32, version: u32, block: &[u8], terms: &mut [u8]) -> Answer {
    let (room, room_len) = (terms.as_mut_ptr(), terms.len());
    // SAFETY: both are slices, and they don't overlap.
    unsafe {
        c::kormaglen_terms_of_block(field, version, block.as_ptr(), block.len(), room, room_len)
    }
}

pub(crate) fn term_of_text(field: u32, text: &[u8], term: &mut [u8]) -> Answer {
    let (room, room_len) = (term.as_mut_ptr(), term.len());
    // SAFETY: both are slices, and they don't overlap.
    unsafe { c::kormaglen_term_of_text(field, text.as_ptr(), text.len(), room, room_len) }
}

pub(crate) fn text_of_term(term: &[u8], text: &mut [u8]) -> Answer {
    let (room, room_len) = (text.as_mut_ptr(), text.len());
    // SAFETY: both are slices, and they don't overlap.
    unsafe { c::kormaglen_text_of_term(term.as_ptr(), term.len(), room, room_len) }
}

pub(crate) fn end_of_prefix(prefix: &[u8], end: &mut [u8]) -> Answer {
    let (room, room_len) = (end.as_mut_ptr(), end.len());
    // SAFETY: both are slices, and they don't overlap.
    unsafe { c::kormaglen_end_of_prefix(prefix.as_ptr(), prefix.len(), room, room_len) }
}

/// A schema that the library holds. As it has a pointer it isn't `Sync`, and every call takes it by
/// `&mut`: so it is used by one call at a time.
pub(crate) struct SchemaHandle(Handle);

// SAFETY: the library lets a handle be used and closed on any thread, by one call at a time.
unsafe impl Send for SchemaHandle {}

impl SchemaHandle {
    /// A handle of the schema that a text of JSON describes, and what the call answered. After a
    /// refusal the handle is closed.
    pub(crate) fn open(json: &[u8]) -> (SchemaHandle, Answer) {
        let mut schema = SchemaHandle(CLOSED);
        let handle = &mut schema.0;
        // SAFETY: the slice is read, and the handle is closed and lent to this call alone.
        let answer = unsafe { c::kormaglen_schema_open(json.as_ptr(), json.len(), handle) };
        (schema, answer)
    }

    pub(crate) fn write_json(&mut self, text: &mut [u8]) -> Answer {
        // SAFETY: the slice is written, and the handle is lent to this call alone.
        unsafe { c::kormaglen_schema_to_json(&mut self.0, text.as_mut_ptr(), text.len()) }
    }

    pub(crate) fn import_lines(
        &mut self,
        lines: &[u8],
        block: &mut [u8],
        answers: &mut [LineAnswer],
    ) -> Answer {
        // SAFETY: all three are slices, and those that are written overlap no other. The handle is
        // lent to this call alone.
        unsafe {
            c::kormaglen_schema_import_lines(
                &mut self.0,
                lines.as_ptr(),
                lines.len(),
                block.as_mut_ptr(),
                block.len(),
                answers.as_mut_ptr(),
                answers.len(),
            )
        }
    }

    pub(crate) fn export_block(&mut self, version: u32, block: &[u8], lines: &mut [u8]) -> Answer {
        // SAFETY: both are slices, and they don't overlap. The handle is lent to this call alone.
        unsafe {
            c::kormaglen_schema_export_block(
                &mut self.0,
                version,
                block.as_ptr(),
                block.len(),
                lines.as_mut_ptr(),
                lines.len(),
            )
        }
    }

    pub(crate) fn find_field(&mut self, path: &[u8], found: &mut FoundField) -> Answer {
        let handle = &mut self.0;
        // SAFETY: the slice is read, and `found` is written. The handle is lent to this call alone.
        unsafe { c::kormaglen_schema_find_field(handle, path.as_ptr(), path.len(), found) }
    }

    pub(crate) fn values_of_block(
        &mut self,
        name: &[u8],
        version: u32,
        block: &[u8],
        values: &mut [u8],
    ) -> Answer {
        // SAFETY: all three are slices, and the one that is written overlaps no other. The handle is
        // lent to this call alone.
        unsafe {
            c::kormaglen_schema_values_of_block(
                &mut self.0,
                name.as_ptr(),
                name.len(),
                version,
                block.as_ptr(),
                block.len(),
                values.as_mut_ptr(),
                values.len(),
            )
        }
    }

    /// Lists terms, and in place of those of a document that has a value without one why it has none.
    pub(crate) fn terms_of_block(
        &mut self,
        version: u32,
        block: &[u8],
        terms: &mut [u8],
    ) -> Answer {
        // SAFETY: both are slices, and they don't overlap. The handle is lent to this call alone.
        unsafe {
            c::kormaglen_schema_terms_of_block(
                &mut self.0,
                version,
                1,
                block.as_ptr(),
                block.len(),
                terms.as_mut_ptr(),
                terms.len(),
            )
        }
    }

    pub(crate) fn terms_of_text(&mut self, path: &[u8], text: &[u8], terms: &mut [u8]) -> Answer {
        // SAFETY: all three are slices, and the one that is written overlaps no other. The handle
        // is lent to this call alone.
        unsafe {
            c::kormaglen_schema_terms_of_text(
                &mut self.0,
                path.as_ptr(),
                path.len(),
                text.as_ptr(),
                text.len(),
                terms.as_mut_ptr(),
                terms.len(),
            )
        }
    }

    pub(crate) fn ranges_of_text(&mut self, path: &[u8], text: &[u8], ranges: &mut [u8]) -> Answer {
        // SAFETY: all three are slices, and the one that is written overlaps no other. The handle
        // is lent to this call alone.
        unsafe {
            c::kormaglen_schema_ranges_of_text(
                &mut self.0,
                path.as_ptr(),
                path.len(),
                text.as_ptr(),
                text.len(),
                ranges.as_mut_ptr(),
                ranges.len(),
            )
        }
    }
}

impl Drop for SchemaHandle {
    fn drop(&mut self) {
        // SAFETY: the handle is this value's own, and nothing uses it afterwards.
        unsafe { c::kormaglen_schema_close(&mut self.0) }
    }
}

/// A document that the library holds, or none. As a `SchemaHandle` it is used by one call at a
/// time.
pub(crate) struct DocumentHandle(Handle);

// SAFETY: the library lets a handle be used and closed on any thread, by one call at a time.
unsafe impl Send for DocumentHandle {}

impl DocumentHandle {
    /// A handle that holds no document.
    pub(crate) const fn closed() -> DocumentHandle {
        DocumentHandle(CLOSED)
    }

    pub(crate) fn read(&mut self, version: u32, bytes: &[u8]) -> Answer {
        let handle = &mut self.0;
        // SAFETY: the slice is read, and the handle is lent to this call alone.
        unsafe { c::kormaglen_document_read(version, bytes.as_ptr(), bytes.len(), handle) }
    }

    pub(crate) fn parse(&mut self, schema: &mut SchemaHandle, line: &[u8]) -> Answer {
        let (schema, handle) = (&mut schema.0, &mut self.0);
        // SAFETY: the slice is read, and both handles are lent to this call alone.
        unsafe { c::kormaglen_document_parse(schema, line.as_ptr(), line.len(), handle) }
    }

    pub(crate) fn write_json(&mut self, schema: &mut SchemaHandle, text: &mut [u8]) -> Answer {
        let (schema, handle) = (&mut schema.0, &mut self.0);
        // SAFETY: the slice is written, and both handles are lent to this call alone.
        unsafe { c::kormaglen_document_to_json(handle, schema, text.as_mut_ptr(), text.len()) }
    }

    pub(crate) fn write(
        &mut self,
        schema: &mut SchemaHandle,
        version: u32,
        bytes: &mut [u8],
    ) -> Answer {
        let (schema, handle) = (&mut schema.0, &mut self.0);
        let (room, room_len) = (bytes.as_mut_ptr(), bytes.len());
        // SAFETY: the slice is written, and both handles are lent to this call alone.
        unsafe { c::kormaglen_document_write(handle, schema, version, room, room_len) }
    }
}

impl Drop for DocumentHandle {
    fn drop(&mut self) {
        // SAFETY: the handle is this value's own, and nothing uses it afterwards.
        unsafe { c::kormaglen_document_close(&mut self.0) }
    }
}
