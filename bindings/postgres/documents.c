/* Stored documents. A bytea is always one whole document: more than one, or bytes after it, are refused. */
#include "extension.h"

#include "miscadmin.h"
#include "utils/builtins.h"

/* What is written of a document that its schema's handle has. */
static kormaglen_answer write_document(void *state, uint8_t *start, size_t len) {
    opened_schema *of = state;
    return kormaglen_document_write(&of->document, &of->schema, 2, start, len);
}

static kormaglen_answer write_json(void *state, uint8_t *start, size_t len) {
    opened_schema *of = state;
    return kormaglen_document_to_json(&of->document, &of->schema, start, len);
}

/* A document that is migrated. */
typedef struct migration {
    uint32_t from, to;
    bytes blob;
} migration;

static kormaglen_answer write_migrated(void *state, uint8_t *start, size_t len) {
    const migration *of = state;
    return kormaglen_migrate_block(of->from, of->blob.start, of->blob.len, of->to, start, len);
}

/* What is said of bytes that are more than one document. */
static const char *more_bytes(uint64_t end, size_t len) {
    return psprintf("the document ends at byte %llu of %llu", (unsigned long long)end, (unsigned long long)len);
}

/* Refuses a document by what its reading answered. */
static void expect_whole(const call *it, int argument, kormaglen_answer read, size_t len) {
    if (read.status != KORMAGLEN_OK) {
        refuse(it, argument, read);
    }
    if (read.bytes != len) {
        const char *what = kormaglen_status_text(KORMAGLEN_BAD_DOCUMENT);
        refuse_argument(it, argument, ERRCODE_DATA_CORRUPTED, what, more_bytes(read.bytes, len));
    }
}

void read_document(const call *it, int argument, uint32_t version, bytes blob, kormaglen_document *document) {
    CHECK_FOR_INTERRUPTS();
    expect_whole(it, argument, kormaglen_document_read(version, blob.start, blob.len, document), blob.len);
}

/* Reads a document without a schema, to see whether it is one. */
static kormaglen_answer try_document(uint32_t version, bytes blob) {
    kormaglen_document document = {0};
    CHECK_FOR_INTERRUPTS();
    kormaglen_answer read = kormaglen_document_read(version, blob.start, blob.len, &document);
    kormaglen_document_close(&document);
    return read;
}

/* Why arguments 0 and 1, a version and a document, are none; NULL where they are one. */
static const char *find_fault(const call *it) {
    uint32_t version = version_argument(it, 0, 1);
    bytes blob = blob_argument(it, 1);
    kormaglen_answer read = try_document(version, blob);
    if (read.status == KORMAGLEN_BAD_DOCUMENT) {
        return kormaglen_detail_text(read.status, read.detail);
    }
    if (read.status != KORMAGLEN_OK) {
        refuse(it, 1, read);
    }
    return read.bytes != blob.len ? more_bytes(read.bytes, blob.len) : NULL;
}

PG_FUNCTION_INFO_V1(sql_store);
Datum sql_store(PG_FUNCTION_ARGS) {
    static const signature NAMES = {"kormaglen_store", {"schema", "line"}};
    call it = {.signature = &NAMES, .fcinfo = fcinfo};
    schema_argument(&it);
    bytes line = text_argument(&it, 1);
    note_size(it.schema, line.len);
    CHECK_FOR_INTERRUPTS();
    kormaglen_answer parsed = kormaglen_document_parse(&it.schema->schema, line.start, line.len, &it.schema->document);
    if (parsed.status != KORMAGLEN_OK) {
        refuse(&it, 1, parsed);
    }
    PG_RETURN_BYTEA_P(write_value(&it, 1, write_document, it.schema, 2 * line.len + 64));
}

PG_FUNCTION_INFO_V1(sql_json);
Datum sql_json(PG_FUNCTION_ARGS) {
    static const signature NAMES = {"kormaglen_json", {"schema", "version", "document"}};
    call it = {.signature = &NAMES, .fcinfo = fcinfo};
    schema_argument(&it);
    uint32_t version = version_argument(&it, 1, 1);
    bytes blob = blob_argument(&it, 2);
    note_size(it.schema, blob.len);
    read_document(&it, 2, version, blob, &it.schema->document);
    PG_RETURN_TEXT_P(in_server_encoding(&it, write_value(&it, 2, write_json, it.schema, 3 * blob.len + 128)));
}

PG_FUNCTION_INFO_V1(sql_migrate);
Datum sql_migrate(PG_FUNCTION_ARGS) {
    static const signature NAMES = {"kormaglen_migrate", {"from", "document", "to"}};
    call it = {.signature = &NAMES, .fcinfo = fcinfo};
    migration of = {.from = version_argument(&it, 0, 1), .to = version_argument(&it, 2, 2), .blob = blob_argument(&it, 1)};
    expect_whole(&it, 1, try_document(of.from, of.blob), of.blob.len);
    PG_RETURN_BYTEA_P(write_value(&it, 1, write_migrated, &of, of.blob.len));
}

PG_FUNCTION_INFO_V1(sql_check);
Datum sql_check(PG_FUNCTION_ARGS) {
    static const signature NAMES = {"kormaglen_check", {"version", "document"}};
    const call it = {.signature = &NAMES, .fcinfo = fcinfo};
    const char *fault = find_fault(&it);
    if (fault == NULL) {
        PG_RETURN_NULL();
    }
    PG_RETURN_TEXT_P(cstring_to_text(fault));
}

/* As kormaglen_check, for constraints: true, or an error that says why not. */
PG_FUNCTION_INFO_V1(sql_require);
Datum sql_require(PG_FUNCTION_ARGS) {
    static const signature NAMES = {"kormaglen_require", {"version", "document"}};
    const call it = {.signature = &NAMES, .fcinfo = fcinfo};
    const char *fault = find_fault(&it);
    if (fault != NULL) {
        refuse_argument(&it, 1, ERRCODE_CHECK_VIOLATION, "the document is corrupt, or has another version", fault);
    }
    PG_RETURN_BOOL(true);
}
