/* Stored documents. A blob is always one whole document: more than one, or bytes after it, are refused. */
#include "extension.h"

/* What is written of a document that its schema's handle has. */
static kormaglen_answer write_document(void *state, uint8_t *start, size_t len) {
    opened_schema *of = state;
    return kormaglen_document_write(&of->document, &of->schema, 2, start, len);
}

static kormaglen_answer write_json(void *state, uint8_t *start, size_t len) {
    opened_schema *of = state;
    return kormaglen_document_to_json(&of->document, &of->schema, start, len);
}

/* A blob that is migrated. */
typedef struct migration {
    uint32_t from, to;
    bytes blob;
} migration;

static kormaglen_answer write_migrated(void *state, uint8_t *start, size_t len) {
    const migration *of = state;
    return kormaglen_migrate_block(of->from, of->blob.start, of->blob.len, of->to, start, len);
}

/* What is said of a blob that has more bytes than its document. */
#define HAS_MORE "the document ends at byte %llu of %llu"

bool read_document(call *it, uint32_t version, bytes blob, kormaglen_document *document) {
    kormaglen_answer read = kormaglen_document_read(version, blob.start, blob.len, document);
    if (read.status != KORMAGLEN_OK) {
        return refuse(it, read);
    }
    if (read.bytes == blob.len) {
        return true;
    }
    unsigned long long end = read.bytes, len = blob.len;
    return fail_with(it, sqlite3_mprintf("%s: " HAS_MORE, it->signature->name, end, len));
}

void store_line(call *it) {
    bytes line;
    if (!schema_argument(it) || !text_argument(it, 1, &line)) {
        return;
    }
    opened_schema *schema = it->schema;
    note_size(schema, line.len);
    kormaglen_answer parsed = kormaglen_document_parse(&schema->schema, line.start, line.len, &schema->document);
    if (parsed.status != KORMAGLEN_OK) {
        refuse(it, parsed);
        return;
    }
    give_blob(it, write_document, schema, 2 * line.len + 64);
}

void print_document(call *it) {
    uint32_t version;
    bytes blob;
    if (!schema_argument(it) || !version_argument(it, 1, 1, &version) || !blob_argument(it, 2, &blob)) {
        return;
    }
    note_size(it->schema, blob.len);
    if (read_document(it, version, blob, &it->schema->document)) {
        give_text(it, write_json, it->schema, 3 * blob.len + 128);
    }
}

void migrate_document(call *it) {
    migration of;
    kormaglen_document document = {0};
    if (!version_argument(it, 0, 1, &of.from) || !blob_argument(it, 1, &of.blob) || !version_argument(it, 2, 2, &of.to)) {
        return;
    }
    bool is_whole = read_document(it, of.from, of.blob, &document);
    kormaglen_document_close(&document);
    if (is_whole) {
        give_blob(it, write_migrated, &of, of.blob.len);
    }
}

void check_document(call *it) {
    uint32_t version;
    bytes blob;
    kormaglen_document document = {0};
    if (!version_argument(it, 0, 1, &version) || !blob_argument(it, 1, &blob)) {
        return;
    }
    kormaglen_answer read = kormaglen_document_read(version, blob.start, blob.len, &document);
    kormaglen_document_close(&document);
    if (read.status == KORMAGLEN_BAD_DOCUMENT) {
        sqlite3_result_text(it->context, kormaglen_detail_text(read.status, read.detail), -1, SQLITE_STATIC);
    } else if (read.status != KORMAGLEN_OK) {
        refuse(it, read);
    } else if (read.bytes != blob.len) {
        unsigned long long end = read.bytes, len = blob.len;
        char *reason = sqlite3_mprintf(HAS_MORE, end, len);
        if (reason == NULL) {
            fail(it, SQLITE_NOMEM);
        } else {
            sqlite3_result_text(it->context, reason, -1, sqlite3_free);
        }
    }
}
