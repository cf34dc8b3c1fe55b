/* Schemas that were read. A statement keeps the one of a constant argument as auxiliary data. Where the argument is no constant, as with a
 * subquery, SQLite ends the auxiliary data after each call. So what ends goes to the connection's cache, and the next call takes it from
 * there if its JSON is the same. */
#include "extension.h"

#include <string.h>

/* What worked on more bytes than these isn't kept after its statement, for the memory that it holds. */
enum { LARGEST_KEPT = 1 << 20 };

cache *new_cache(void) {
    cache *made = sqlite3_malloc64(sizeof *made);
    if (made != NULL) {
        *made = (cache){.users = 1, .kept = NULL};
    }
    return made;
}

static void forget_names(opened_schema *schema) {
    for (size_t i = 0; i < schema->fields; i++) {
        sqlite3_value_free(schema->names[i]);
    }
    sqlite3_free(schema->names);
    schema->names = NULL;
    schema->fields = 0;
}

static void close_schema(opened_schema *schema) {
    if (schema != NULL) {
        forget_names(schema);
        kormaglen_document_close(&schema->document);
        kormaglen_schema_close(&schema->schema);
        sqlite3_free(schema);
    }
}

void leave_cache(void *left) {
    cache *it = left;
    it->users -= 1;
    if (it->users == 0) {
        close_schema(it->kept);
        sqlite3_free(it);
    }
}

/* The copy of the JSON stands after the struct. */
static opened_schema *open_schema(call *it, bytes json) {
    opened_schema *opened = sqlite3_malloc64(sizeof *opened + json.len);
    if (opened == NULL) {
        fail(it, SQLITE_NOMEM);
        return NULL;
    }
    memset(opened, 0, sizeof *opened);
    kormaglen_answer answer = kormaglen_schema_open(json.start, json.len, &opened->schema);
    if (answer.status != KORMAGLEN_OK) {
        close_schema(opened);
        refuse(it, answer);
        return NULL;
    }
    memcpy(opened + 1, json.start, json.len);
    opened->json = (bytes){(const uint8_t *)(opened + 1), json.len};
    return opened;
}

opened_schema *take_schema(call *it, bytes json) {
    opened_schema *taken = it->cache->kept;
    if (taken != NULL && taken->json.len == json.len && memcmp(taken->json.start, json.start, json.len) == 0) {
        it->cache->kept = NULL;
    } else {
        taken = open_schema(it, json);
    }
    if (taken != NULL) {
        taken->cache = it->cache;
        it->cache->users += 1;
    }
    return taken;
}

void note_size(opened_schema *schema, size_t len) {
    schema->largest = len > schema->largest ? len : schema->largest;
}

void give_back_schema(void *schema) {
    opened_schema *it = schema;
    if (it == NULL) {
        return;
    }
    cache *to = it->cache;
    if (it->largest > LARGEST_KEPT) {
        close_schema(it);
    } else {
        close_schema(to->kept);
        to->kept = it;
    }
    leave_cache(to);
}

bool schema_argument(call *it) {
    bytes json;
    it->schema = sqlite3_get_auxdata(it->context, 0);
    if (it->schema != NULL) {
        return true;
    }
    if (!text_argument(it, 0, &json)) {
        return false;
    }
    it->schema = take_schema(it, json);
    if (it->schema != NULL) {
        /* Where SQLite can't keep it, it goes to the cache at once, where it stays for this call. */
        sqlite3_set_auxdata(it->context, 0, it->schema, give_back_schema);
    }
    return it->schema != NULL;
}

static kormaglen_answer write_schema(void *state, uint8_t *start, size_t len) {
    return kormaglen_schema_to_json(state, start, len);
}

/* Takes the names from the rows of a statement. */
static int collect_names(opened_schema *schema, sqlite3_stmt *rows) {
    int code;
    while ((code = sqlite3_step(rows)) == SQLITE_ROW) {
        sqlite3_value **more = sqlite3_realloc64(schema->names, (schema->fields + 1) * sizeof *more);
        if (more == NULL) {
            return SQLITE_NOMEM;
        }
        schema->names = more;
        more[schema->fields] = sqlite3_value_dup(sqlite3_column_value(rows, 0));
        if (more[schema->fields] == NULL) {
            return SQLITE_NOMEM;
        }
        schema->fields += 1;
    }
    return code == SQLITE_DONE ? SQLITE_OK : code;
}

/* The library gives no names. So they are taken by SQLite's functions from the JSON that the library prints of the schema, in which each
 * key stands once. */
bool read_names(call *it) {
    opened_schema *schema = it->schema;
    if (schema->names != NULL) {
        return true;
    }
    buffer json = {0};
    sqlite3_stmt *rows = NULL;
    if (!append(it, &json, write_schema, &schema->schema)) {
        sqlite3_free(json.start);
        return false;
    }
    int code = sqlite3_prepare_v2(it->db, "SELECT json_extract(value, '$.name') FROM json_each(?1)", -1, &rows, NULL);
    if (code == SQLITE_OK) {
        code = sqlite3_bind_text64(rows, 1, (const char *)json.start, json.len, SQLITE_STATIC, SQLITE_UTF8);
    }
    if (code == SQLITE_OK) {
        code = collect_names(schema, rows);
    }
    sqlite3_finalize(rows);
    sqlite3_free(json.start);
    if (code == SQLITE_OK) {
        return true;
    }
    forget_names(schema);
    code &= 0xFF;
    if (code == SQLITE_NOMEM || code == SQLITE_INTERRUPT) {
        return fail(it, code);
    }
    const char *why = sqlite3_errmsg(it->db);
    return fail_with(it, sqlite3_mprintf("%s: the names of the fields can't be read: %s", it->signature->name, why));
}
