/* Schemas that were read. Each place in a statement where a function is called keeps the one that it had last, as long as the statement
 * runs. All places of a server process share what they keep, and some schemas that no place has any more are kept for the next statements.
 */
#include "extension.h"

#include "common/jsonapi.h"
#include "mb/pg_wchar.h"
#include "utils/memutils.h"

enum {
    KEPT = 4,               /* how many schemas without a user are kept */
    LARGEST_KEPT = 1 << 20, /* what worked on more bytes isn't kept without a user, for the memory that it holds */
};

/* All that are open, the one that was taken last first. */
static dlist_head schemas = DLIST_STATIC_INIT(schemas);

/* What a place in a statement keeps, in the memory that ends with the statement. A long JSON in a table is compressed there: as long as the
 * same compressed bytes come, it need not be made whole again. */
typedef struct call_site {
    opened_schema *schema;
    struct varlena *compressed; /* what the schema was made of, or NULL */
    MemoryContextCallback leaving;
} call_site;

static void close_handles(void *closed) {
    opened_schema *it = closed;
    kormaglen_document_close(&it->document);
    kormaglen_schema_close(&it->schema);
}

static void close_schema(opened_schema *it) {
    dlist_delete(&it->node);
    MemoryContextDelete(it->context);
}

/* Closes what was not used for the longest time, until few enough are there without a user. This takes no memory, and raises no error. */
static void close_some(void) {
    dlist_mutable_iter at;
    int unused = 0;
    dlist_foreach_modify(at, &schemas) {
        opened_schema *it = dlist_container(opened_schema, node, at.cur);
        if (it->users > 0) {
            continue;
        }
        unused += 1;
        if (unused > KEPT || it->largest > LARGEST_KEPT) {
            close_schema(it);
        }
    }
}

static void leave_schema(void *left) {
    call_site *it = left;
    if (it->schema != NULL) {
        it->schema->users -= 1;
        it->schema = NULL;
        close_some();
    }
}

/* Until it is whole, the schema ends with the memory of the call: so nothing is left where an error is raised. */
static opened_schema *open_schema(const call *it, bytes given, bytes json) {
    MemoryContext context = AllocSetContextCreate(CurrentMemoryContext, "kormaglen schema", ALLOCSET_SMALL_SIZES);
    opened_schema *opened = MemoryContextAllocZero(context, sizeof *opened);
    uint8_t *copy = MemoryContextAlloc(context, given.len + 1);
    opened->context = context;
    opened->closing = (MemoryContextCallback){.func = close_handles, .arg = opened};
    MemoryContextRegisterResetCallback(context, &opened->closing);
    memcpy(copy, given.start, given.len);
    opened->given = (bytes){copy, given.len};
    kormaglen_answer answer = kormaglen_schema_open(json.start, json.len, &opened->schema);
    if (answer.status != KORMAGLEN_OK) {
        refuse(it, 0, answer);
    }
    MemoryContextSetParent(context, TopMemoryContext);
    dlist_push_head(&schemas, &opened->node);
    return opened;
}

static bool is_of(const opened_schema *it, bytes given) {
    return it->given.len == given.len && memcmp(it->given.start, given.start, given.len) == 0;
}

/* The schema of this JSON, as the argument has it: one that is open, or one that is read now. */
static opened_schema *take_schema(const call *it, bytes given) {
    dlist_iter at;
    dlist_foreach(at, &schemas) {
        opened_schema *opened = dlist_container(opened_schema, node, at.cur);
        if (is_of(opened, given)) {
            dlist_move_head(&schemas, &opened->node);
            return opened;
        }
    }
    return open_schema(it, given, text_argument(it, 0));
}

static call_site *call_site_of(FmgrInfo *function) {
    call_site *site = function->fn_extra;
    if (site == NULL) {
        site = MemoryContextAllocZero(function->fn_mcxt, sizeof *site);
        site->leaving = (MemoryContextCallback){.func = leave_schema, .arg = site};
        MemoryContextRegisterResetCallback(function->fn_mcxt, &site->leaving);
        function->fn_extra = site;
    }
    return site;
}

static bool is_compressed_same(const call_site *site, const struct varlena *argument) {
    const struct varlena *kept = site->compressed;
    return kept != NULL && VARATT_IS_COMPRESSED(argument) && VARSIZE(kept) == VARSIZE(argument)
           && memcmp(kept, argument, VARSIZE(kept)) == 0;
}

static void keep_compressed(call_site *site, const struct varlena *argument, MemoryContext memory) {
    if (VARATT_IS_COMPRESSED(argument)) {
        site->compressed = MemoryContextAlloc(memory, VARSIZE(argument));
        memcpy(site->compressed, argument, VARSIZE(argument));
    }
}

static void forget_compressed(call_site *site) {
    if (site->compressed != NULL) {
        pfree(site->compressed);
        site->compressed = NULL;
    }
}

void schema_argument(call *it) {
    FunctionCallInfo fcinfo = it->fcinfo;
    call_site *site = call_site_of(fcinfo->flinfo);
    const struct varlena *argument = (struct varlena *)PG_GETARG_POINTER(0);
    if (!is_compressed_same(site, argument)) {
        forget_compressed(site);
        text *json = PG_GETARG_TEXT_PP(0);
        bytes given = {(const uint8_t *)VARDATA_ANY(json), VARSIZE_ANY_EXHDR(json)};
        if (site->schema == NULL || !is_of(site->schema, given)) {
            opened_schema *taken = take_schema(it, given);
            taken->users += 1;
            leave_schema(site);
            site->schema = taken;
        }
        keep_compressed(site, argument, fcinfo->flinfo->fn_mcxt);
    }
    it->schema = site->schema;
}

void note_size(opened_schema *schema, size_t len) {
    schema->largest = len > schema->largest ? len : schema->largest;
}

/* ---- the names of fields. The library gives none: so they are taken from the JSON that it prints of the schema, in which each entry is an
 * object with a name. */

enum { ENTRY_LEVEL = 2 }; /* how deep the keys of an entry stand */

typedef struct names {
    JsonLexContext *json;
    bytes *name;
    size_t count, size;
    bool is_next; /* the scalar that comes next is a name */
} names;

static void see_key(void *state, char *key, bool is_null) {
    names *it = state;
    it->is_next = it->json->lex_level == ENTRY_LEVEL && strcmp(key, "name") == 0;
}

static void see_scalar(void *state, char *token, JsonTokenType type) {
    names *it = state;
    if (it->is_next && type == JSON_TOKEN_STRING) {
        if (it->count == it->size) {
            it->size *= 2;
            it->name = repalloc_huge(it->name, it->size * sizeof *it->name);
        }
        it->name[it->count++] = (bytes){(const uint8_t *)token, strlen(token)};
    }
    it->is_next = false;
}

static kormaglen_answer write_schema(void *state, uint8_t *start, size_t len) {
    return kormaglen_schema_to_json(state, start, len);
}

/* Copies the names to the memory that lasts as long as the schema. */
static void keep_names(opened_schema *schema, const names *found) {
    const MemoryContext before = MemoryContextSwitchTo(schema->context);
    bytes *kept = palloc_extended((found->count + 1) * sizeof *kept, MCXT_ALLOC_HUGE);
    for (size_t i = 0; i < found->count; i++) {
        const bytes name = found->name[i];
        kept[i] = (bytes){(const uint8_t *)pnstrdup((const char *)name.start, name.len), name.len};
    }
    MemoryContextSwitchTo(before);
    schema->fields = found->count;
    schema->names = kept;
}

bool read_names(opened_schema *schema) {
    static const signature NAMES = {"kormaglen", {"schema"}};
    const call it = {.signature = &NAMES};
    buffer json = {0};
    if (schema->names != NULL) {
        return true;
    }
    reserve(&it, &json, 2 * schema->given.len + 64);
    append(&it, 0, &json, write_schema, &schema->schema);
    if (json.len > PG_INT32_MAX) {
        return false;
    }
    names found = {.name = palloc(16 * sizeof *found.name), .size = 16};
    found.json = makeJsonLexContextCstringLen((char *)json.start, (int)json.len, PG_UTF8, true);
    JsonSemAction actions = {.semstate = &found, .object_field_start = see_key, .scalar = see_scalar};
    if (pg_parse_json(found.json, &actions) != JSON_SUCCESS) {
        return false;
    }
    keep_names(schema, &found);
    return true;
}
