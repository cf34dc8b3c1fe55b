/* kormaglen_facet_counts(parent, document, facet): how many documents have each child of a facet. The rows are kept as the library reads
 * them, and counted in the end. Workers hand on what they kept, and so it makes no difference which of them saw a document. */
#include "extension.h"

#include "libpq/pqformat.h"
#include "miscadmin.h"
#include "utils/builtins.h"
#include "utils/json.h"
#include "utils/memutils.h"

/* The arguments of the function that adds a row; and as they are numbered in messages, which are about the aggregate. */
enum { STATE = 0, PARENT = 1, DOCUMENT = 2, FACET = 3 };
enum { NAMED_PARENT = 0, NAMED_FACET = 2 };

static const signature COUNTS = {"kormaglen_facet_counts", {"parent", "document", "facet"}};

/* The rows of a group. A row is the number of the document and the length of the facet, each in eight bytes, the lowest first, and the
 * facet. */
typedef struct facet_pairs {
    bytes parent; /* encoded */
    buffer pairs;
} facet_pairs;

static kormaglen_answer write_counts(void *state, uint8_t *start, size_t len) {
    const facet_pairs *of = state;
    return kormaglen_count_facets(of->parent.start, of->parent.len, of->pairs.start, of->pairs.len, start, len);
}

/* The memory that lasts as long as the group. */
static MemoryContext group_memory(FunctionCallInfo fcinfo) {
    MemoryContext memory;
    if (!AggCheckCallContext(fcinfo, &memory)) {
        elog(ERROR, "%s is called outside of an aggregate", COUNTS.name);
    }
    return memory;
}

static facet_pairs *new_pairs(bytes parent) {
    facet_pairs *made = palloc0(sizeof *made);
    uint8_t *copy = palloc(parent.len + 1);
    memcpy(copy, parent.start, parent.len);
    made->parent = (bytes){copy, parent.len};
    return made;
}

static void add_bytes(const call *it, facet_pairs *to, bytes added) {
    reserve(it, &to->pairs, added.len + 1);
    memcpy(to->pairs.start + to->pairs.len, added.start, added.len);
    to->pairs.len += added.len;
}

/* All rows count the children of one facet. */
static void expect_parent(const facet_pairs *of, bytes parent) {
    if (of->parent.len != parent.len || memcmp(of->parent.start, parent.start, parent.len) != 0) {
        ereport(ERROR, errcode(ERRCODE_INVALID_PARAMETER_VALUE), errmsg("%s: a row has another parent than the first", COUNTS.name),
                errdetail("Argument 1 (parent): it is one for all rows of a group."), errhint("GROUP BY it, too."));
    }
}

PG_FUNCTION_INFO_V1(sql_facet_counts_add);
Datum sql_facet_counts_add(PG_FUNCTION_ARGS) {
    const call it = {.signature = &COUNTS, .fcinfo = fcinfo};
    MemoryContext memory = group_memory(fcinfo);
    facet_pairs *to = PG_ARGISNULL(STATE) ? NULL : (facet_pairs *)PG_GETARG_POINTER(STATE);
    if (PG_ARGISNULL(PARENT) || PG_ARGISNULL(DOCUMENT) || PG_ARGISNULL(FACET)) {
        if (to == NULL) {
            PG_RETURN_NULL();
        }
        PG_RETURN_POINTER(to);
    }
    bytea *encoded = encode_facet(&it, NAMED_PARENT, text_argument(&it, PARENT));
    const bytes parent = {(const uint8_t *)VARDATA(encoded), VARSIZE(encoded) - VARHDRSZ};
    const bytes facet = blob_argument(&it, FACET);
    uint8_t head[16];
    put_number(head, (uint64_t)PG_GETARG_INT64(DOCUMENT));
    put_number(head + 8, facet.len);
    MemoryContext before = MemoryContextSwitchTo(memory);
    if (to == NULL) {
        to = new_pairs(parent);
    }
    expect_parent(to, parent);
    add_bytes(&it, to, (bytes){head, sizeof head});
    add_bytes(&it, to, facet);
    MemoryContextSwitchTo(before);
    PG_RETURN_POINTER(to);
}

PG_FUNCTION_INFO_V1(sql_facet_counts_combine);
Datum sql_facet_counts_combine(PG_FUNCTION_ARGS) {
    const call it = {.signature = &COUNTS, .fcinfo = fcinfo};
    MemoryContext memory = group_memory(fcinfo);
    facet_pairs *to = PG_ARGISNULL(0) ? NULL : (facet_pairs *)PG_GETARG_POINTER(0);
    const facet_pairs *from = PG_ARGISNULL(1) ? NULL : (facet_pairs *)PG_GETARG_POINTER(1);
    if (from == NULL) {
        if (to == NULL) {
            PG_RETURN_NULL();
        }
        PG_RETURN_POINTER(to);
    }
    MemoryContext before = MemoryContextSwitchTo(memory);
    if (to == NULL) {
        to = new_pairs(from->parent);
    }
    expect_parent(to, from->parent);
    add_bytes(&it, to, (bytes){from->pairs.start, from->pairs.len});
    MemoryContextSwitchTo(before);
    PG_RETURN_POINTER(to);
}

PG_FUNCTION_INFO_V1(sql_facet_counts_serialize);
Datum sql_facet_counts_serialize(PG_FUNCTION_ARGS) {
    const call it = {.signature = &COUNTS, .fcinfo = fcinfo};
    StringInfoData to;
    group_memory(fcinfo);
    const facet_pairs *of = (facet_pairs *)PG_GETARG_POINTER(0);
    if (of->pairs.len > MaxAllocSize / 2 || of->parent.len > MaxAllocSize / 4) {
        refuse_size(&it, of->pairs.len + of->parent.len);
    }
    pq_begintypsend(&to);
    pq_sendint64(&to, of->parent.len);
    pq_sendbytes(&to, (const char *)of->parent.start, (int)of->parent.len);
    pq_sendint64(&to, of->pairs.len);
    pq_sendbytes(&to, (const char *)of->pairs.start, (int)of->pairs.len);
    PG_RETURN_BYTEA_P(pq_endtypsend(&to));
}

/* The next bytes of a message, which stand after their length. */
static bytes next_bytes(StringInfo from) {
    const int64 len = pq_getmsgint64(from);
    return (bytes){(const uint8_t *)pq_getmsgbytes(from, (int)len), (size_t)len};
}

PG_FUNCTION_INFO_V1(sql_facet_counts_deserialize);
Datum sql_facet_counts_deserialize(PG_FUNCTION_ARGS) {
    const call it = {.signature = &COUNTS, .fcinfo = fcinfo};
    group_memory(fcinfo);
    const bytes given = blob_argument(&it, 0);
    StringInfoData from = {.data = (char *)unconstify(uint8_t *, given.start), .len = (int)given.len, .maxlen = (int)given.len};
    facet_pairs *to = new_pairs(next_bytes(&from));
    add_bytes(&it, to, next_bytes(&from));
    pq_getmsgend(&from);
    PG_RETURN_POINTER(to);
}

/* Appends `"/shop/light": 12`. A record is how many documents, the length of the child, and the child. */
static void append_child(const call *it, StringInfo to, const uint8_t *record) {
    const bytes child = {record + 16, (size_t)number_at(record + 8)};
    text *path = print_facet(it, NAMED_FACET, child);
    if (to->len > 1) {
        appendStringInfoString(to, ", ");
    }
    escape_json(to, text_to_cstring(path));
    appendStringInfo(to, ": %llu", (unsigned long long)number_at(record));
}

PG_FUNCTION_INFO_V1(sql_facet_counts_end);
Datum sql_facet_counts_end(PG_FUNCTION_ARGS) {
    const call it = {.signature = &COUNTS, .fcinfo = fcinfo};
    buffer counts = {0};
    StringInfoData json;
    group_memory(fcinfo);
    if (PG_ARGISNULL(0)) {
        PG_RETURN_NULL();
    }
    facet_pairs *of = (facet_pairs *)PG_GETARG_POINTER(0);
    append(&it, NAMED_FACET, &counts, write_counts, of);
    initStringInfo(&json);
    appendStringInfoChar(&json, '{');
    for (size_t at = 0; at < counts.len; at += 16 + (size_t)number_at(counts.start + at + 8)) {
        CHECK_FOR_INTERRUPTS();
        append_child(&it, &json, counts.start + at);
    }
    appendStringInfoChar(&json, '}');
    PG_RETURN_TEXT_P(cstring_to_text_with_len(json.data, json.len));
}
