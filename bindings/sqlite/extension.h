/* What the parts of the extension share. A call is one run of a function, or of a table's function: it has its arguments, and in the end a
 * fault where it has no result. All memory is SQLite's but what the library takes for itself. */
#ifndef KORMAGLEN_EXTENSION_H
#define KORMAGLEN_EXTENSION_H

#include "kormaglen.h"

#include <sqlite3ext.h>
#include <stdbool.h>

SQLITE_EXTENSION_INIT3

enum { ARGUMENTS = 4 }; /* at most */

/* The bytes of a text or a blob. */
typedef struct bytes {
    const uint8_t *start;
    size_t len;
} bytes;

/* A name in SQL, and the names of the arguments, which messages use; NULL stands after the last one. */
typedef struct signature {
    const char *name;
    const char *arguments[ARGUMENTS + 1];
} signature;

/* Why there is no result: a code of SQLite's, and with SQLITE_ERROR a message. */
typedef struct fault {
    int code;
    char *message;
} fault;

typedef struct cache cache;
typedef struct opened_schema opened_schema;

typedef struct call {
    const signature *signature;
    sqlite3 *db;
    sqlite3_context *context; /* NULL in a table's function */
    sqlite3_value **arguments;
    cache *cache;
    opened_schema *schema; /* NULL until an argument gave one */
    sqlite3_value *path;   /* the argument that names a field, for messages; NULL until it was read */
    size_t limit;          /* how many bytes the call may write at most */
    fault fault;
} call;

/* An aggregate is run for each row that has no NULL, and finished in the end. */
typedef struct function {
    signature signature;
    void (*run)(call *it);
    void (*finish)(call *it); /* NULL where it is no aggregate */
} function;

typedef struct table table;

/* ---- faults.c: each returns false, so that a call ends with `return fail(..)` */

bool fail(call *it, int code);
/* Takes over the message, of sqlite3_mprintf; NULL stands for no memory. */
bool fail_with(call *it, char *message);
bool fail_argument(call *it, int number, const char *reason);
/* With the library's words, and the name of the field that they are about. */
bool refuse(call *it, kormaglen_answer answer);
/* Hands the fault of a call to SQLite, where there is one. */
void report(sqlite3_context *context, fault why);

/* ---- arguments.c: each reads an argument, counted from 0, and returns whether it could */

int count_arguments(const signature *of);
bool text_argument(call *it, int number, bytes *text);
bool blob_argument(call *it, int number, bytes *blob);
bool version_argument(call *it, int number, uint32_t least, uint32_t *version);
bool number_argument(call *it, int number, sqlite3_int64 *given);
/* 0 or 1; false where the argument is left out. */
bool truth_argument(call *it, int number, bool *given);
/* A text that names a field, or a path to one. */
bool path_argument(call *it, int number, bytes *path);

/* ---- schemas.c */

/* A schema that was read, and the memory of the document that was worked on last. One call at a time uses it. */
struct opened_schema {
    cache *cache;
    bytes json;
    kormaglen_schema schema;
    kormaglen_document document;
    size_t largest;        /* how long the longest line or document was */
    sqlite3_value **names; /* of the fields, by their numbers; NULL until somebody asks */
    size_t fields;
};

/* What the functions and the tables of a connection keep in common: one schema that nobody uses just now, so that the next call finds it
 * read. It is there until the last of its users is gone. */
struct cache {
    size_t users;
    opened_schema *kept;
};

cache *new_cache(void);
void leave_cache(void *cache);

/* Reads argument 0: the statement has the schema already where the argument is a constant, or else the cache may have it. */
bool schema_argument(call *it);
/* Takes the schema of this JSON from the cache, or reads it; and gives it back, which also ends auxiliary data. NULL is passed over. */
opened_schema *take_schema(call *it, bytes json);
void give_back_schema(void *schema);
/* Notes how long a line or a document is that the schema works on, as its memory grows with that. */
void note_size(opened_schema *schema, size_t len);
/* Has the names of the schema's fields be there. */
bool read_names(call *it);

/* ---- buffers.c */

/* Bytes that grow. All zeros is an empty one. */
typedef struct buffer {
    uint8_t *start;
    size_t len, size;
} buffer;

/* A call of the library's that writes into a buffer, with what it reads in `state`. */
typedef kormaglen_answer (*writing)(void *state, uint8_t *start, size_t len);

bool reserve(call *it, buffer *to, size_t more);
/* As reserve, for a buffer that grows by many small parts. */
bool reserve_often(call *it, buffer *to, size_t more);
/* Appends what the library's call writes: into the room there is, or else into just as much as it asks for. */
bool append(call *it, buffer *to, writing write, void *state);
/* Ends the call with what the library's call writes, as a text or a blob. `guess` is how long that is, if all goes well. */
void give_text(call *it, writing write, void *state, size_t guess);
void give_blob(call *it, writing write, void *state, size_t guess);

/* A number in eight bytes, the lowest first. */
uint64_t number_at(const uint8_t *start);
void put_number(uint8_t *start, uint64_t number);

/* ---- documents.c */

/* Reads a blob that is one document and nothing more. */
bool read_document(call *it, uint32_t version, bytes blob, kormaglen_document *document);

void store_line(call *it);
void print_document(call *it);
void migrate_document(call *it);
void check_document(call *it);

/* ---- facets.c */

void encode_facet(call *it);
void print_facet(call *it);
/* Ends the call with the text of an encoded facet. */
void give_facet(call *it, bytes encoded);
/* Appends what the library writes: the encoded facet of a text, or the text of an encoded one. */
bool append_encoded(call *it, bytes text, buffer *to);
bool append_printed(call *it, bytes encoded, buffer *to);

/* ---- facet_counts.c */

void add_pair(call *it);
void give_pairs(call *it);

/* ---- term_texts.c: each ends the call with a text that the library's JSON has, too */

void print_term(call *it);
void give_term_text(call *it, bytes term);
void give_date(call *it, int64_t nanoseconds);
void give_address(call *it, const uint8_t *address);

/* ---- values.c */

void give_first_value(call *it);

/* ---- queries.c */

/* A text that is looked for at a path. */
typedef struct query {
    opened_schema *schema;
    bytes path, text;
} query;

/* The code of a term's type, which stands after the field's number, and of a value in JSON objects after the zero byte that ends its path. */
uint8_t type_of(bytes term);

/* Reads arguments 1 and 2, of a call that has a schema. */
bool query_arguments(call *it, query *of);

/* Appends records as the library writes them: of terms, each after its length, and of ranges, each after two lengths. */
bool append_terms(call *it, query *of, buffer *to);
bool append_ranges(call *it, query *of, buffer *to);
/* How long such a record is, and its parts. The end of a range that has none is NULL. */
size_t term_record_len(const uint8_t *record);
size_t range_record_len(const uint8_t *record);
bytes term_of(const uint8_t *record);
bytes start_of(const uint8_t *record);
bytes end_of(const uint8_t *record);

void give_field(call *it);
void give_term(call *it);
void give_range_start(call *it);
void give_range_end(call *it);

/* ---- tables.c */

/* A cursor over a table of records. An argument that is left out is NULL. */
typedef struct cursor {
    sqlite3_vtab_cursor base;
    sqlite3_value *arguments[ARGUMENTS];
    opened_schema *schema;
    buffer records;
    size_t at;
    sqlite3_int64 row;
    buffer term; /* of the record, where records share bytes of terms */
} cursor;

/* A table-valued function. Its columns stand before its arguments, which are hidden columns. */
struct table {
    signature signature;
    const char *declaration;
    int columns;
    bool has_option; /* whether the last argument may be left out */
    double rows;     /* how many there are, by and large */
    bool (*fill)(call *it, cursor *to);
    size_t (*record_len)(const uint8_t *record);
    bool (*enter_record)(call *it, cursor *at); /* called at each record; NULL where there is nothing to do */
    void (*give_column)(call *it, const cursor *at, int column);
};

int create_table(sqlite3 *db, const table *it, cache *with);
/* Has the cursor hold the schema that argument 0 is, which the call then has. */
bool cursor_schema(call *it, cursor *to);

/* ---- the tables themselves, in document_terms.c, facet_counts.c, query_tables.c and values.c */

extern const table DOCUMENT_TERMS, DOCUMENT_VALUES, FACET_COUNTS, QUERY_TERMS, QUERY_RANGES;

#endif
