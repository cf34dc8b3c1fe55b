/* What the parts of the extension share. A call is one run of a function. Where it has no result it ends with an error, by ereport, which
 * leaves the function at once: so none is raised while the library is at work, and what the library holds is closed with a memory context.
 */
#ifndef KORMAGLEN_EXTENSION_H
#define KORMAGLEN_EXTENSION_H

#include "postgres.h"

#include "fmgr.h"
#include "lib/ilist.h"

#include "kormaglen.h"

#if PG_VERSION_NUM / 10000 != 15
#error "this is written for PostgreSQL 15, and tested with no other"
#endif

enum { ARGUMENTS = 4 }; /* at most */

/* The bytes of a text, in UTF-8, or of a bytea. */
typedef struct bytes {
    const uint8_t *start;
    size_t len;
} bytes;

/* A name in SQL, and the names of the arguments, which messages use. */
typedef struct signature {
    const char *name;
    const char *arguments[ARGUMENTS];
} signature;

typedef struct opened_schema opened_schema;

typedef struct call {
    const signature *signature;
    FunctionCallInfo fcinfo;
    opened_schema *schema; /* NULL until argument 0 gave one */
} call;

/* ---- faults.c: none of these returns. Arguments are counted from 0 here, and from 1 in messages. */

/* With the library's words, and the name of the field that they are about. The library was asked about this argument. */
void refuse(const call *it, int about, kormaglen_answer answer) pg_attribute_noreturn();
/* `reason` goes on after "Argument 2 (version): ". */
void refuse_argument(const call *it, int argument, int code, const char *what, const char *reason) pg_attribute_noreturn();
void refuse_size(const call *it, uint64_t len) pg_attribute_noreturn();

/* ---- arguments.c: each reads an argument, counted from 0. None is NULL: the functions are strict. */

bytes text_argument(const call *it, int number);
bytes blob_argument(const call *it, int number);
uint32_t version_argument(const call *it, int number, uint32_t least);

/* ---- schemas.c */

/* A schema that was read, and the memory of the document that was worked on last. */
struct opened_schema {
    MemoryContext context; /* it has all of this but what the library holds, and closes that in the end */
    MemoryContextCallback closing;
    dlist_node node;
    bytes given; /* the JSON in the server's encoding */
    kormaglen_schema schema;
    kormaglen_document document;
    size_t users;   /* how many places in statements have it */
    size_t largest; /* how long the longest line or document was */
    bytes *names;   /* of the fields, by their numbers, in UTF-8; NULL until somebody asks */
    size_t fields;
};

/* Reads argument 0. A place in a statement keeps its schema, and those that nobody uses are kept for the next statements. */
void schema_argument(call *it);
/* Notes how long a line or a document is that the schema works on, as its memory grows with that. */
void note_size(opened_schema *schema, size_t len);
/* The names of the fields; false where they can't be read, as one has a zero character. */
bool read_names(opened_schema *schema);

/* ---- texts.c: texts and bytes that the library gives */

/* Of UTF-8, as a text in the server's encoding, which refuses characters that this encoding has not, and the zero character. */
text *make_text(const call *it, bytes utf8);
bytea *make_blob(const call *it, bytes blob);
/* The same of a text that the library wrote. */
text *in_server_encoding(const call *it, struct varlena *utf8);
/* The same, but NULL where it has the zero character, or one that the encoding has not. */
text *text_or_null(struct varlena *utf8);
/* The same for messages: NULL where the encoding lacks a character. */
char *message_text(bytes utf8);

/* ---- buffers.c */

/* Bytes that grow, in the memory context that was current at first. All zeros is an empty one. */
typedef struct buffer {
    uint8_t *start;
    size_t len, size;
} buffer;

/* A call of the library's that writes into a buffer, with what it reads in `state`. */
typedef kormaglen_answer (*writing)(void *state, uint8_t *start, size_t len);

void reserve(const call *it, buffer *to, size_t more);
/* How much room a call gets at first that writes some times as many bytes as it reads: of much, no more than it reads. */
size_t guess_size(size_t len, size_t times);
/* Appends what the library's call writes: into the room there is, or else into just as much as it asks for. Messages name this argument. */
void append(const call *it, int argument, buffer *to, writing write, void *state);
/* What the library's call writes, as a bytea, or as a text in UTF-8. `guess` is how long that is, if all goes well. */
struct varlena *write_value(const call *it, int argument, writing write, void *state, size_t guess);

/* A number in eight bytes, the lowest first. */
uint64_t number_at(const uint8_t *start);
void put_number(uint8_t *start, uint64_t number);

/* ---- rows.c: rows of a function that returns a set */

/* Has the current memory be that of one row, which is empty again after each add_row. Returns what was current, for end_rows. */
MemoryContext begin_rows(const call *it);
void add_row(const call *it, Datum *values, bool *nulls);
void end_rows(MemoryContext before);

/* ---- term_texts.c and value_texts.c: the text of a value, as the library's JSON has it */

/* Of a term's value; NULL where PostgreSQL has no such text. */
text *term_value(const call *it, int argument, bytes term);
text *print_date(const call *it, int argument, int64_t nanoseconds);
text *print_address(const call *it, int argument, const uint8_t *address);
char *print_base64(const call *it, bytes blob);

/* ---- facets.c */

bytea *encode_facet(const call *it, int argument, bytes path);
text *print_facet(const call *it, int argument, bytes encoded);

/* ---- documents.c */

/* Refuses what isn't one document and nothing more. */
void read_document(const call *it, int argument, uint32_t version, bytes blob, kormaglen_document *document);

#endif
