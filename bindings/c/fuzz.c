/* Calls each function with random bytes, with bytes of real blocks that are changed, and with every size of buffer, for as many seconds
 * as the first argument says. Ends with 1 where an answer is none that the header names, or where a buffer changed that had to stay. */
#include "kormaglen.h"

#include <stdio.h>
#include <stdlib.h>
#include <string.h>
#include <time.h>

enum { LARGEST = 512, KEPT = 0xA5 };

static const char SCHEMA[] =
    "[{\"name\":\"s\",\"type\":\"text\",\"options\":{\"stored\":true}},"
    "{\"name\":\"u\",\"type\":\"u64\",\"options\":{\"indexed\":false,\"stored\":true}},"
    "{\"name\":\"i\",\"type\":\"i64\",\"options\":{\"indexed\":false,\"stored\":true}},"
    "{\"name\":\"f\",\"type\":\"facet\",\"options\":{\"stored\":true}},"
    "{\"name\":\"d\",\"type\":\"date\",\"options\":{\"indexed\":false,\"fieldnorms\":false,\"stored\":true}},"
    "{\"name\":\"p\",\"type\":\"ip_addr\",\"options\":{\"indexed\":false,\"fieldnorms\":false,\"fast\":false,\"stored\":true}},"
    "{\"name\":\"y\",\"type\":\"bytes\",\"options\":{\"indexed\":false,\"fast\":false,\"stored\":true}},"
    "{\"name\":\"j\",\"type\":\"json_object\",\"options\":{\"stored\":true,\"fast\":false}}]";

/* The same types, indexed. */
static const char INDEXED[] =
    "[{\"name\":\"s\",\"type\":\"text\",\"options\":{\"indexing\":{\"record\":\"basic\",\"fieldnorms\":true,\"tokenizer\":\"raw\"},\"stored\":true}},"
    "{\"name\":\"u\",\"type\":\"u64\",\"options\":{\"indexed\":true,\"stored\":true}},"
    "{\"name\":\"i\",\"type\":\"i64\",\"options\":{\"indexed\":true,\"stored\":true}},"
    "{\"name\":\"f\",\"type\":\"facet\",\"options\":{\"stored\":true}},"
    "{\"name\":\"d\",\"type\":\"date\",\"options\":{\"indexed\":true,\"fieldnorms\":false,\"stored\":true}},"
    "{\"name\":\"p\",\"type\":\"ip_addr\",\"options\":{\"indexed\":true,\"fieldnorms\":false,\"fast\":false,\"stored\":true}},"
    "{\"name\":\"y\",\"type\":\"bytes\",\"options\":{\"indexed\":true,\"fast\":false,\"stored\":true}},"
    "{\"name\":\"j\",\"type\":\"json_object\",\"options\":{\"stored\":true,\"fast\":false,"
    "\"indexing\":{\"record\":\"basic\",\"fieldnorms\":true,\"tokenizer\":\"raw\"}}},"
    "{\"name\":\"n\",\"type\":\"u64\",\"options\":{\"indexed\":false,\"stored\":true}}]";

/* Paths of queries, and texts, of which two are the bounds of a range. */
static const char *const PATHS[] = {"s", "u", "i", "f", "d", "p", "y", "j.a.b", "j", "n", "none"};
static const char *const TEXTS[] = {"*", "7", "-7", "18446744073709551615", "true", "2019-10-12T07:20:50Z", "/a/b", "::1", "AA==", "text"};

static const char *const LINES[] = {
    "{\"s\":\"text\",\"u\":7,\"i\":-7}",
    "{\"f\":\"/a/b\",\"d\":\"2019-10-12T07:20:50.52Z\",\"p\":\"::1\"}",
    "{\"y\":\"AA==\",\"j\":{\"a\":[1,{\"b\":null}],\"c\":\"d\"}}",
    "{\"s\":[\"x\",\"y\"],\"u\":[0,18446744073709551615]}",
    "{}",
};

static uint64_t state = 0x9E3779B97F4A7C15u;
enum { CALLS = 25 };

static uint64_t calls[CALLS];
static uint64_t accepted[CALLS];

static uint64_t next_number(void) {
    state ^= state << 13;
    state ^= state >> 7;
    state ^= state << 17;
    return state;
}

static size_t below(size_t limit) {
    return (size_t)(next_number() % limit);
}

static void fail(const char *why) {
    fprintf(stderr, "%s\n", why);
    exit(1);
}

/* An exact copy on the heap, so that a read or a write after it is seen. */
static uint8_t *copy_of(const uint8_t *bytes, size_t len) {
    uint8_t *copy = malloc(len == 0 ? 1 : len);
    if (copy == NULL) {
        fail("no memory");
    }
    memcpy(copy, bytes, len);
    return copy;
}

static size_t random_bytes(uint8_t *bytes) {
    size_t len = below(64);
    for (size_t i = 0; i < len; i++) {
        bytes[i] = (uint8_t)(below(3) == 0 ? next_number() : below(16));
    }
    return len;
}

/* A valid text or block with some bytes changed, taken out or put in. */
static size_t changed(uint8_t *bytes, size_t len) {
    size_t times = below(4);
    for (size_t i = 0; i < times && len > 0; i++) {
        size_t at = below(len);
        switch (below(3)) {
        case 0:
            bytes[at] = (uint8_t)next_number();
            break;
        case 1:
            memmove(bytes + at, bytes + at + 1, len - at - 1);
            len -= 1;
            break;
        default:
            if (len < LARGEST) {
                memmove(bytes + at + 1, bytes + at, len - at);
                bytes[at] = (uint8_t)next_number();
                len += 1;
            }
        }
    }
    return len;
}

/* What was written stands within the buffer, and after a refusal the buffer is as it was. */
static void check(int call, kormaglen_answer answer, const uint8_t *buffer, size_t len) {
    calls[call] += 1;
    if (strcmp(kormaglen_status_text(answer.status), "unknown status") == 0) {
        fail("an unknown status");
    }
    int has_detail = answer.status == KORMAGLEN_BAD_SCHEMA || answer.status == KORMAGLEN_BAD_DOCUMENT || answer.status == KORMAGLEN_BAD_LINE
        || answer.status == KORMAGLEN_BAD_QUERY || answer.status == KORMAGLEN_BAD_ARGUMENT;
    if (has_detail != (kormaglen_detail_text(answer.status, answer.detail)[0] != 0) || (!has_detail && answer.detail != 0)) {
        fail("a detail without words, or words without a detail");
    }
    size_t from = 0;
    if (answer.status == KORMAGLEN_OK) {
        accepted[call] += 1;
        if (answer.bytes > len) {
            fail("more bytes than there is room for");
        }
        from = (size_t)answer.bytes;
    }
    if (answer.status == KORMAGLEN_TOO_SMALL && answer.bytes <= len && answer.lines == 0) {
        fail("a buffer that is large enough");
    }
    for (size_t i = from; i < len; i++) {
        if (buffer[i] != KEPT) {
            fail("a byte changed after what was written");
        }
    }
}

static uint8_t *fresh(size_t len) {
    uint8_t *buffer = malloc(len == 0 ? 1 : len);
    if (buffer == NULL) {
        fail("no memory");
    }
    memset(buffer, KEPT, len == 0 ? 1 : len);
    return buffer;
}

/* What the answer to a refused line names: what is wrong with its JSON and a byte of it, or the field whose value is refused. */
static void check_refused(uint32_t status, uint64_t named, uint64_t byte, size_t len) {
    int is_json = status == KORMAGLEN_LINE_INVALID_JSON;
    int is_value = status >= KORMAGLEN_LINE_OVERFLOW && status <= KORMAGLEN_LINE_FLOAT;
    int has_byte = is_json && named != KORMAGLEN_JSON_NOT_UTF8 && named != KORMAGLEN_JSON_NO_OBJECT;
    if (is_json && (named > KORMAGLEN_JSON_WORD || kormaglen_json_fault_text((uint32_t)named)[0] == 0)) {
        fail("an unknown fault of a line's JSON");
    }
    if (!is_json && named > (is_value ? 7 : 0)) {
        fail("a field that is none, or where no value is refused");
    }
    if (byte > (has_byte ? len : 0)) {
        fail("a byte that the line does not have");
    }
}

/* Each line has one answer. Returns how many bytes the documents take. */
static uint64_t check_lines(const uint8_t *text, size_t len, const kormaglen_line_answer *answers, uint64_t count) {
    uint64_t sum = 0;
    size_t start = 0;
    for (uint64_t i = 0; i < count; i++) {
        size_t end = start;
        while (end < len && text[end] != '\n') {
            end += 1;
        }
        if (start == len || answers[i].status > KORMAGLEN_LINE_NO_ROOM) {
            fail("an answer without a line, or an unknown status of a line");
        }
        if (answers[i].status == KORMAGLEN_LINE_STORED) {
            sum += answers[i].bytes;
            check_refused(KORMAGLEN_LINE_STORED, answers[i].field, 0, 0);
        } else {
            check_refused(answers[i].status, answers[i].field, answers[i].bytes, end - start);
        }
        start = end < len ? end + 1 : len;
    }
    if (start != len) {
        fail("a line without an answer");
    }
    return sum;
}

static void import_once(void) {
    uint8_t schema[2 * LARGEST + 1024], text[2 * LARGEST];
    size_t schema_len = strlen(SCHEMA);
    memcpy(schema, SCHEMA, schema_len);
    if (below(4) == 0) {
        schema_len = below(4) == 0 ? random_bytes(schema) : changed(schema, schema_len);
    }
    size_t text_len = 0;
    size_t lines = below(4);
    for (size_t i = 0; i < lines; i++) {
        const char *line = LINES[below(sizeof LINES / sizeof *LINES)];
        size_t line_len = strlen(line);
        memcpy(text + text_len, line, line_len);
        text_len += line_len;
        text[text_len++] = '\n';
    }
    text_len = below(4) == 0 ? random_bytes(text) : changed(text, text_len);
    size_t room = below(128), places = below(6);
    uint8_t *s = copy_of(schema, schema_len), *t = copy_of(text, text_len), *block = fresh(room);
    kormaglen_line_answer *answers = malloc((places + 1) * sizeof *answers);
    if (answers == NULL) {
        fail("no memory");
    }
    memset(answers, KEPT, (places + 1) * sizeof *answers);
    kormaglen_answer answer = kormaglen_import_lines(s, schema_len, t, text_len, block, room, answers, places);
    if (answer.status == KORMAGLEN_TOO_SMALL && answer.bytes <= room && answer.lines <= places) {
        fail("both buffers are large enough");
    }
    check(0, answer, block, room);
    if (answer.status == KORMAGLEN_OK && check_lines(t, text_len, answers, answer.lines) != answer.bytes) {
        fail("the lines' bytes are not the block's");
    }
    free(s);
    free(t);
    free(block);
    free(answers);
}

/* A block of some documents. */
static size_t some_block(uint8_t *block) {
    char text[LARGEST] = "";
    size_t lines = 1 + below(3);
    for (size_t i = 0; i < lines; i++) {
        strcat(text, LINES[below(sizeof LINES / sizeof *LINES)]);
        strcat(text, "\n");
    }
    kormaglen_line_answer answers[4];
    kormaglen_answer answer = kormaglen_import_lines((const uint8_t *)SCHEMA, strlen(SCHEMA), (const uint8_t *)text,
                                                     strlen(text), block, LARGEST, answers, 4);
    if (answer.status != KORMAGLEN_OK) {
        fail("a block of real lines is refused");
    }
    return (size_t)answer.bytes;
}

static void export_once(void) {
    uint8_t block[2 * LARGEST];
    size_t len = below(4) == 0 ? random_bytes(block) : changed(block, some_block(block));
    size_t room = below(LARGEST);
    uint8_t *b = copy_of(block, len), *lines = fresh(room);
    check(1, kormaglen_export_block((const uint8_t *)SCHEMA, strlen(SCHEMA), (uint32_t)below(5), b, len, lines, room), lines, room);
    free(b);
    free(lines);
}

static void migrate_once(void) {
    uint8_t block[2 * LARGEST];
    size_t len = below(4) == 0 ? random_bytes(block) : changed(block, some_block(block));
    size_t room = below(LARGEST);
    uint8_t *b = copy_of(block, len), *migrated = fresh(room);
    check(2, kormaglen_migrate_block((uint32_t)below(5), b, len, (uint32_t)below(5), migrated, room), migrated, room);
    free(b);
    free(migrated);
}

static void find_once(void) {
    uint8_t path[LARGEST] = "j.a.b";
    size_t len = below(3) == 0 ? random_bytes(path) : changed(path, 5);
    uint8_t *p = copy_of(path, len), none[1] = {KEPT};
    kormaglen_found_field found;
    kormaglen_answer answer = kormaglen_find_field((const uint8_t *)SCHEMA, strlen(SCHEMA), p, len, &found);
    if (answer.status == KORMAGLEN_OK && (found.field > 7 || found.rest > len)) {
        fail("a field or a place that is none");
    }
    check(3, answer, none, 1);
    free(p);
}

static void facet_once(int call) {
    uint8_t bytes[LARGEST] = "/a\\/b/c";
    size_t len = below(3) == 0 ? random_bytes(bytes) : changed(bytes, 7);
    size_t room = below(16);
    uint8_t *b = copy_of(bytes, len), *out = fresh(room);
    check(call, call == 4 ? kormaglen_facet_of_text(b, len, out, room) : kormaglen_text_of_facet(b, len, out, room), out, room);
    free(b);
    free(out);
}

static void terms_once(void) {
    uint8_t block[2 * LARGEST];
    size_t len = below(4) == 0 ? random_bytes(block) : changed(block, some_block(block));
    size_t room = below(LARGEST);
    uint8_t *b = copy_of(block, len), *terms = fresh(room);
    check(6, kormaglen_terms_of_block((uint32_t)below(9), (uint32_t)below(5), b, len, terms, room), terms, room);
    free(b);
    free(terms);
}

static void term_once(int call) {
    uint8_t bytes[LARGEST] = "text\xc3\xa9";
    size_t len = below(3) == 0 ? random_bytes(bytes) : changed(bytes, 6);
    if (below(4) == 0) {
        memset(bytes, 0xff, len);
    }
    size_t room = below(16);
    uint8_t *b = copy_of(bytes, len), *out = fresh(room);
    check(call, call == 7 ? kormaglen_term_of_text((uint32_t)next_number(), b, len, out, room) : kormaglen_end_of_prefix(b, len, out, room),
          out, room);
    free(b);
    free(out);
}

/* Terms of each type, and one of a value in a JSON object. */
static const struct {
    const char *bytes;
    size_t len;
} TERMS[] = {
    {"\0\0\0\0stext", 9},
    {"\0\0\0\1u\0\0\0\0\0\0\0\7", 13},
    {"\0\0\0\2i\x7F\xFF\xFF\xFF\xFF\xFF\xFF\xFF", 13},
    {"\0\0\0\3h" "a\0b", 8},
    {"\0\0\0\4d\x80\0\0\0\0\0\0\0", 13},
    {"\0\0\0\5p\0\0\0\0\0\0\0\0\0\0\0\0\0\0\0\1", 21},
    {"\0\0\0\6b\0\1", 7},
    {"\0\0\0\7o\0\0\0\0\0\0\0\1", 13},
    {"\0\0\0\7ja\1b\0sx", 11},
};

static void term_text_once(void) {
    uint8_t bytes[LARGEST];
    size_t which = below(sizeof TERMS / sizeof *TERMS), len = TERMS[which].len;
    memcpy(bytes, TERMS[which].bytes, len);
    len = below(4) == 0 ? random_bytes(bytes) : changed(bytes, len);
    size_t room = below(32);
    uint8_t *b = copy_of(bytes, len), *out = fresh(room);
    check(24, kormaglen_text_of_term(b, len, out, room), out, room);
    free(b);
    free(out);
}

static void expect_closed(int closed, kormaglen_answer answer) {
    if ((answer.status == KORMAGLEN_CLOSED) != closed) {
        fail("a closed handle was used, or an open one refused");
    }
}

static uint64_t number_at(const uint8_t *bytes) {
    uint64_t number = 0;
    for (int i = 7; i >= 0; i--) {
        number = number << 8 | bytes[i];
    }
    return number;
}

/* Each term stands after its length and has a text, and the last ends where the answer says. */
static void check_terms(const uint8_t *terms, uint64_t len) {
    uint64_t at = 0;
    uint8_t text[2 * LARGEST];
    while (len - at >= 8 && number_at(terms + at) <= len - at - 8) {
        if (kormaglen_text_of_term(terms + at + 8, (size_t)number_at(terms + at), text, sizeof text).status != KORMAGLEN_OK) {
            fail("a term of a text has no text");
        }
        at += 8 + number_at(terms + at);
    }
    if (at != len) {
        fail("terms that do not end where the answer says");
    }
}

/* Start and end of each range stand after their lengths, and the last end is where the answer says. */
static void check_ranges(const uint8_t *ranges, uint64_t len) {
    uint64_t at = 0;
    while (at < len) {
        if (len - at < 16) {
            fail("a range without its lengths");
        }
        uint64_t start = number_at(ranges + at), end = number_at(ranges + at + 8);
        at += 16;
        end = end == UINT64_MAX ? 0 : end;
        if (start > len - at || end > len - at - start) {
            fail("a range that does not end where the answer says");
        }
        at += start + end;
    }
}

/* A text of a query: one text, or two as bounds of a range. */
static size_t some_text(uint8_t *bytes) {
    const char *first = TEXTS[below(sizeof TEXTS / sizeof *TEXTS)], *second = TEXTS[below(sizeof TEXTS / sizeof *TEXTS)];
    char text[LARGEST];
    switch (below(3)) {
    case 0:
        snprintf(text, sizeof text, "%s", first);
        break;
    case 1:
        snprintf(text, sizeof text, "[%s TO %s}", first, second);
        break;
    default:
        snprintf(text, sizeof text, "{%s TO %s]", first, second);
    }
    memcpy(bytes, text, strlen(text));
    return strlen(text);
}

/* The terms and the ranges of a text, by a schema whose fields are indexed, by one whose fields mostly aren't, and by none. */
static void query_once(void) {
    static kormaglen_schema handles[3];
    if (handles[0].at == NULL) {
        kormaglen_schema_open((const uint8_t *)INDEXED, strlen(INDEXED), &handles[0]);
        kormaglen_schema_open((const uint8_t *)SCHEMA, strlen(SCHEMA), &handles[1]);
    }
    kormaglen_schema *handle = &handles[below(16) == 0 ? 1 + below(2) : 0];
    uint8_t path[LARGEST], text[2 * LARGEST];
    const char *named = PATHS[below(sizeof PATHS / sizeof *PATHS)];
    size_t path_len = strlen(named), text_len = below(8) == 0 ? random_bytes(text) : some_text(text);
    memcpy(path, named, path_len);
    path_len = below(8) == 0 ? random_bytes(path) : below(4) == 0 ? changed(path, path_len) : path_len;
    text_len = below(4) == 0 ? changed(text, text_len) : text_len;
    size_t room = below(256);
    uint8_t *p = copy_of(path, path_len), *t = copy_of(text, text_len), *terms = fresh(room), *ranges = fresh(room);
    kormaglen_answer listed = kormaglen_schema_terms_of_text(handle, p, path_len, t, text_len, terms, room);
    check(19, listed, terms, room);
    expect_closed(handle->at == NULL, listed);
    kormaglen_answer bounded = kormaglen_schema_ranges_of_text(handle, p, path_len, t, text_len, ranges, room);
    check(20, bounded, ranges, room);
    expect_closed(handle->at == NULL, bounded);
    if (listed.status == KORMAGLEN_OK) {
        check_terms(terms, listed.bytes);
    }
    if (bounded.status == KORMAGLEN_OK) {
        check_ranges(ranges, bounded.bytes);
    }
    free(p);
    free(t);
    free(terms);
    free(ranges);
}

/* The length of the record of a number and of bytes that stands there, and of a number before it where there are three. */
static uint64_t record_length(const uint8_t *records, uint64_t len, uint64_t numbers) {
    if (len < 8 * numbers || number_at(records + 8 * (numbers - 1)) > len - 8 * numbers) {
        fail("a record that does not end where the answer says");
    }
    return 8 * numbers + number_at(records + 8 * (numbers - 1));
}

/* The numbers of documents do not fall, and the length of a value is that of its kind. */
static void check_values(const uint8_t *values, uint64_t len) {
    static const uint64_t lengths[] = {0, UINT64_MAX, 8, 8, 1, 8, UINT64_MAX, UINT64_MAX, 16, UINT64_MAX};
    uint64_t document = 0;
    for (uint64_t at = 0, size; at < len; at += size) {
        size = record_length(values + at, len - at, 3);
        uint64_t kind = number_at(values + at + 8);
        if (number_at(values + at) < document || kind > KORMAGLEN_VALUE_JSON) {
            fail("a document before the one before it, or an unknown kind");
        }
        document = number_at(values + at);
        if (lengths[kind] != UINT64_MAX && lengths[kind] != size - 24) {
            fail("a value that is too short or too long for its kind");
        }
        if (kind == KORMAGLEN_VALUE_BOOL && values[at + 24] > 1) {
            fail("a truth value that is neither 0 nor 1");
        }
    }
}

/* What the records of terms by a schema have come to: how many documents there were, whether the last has no terms, and its last term. */
typedef struct joined_term {
    uint64_t documents;
    int is_fault;
    uint64_t len;
    uint8_t bytes[2 * LARGEST + 64];
} joined_term;

/* A record of a fault is the only one of its document, and names a reason. */
static void check_fault(const uint8_t *record, uint64_t size, int is_first) {
    if (!is_first || size != 40) {
        fail("a document without terms has a record beside that of its fault");
    }
    uint64_t detail = number_at(record + 24);
    if (detail < KORMAGLEN_DOCUMENT_FOREIGN_FIELD || detail > KORMAGLEN_DOCUMENT_NO_TERM || number_at(record + 32) > UINT32_MAX) {
        fail("a fault without a reason, or of no field");
    }
}

/* Puts the rest of a term after what it shares with the one before it, and returns how long the record is. It shares all that it can. */
static uint64_t join_term(joined_term *term, const uint8_t *record, uint64_t left) {
    uint64_t size = record_length(record, left, 3), document = number_at(record), shared = number_at(record + 8), rest = size - 24;
    int is_first = document >= term->documents;
    if (document + 1 < term->documents || (!is_first && term->is_fault)) {
        fail("a document before the one before it, or a record after that of a fault");
    }
    term->len = is_first ? 0 : term->len;
    term->documents = document + 1;
    term->is_fault = shared == KORMAGLEN_NO_TERMS;
    if (term->is_fault) {
        check_fault(record, size, is_first);
        return size;
    }
    if (shared > term->len || shared + rest > sizeof term->bytes) {
        fail("a term shares more than there is, or is too long");
    }
    if (shared < term->len && rest > 0 && term->bytes[shared] == record[24]) {
        fail("a term shares more than its record says");
    }
    memcpy(term->bytes + shared, record + 24, (size_t)rest);
    term->len = shared + rest;
    return size;
}

/* The first record of a fault, or NULL. The records end where the answer says. */
static const uint8_t *first_fault(const uint8_t *terms, uint64_t len) {
    joined_term term = {0};
    const uint8_t *found = NULL;
    for (uint64_t at = 0, size; at < len; at += size) {
        size = join_term(&term, terms + at, len - at);
        if (term.is_fault && found == NULL) {
            found = terms + at;
        }
    }
    return found;
}

/* Where no document has a fault, both ways write the same. Where one has, it is refused for the reason that its record names. */
static void compare_ways(kormaglen_answer refusing, const uint8_t *terms, kormaglen_answer listing, const uint8_t *listed) {
    const uint8_t *fault = listing.status == KORMAGLEN_OK ? first_fault(listed, listing.bytes) : NULL;
    int is_without = refusing.status == KORMAGLEN_BAD_DOCUMENT && refusing.detail >= KORMAGLEN_DOCUMENT_FOREIGN_FIELD;
    if (fault != NULL && (!is_without || refusing.detail != number_at(fault + 24))) {
        fail("a document with a fault is refused for another reason, or not at all");
    }
    if (fault == NULL && listing.status == KORMAGLEN_OK
        && (refusing.status != KORMAGLEN_OK || refusing.bytes != listing.bytes || memcmp(terms, listed, (size_t)listing.bytes) != 0)) {
        fail("the terms are others where faults are asked for");
    }
    if (refusing.status != listing.status && !is_without) {
        fail("a block is refused in one of two ways");
    }
}

/* Of a field that is not of JSON objects, the terms by the schema are those that the field's values have without it. */
static void compare_terms(const uint8_t *terms, uint64_t len, uint32_t version, const uint8_t *block, size_t block_len) {
    joined_term term = {0};
    uint32_t field = (uint32_t)below(7);
    uint8_t alone[16 * LARGEST];
    kormaglen_answer answer = kormaglen_terms_of_block(field, version, block, block_len, alone, sizeof alone);
    if (answer.status == KORMAGLEN_TOO_SMALL) {
        return;
    }
    uint64_t next = 0;
    for (uint64_t at = 0, size; at < len; at += size) {
        size = join_term(&term, terms + at, len - at);
        if (term.bytes[3] != field) {
            continue;
        }
        if (next == answer.bytes || number_at(alone + next) != term.documents - 1 || number_at(alone + next + 8) != term.len
            || memcmp(alone + next + 16, term.bytes, (size_t)term.len) != 0) {
            fail("a field has other terms by the schema");
        }
        next += record_length(alone + next, answer.bytes - next, 2);
    }
    if (answer.status != KORMAGLEN_OK || next != answer.bytes) {
        fail("a field has more terms without the schema");
    }
}

/* The values of a field and the terms of all, by a schema whose fields are indexed, by one whose fields mostly aren't, and by none. */
static void block_once(void) {
    static kormaglen_schema handles[3];
    if (handles[0].at == NULL) {
        kormaglen_schema_open((const uint8_t *)INDEXED, strlen(INDEXED), &handles[0]);
        kormaglen_schema_open((const uint8_t *)SCHEMA, strlen(SCHEMA), &handles[1]);
    }
    size_t which = below(8) == 0 ? 1 + below(2) : 0;
    kormaglen_schema *handle = &handles[which];
    uint8_t block[2 * LARGEST], name[LARGEST];
    size_t len = below(4) == 0 ? random_bytes(block) : below(2) == 0 ? changed(block, some_block(block)) : some_block(block);
    const char *named = PATHS[below(sizeof PATHS / sizeof *PATHS)];
    size_t name_len = strlen(named);
    memcpy(name, named, name_len);
    name_len = below(8) == 0 ? random_bytes(name) : name_len;
    size_t room = below(2 * LARGEST);
    uint32_t version = (uint32_t)below(5);
    uint8_t *b = copy_of(block, len), *n = copy_of(name, name_len), *values = fresh(room);
    kormaglen_answer found = kormaglen_schema_values_of_block(handle, n, name_len, version, b, len, values, room);
    check(21, found, values, room);
    expect_closed(handle->at == NULL, found);
    if (found.status == KORMAGLEN_OK) {
        check_values(values, found.bytes);
    }
    uint8_t *terms = fresh(room), *listed = fresh(room);
    kormaglen_answer refusing = kormaglen_schema_terms_of_block(handle, version, 0, b, len, terms, room);
    kormaglen_answer listing = kormaglen_schema_terms_of_block(handle, version, 1 + (uint32_t)below(3), b, len, listed, room);
    check(22, refusing, terms, room);
    check(22, listing, listed, room);
    expect_closed(handle->at == NULL, refusing);
    compare_ways(refusing, terms, listing, listed);
    if (refusing.status == KORMAGLEN_OK && which == 0) {
        compare_terms(terms, refusing.bytes, version, b, len);
    }
    free(b);
    free(n);
    free(values);
    free(terms);
    free(listed);
}

/* Whether the facet is the other one or lies below it. */
static int is_below(const uint8_t *facet, uint64_t len, const uint8_t *above, uint64_t above_len) {
    return len >= above_len && memcmp(facet, above, (size_t)above_len) == 0
        && (len == above_len || facet[above_len] == 0);
}

/* How many documents, which have numbers below 4, have a facet at or below this one. */
static uint64_t documents_below(const uint8_t *pairs, uint64_t len, const uint8_t *child, uint64_t child_len) {
    uint64_t has[4] = {0};
    for (uint64_t at = 0, size; at < len; at += size) {
        size = record_length(pairs + at, len - at, 2);
        if (number_at(pairs + at) < 4 && is_below(pairs + at + 16, size - 16, child, child_len)) {
            has[number_at(pairs + at)] = 1;
        }
    }
    return has[0] + has[1] + has[2] + has[3];
}

/* Pairs of a document and a facet of some steps. */
static size_t some_pairs(uint8_t *pairs) {
    size_t len = 0, count = below(8);
    for (size_t i = 0; i < count; i++) {
        size_t steps = 1 + below(3);
        memset(pairs + len, 0, 16);
        pairs[len] = (uint8_t)below(4);
        pairs[len + 8] = (uint8_t)(2 * steps - 1);
        for (size_t j = 0; j < steps; j++) {
            pairs[len + 16 + 2 * j] = (uint8_t)('a' + below(2));
            pairs[len + 17 + 2 * j] = 0;
        }
        len += 15 + 2 * steps;
    }
    return len;
}

/* Counts documents by the children of a facet, and again one by one. */
static void count_once(void) {
    static const char *const PARENTS[] = {"", "a", "b", "a\0a"};
    uint8_t bytes[2 * LARGEST];
    size_t which = below(4), len = some_pairs(bytes);
    int is_changed = below(4) == 0;
    len = is_changed ? changed(bytes, len) : len;
    size_t room = below(96), parent_len = which == 3 ? 3 : strlen(PARENTS[which]);
    uint8_t *p = copy_of(bytes, len), *parent = copy_of((const uint8_t *)PARENTS[which], parent_len), *counts = fresh(room);
    kormaglen_answer answer = kormaglen_count_facets(parent, parent_len, p, len, counts, room);
    check(23, answer, counts, room);
    if (answer.status == KORMAGLEN_BAD_PAIRS && (!is_changed || answer.place >= len)) {
        fail("good pairs are refused, or a place that is not among them");
    }
    for (uint64_t at = 0, size; answer.status == KORMAGLEN_OK && !is_changed && at < answer.bytes; at += size) {
        size = record_length(counts + at, answer.bytes - at, 2);
        const uint8_t *child = counts + at + 16;
        if ((parent_len > 0 && !is_below(child, size - 16, parent, parent_len)) || size - 16 <= parent_len) {
            fail("a child that is not below the parent");
        }
        if (number_at(counts + at) != documents_below(p, len, child, size - 16)) {
            fail("another number of documents");
        }
    }
    free(p);
    free(parent);
    free(counts);
}

/* Prints the schema of a handle, and opens another one by what was printed, which prints the same. */
static void print_schema(kormaglen_schema *handle) {
    size_t room = below(4 * LARGEST);
    uint8_t *text = fresh(room), *again = fresh(room);
    kormaglen_answer answer = kormaglen_schema_to_json(handle, text, room);
    check(17, answer, text, room);
    expect_closed(handle->at == NULL, answer);
    if (answer.status == KORMAGLEN_OK) {
        kormaglen_schema same = {0};
        if (kormaglen_schema_open(text, (size_t)answer.bytes, &same).status != KORMAGLEN_OK) {
            fail("what was printed of a schema is refused");
        }
        kormaglen_answer printed = kormaglen_schema_to_json(&same, again, room);
        if (printed.bytes != answer.bytes || memcmp(text, again, room) != 0) {
            fail("what was printed of a schema is another one");
        }
        kormaglen_schema_close(&same);
    }
    free(text);
    free(again);
}

/* A place in a buffer or NULL, and a length that stays in the buffer, or that no buffer has where is_wrong. */
static uint8_t *place_in(uint8_t *buffer, size_t len, size_t *taken, int is_wrong) {
    size_t at = below(len);
    *taken = is_wrong ? SIZE_MAX - below(64) : below(len - at + 1);
    return below(4) == 0 ? NULL : buffer + at;
}

/* A call whose buffers are NULL, overlap or have lengths that no buffer has. What the header refuses is refused, and nothing else is. */
static void arguments_once(void) {
    uint8_t buffer[64], before[64];
    for (size_t i = 0; i < sizeof buffer; i++) {
        buffer[i] = (uint8_t)(below(4) == 0 ? '/' : KEPT);
    }
    memcpy(before, buffer, sizeof buffer);
    size_t from_len, to_len;
    uint8_t *from = place_in(buffer, sizeof buffer, &from_len, below(8) == 0);
    uint8_t *to = place_in(buffer, sizeof buffer, &to_len, below(8) == 0);
    int is_null = (from == NULL && from_len > 0) || (to == NULL && to_len > 0);
    int is_long = from_len > sizeof buffer || to_len > sizeof buffer;
    int overlaps = from_len > 0 && to_len > 0 && !is_null && !is_long && from < to + to_len && to < from + from_len;
    kormaglen_answer answer = kormaglen_text_of_facet(from, from_len, to, to_len);
    calls[18] += 1;
    accepted[18] += answer.status == KORMAGLEN_OK;
    if ((answer.status == KORMAGLEN_BAD_ARGUMENT) != (is_null || is_long || overlaps)) {
        fail("an argument is refused that can be used, or the other way round");
    }
    if (answer.status != KORMAGLEN_OK && memcmp(buffer, before, sizeof buffer) != 0) {
        fail("a buffer changed where a call was refused");
    }
}

/* Opens a handle, also one that is open, and makes each call by it, whether or not it was opened. */
static void handle_once(void) {
    static kormaglen_schema handle;
    uint8_t json[2 * LARGEST + 1024], none[1] = {KEPT};
    size_t len = strlen(SCHEMA);
    memcpy(json, SCHEMA, len);
    if (below(4) == 0) {
        len = below(4) == 0 ? random_bytes(json) : changed(json, len);
    }
    uint8_t *j = copy_of(json, len);
    kormaglen_answer opened = kormaglen_schema_open(j, len, &handle);
    free(j);
    check(9, opened, none, 1);
    if ((opened.status == KORMAGLEN_OK) != (handle.at != NULL)) {
        fail("the answer is not what became of the handle");
    }
    if (below(8) == 0) {
        kormaglen_schema_close(&handle);
    }
    print_schema(&handle);

    uint8_t text[2 * LARGEST];
    const char *line = LINES[below(sizeof LINES / sizeof *LINES)];
    size_t text_len = strlen(line);
    memcpy(text, line, text_len);
    text_len = below(4) == 0 ? random_bytes(text) : changed(text, text_len);
    size_t room = below(128);
    uint8_t *t = copy_of(text, text_len), *stored = fresh(room);
    kormaglen_line_answer answers[4];
    kormaglen_answer imported = kormaglen_schema_import_lines(&handle, t, text_len, stored, room, answers, 4);
    if (imported.status != KORMAGLEN_TOO_SMALL) {
        check(10, imported, stored, room);
    }
    if (imported.status == KORMAGLEN_OK && check_lines(t, text_len, answers, imported.lines) != imported.bytes) {
        fail("the lines' bytes are not the block's");
    }
    expect_closed(handle.at == NULL, imported);
    free(t);
    free(stored);

    uint8_t block[2 * LARGEST];
    size_t block_len = below(4) == 0 ? random_bytes(block) : changed(block, some_block(block));
    size_t width = below(LARGEST);
    uint8_t *b = copy_of(block, block_len), *lines = fresh(width);
    kormaglen_answer printed = kormaglen_schema_export_block(&handle, (uint32_t)below(5), b, block_len, lines, width);
    check(11, printed, lines, width);
    expect_closed(handle.at == NULL, printed);
    free(b);
    free(lines);

    uint8_t path[LARGEST] = "j.a.b";
    size_t path_len = below(3) == 0 ? random_bytes(path) : changed(path, 5);
    uint8_t *p = copy_of(path, path_len);
    kormaglen_found_field found;
    kormaglen_answer answer = kormaglen_schema_find_field(&handle, p, path_len, &found);
    check(12, answer, none, 1);
    expect_closed(handle.at == NULL, answer);
    if (answer.status != KORMAGLEN_OK && (found.field != 0 || found.rest != 0)) {
        fail("a field where none was found");
    }
    free(p);
    if (below(2) == 0) {
        kormaglen_schema_close(&handle);
        kormaglen_schema_close(&handle);
        if (handle.at != NULL) {
            fail("a closed handle holds something");
        }
    }
}

/* Cut at the byte where its JSON goes wrong, a line ends too early there, and the same is expected. Where the end of the text was expected, what
 * stands before is whole. */
static void check_cut(kormaglen_schema *schema, const uint8_t *line, kormaglen_answer refused) {
    if (refused.place < KORMAGLEN_JSON_VALUE || refused.place == KORMAGLEN_JSON_TEXT_END) {
        return;
    }
    kormaglen_document document = {0};
    uint8_t *cut = copy_of(line, (size_t)refused.bytes);
    kormaglen_answer again = kormaglen_document_parse(schema, cut, (size_t)refused.bytes, &document);
    free(cut);
    if (again.status != refused.status || again.detail != refused.detail || again.place != refused.place || again.bytes != refused.bytes) {
        fail("a line that is cut where its JSON goes wrong is refused in another way");
    }
}

/* Has the handle hold a document of bytes or of a line, or none where these are refused. */
static void fill_document(kormaglen_schema *schema, kormaglen_document *document) {
    uint8_t none[1] = {KEPT}, input[2 * LARGEST];
    kormaglen_answer answer;
    if (below(2) == 0) {
        size_t len = below(4) == 0 ? random_bytes(input) : changed(input, some_block(input));
        uint8_t *bytes = copy_of(input, len);
        answer = kormaglen_document_read((uint32_t)below(5), bytes, len, document);
        free(bytes);
        if (answer.bytes > len) {
            fail("more bytes than there are");
        }
        answer.bytes = 0;
        check(13, answer, none, 1);
    } else {
        const char *line = LINES[below(sizeof LINES / sizeof *LINES)];
        size_t len = strlen(line);
        memcpy(input, line, len);
        len = below(4) == 0 ? random_bytes(input) : changed(input, len);
        uint8_t *bytes = copy_of(input, len);
        answer = kormaglen_document_parse(schema, bytes, len, document);
        check(14, answer, none, 1);
        expect_closed(schema->at == NULL, answer);
        if (answer.status == KORMAGLEN_BAD_LINE) {
            check_refused(answer.detail, answer.place, answer.bytes, len);
        }
        if (answer.status == KORMAGLEN_BAD_LINE && answer.detail == KORMAGLEN_LINE_INVALID_JSON) {
            check_cut(schema, bytes, answer);
        }
        free(bytes);
    }
    if ((answer.status == KORMAGLEN_OK) != (document->at != NULL)) {
        fail("the answer is not what became of the document");
    }
}

/* Fills a handle, prints and writes its document, and reads back what was written, whether or not the handles hold something. */
static void document_once(kormaglen_schema *schema) {
    static kormaglen_document document;
    fill_document(schema, &document);
    int closed = schema->at == NULL || document.at == NULL;

    size_t width = below(LARGEST), room = below(64);
    uint32_t version = (uint32_t)below(5);
    uint8_t *text = fresh(width), *bytes = fresh(room), *again = fresh(width);
    kormaglen_answer printed = kormaglen_document_to_json(&document, schema, text, width);
    check(15, printed, text, width);
    expect_closed(closed, printed);
    kormaglen_answer written = kormaglen_document_write(&document, schema, version, bytes, room);
    check(16, written, bytes, room);
    expect_closed(closed, written);
    if (written.status == KORMAGLEN_OK) {
        kormaglen_document back = {0};
        kormaglen_answer read = kormaglen_document_read(version, bytes, (size_t)written.bytes, &back);
        if (read.status != KORMAGLEN_OK || read.bytes != written.bytes) {
            fail("what was written is not read back");
        }
        kormaglen_answer same = kormaglen_document_to_json(&back, schema, again, width);
        if (same.status != printed.status || same.bytes != printed.bytes || memcmp(text, again, width) != 0) {
            fail("what was written is another document");
        }
        kormaglen_document_close(&back);
    }
    free(text);
    free(bytes);
    free(again);
    if (below(4) == 0) {
        kormaglen_document_close(&document);
        kormaglen_document_close(&document);
        if (document.at != NULL) {
            fail("a closed handle holds something");
        }
    }
}

/* By the schema, by one with fewer fields, and by none. */
static void documents_once(void) {
    static kormaglen_schema all, few;
    static const char FEW[] = "[{\"name\":\"s\",\"type\":\"text\",\"options\":{\"stored\":true}}]";
    if (all.at == NULL) {
        kormaglen_schema_open((const uint8_t *)SCHEMA, strlen(SCHEMA), &all);
        kormaglen_schema_open((const uint8_t *)FEW, strlen(FEW), &few);
    }
    kormaglen_schema none = {0};
    switch (below(8)) {
    case 0:
        document_once(&none);
        break;
    case 1:
    case 2:
        document_once(&few);
        break;
    default:
        document_once(&all);
    }
}

int main(int count, char **words) {
    long seconds = count > 1 ? atol(words[1]) : 60;
    state ^= count > 2 ? strtoull(words[2], NULL, 10) : 0;
    time_t end = time(NULL) + seconds;
    while (time(NULL) < end) {
        for (int i = 0; i < 100; i++) {
            import_once();
            export_once();
            migrate_once();
            find_once();
            facet_once(4);
            facet_once(5);
            terms_once();
            term_once(7);
            term_once(8);
            term_text_once();
            handle_once();
            query_once();
            block_once();
            count_once();
            documents_once();
            arguments_once();
        }
    }
    static const char *const NAMES[] = {"import_lines", "export_block", "migrate_block", "find_field", "facet_of_text", "text_of_facet",
                                         "terms_of_block", "term_of_text", "end_of_prefix", "schema_open", "schema_import_lines",
                                         "schema_export_block", "schema_find_field", "document_read", "document_parse",
                                         "document_to_json", "document_write", "schema_to_json", "arguments", "terms_of_text",
                                         "ranges_of_text", "values_of_block", "schema_terms", "count_facets", "text_of_term"};
    for (int i = 0; i < CALLS; i++) {
        printf("%-19s %10llu calls, %10llu accepted\n", NAMES[i], (unsigned long long)calls[i], (unsigned long long)accepted[i]);
    }
    return 0;
}
