/* Calls each function with arguments that can't be used, and with those that can: NULL pointers, overlapping and unaligned buffers, lengths that
 * no buffer has, closed handles, numbers that name nothing. Ends with 1 where an answer is another than the header says. */
#include "kormaglen.h"

#include <stdio.h>
#include <stdlib.h>
#include <string.h>

static const char SCHEMA[] = "[{\"name\":\"age\",\"type\":\"u64\",\"options\":{\"indexed\":true,\"stored\":true}}]";
static int failures;

static const uint8_t *bytes_of(const char *text) {
    return (const uint8_t *)text;
}

static void expect(const char *what, int holds) {
    if (!holds) {
        fprintf(stderr, "wrong: %s\n", what);
        failures += 1;
    }
}

static void expect_refused(const char *what, kormaglen_answer answer, uint32_t detail, uint64_t place) {
    int holds = answer.status == KORMAGLEN_BAD_ARGUMENT && answer.detail == detail && answer.place == place && answer.bytes == 0;
    if (!holds) {
        fprintf(stderr, "%s: status %u, detail %u, place %llu\n", what, (unsigned)answer.status, (unsigned)answer.detail,
            (unsigned long long)answer.place);
        failures += 1;
    }
}

static void test_null(void) {
    kormaglen_found_field found = {7, 7};
    kormaglen_line_answer answers[2];
    uint8_t buffer[64];
    expect_refused("text", kormaglen_facet_of_text(NULL, 1, buffer, sizeof buffer), KORMAGLEN_ARGUMENT_NULL, 1);
    expect_refused("encoded", kormaglen_facet_of_text(bytes_of("/a"), 2, NULL, 9), KORMAGLEN_ARGUMENT_NULL, 2);
    expect_refused("facet", kormaglen_text_of_facet(NULL, 1, buffer, sizeof buffer), KORMAGLEN_ARGUMENT_NULL, 1);
    expect_refused("found", kormaglen_find_field(bytes_of(SCHEMA), strlen(SCHEMA), bytes_of("age"), 3, NULL), KORMAGLEN_ARGUMENT_NULL, 3);
    expect_refused("path", kormaglen_find_field(bytes_of(SCHEMA), strlen(SCHEMA), NULL, 3, &found), KORMAGLEN_ARGUMENT_NULL, 2);
    expect("found stays as it was", found.field == 7 && found.rest == 7);
    expect_refused("answers", kormaglen_import_lines(bytes_of(SCHEMA), strlen(SCHEMA), NULL, 0, buffer, 64, NULL, 1), KORMAGLEN_ARGUMENT_NULL, 4);
    expect_refused("lines", kormaglen_import_lines(bytes_of(SCHEMA), strlen(SCHEMA), NULL, 1, buffer, 64, answers, 2), KORMAGLEN_ARGUMENT_NULL, 2);
    expect_refused("block", kormaglen_export_block(bytes_of(SCHEMA), strlen(SCHEMA), 2, NULL, 1, buffer, 64), KORMAGLEN_ARGUMENT_NULL, 2);
    expect_refused("migrated", kormaglen_migrate_block(2, buffer, 1, 3, NULL, 1), KORMAGLEN_ARGUMENT_NULL, 2);
    expect_refused("terms", kormaglen_terms_of_block(0, 2, buffer, 1, NULL, 1), KORMAGLEN_ARGUMENT_NULL, 2);
    expect_refused("parent", kormaglen_count_facets(NULL, 1, NULL, 0, buffer, 64), KORMAGLEN_ARGUMENT_NULL, 1);
    expect_refused("pairs", kormaglen_count_facets(NULL, 0, NULL, 1, buffer, 64), KORMAGLEN_ARGUMENT_NULL, 2);
    expect_refused("counts", kormaglen_count_facets(NULL, 0, NULL, 0, NULL, 1), KORMAGLEN_ARGUMENT_NULL, 3);
    expect_refused("term", kormaglen_term_of_text(0, NULL, 1, buffer, 64), KORMAGLEN_ARGUMENT_NULL, 1);
    expect_refused("term", kormaglen_text_of_term(NULL, 1, buffer, 64), KORMAGLEN_ARGUMENT_NULL, 1);
    expect_refused("text", kormaglen_text_of_term(buffer, 5, NULL, 1), KORMAGLEN_ARGUMENT_NULL, 2);
    expect_refused("prefix", kormaglen_end_of_prefix(NULL, 1, buffer, 64), KORMAGLEN_ARGUMENT_NULL, 1);
    expect_refused("schema", kormaglen_schema_open(bytes_of(SCHEMA), strlen(SCHEMA), NULL), KORMAGLEN_ARGUMENT_NULL, 2);
    expect_refused("schema", kormaglen_schema_to_json(NULL, buffer, 64), KORMAGLEN_ARGUMENT_NULL, 1);
    expect_refused("schema", kormaglen_schema_find_field(NULL, bytes_of("a"), 1, &found), KORMAGLEN_ARGUMENT_NULL, 1);
    expect_refused("schema", kormaglen_schema_import_lines(NULL, NULL, 0, NULL, 0, NULL, 0), KORMAGLEN_ARGUMENT_NULL, 1);
    expect_refused("schema", kormaglen_schema_export_block(NULL, 2, NULL, 0, NULL, 0), KORMAGLEN_ARGUMENT_NULL, 1);
    expect_refused("schema", kormaglen_schema_values_of_block(NULL, bytes_of("age"), 3, 2, NULL, 0, buffer, 64), KORMAGLEN_ARGUMENT_NULL, 1);
    expect_refused("schema", kormaglen_schema_terms_of_block(NULL, 2, 0, NULL, 0, buffer, 64), KORMAGLEN_ARGUMENT_NULL, 1);
    expect_refused("schema", kormaglen_schema_terms_of_text(NULL, bytes_of("age"), 3, bytes_of("7"), 1, buffer, 64), KORMAGLEN_ARGUMENT_NULL, 1);
    expect_refused("schema", kormaglen_schema_ranges_of_text(NULL, bytes_of("age"), 3, bytes_of("*"), 1, buffer, 64), KORMAGLEN_ARGUMENT_NULL, 1);
    expect_refused("document", kormaglen_document_read(2, buffer, 1, NULL), KORMAGLEN_ARGUMENT_NULL, 2);
    kormaglen_schema schema = {0};
    kormaglen_document document = {0};
    expect_refused("document", kormaglen_document_parse(&schema, bytes_of("{}"), 2, NULL), KORMAGLEN_ARGUMENT_NULL, 3);
    expect_refused("schema", kormaglen_document_to_json(&document, NULL, buffer, 64), KORMAGLEN_ARGUMENT_NULL, 2);
    expect_refused("bytes", kormaglen_document_write(&document, &schema, 2, NULL, 1), KORMAGLEN_ARGUMENT_NULL, 3);
    expect_refused("name", kormaglen_schema_values_of_block(&schema, NULL, 3, 2, NULL, 0, buffer, 64), KORMAGLEN_ARGUMENT_NULL, 2);
    expect_refused("block", kormaglen_schema_values_of_block(&schema, bytes_of("age"), 3, 2, NULL, 1, buffer, 64), KORMAGLEN_ARGUMENT_NULL, 3);
    expect_refused("values", kormaglen_schema_values_of_block(&schema, bytes_of("age"), 3, 2, NULL, 0, NULL, 1), KORMAGLEN_ARGUMENT_NULL, 4);
    expect_refused("block", kormaglen_schema_terms_of_block(&schema, 2, 0, NULL, 1, buffer, 64), KORMAGLEN_ARGUMENT_NULL, 2);
    expect_refused("terms", kormaglen_schema_terms_of_block(&schema, 2, 0, NULL, 0, NULL, 1), KORMAGLEN_ARGUMENT_NULL, 3);
    expect_refused("path", kormaglen_schema_terms_of_text(&schema, NULL, 3, bytes_of("7"), 1, buffer, 64), KORMAGLEN_ARGUMENT_NULL, 2);
    expect_refused("text", kormaglen_schema_terms_of_text(&schema, bytes_of("age"), 3, NULL, 1, buffer, 64), KORMAGLEN_ARGUMENT_NULL, 3);
    expect_refused("terms", kormaglen_schema_terms_of_text(&schema, bytes_of("age"), 3, bytes_of("7"), 1, NULL, 1), KORMAGLEN_ARGUMENT_NULL, 4);
    expect_refused("path", kormaglen_schema_ranges_of_text(&schema, NULL, 3, bytes_of("*"), 1, buffer, 64), KORMAGLEN_ARGUMENT_NULL, 2);
    expect_refused("text", kormaglen_schema_ranges_of_text(&schema, bytes_of("age"), 3, NULL, 1, buffer, 64), KORMAGLEN_ARGUMENT_NULL, 3);
    expect_refused("ranges", kormaglen_schema_ranges_of_text(&schema, bytes_of("age"), 3, bytes_of("*"), 1, NULL, 1), KORMAGLEN_ARGUMENT_NULL, 4);
    kormaglen_schema_close(NULL);
    kormaglen_document_close(NULL);
}

/* A pointer may be NULL where its length is 0: each call answers as for an empty buffer. */
static void test_empty(void) {
    kormaglen_found_field found = {7, 7};
    kormaglen_schema schema = {0};
    kormaglen_document document = {0};
    expect("no facet", kormaglen_facet_of_text(NULL, 0, NULL, 0).status == KORMAGLEN_NOT_A_FACET);
    kormaglen_answer root = kormaglen_text_of_facet(NULL, 0, NULL, 0);
    expect("the root takes a byte", root.status == KORMAGLEN_TOO_SMALL && root.bytes == 1);
    expect("no JSON", kormaglen_find_field(NULL, 0, NULL, 0, &found).status == KORMAGLEN_INVALID_JSON);
    expect("nothing found", found.field == 0 && found.rest == 0);
    expect("no JSON", kormaglen_import_lines(NULL, 0, NULL, 0, NULL, 0, NULL, 0).status == KORMAGLEN_INVALID_JSON);
    expect("no line", kormaglen_import_lines(bytes_of(SCHEMA), strlen(SCHEMA), NULL, 0, NULL, 0, NULL, 0).status == KORMAGLEN_OK);
    expect("no document", kormaglen_export_block(bytes_of(SCHEMA), strlen(SCHEMA), 2, NULL, 0, NULL, 0).status == KORMAGLEN_OK);
    expect("no document", kormaglen_migrate_block(2, NULL, 0, 3, NULL, 0).status == KORMAGLEN_OK);
    expect("no term", kormaglen_terms_of_block(0, 2, NULL, 0, NULL, 0).status == KORMAGLEN_OK);
    expect("no pair", kormaglen_count_facets(NULL, 0, NULL, 0, NULL, 0).status == KORMAGLEN_OK);
    kormaglen_answer term = kormaglen_term_of_text(0, NULL, 0, NULL, 0);
    expect("the term of an empty text has field and type", term.status == KORMAGLEN_TOO_SMALL && term.bytes == 5);
    expect("no term", kormaglen_text_of_term(NULL, 0, NULL, 0).status == KORMAGLEN_NOT_A_TERM);
    expect("no end", kormaglen_end_of_prefix(NULL, 0, NULL, 0).status == KORMAGLEN_NO_END);
    expect("no JSON", kormaglen_schema_open(NULL, 0, &schema).status == KORMAGLEN_INVALID_JSON);
    expect("no bytes", kormaglen_document_read(2, NULL, 0, &document).status == KORMAGLEN_BAD_DOCUMENT);
    expect("open", kormaglen_schema_open(bytes_of(SCHEMA), strlen(SCHEMA), &schema).status == KORMAGLEN_OK);
    expect("no path", kormaglen_schema_find_field(&schema, NULL, 0, &found).status == KORMAGLEN_NO_FIELD);
    expect("no name", kormaglen_schema_values_of_block(&schema, NULL, 0, 2, NULL, 0, NULL, 0).status == KORMAGLEN_NO_FIELD);
    expect("no document", kormaglen_schema_values_of_block(&schema, bytes_of("age"), 3, 2, NULL, 0, NULL, 0).status == KORMAGLEN_OK);
    expect("no document", kormaglen_schema_terms_of_block(&schema, 2, 0, NULL, 0, NULL, 0).status == KORMAGLEN_OK);
    expect("no path", kormaglen_schema_terms_of_text(&schema, NULL, 0, NULL, 0, NULL, 0).status == KORMAGLEN_NO_FIELD);
    kormaglen_answer no_number = kormaglen_schema_terms_of_text(&schema, bytes_of("age"), 3, NULL, 0, NULL, 0);
    expect("no number", no_number.status == KORMAGLEN_BAD_QUERY && no_number.detail == KORMAGLEN_QUERY_WRONG_TYPE && no_number.place == 0);
    kormaglen_answer no_range = kormaglen_schema_ranges_of_text(&schema, NULL, 0, NULL, 0, NULL, 0);
    expect("no range", no_range.status == KORMAGLEN_BAD_QUERY && no_range.detail == KORMAGLEN_QUERY_NO_RANGE && no_range.place == 0);
    expect("no line", kormaglen_document_parse(&schema, NULL, 0, &document).status == KORMAGLEN_BAD_LINE);
    kormaglen_answer odd = kormaglen_document_parse(&schema, bytes_of("{\"age\" 7}"), 9, &document);
    expect("no colon", odd.status == KORMAGLEN_BAD_LINE && odd.detail == KORMAGLEN_LINE_INVALID_JSON);
    expect("no colon", odd.place == KORMAGLEN_JSON_COLON && odd.bytes == 7 && odd.lines == 0);
    kormaglen_schema_close(&schema);
}

static void test_overlap(void) {
    uint8_t both[64] = "/a/b";
    expect_refused("the same buffer", kormaglen_facet_of_text(both, 4, both, 64), KORMAGLEN_ARGUMENT_OVERLAP, 2);
    expect_refused("one byte", kormaglen_facet_of_text(both, 4, both + 3, 60), KORMAGLEN_ARGUMENT_OVERLAP, 2);
    expect("the next byte", kormaglen_facet_of_text(both, 4, both + 4, 60).status == KORMAGLEN_OK);
    expect("the input stays", memcmp(both, "/a/b", 4) == 0);
    expect("an empty one", kormaglen_facet_of_text(both, 4, both, 0).status == KORMAGLEN_TOO_SMALL);
    kormaglen_found_field found;
    expect("inputs may", kormaglen_find_field(bytes_of(SCHEMA), strlen(SCHEMA), bytes_of(SCHEMA), 3, &found).status == KORMAGLEN_NO_FIELD);
    union {
        kormaglen_schema schema;
        uint8_t bytes[64];
    } shared = {{0}};
    expect_refused("a handle", kormaglen_schema_to_json(&shared.schema, shared.bytes, 64), KORMAGLEN_ARGUMENT_OVERLAP, 2);
    expect_refused("a handle", kormaglen_schema_open(shared.bytes, 64, &shared.schema), KORMAGLEN_ARGUMENT_OVERLAP, 2);
    expect_refused("a handle", kormaglen_schema_terms_of_text(&shared.schema, shared.bytes, 3, NULL, 0, NULL, 0), KORMAGLEN_ARGUMENT_OVERLAP, 2);
    expect_refused("a handle", kormaglen_schema_ranges_of_text(&shared.schema, NULL, 0, shared.bytes, 3, NULL, 0), KORMAGLEN_ARGUMENT_OVERLAP, 3);
    kormaglen_schema closed = {0};
    expect_refused("path and terms", kormaglen_schema_terms_of_text(&closed, both, 4, NULL, 0, both, 64), KORMAGLEN_ARGUMENT_OVERLAP, 4);
    expect_refused("text and ranges", kormaglen_schema_ranges_of_text(&closed, NULL, 0, both, 4, both + 3, 60), KORMAGLEN_ARGUMENT_OVERLAP, 4);
    expect("inputs may", kormaglen_schema_terms_of_text(&closed, both, 4, both, 4, both + 4, 60).status == KORMAGLEN_CLOSED);
    expect_refused("name and values", kormaglen_schema_values_of_block(&closed, both, 4, 2, NULL, 0, both, 64), KORMAGLEN_ARGUMENT_OVERLAP, 4);
    expect_refused("block and values", kormaglen_schema_values_of_block(&closed, NULL, 0, 2, both, 4, both + 3, 60), KORMAGLEN_ARGUMENT_OVERLAP, 4);
    expect_refused("block and terms", kormaglen_schema_terms_of_block(&closed, 2, 0, both, 4, both + 3, 60), KORMAGLEN_ARGUMENT_OVERLAP, 3);
    expect_refused("a handle", kormaglen_schema_terms_of_block(&shared.schema, 2, 0, shared.bytes, 3, NULL, 0), KORMAGLEN_ARGUMENT_OVERLAP, 2);
    expect_refused("parent and counts", kormaglen_count_facets(both, 4, NULL, 0, both, 64), KORMAGLEN_ARGUMENT_OVERLAP, 3);
    expect_refused("pairs and counts", kormaglen_count_facets(NULL, 0, both, 4, both + 3, 60), KORMAGLEN_ARGUMENT_OVERLAP, 3);
    expect("inputs may", kormaglen_count_facets(both, 4, both, 4, both + 4, 60).status == KORMAGLEN_BAD_PAIRS);
    kormaglen_line_answer answers[4];
    expect_refused("block and answers",
        kormaglen_import_lines(bytes_of(SCHEMA), strlen(SCHEMA), bytes_of("{}"), 2, (uint8_t *)answers, sizeof answers, answers, 4),
        KORMAGLEN_ARGUMENT_OVERLAP, 4);
}

static void test_size(void) {
    uint8_t buffer[64] = {0};
    expect_refused("too long", kormaglen_facet_of_text(buffer, SIZE_MAX, NULL, 0), KORMAGLEN_ARGUMENT_TOO_LARGE, 1);
    expect_refused("too long", kormaglen_facet_of_text(buffer, (size_t)PTRDIFF_MAX + 1, NULL, 0), KORMAGLEN_ARGUMENT_TOO_LARGE, 1);
    kormaglen_line_answer answers[2];
    expect_refused("too many", kormaglen_import_lines(NULL, 0, NULL, 0, NULL, 0, answers, SIZE_MAX / 8), KORMAGLEN_ARGUMENT_TOO_LARGE, 4);
    uint64_t words[8];
    kormaglen_line_answer *odd = (kormaglen_line_answer *)(void *)((uint8_t *)words + 1);
    expect_refused("unaligned", kormaglen_import_lines(NULL, 0, NULL, 0, NULL, 0, odd, 1), KORMAGLEN_ARGUMENT_UNALIGNED, 4);
}

/* A record of a document and a facet that is cut short is refused where it begins, whatever its length says. */
static void test_records(void) {
    static const uint8_t pairs[] = {1, 0, 0, 0, 0, 0, 0, 0, 1, 0, 0, 0, 0, 0, 0, 0, 'a', 2, 0, 0, 0, 0, 0, 0, 0, 0xFF, 0xFF, 0xFF, 0xFF, 0xFF, 0xFF, 0xFF, 0xFF, 'a'};
    static const uint8_t counts[] = {1, 0, 0, 0, 0, 0, 0, 0, 1, 0, 0, 0, 0, 0, 0, 0, 'a'};
    uint8_t written[17];
    kormaglen_answer one = kormaglen_count_facets(NULL, 0, pairs, 17, written, sizeof written);
    expect("one count", one.status == KORMAGLEN_OK && one.bytes == sizeof counts && memcmp(written, counts, sizeof counts) == 0);
    for (size_t len = 18; len <= sizeof pairs; len++) {
        kormaglen_answer cut = kormaglen_count_facets(NULL, 0, pairs, len, written, sizeof written);
        expect("cut short", cut.status == KORMAGLEN_BAD_PAIRS && cut.detail == 0 && cut.place == 17 && cut.bytes == 0);
    }
    expect("no UTF-8", kormaglen_count_facets(pairs + 32, 1, NULL, 0, NULL, 0).status == KORMAGLEN_NOT_UTF8);
}

/* The text of the term of each type, by the bytes of a term as tantivy has them. */
static void test_term_texts(void) {
    static const struct {
        const char *term;
        size_t len;
        const char *text;
    } of[] = {
        {"\0\0\0\1sAda", 8, "Ada"},
        {"\0\0\0\0s", 5, ""},
        {"\0\0\0\0u\0\0\0\0\0\0\0\x24", 13, "36"},
        {"\0\0\0\0i\x7F\xFF\xFF\xFF\xFF\xFF\xFF\xFF", 13, "-1"},
        {"\0\0\0\0o\0\0\0\0\0\0\0\1", 13, "true"},
        {"\0\0\0\0d\x80\0\0\0\0\0\0\0", 13, "1970-01-01T00:00:00Z"},
        {"\0\0\0\0hshop\0a/b", 13, "/shop/a\\/b"},
        {"\0\0\0\0b\0\1", 7, "AAE="},
        {"\0\0\0\0p\0\0\0\0\0\0\0\0\0\0\xFF\xFF\x7F\0\0\1", 21, "127.0.0.1"},
        {"\0\0\0\0ja\1b\0i\x80\0\0\0\0\0\0\7", 18, "7"},
    };
    uint8_t text[64];
    for (size_t i = 0; i < sizeof of / sizeof *of; i++) {
        kormaglen_answer answer = kormaglen_text_of_term(bytes_of(of[i].term), of[i].len, text, sizeof text);
        expect(of[i].text, answer.status == KORMAGLEN_OK && answer.bytes == strlen(of[i].text) && memcmp(text, of[i].text, strlen(of[i].text)) == 0);
    }
    static const struct {
        const char *bytes;
        size_t len;
    } none[] = {
        {"\0\0\0\0", 4},                        /* no type */
        {"\0\0\0\0x", 5},                       /* no type's letter */
        {"\0\0\0\0u\0\0\0\0\0\0\0", 12},      /* seven bytes */
        {"\0\0\0\0o\0\0\0\0\0\0\0\2", 13},     /* neither false nor true */
        {"\0\0\0\0s\xFF", 6},                   /* no UTF-8 */
        {"\0\0\0\0ja", 6},                      /* no zero byte ends the path */
        {"\0\0\0\0ja\0", 7},                    /* a path alone */
        {"\0\0\0\0ja\0jb\0sc", 11},             /* a value in JSON is no object */
    };
    for (size_t i = 0; i < sizeof none / sizeof *none; i++) {
        kormaglen_answer answer = kormaglen_text_of_term(bytes_of(none[i].bytes), none[i].len, text, sizeof text);
        expect("no term", answer.status == KORMAGLEN_NOT_A_TERM && answer.detail == 0 && answer.place == 0 && answer.bytes == 0);
    }
    kormaglen_answer size = kormaglen_text_of_term(bytes_of(of[0].term), of[0].len, text, 2);
    expect("the size", size.status == KORMAGLEN_TOO_SMALL && size.bytes == 3);
}

/* In version 2: the numbers 7 and 8, a text in place of a number, and 9. */
static const char THREE[] = "\x82\0\0\0\0\1\7\0\0\0\0\0\0\0\0\0\0\0\1\x08\0\0\0\0\0\0\0" "\x81\0\0\0\0\0\x81x" "\x81\0\0\0\0\1\x09\0\0\0\0\0\0\0";

/* Their records: a term whole, one that shares twelve bytes with it, the fault of document 1 in field 0, and a term whole. */
static const char RECORDS[] =
    "\0\0\0\0\0\0\0\0" "\0\0\0\0\0\0\0\0" "\x0D\0\0\0\0\0\0\0" "\0\0\0\0u\0\0\0\0\0\0\0\7"
    "\0\0\0\0\0\0\0\0" "\x0C\0\0\0\0\0\0\0" "\1\0\0\0\0\0\0\0" "\x08"
    "\1\0\0\0\0\0\0\0" "\xFF\xFF\xFF\xFF\xFF\xFF\xFF\xFF" "\x10\0\0\0\0\0\0\0" "\x10\0\0\0\0\0\0\0" "\0\0\0\0\0\0\0\0"
    "\2\0\0\0\0\0\0\0" "\0\0\0\0\0\0\0\0" "\x0D\0\0\0\0\0\0\0" "\0\0\0\0u\0\0\0\0\0\0\0\x09";

/* A document without terms is refused, or has a record, whichever is asked for; one that can't be read is refused in both cases. */
static void test_faults(void) {
    kormaglen_schema schema = {0};
    uint8_t terms[140], kept[140];
    size_t block_len = sizeof THREE - 1, len = sizeof RECORDS - 1;
    memset(kept, 0xA5, sizeof kept);
    memcpy(terms, kept, sizeof terms);
    expect("open", kormaglen_schema_open(bytes_of(SCHEMA), strlen(SCHEMA), &schema).status == KORMAGLEN_OK);
    kormaglen_answer refused = kormaglen_schema_terms_of_block(&schema, 2, 0, bytes_of(THREE), block_len, terms, sizeof terms);
    expect("refused", refused.status == KORMAGLEN_BAD_DOCUMENT && refused.detail == KORMAGLEN_DOCUMENT_WRONG_TYPE && refused.place == 27);
    kormaglen_answer small = kormaglen_schema_terms_of_block(&schema, 2, 1, bytes_of(THREE), block_len, terms, len - 1);
    expect("the size", small.status == KORMAGLEN_TOO_SMALL && small.bytes == len);
    kormaglen_answer cut = kormaglen_schema_terms_of_block(&schema, 2, 1, bytes_of(THREE), block_len - 1, terms, sizeof terms);
    expect("cut short", cut.status == KORMAGLEN_BAD_DOCUMENT && cut.detail == KORMAGLEN_DOCUMENT_UNEXPECTED_END && cut.place == 35);
    expect("nothing is written", memcmp(terms, kept, sizeof terms) == 0);
    static const uint32_t with_faults[] = {1, 2, 0x80000000, 0xFFFFFFFF};
    for (size_t i = 0; i < sizeof with_faults / sizeof *with_faults; i++) {
        memcpy(terms, kept, sizeof terms);
        kormaglen_answer listed = kormaglen_schema_terms_of_block(&schema, 2, with_faults[i], bytes_of(THREE), block_len, terms, sizeof terms);
        expect("records", listed.status == KORMAGLEN_OK && listed.bytes == len && memcmp(terms, RECORDS, len) == 0);
        expect("the rest stays", memcmp(terms + len, kept, sizeof terms - len) == 0);
    }
    kormaglen_schema_close(&schema);
}

static void test_numbers(void) {
    static const uint32_t none[] = {0, 4, 5, 0x7FFFFFFF, 0x80000000, 0xFFFFFFFF};
    for (size_t i = 0; i < sizeof none / sizeof *none; i++) {
        expect("no such version", kormaglen_migrate_block(none[i], NULL, 0, 3, NULL, 0).status == KORMAGLEN_WRONG_VERSION);
        expect("no such version", kormaglen_migrate_block(2, NULL, 0, none[i], NULL, 0).status == KORMAGLEN_WRONG_VERSION);
        expect("no such version", kormaglen_terms_of_block(0, none[i], NULL, 0, NULL, 0).status == KORMAGLEN_WRONG_VERSION);
    }
    expect("version 1 isn't written", kormaglen_migrate_block(1, NULL, 0, 1, NULL, 0).status == KORMAGLEN_WRONG_VERSION);
    uint8_t term[5];
    kormaglen_answer answer = kormaglen_term_of_text(0xFFFFFFFF, NULL, 0, term, sizeof term);
    expect("the largest field", answer.status == KORMAGLEN_OK && memcmp(term, "\xFF\xFF\xFF\xFFs", 5) == 0);
}

static void test_closed(void) {
    kormaglen_schema schema = {0};
    kormaglen_document document = {0};
    kormaglen_found_field found = {7, 7};
    uint8_t buffer[64];
    kormaglen_schema_close(&schema);
    kormaglen_document_close(&document);
    expect("closed", kormaglen_schema_to_json(&schema, buffer, 64).status == KORMAGLEN_CLOSED);
    expect("closed", kormaglen_schema_find_field(&schema, bytes_of("age"), 3, &found).status == KORMAGLEN_CLOSED);
    expect("closed", kormaglen_schema_import_lines(&schema, NULL, 0, NULL, 0, NULL, 0).status == KORMAGLEN_CLOSED);
    expect("closed", kormaglen_schema_export_block(&schema, 2, NULL, 0, NULL, 0).status == KORMAGLEN_CLOSED);
    expect("closed", kormaglen_schema_values_of_block(&schema, bytes_of("age"), 3, 2, NULL, 0, buffer, 64).status == KORMAGLEN_CLOSED);
    expect("closed", kormaglen_schema_terms_of_block(&schema, 2, 0, NULL, 0, buffer, 64).status == KORMAGLEN_CLOSED);
    expect("closed", kormaglen_schema_terms_of_text(&schema, bytes_of("age"), 3, bytes_of("7"), 1, buffer, 64).status == KORMAGLEN_CLOSED);
    expect("closed", kormaglen_schema_ranges_of_text(&schema, bytes_of("age"), 3, bytes_of("*"), 1, buffer, 64).status == KORMAGLEN_CLOSED);
    expect("closed", kormaglen_document_parse(&schema, bytes_of("{}"), 2, &document).status == KORMAGLEN_CLOSED);
    expect("open", kormaglen_schema_open(bytes_of(SCHEMA), strlen(SCHEMA), &schema).status == KORMAGLEN_OK);
    expect("closed", kormaglen_document_to_json(&document, &schema, buffer, 64).status == KORMAGLEN_CLOSED);
    expect("closed", kormaglen_document_write(&document, &schema, 2, buffer, 64).status == KORMAGLEN_CLOSED);
    kormaglen_schema_close(&schema);
}

/* Each number of the header has words of its own, and no other number has. */
static void test_texts(void) {
    expect("version", strncmp(kormaglen_version(), KORMAGLEN_VERSION, strlen(KORMAGLEN_VERSION)) == 0);
    for (uint32_t status = 0; status < 20; status++) {
        int is_known = status <= KORMAGLEN_NOT_A_TERM;
        expect("status", is_known != (strcmp(kormaglen_status_text(status), "unknown status") == 0));
        expect("line", (status <= KORMAGLEN_LINE_NO_ROOM) != (strcmp(kormaglen_line_status_text(status), "unknown status of a line") == 0));
    }
    for (uint32_t fault = 0; fault < 30; fault++) {
        expect("JSON", (fault <= KORMAGLEN_JSON_WORD) == (kormaglen_json_fault_text(fault)[0] != 0));
    }
    static const uint32_t last[] = {0, 0, 0, 0, 0, 0, KORMAGLEN_SCHEMA_EXPAND_DOTS, 0, KORMAGLEN_DOCUMENT_NO_TERM, 0, 0, KORMAGLEN_LINE_NO_ROOM,
        0, KORMAGLEN_QUERY_FLOAT, 0, 0, KORMAGLEN_ARGUMENT_OVERLAP, 0};
    for (uint32_t status = 0; status < sizeof last / sizeof *last; status++) {
        for (uint32_t detail = 0; detail < 30; detail++) {
            int is_gap = status == KORMAGLEN_BAD_QUERY && detail > KORMAGLEN_QUERY_BACKWARDS && detail < KORMAGLEN_QUERY_OVERFLOW;
            int is_known = detail >= 1 && detail <= last[status] && !is_gap;
            expect("detail", is_known == (kormaglen_detail_text(status, detail)[0] != 0));
        }
    }
}

int main(void) {
    test_null();
    test_empty();
    test_overlap();
    test_size();
    test_term_texts();
    test_faults();
    test_numbers();
    test_records();
    test_closed();
    test_texts();
    if (failures == 0) {
        printf("arguments: as the header says\n");
    }
    return failures == 0 ? 0 : 1;
}
