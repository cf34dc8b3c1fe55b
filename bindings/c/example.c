/* Imports lines of JSON into a block of stored documents, reads them back, sorts the terms of a field and finds those of a range, finds a
 * field and a facet, finds documents by texts of queries, lists the values of a field and
 * the terms of all, counts documents by their facets, and handles one document alone. */
#include "kormaglen.h"

#include <stdio.h>
#include <stdlib.h>
#include <string.h>

static const char SCHEMA[] =
    "[{\"name\":\"name\",\"type\":\"text\",\"options\":{\"stored\":true}},"
    "{\"name\":\"age\",\"type\":\"u64\",\"options\":{\"indexed\":true,\"stored\":true}},"
    "{\"name\":\"group\",\"type\":\"facet\",\"options\":{\"stored\":true}},"
    "{\"name\":\"more\",\"type\":\"json_object\",\"options\":{\"stored\":true,\"fast\":false}}]";

static const char LINES[] =
    "{\"name\":\"Ada\",\"age\":36,\"group\":\"/staff/research\"}\n"
    "{\"name\":\"Bob\",\"age\":\"old\"}\n"
    "{\"name\":[\"Alan\",\"Adam\"]}\n"
    "{\"name\":\"Cleo\",\"age\":7,\"more\":{\"tags\":[\"new\",true]}}\n";

static const uint8_t *bytes_of(const char *text) {
    return (const uint8_t *)text;
}

/* Ends the program where a call was refused. */
static void expect_ok(const char *call, kormaglen_answer answer) {
    if (answer.status != KORMAGLEN_OK) {
        fprintf(stderr, "%s: %s, at %llu: %s\n", call, kormaglen_status_text(answer.status), (unsigned long long)answer.place,
                kormaglen_detail_text(answer.status, answer.detail));
        exit(1);
    }
}

/* A buffer of the size that a call asked for. */
static uint8_t *buffer_of(uint64_t size) {
    uint8_t *buffer = malloc(size == 0 ? 1 : size);
    if (buffer == NULL) {
        fputs("no memory\n", stderr);
        exit(1);
    }
    return buffer;
}

/* A term, and the number of its document. */
struct found_term {
    uint64_t document;
    const uint8_t *bytes;
    uint64_t len;
};

static int compare_bytes(const uint8_t *a, uint64_t a_len, const uint8_t *b, uint64_t b_len) {
    int order = memcmp(a, b, (size_t)(a_len < b_len ? a_len : b_len));
    return order != 0 ? order : (a_len > b_len) - (a_len < b_len);
}

static int compare_terms(const void *a, const void *b) {
    const struct found_term *one = a, *other = b;
    return compare_bytes(one->bytes, one->len, other->bytes, other->len);
}

static uint64_t number_at(const uint8_t *bytes) {
    uint64_t number = 0;
    for (int i = 7; i >= 0; i--) {
        number = number << 8 | bytes[i];
    }
    return number;
}

/* Prints in order the documents whose text in field 0 begins with a prefix. */
static void print_range(const uint8_t *block, size_t block_len, const char *prefix) {
    uint8_t start[64], end[64];
    kormaglen_answer from = kormaglen_term_of_text(0, bytes_of(prefix), strlen(prefix), start, sizeof start);
    expect_ok("term", from);
    kormaglen_answer to = kormaglen_end_of_prefix(start, (size_t)from.bytes, end, sizeof end);
    expect_ok("end", to);

    kormaglen_answer size = kormaglen_terms_of_block(0, 2, block, block_len, NULL, 0);
    uint8_t *terms = buffer_of(size.bytes);
    kormaglen_answer listed = kormaglen_terms_of_block(0, 2, block, block_len, terms, (size_t)size.bytes);
    expect_ok("terms", listed);

    struct found_term found[16];
    size_t count = 0;
    for (uint64_t at = 0; at < listed.bytes && count < sizeof found / sizeof *found; count++) {
        found[count].document = number_at(terms + at);
        found[count].len = number_at(terms + at + 8);
        found[count].bytes = terms + at + 16;
        at += 16 + found[count].len;
    }
    qsort(found, count, sizeof *found, compare_terms);
    for (size_t i = 0; i < count; i++) {
        if (compare_bytes(found[i].bytes, found[i].len, start, from.bytes) >= 0 &&
            compare_bytes(found[i].bytes, found[i].len, end, to.bytes) < 0) {
            uint8_t text[64];
            kormaglen_answer printed = kormaglen_text_of_term(found[i].bytes, (size_t)found[i].len, text, sizeof text);
            expect_ok("text of a term", printed);
            printf("document %llu: %.*s\n", (unsigned long long)found[i].document, (int)printed.bytes, (const char *)text);
        }
    }
    free(terms);
}

/* Imports the lines: a first call without buffers asks for the sizes. Returns the block, and its size by `stored`. */
static uint8_t *import_block(kormaglen_schema *schema, size_t *stored) {
    kormaglen_answer size = kormaglen_schema_import_lines(schema, bytes_of(LINES), strlen(LINES), NULL, 0, NULL, 0);
    uint8_t *block = buffer_of(size.bytes);
    kormaglen_line_answer *answers = (kormaglen_line_answer *)(void *)buffer_of(size.lines * sizeof *answers);
    kormaglen_answer answer = kormaglen_schema_import_lines(schema, bytes_of(LINES), strlen(LINES), block, (size_t)size.bytes,
                                                            answers, (size_t)size.lines);
    expect_ok("import", answer);
    for (uint64_t line = 0; line < answer.lines; line++) {
        printf("line %llu: %s, %llu bytes\n", (unsigned long long)line + 1, kormaglen_line_status_text(answers[line].status),
               (unsigned long long)answers[line].bytes);
    }
    free(answers);
    *stored = (size_t)answer.bytes;
    return block;
}

static void print_block(kormaglen_schema *schema, const uint8_t *block, size_t len) {
    kormaglen_answer size = kormaglen_schema_export_block(schema, 2, block, len, NULL, 0);
    uint8_t *lines = buffer_of(size.bytes);
    kormaglen_answer answer = kormaglen_schema_export_block(schema, 2, block, len, lines, (size_t)size.bytes);
    expect_ok("export", answer);
    fwrite(lines, 1, (size_t)answer.bytes, stdout);
    free(lines);
}

static void find_paths(kormaglen_schema *schema) {
    const char *const paths[] = {"more.tags", "age"};
    for (size_t i = 0; i < sizeof paths / sizeof *paths; i++) {
        kormaglen_found_field found;
        expect_ok("find", kormaglen_schema_find_field(schema, bytes_of(paths[i]), strlen(paths[i]), &found));
        printf("field %u, path '%s'\n", (unsigned)found.field, paths[i] + found.rest);
    }
}

/* Prints the documents that have, in a field that is not of JSON objects, a value between the bounds of a text. */
static void print_between(kormaglen_schema *schema, const uint8_t *block, size_t block_len, const char *path, const char *text) {
    kormaglen_found_field found;
    expect_ok("find", kormaglen_schema_find_field(schema, bytes_of(path), strlen(path), &found));
    uint8_t range[64], terms[256];
    expect_ok("ranges", kormaglen_schema_ranges_of_text(schema, bytes_of(path), strlen(path), bytes_of(text), strlen(text), range, sizeof range));
    uint64_t start_len = number_at(range), end_len = number_at(range + 8);
    const uint8_t *start = range + 16, *end = start + start_len;

    kormaglen_answer listed = kormaglen_terms_of_block(found.field, 2, block, block_len, terms, sizeof terms);
    expect_ok("terms", listed);
    for (uint64_t at = 0; at < listed.bytes; at += 16 + number_at(terms + at + 8)) {
        const uint8_t *term = terms + at + 16;
        uint64_t len = number_at(terms + at + 8);
        /* (a range without an end has this length of it) */
        int is_below = end_len == UINT64_MAX || compare_bytes(term, len, end, end_len) < 0;
        if (is_below && compare_bytes(term, len, start, start_len) >= 0) {
            printf("%s %s: document %llu\n", path, text, (unsigned long long)number_at(terms + at));
        }
    }
}

/* Prints how many terms a text of a query has, or why it has none. */
static void print_query(kormaglen_schema *schema, const char *path, const char *text) {
    uint8_t terms[256];
    kormaglen_answer listed = kormaglen_schema_terms_of_text(schema, bytes_of(path), strlen(path), bytes_of(text), strlen(text), terms, sizeof terms);
    if (listed.status == KORMAGLEN_BAD_QUERY) {
        printf("field %llu: %s\n", (unsigned long long)listed.place, kormaglen_detail_text(listed.status, listed.detail));
        return;
    }
    expect_ok("terms", listed);
    int count = 0;
    for (uint64_t at = 0; at < listed.bytes; at += 8 + number_at(terms + at)) {
        count += 1;
    }
    printf("%s %s: %d term, %llu bytes\n", path, text, count, (unsigned long long)listed.bytes);
}

/* Prints the texts that a field has, and which documents have them. */
static void print_values(kormaglen_schema *schema, const uint8_t *block, size_t block_len, const char *name) {
    uint8_t values[256];
    kormaglen_answer listed =
        kormaglen_schema_values_of_block(schema, bytes_of(name), strlen(name), 2, block, block_len, values, sizeof values);
    expect_ok("values", listed);
    for (uint64_t at = 0; at < listed.bytes; at += 24 + number_at(values + at + 16)) {
        if (number_at(values + at + 8) == KORMAGLEN_VALUE_TEXT) {
            printf("document %llu: %s %.*s\n", (unsigned long long)number_at(values + at), name, (int)number_at(values + at + 16),
                   (const char *)values + at + 24);
        }
    }
}

/* Prints how many terms the documents have in all fields that are indexed. */
static void print_all_terms(kormaglen_schema *schema, const uint8_t *block, size_t block_len) {
    uint8_t terms[256];
    kormaglen_answer listed = kormaglen_schema_terms_of_block(schema, 2, 0, block, block_len, terms, sizeof terms);
    expect_ok("terms", listed);
    int count = 0;
    for (uint64_t at = 0; at < listed.bytes; at += 24 + number_at(terms + at + 16)) {
        count += 1;
    }
    printf("terms by the schema: %d\n", count);
}

/* Prints the children of the root, and how many documents have a facet at or below each in a field of facets. */
static void print_counts(kormaglen_schema *schema, const uint8_t *block, size_t block_len, const char *name) {
    uint8_t values[256], pairs[256], counts[256], text[64];
    kormaglen_answer listed =
        kormaglen_schema_values_of_block(schema, bytes_of(name), strlen(name), 2, block, block_len, values, sizeof values);
    expect_ok("values", listed);
    size_t pairs_len = 0;
    for (uint64_t at = 0; at < listed.bytes; at += 24 + number_at(values + at + 16)) {
        /* (a pair has the number, the length and the facet, and so a value's record without the kind) */
        size_t rest = 8 + (size_t)number_at(values + at + 16);
        memcpy(pairs + pairs_len, values + at, 8);
        memcpy(pairs + pairs_len + 8, values + at + 16, rest);
        pairs_len += 8 + rest;
    }
    kormaglen_answer counted = kormaglen_count_facets(NULL, 0, pairs, pairs_len, counts, sizeof counts);
    expect_ok("count", counted);
    for (uint64_t at = 0; at < counted.bytes; at += 16 + number_at(counts + at + 8)) {
        kormaglen_answer named = kormaglen_text_of_facet(counts + at + 16, (size_t)number_at(counts + at + 8), text, sizeof text);
        expect_ok("text", named);
        printf("%.*s: %llu\n", (int)named.bytes, (const char *)text, (unsigned long long)number_at(counts + at));
    }
}

/* One document at a time: of a line, written in version 3, and read back. */
static void handle_one(kormaglen_schema *schema) {
    kormaglen_document document = {0};
    const char *const line = "{\"name\":\"Dora\",\"age\":41}";
    expect_ok("parse", kormaglen_document_parse(schema, bytes_of(line), strlen(line), &document));
    uint8_t bytes[64], json[64];
    kormaglen_answer written = kormaglen_document_write(&document, schema, 3, bytes, sizeof bytes);
    expect_ok("write", written);
    expect_ok("read", kormaglen_document_read(3, bytes, (size_t)written.bytes, &document));
    kormaglen_answer shown = kormaglen_document_to_json(&document, schema, json, sizeof json);
    expect_ok("to_json", shown);
    printf("%.*s takes %llu bytes\n", (int)shown.bytes, (const char *)json, (unsigned long long)written.bytes);

    const char *const bad = "{\"age\":\"old\"}";
    kormaglen_answer refused = kormaglen_document_parse(schema, bytes_of(bad), strlen(bad), &document);
    printf("field %llu: %s\n", (unsigned long long)refused.place, kormaglen_detail_text(refused.status, refused.detail));
    kormaglen_document_close(&document);
}

static void print_facet(void) {
    uint8_t facet[64], back[64];
    const char text[] = "/staff/research";
    kormaglen_answer encoded = kormaglen_facet_of_text(bytes_of(text), strlen(text), facet, sizeof facet);
    expect_ok("facet", encoded);
    kormaglen_answer named = kormaglen_text_of_facet(facet, (size_t)encoded.bytes, back, sizeof back);
    expect_ok("text", named);
    printf("%.*s takes %llu bytes\n", (int)named.bytes, (const char *)back, (unsigned long long)encoded.bytes);
}

int main(void) {
    /* A handle reads the schema once. */
    kormaglen_schema schema = {0};
    expect_ok("open", kormaglen_schema_open(bytes_of(SCHEMA), strlen(SCHEMA), &schema));
    size_t stored = 0;
    uint8_t *block = import_block(&schema, &stored);
    print_block(&schema, block, stored);
    print_range(block, stored, "Ad");

    kormaglen_answer size = kormaglen_migrate_block(2, block, stored, 3, NULL, 0);
    uint8_t *migrated = buffer_of(size.bytes);
    kormaglen_answer moved = kormaglen_migrate_block(2, block, stored, 3, migrated, (size_t)size.bytes);
    expect_ok("migrate", moved);
    printf("version 2 takes %llu bytes, version 3 %llu\n", (unsigned long long)stored, (unsigned long long)moved.bytes);

    find_paths(&schema);
    print_between(&schema, block, stored, "age", "[7 TO 36}");
    print_query(&schema, "age", "36");
    print_query(&schema, "more.tags", "new");
    print_values(&schema, block, stored, "name");
    print_all_terms(&schema, block, stored);
    print_counts(&schema, block, stored, "group");
    handle_one(&schema);
    print_facet();
    kormaglen_schema_close(&schema);
    free(block);
    free(migrated);
    return 0;
}
