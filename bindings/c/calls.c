/* The calls of kormaglen.h. Each tests the pointers and the lengths that it is given, and hands them to the proved call. */
#include "raw.h"

#include <stdbool.h>

/* Where a call reads or writes: `count` items of a size, which begin at a pointer. */
typedef struct region {
    const void *start;
    size_t count;
    size_t item;
    size_t alignment;
    bool is_written;
} region;

/* What a NULL pointer with length 0 stands for: the proved calls want a pointer that isn't NULL, and touch nothing at it. */
static uint64_t nothing[1];

static const uint8_t *input(const uint8_t *bytes) {
    return bytes != NULL ? bytes : (const uint8_t *)nothing;
}

static uint8_t *output(uint8_t *bytes) {
    return bytes != NULL ? bytes : (uint8_t *)nothing;
}

static kormaglen_line_answer *line_answers(kormaglen_line_answer *answers) {
    return answers != NULL ? answers : (kormaglen_line_answer *)(void *)nothing;
}

static region reads(const uint8_t *bytes, size_t count) {
    return (region){bytes, count, 1, 1, false};
}

static region writes(uint8_t *bytes, size_t count) {
    return (region){bytes, count, 1, 1, true};
}

static region writes_answers(kormaglen_line_answer *answers, size_t count) {
    return (region){answers, count, sizeof *answers, sizeof(uint64_t), true};
}

static region uses_schema(kormaglen_schema *schema) {
    return (region){schema, 1, sizeof *schema, sizeof(void *), true};
}

static region uses_document(kormaglen_document *document) {
    return (region){document, 1, sizeof *document, sizeof(void *), true};
}

static region writes_field(kormaglen_found_field *found) {
    return (region){found, 1, sizeof *found, sizeof(uint64_t), true};
}

static uintptr_t start_of(region one) {
    return (uintptr_t)one.start;
}

/* What is wrong with a region by itself, of kormaglen_argument_detail, or 0. */
static uint32_t fault_of(region one) {
    if (one.count == 0) {
        return 0;
    }
    if (one.start == NULL) {
        return KORMAGLEN_ARGUMENT_NULL;
    }
    if (one.count > PTRDIFF_MAX / one.item || one.count * one.item > UINTPTR_MAX - start_of(one)) {
        return KORMAGLEN_ARGUMENT_TOO_LARGE;
    }
    return start_of(one) % one.alignment == 0 ? 0 : KORMAGLEN_ARGUMENT_UNALIGNED;
}

static bool is_apart(region one, region other) {
    if (one.count == 0 || other.count == 0) {
        return true;
    }
    return start_of(one) + one.count * one.item <= start_of(other) || start_of(other) + other.count * other.item <= start_of(one);
}

static kormaglen_answer refused(uint32_t detail, size_t place) {
    return (kormaglen_answer){.status = KORMAGLEN_BAD_ARGUMENT, .detail = detail, .place = place + 1};
}

/* Whether all regions may be handed on: the answer's status is KORMAGLEN_OK, or else its place is the number of the first that may not. */
static kormaglen_answer test(const region *regions, size_t count) {
    for (size_t i = 0; i < count; i++) {
        uint32_t fault = fault_of(regions[i]);
        if (fault != 0) {
            return refused(fault, i);
        }
        for (size_t j = 0; j < i; j++) {
            if ((regions[i].is_written || regions[j].is_written) && !is_apart(regions[i], regions[j])) {
                return refused(KORMAGLEN_ARGUMENT_OVERLAP, i);
            }
        }
    }
    return (kormaglen_answer){.status = KORMAGLEN_OK};
}

/* Returns from a call whose regions may not be handed on. */
#define REFUSE_UNLESS_GOOD(...)                                                                  \
    do {                                                                                         \
        const region regions[] = {__VA_ARGS__};                                                  \
        const kormaglen_answer tested = test(regions, sizeof regions / sizeof *regions);         \
        if (tested.status != KORMAGLEN_OK) {                                                     \
            return tested;                                                                       \
        }                                                                                        \
    } while (0)

kormaglen_answer kormaglen_import_lines(
    const uint8_t *schema, size_t schema_len, const uint8_t *lines, size_t lines_len,
    uint8_t *block, size_t block_len, kormaglen_line_answer *answers, size_t answers_len) {
    REFUSE_UNLESS_GOOD(
        reads(schema, schema_len), reads(lines, lines_len), writes(block, block_len), writes_answers(answers, answers_len));
    return raw_import_lines(
        input(schema), schema_len, input(lines), lines_len, output(block), block_len, line_answers(answers), answers_len);
}

kormaglen_answer kormaglen_export_block(
    const uint8_t *schema, size_t schema_len, uint32_t version, const uint8_t *block, size_t block_len,
    uint8_t *lines, size_t lines_len) {
    REFUSE_UNLESS_GOOD(reads(schema, schema_len), reads(block, block_len), writes(lines, lines_len));
    return raw_export_block(input(schema), schema_len, version, input(block), block_len, output(lines), lines_len);
}

kormaglen_answer kormaglen_migrate_block(
    uint32_t from, const uint8_t *block, size_t block_len, uint32_t to, uint8_t *migrated, size_t migrated_len) {
    REFUSE_UNLESS_GOOD(reads(block, block_len), writes(migrated, migrated_len));
    return raw_migrate_block(from, input(block), block_len, to, output(migrated), migrated_len);
}

kormaglen_answer kormaglen_find_field(
    const uint8_t *schema, size_t schema_len, const uint8_t *path, size_t path_len, kormaglen_found_field *found) {
    REFUSE_UNLESS_GOOD(reads(schema, schema_len), reads(path, path_len), writes_field(found));
    return raw_find_field(input(schema), schema_len, input(path), path_len, found);
}

kormaglen_answer kormaglen_facet_of_text(const uint8_t *text, size_t text_len, uint8_t *encoded, size_t encoded_len) {
    REFUSE_UNLESS_GOOD(reads(text, text_len), writes(encoded, encoded_len));
    return raw_facet_of_text(input(text), text_len, output(encoded), encoded_len);
}

kormaglen_answer kormaglen_text_of_facet(const uint8_t *encoded, size_t encoded_len, uint8_t *text, size_t text_len) {
    REFUSE_UNLESS_GOOD(reads(encoded, encoded_len), writes(text, text_len));
    return raw_text_of_facet(input(encoded), encoded_len, output(text), text_len);
}

kormaglen_answer kormaglen_count_facets(
    const uint8_t *parent, size_t parent_len, const uint8_t *pairs, size_t pairs_len, uint8_t *counts, size_t counts_len) {
    REFUSE_UNLESS_GOOD(reads(parent, parent_len), reads(pairs, pairs_len), writes(counts, counts_len));
    return raw_count_facets(input(parent), parent_len, input(pairs), pairs_len, output(counts), counts_len);
}

kormaglen_answer kormaglen_terms_of_block(
    uint32_t field, uint32_t version, const uint8_t *block, size_t block_len, uint8_t *terms, size_t terms_len) {
    REFUSE_UNLESS_GOOD(reads(block, block_len), writes(terms, terms_len));
    return raw_terms_of_block(field, version, input(block), block_len, output(terms), terms_len);
}

kormaglen_answer kormaglen_term_of_text(
    uint32_t field, const uint8_t *text, size_t text_len, uint8_t *term, size_t term_len) {
    REFUSE_UNLESS_GOOD(reads(text, text_len), writes(term, term_len));
    return raw_term_of_text(field, input(text), text_len, output(term), term_len);
}

kormaglen_answer kormaglen_text_of_term(const uint8_t *term, size_t term_len, uint8_t *text, size_t text_len) {
    REFUSE_UNLESS_GOOD(reads(term, term_len), writes(text, text_len));
    return raw_text_of_term(input(term), term_len, output(text), text_len);
}

kormaglen_answer kormaglen_end_of_prefix(const uint8_t *prefix, size_t prefix_len, uint8_t *end, size_t end_len) {
    REFUSE_UNLESS_GOOD(reads(prefix, prefix_len), writes(end, end_len));
    return raw_end_of_prefix(input(prefix), prefix_len, output(end), end_len);
}

kormaglen_answer kormaglen_schema_open(const uint8_t *json, size_t json_len, kormaglen_schema *schema) {
    REFUSE_UNLESS_GOOD(reads(json, json_len), uses_schema(schema));
    return raw_schema_open(input(json), json_len, schema);
}

void kormaglen_schema_close(kormaglen_schema *schema) {
    if (fault_of(uses_schema(schema)) == 0) {
        raw_schema_close(schema);
    }
}

kormaglen_answer kormaglen_schema_to_json(kormaglen_schema *schema, uint8_t *text, size_t text_len) {
    REFUSE_UNLESS_GOOD(uses_schema(schema), writes(text, text_len));
    return raw_schema_to_json(schema, output(text), text_len);
}

kormaglen_answer kormaglen_schema_find_field(
    kormaglen_schema *schema, const uint8_t *path, size_t path_len, kormaglen_found_field *found) {
    REFUSE_UNLESS_GOOD(uses_schema(schema), reads(path, path_len), writes_field(found));
    return raw_schema_find_field(schema, input(path), path_len, found);
}

kormaglen_answer kormaglen_schema_import_lines(
    kormaglen_schema *schema, const uint8_t *lines, size_t lines_len,
    uint8_t *block, size_t block_len, kormaglen_line_answer *answers, size_t answers_len) {
    REFUSE_UNLESS_GOOD(
        uses_schema(schema), reads(lines, lines_len), writes(block, block_len), writes_answers(answers, answers_len));
    return raw_schema_import_lines(
        schema, input(lines), lines_len, output(block), block_len, line_answers(answers), answers_len);
}

kormaglen_answer kormaglen_schema_export_block(
    kormaglen_schema *schema, uint32_t version, const uint8_t *block, size_t block_len, uint8_t *lines, size_t lines_len) {
    REFUSE_UNLESS_GOOD(uses_schema(schema), reads(block, block_len), writes(lines, lines_len));
    return raw_schema_export_block(schema, version, input(block), block_len, output(lines), lines_len);
}

kormaglen_answer kormaglen_schema_values_of_block(
    kormaglen_schema *schema, const uint8_t *name, size_t name_len, uint32_t version, const uint8_t *block, size_t block_len,
    uint8_t *values, size_t values_len) {
    REFUSE_UNLESS_GOOD(uses_schema(schema), reads(name, name_len), reads(block, block_len), writes(values, values_len));
    return raw_schema_values_of_block(
        schema, input(name), name_len, version, input(block), block_len, output(values), values_len);
}

kormaglen_answer kormaglen_schema_terms_of_block(
    kormaglen_schema *schema, uint32_t version, uint32_t with_faults, const uint8_t *block, size_t block_len, uint8_t *terms,
    size_t terms_len) {
    REFUSE_UNLESS_GOOD(uses_schema(schema), reads(block, block_len), writes(terms, terms_len));
    return raw_schema_terms_of_block(schema, version, with_faults, input(block), block_len, output(terms), terms_len);
}

kormaglen_answer kormaglen_schema_terms_of_text(
    kormaglen_schema *schema, const uint8_t *path, size_t path_len, const uint8_t *text, size_t text_len,
    uint8_t *terms, size_t terms_len) {
    REFUSE_UNLESS_GOOD(uses_schema(schema), reads(path, path_len), reads(text, text_len), writes(terms, terms_len));
    return raw_schema_terms_of_text(schema, input(path), path_len, input(text), text_len, output(terms), terms_len);
}

kormaglen_answer kormaglen_schema_ranges_of_text(
    kormaglen_schema *schema, const uint8_t *path, size_t path_len, const uint8_t *text, size_t text_len,
    uint8_t *ranges, size_t ranges_len) {
    REFUSE_UNLESS_GOOD(uses_schema(schema), reads(path, path_len), reads(text, text_len), writes(ranges, ranges_len));
    return raw_schema_ranges_of_text(schema, input(path), path_len, input(text), text_len, output(ranges), ranges_len);
}

kormaglen_answer kormaglen_document_read(
    uint32_t version, const uint8_t *bytes, size_t bytes_len, kormaglen_document *document) {
    REFUSE_UNLESS_GOOD(reads(bytes, bytes_len), uses_document(document));
    return raw_document_read(version, input(bytes), bytes_len, document);
}

kormaglen_answer kormaglen_document_parse(
    kormaglen_schema *schema, const uint8_t *line, size_t line_len, kormaglen_document *document) {
    REFUSE_UNLESS_GOOD(uses_schema(schema), reads(line, line_len), uses_document(document));
    return raw_document_parse(schema, input(line), line_len, document);
}

kormaglen_answer kormaglen_document_to_json(
    kormaglen_document *document, kormaglen_schema *schema, uint8_t *text, size_t text_len) {
    REFUSE_UNLESS_GOOD(uses_document(document), uses_schema(schema), writes(text, text_len));
    return raw_document_to_json(document, schema, output(text), text_len);
}

kormaglen_answer kormaglen_document_write(
    kormaglen_document *document, kormaglen_schema *schema, uint32_t version, uint8_t *bytes, size_t bytes_len) {
    REFUSE_UNLESS_GOOD(uses_document(document), uses_schema(schema), writes(bytes, bytes_len));
    return raw_document_write(document, schema, version, output(bytes), bytes_len);
}

void kormaglen_document_close(kormaglen_document *document) {
    if (fault_of(uses_document(document)) == 0) {
        raw_document_close(document);
    }
}
