/* The proved calls of `crates/kormaglen_c`, by the names under which it exports them. They take their arguments as they are: no pointer is
 * NULL, and buffers that are written overlap no other. `calls.c` sees to that. */
#ifndef KORMAGLEN_RAW_H
#define KORMAGLEN_RAW_H

#include "kormaglen.h"

kormaglen_answer raw_import_lines(
    const uint8_t *schema, size_t schema_len, const uint8_t *lines, size_t lines_len,
    uint8_t *block, size_t block_len, kormaglen_line_answer *answers, size_t answers_len);
kormaglen_answer raw_export_block(
    const uint8_t *schema, size_t schema_len, uint32_t version, const uint8_t *block, size_t block_len,
    uint8_t *lines, size_t lines_len);
kormaglen_answer raw_migrate_block(
    uint32_t from, const uint8_t *block, size_t block_len, uint32_t to, uint8_t *migrated, size_t migrated_len);
kormaglen_answer raw_find_field(
    const uint8_t *schema, size_t schema_len, const uint8_t *path, size_t path_len, kormaglen_found_field *found);
kormaglen_answer raw_facet_of_text(const uint8_t *text, size_t text_len, uint8_t *encoded, size_t encoded_len);
kormaglen_answer raw_text_of_facet(const uint8_t *encoded, size_t encoded_len, uint8_t *text, size_t text_len);
kormaglen_answer raw_count_facets(
    const uint8_t *parent, size_t parent_len, const uint8_t *pairs, size_t pairs_len, uint8_t *counts, size_t counts_len);
kormaglen_answer raw_terms_of_block(
    uint32_t field, uint32_t version, const uint8_t *block, size_t block_len, uint8_t *terms, size_t terms_len);
kormaglen_answer raw_term_of_text(uint32_t field, const uint8_t *text, size_t text_len, uint8_t *term, size_t term_len);
kormaglen_answer raw_text_of_term(const uint8_t *term, size_t term_len, uint8_t *text, size_t text_len);
kormaglen_answer raw_end_of_prefix(const uint8_t *prefix, size_t prefix_len, uint8_t *end, size_t end_len);

kormaglen_answer raw_schema_open(const uint8_t *json, size_t json_len, kormaglen_schema *schema);
void raw_schema_close(kormaglen_schema *schema);
kormaglen_answer raw_schema_to_json(kormaglen_schema *schema, uint8_t *text, size_t text_len);
kormaglen_answer raw_schema_find_field(
    kormaglen_schema *schema, const uint8_t *path, size_t path_len, kormaglen_found_field *found);
kormaglen_answer raw_schema_import_lines(
    kormaglen_schema *schema, const uint8_t *lines, size_t lines_len,
    uint8_t *block, size_t block_len, kormaglen_line_answer *answers, size_t answers_len);
kormaglen_answer raw_schema_export_block(
    kormaglen_schema *schema, uint32_t version, const uint8_t *block, size_t block_len,
    uint8_t *lines, size_t lines_len);
kormaglen_answer raw_schema_values_of_block(
    kormaglen_schema *schema, const uint8_t *name, size_t name_len, uint32_t version, const uint8_t *block, size_t block_len,
    uint8_t *values, size_t values_len);
kormaglen_answer raw_schema_terms_of_block(
    kormaglen_schema *schema, uint32_t version, uint32_t with_faults, const uint8_t *block, size_t block_len, uint8_t *terms,
    size_t terms_len);
kormaglen_answer raw_schema_terms_of_text(
    kormaglen_schema *schema, const uint8_t *path, size_t path_len, const uint8_t *text, size_t text_len,
    uint8_t *terms, size_t terms_len);
kormaglen_answer raw_schema_ranges_of_text(
    kormaglen_schema *schema, const uint8_t *path, size_t path_len, const uint8_t *text, size_t text_len,
    uint8_t *ranges, size_t ranges_len);

kormaglen_answer raw_document_read(
    uint32_t version, const uint8_t *bytes, size_t bytes_len, kormaglen_document *document);
kormaglen_answer raw_document_parse(
    kormaglen_schema *schema, const uint8_t *line, size_t line_len, kormaglen_document *document);
kormaglen_answer raw_document_to_json(
    kormaglen_document *document, kormaglen_schema *schema, uint8_t *text, size_t text_len);
kormaglen_answer raw_document_write(
    kormaglen_document *document, kormaglen_schema *schema, uint32_t version, uint8_t *bytes, size_t bytes_len);
void raw_document_close(kormaglen_document *document);

#endif
