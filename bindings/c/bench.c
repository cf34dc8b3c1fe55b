/* Prints how many nanoseconds a document takes in each call: the first argument is a file with a schema's JSON on its first line and a
 * document's on each other line, the second how often each call is made. The best of these counts. The lines after these are calls with the
 * first document alone: an import with the schema's JSON, and with a handle; and by a handle of a document. */
#include "kormaglen.h"

#include <stdio.h>
#include <stdlib.h>
#include <string.h>
#include <time.h>

static uint8_t *read_file(const char *path, size_t *len) {
    FILE *file = fopen(path, "rb");
    if (file == NULL) {
        return NULL;
    }
    fseek(file, 0, SEEK_END);
    long size = ftell(file);
    rewind(file);
    uint8_t *bytes = malloc((size_t)size + 1);
    *len = bytes == NULL ? 0 : fread(bytes, 1, (size_t)size, file);
    fclose(file);
    return bytes;
}

static double now(void) {
    struct timespec time;
    clock_gettime(CLOCK_MONOTONIC, &time);
    return (double)time.tv_sec * 1e9 + (double)time.tv_nsec;
}

static double smaller(double a, double b) {
    return a < b ? a : b;
}

/* Imports one document, by the schema's JSON and by a handle. Returns whether both were accepted. */
static int import_one(const uint8_t *schema, size_t schema_len, const uint8_t *line, size_t line_len, long rounds, double best[2]) {
    kormaglen_schema handle = {0};
    kormaglen_line_answer answer[1];
    uint8_t *block = malloc(2 * line_len + 1024);
    int fine = block != NULL && kormaglen_schema_open(schema, schema_len, &handle).status == KORMAGLEN_OK;
    for (long round = 0; fine && round < rounds; round++) {
        double start = now();
        kormaglen_answer by_json = kormaglen_import_lines(schema, schema_len, line, line_len, block, 2 * line_len + 1024, answer, 1);
        double middle = now();
        kormaglen_answer by_handle = kormaglen_schema_import_lines(&handle, line, line_len, block, 2 * line_len + 1024, answer, 1);
        double end = now();
        best[0] = smaller(best[0], middle - start);
        best[1] = smaller(best[1], end - middle);
        fine = by_json.status == KORMAGLEN_OK && by_handle.status == KORMAGLEN_OK;
    }
    kormaglen_schema_close(&handle);
    free(block);
    return fine;
}

/* Parses one document, writes and reads it, and prints it, by handles. Returns whether all were accepted. */
static int handle_one(const uint8_t *schema, size_t schema_len, const uint8_t *line, size_t line_len, long rounds, double best[4]) {
    const size_t room = 2 * line_len + 1024;
    kormaglen_schema handle = {0};
    kormaglen_document document = {0};
    uint8_t *bytes = malloc(room), *text = malloc(room);
    int fine = bytes != NULL && text != NULL && kormaglen_schema_open(schema, schema_len, &handle).status == KORMAGLEN_OK;
    for (long round = 0; fine && round < rounds; round++) {
        double start = now();
        kormaglen_answer parsed = kormaglen_document_parse(&handle, line, line_len, &document);
        double at_write = now();
        kormaglen_answer written = kormaglen_document_write(&document, &handle, 2, bytes, room);
        double at_read = now();
        kormaglen_answer read = kormaglen_document_read(2, bytes, (size_t)written.bytes, &document);
        double at_print = now();
        kormaglen_answer printed = kormaglen_document_to_json(&document, &handle, text, room);
        double end = now();
        best[0] = smaller(best[0], at_write - start);
        best[1] = smaller(best[1], at_read - at_write);
        best[2] = smaller(best[2], at_print - at_read);
        best[3] = smaller(best[3], end - at_print);
        fine = parsed.status == KORMAGLEN_OK && written.status == KORMAGLEN_OK && read.status == KORMAGLEN_OK &&
               printed.status == KORMAGLEN_OK;
    }
    kormaglen_document_close(&document);
    kormaglen_schema_close(&handle);
    free(bytes);
    free(text);
    return fine;
}

int main(int count, char **words) {
    size_t len = 0;
    uint8_t *input = count < 3 ? NULL : read_file(words[1], &len);
    uint8_t *end = input == NULL ? NULL : memchr(input, '\n', len);
    if (end == NULL) {
        fputs("usage: bench FILE ROUNDS\n", stderr);
        return 1;
    }
    const uint8_t *lines = end + 1;
    size_t schema_len = (size_t)(end - input), lines_len = len - schema_len - 1;
    uint8_t none[1];
    kormaglen_line_answer no_answer[1];
    kormaglen_answer size = kormaglen_import_lines(input, schema_len, lines, lines_len, none, 0, no_answer, 0);
    uint8_t *block = malloc(size.bytes + 1), *migrated = malloc(size.bytes + 1);
    kormaglen_line_answer *answers = malloc((size.lines + 1) * sizeof *answers);
    double best[3] = {1e18, 1e18, 1e18}, one[2] = {1e18, 1e18}, alone[4] = {1e18, 1e18, 1e18, 1e18};
    kormaglen_answer text = {0}, later = {0};
    uint8_t *printed = NULL;
    for (long round = atol(words[2]); round > 0; round--) {
        double start = now();
        kormaglen_import_lines(input, schema_len, lines, lines_len, block, size.bytes, answers, size.lines);
        double took = now() - start;
        best[0] = smaller(best[0], took);
        if (printed == NULL) {
            text = kormaglen_export_block(input, schema_len, 2, block, size.bytes, none, 0);
            printed = malloc(text.bytes + 1);
        }
        start = now();
        text = kormaglen_export_block(input, schema_len, 2, block, size.bytes, printed, text.bytes);
        took = now() - start;
        best[1] = smaller(best[1], took);
        start = now();
        later = kormaglen_migrate_block(2, block, size.bytes, 3, migrated, size.bytes);
        took = now() - start;
        best[2] = smaller(best[2], took);
    }
    const uint8_t *first = memchr(lines, '\n', lines_len);
    size_t first_len = first == NULL ? lines_len : (size_t)(first - lines);
    if (text.status != KORMAGLEN_OK || later.status != KORMAGLEN_OK ||
        !import_one(input, schema_len, lines, first_len, 100 * atol(words[2]), one) ||
        !handle_one(input, schema_len, lines, first_len, 100 * atol(words[2]), alone)) {
        fputs("a call was refused\n", stderr);
        return 1;
    }
    printf("documents %llu, stored bytes %llu, printed %llu\n", (unsigned long long)size.lines, (unsigned long long)size.bytes,
           (unsigned long long)text.bytes);
    static const char *const NAMES[] = {"import_lines", "export_block", "migrate_block"};
    for (int i = 0; i < 3; i++) {
        printf("%-16s %8.0f\n", NAMES[i], best[i] / (double)size.lines);
    }
    printf("%-16s %8.0f\n", "one document", one[0]);
    printf("%-16s %8.0f\n", "by a handle", one[1]);
    static const char *const ALONE[] = {"document_parse", "document_write", "document_read", "document_to_json"};
    for (int i = 0; i < 4; i++) {
        printf("%-16s %8.0f\n", ALONE[i], alone[i]);
    }
    free(block);
    free(migrated);
    free(answers);
    free(printed);
    free(input);
    return 0;
}
