/* What a document costs by the calls of the C library: calls FILE ROUNDS. The file has a schema's JSON on its first line and documents on
 * the others. Prints nanoseconds of the processor for each document, the best of the rounds, as speed.py reads them. */
#include "kormaglen.h"

#include <stdio.h>
#include <stdlib.h>
#include <string.h>
#include <time.h>

enum { MOST = 200000 };

/* A text or a stored document. */
typedef struct bytes {
    uint8_t *start;
    size_t len;
} bytes;

/* The documents, a schema's and a document's handle, and where the calls write. */
typedef struct state {
    bytes lines[MOST], stored[MOST];
    size_t count;
    kormaglen_schema schema;
    kormaglen_document document;
    uint8_t written[1 << 17];
} state;

static void die(const char *why) {
    fprintf(stderr, "calls: %s\n", why);
    exit(1);
}

static double now(void) {
    struct timespec time;
    clock_gettime(CLOCK_PROCESS_CPUTIME_ID, &time);
    return (double)time.tv_sec * 1e9 + (double)time.tv_nsec;
}

static size_t expect(kormaglen_answer answer) {
    if (answer.status != KORMAGLEN_OK) {
        die(kormaglen_status_text(answer.status));
    }
    return (size_t)answer.bytes;
}

static bytes copy_of(const void *start, size_t len) {
    bytes copy = {malloc(len + 1), len};
    if (copy.start == NULL) {
        die("no memory");
    }
    memcpy(copy.start, start, len);
    return copy;
}

static size_t call_store(state *it, size_t i) {
    expect(kormaglen_document_parse(&it->schema, it->lines[i].start, it->lines[i].len, &it->document));
    return expect(kormaglen_document_write(&it->document, &it->schema, 2, it->written, sizeof it->written));
}

static size_t call_json(state *it, size_t i) {
    expect(kormaglen_document_read(2, it->stored[i].start, it->stored[i].len, &it->document));
    return expect(kormaglen_document_to_json(&it->document, &it->schema, it->written, sizeof it->written));
}

static size_t call_value(state *it, size_t i) {
    static const uint8_t NAME[] = "price";
    const bytes of = it->stored[i];
    return expect(
        kormaglen_schema_values_of_block(&it->schema, NAME, sizeof NAME - 1, 2, of.start, of.len, it->written, sizeof it->written));
}

static size_t call_terms(state *it, size_t i) {
    const bytes of = it->stored[i];
    return expect(kormaglen_schema_terms_of_block(&it->schema, 2, 0, of.start, of.len, it->written, sizeof it->written));
}

static void read_lines(const char *path, state *to) {
    static char line[1 << 16];
    FILE *file = fopen(path, "r");
    if (file == NULL || fgets(line, sizeof line, file) == NULL) {
        die("the file can't be read");
    }
    expect(kormaglen_schema_open((const uint8_t *)line, strlen(line), &to->schema));
    for (; to->count < MOST && fgets(line, sizeof line, file) != NULL; to->count++) {
        to->lines[to->count] = copy_of(line, strcspn(line, "\n"));
        size_t len = call_store(to, to->count);
        to->stored[to->count] = copy_of(to->written, len);
    }
    fclose(file);
}

typedef struct measured {
    const char *name;
    size_t (*call)(state *it, size_t i);
    double best;
} measured;

int main(int count, char **words) {
    static state it;
    measured calls[] = {{"store", call_store, 1e18}, {"json", call_json, 1e18}, {"value", call_value, 1e18}, {"terms", call_terms, 1e18}};
    if (count != 3) {
        die("usage: calls FILE ROUNDS");
    }
    read_lines(words[1], &it);
    for (long round = atol(words[2]); round > 0; round--) {
        for (size_t at = 0; at < sizeof calls / sizeof *calls; at++) {
            double start = now();
            for (size_t i = 0; i < it.count; i++) {
                calls[at].call(&it, i);
            }
            double took = now() - start;
            calls[at].best = took < calls[at].best ? took : calls[at].best;
        }
    }
    for (size_t at = 0; at < sizeof calls / sizeof *calls; at++) {
        printf("%s %.0f\n", calls[at].name, calls[at].best / (double)it.count);
    }
    return 0;
}
