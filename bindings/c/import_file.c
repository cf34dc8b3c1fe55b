/* Imports a file of JSON lines of any size in bounded memory: import_file SCHEMA LINES BLOCK. Whole lines of some megabytes are imported at a
 * time, and their documents are written to BLOCK. Each refused line is reported on standard error, as LINES:3: field 1: a value is of another kind
 * than the field's. Ends with 1 where a line was refused, and with 2 where a file or the schema can't be used. */
#include "kormaglen.h"

#include <stdio.h>
#include <stdlib.h>
#include <string.h>

enum { FIRST_SIZE = 1 << 22 };

typedef struct import {
    const char *name;
    FILE *lines, *block;
    kormaglen_schema schema;
    uint8_t *text, *stored;
    kormaglen_line_answer *answers;
    size_t text_size, stored_size, answers_size;
    unsigned long long line, refused;
} import;

static int fail(const char *what, const char *why) {
    fprintf(stderr, "%s: %s\n", what, why);
    return 2;
}

static int fail_answer(const char *what, kormaglen_answer answer) {
    fprintf(stderr, "%s: %s", what, kormaglen_status_text(answer.status));
    const char *detail = kormaglen_detail_text(answer.status, answer.detail);
    if (answer.place > 0) {
        fprintf(stderr, ", at %llu", (unsigned long long)answer.place);
    }
    fprintf(stderr, detail[0] != 0 ? ": %s\n" : "%s\n", detail);
    return 2;
}

/* Has the buffer at least this size. Returns 0 where there is no memory, and the buffer is then as it was. */
static int grow(void **buffer, size_t *size, size_t wanted, size_t item) {
    if (wanted > *size) {
        void *larger = wanted > SIZE_MAX / item ? NULL : realloc(*buffer, wanted * item);
        if (larger == NULL) {
            return 0;
        }
        *buffer = larger;
        *size = wanted;
    }
    return 1;
}

static void tell_refused(import *it, const kormaglen_line_answer *answer) {
    it->refused += 1;
    fprintf(stderr, "%s:%llu: ", it->name, it->line);
    if (answer->status >= KORMAGLEN_LINE_OVERFLOW && answer->status <= KORMAGLEN_LINE_FLOAT) {
        fprintf(stderr, "field %u: ", (unsigned)answer->field);
    }
    fprintf(stderr, "%s", kormaglen_line_status_text(answer->status));
    if (answer->status == KORMAGLEN_LINE_INVALID_JSON) {
        fprintf(stderr, ": %s", kormaglen_json_fault_text(answer->field));
        if (answer->field != KORMAGLEN_JSON_NOT_UTF8 && answer->field != KORMAGLEN_JSON_NO_OBJECT) {
            fprintf(stderr, " at byte %llu", (unsigned long long)answer->bytes);
        }
    }
    fputc('\n', stderr);
}

/* Imports whole lines, and writes their documents. Returns the status with which the program ends, if it ends here. */
static int import_text(import *it, size_t len) {
    kormaglen_answer answer;
    for (;;) {
        answer = kormaglen_schema_import_lines(&it->schema, it->text, len, it->stored, it->stored_size, it->answers, it->answers_size);
        if (answer.status != KORMAGLEN_TOO_SMALL) {
            break;
        }
        if (!grow((void **)&it->stored, &it->stored_size, (size_t)answer.bytes, 1)
            || !grow((void **)&it->answers, &it->answers_size, (size_t)answer.lines, sizeof *it->answers)) {
            return fail(it->name, "no memory");
        }
    }
    if (answer.status != KORMAGLEN_OK) {
        return fail_answer(it->name, answer);
    }
    for (uint64_t i = 0; i < answer.lines; i++) {
        it->line += 1;
        if (it->answers[i].status != KORMAGLEN_LINE_STORED) {
            tell_refused(it, &it->answers[i]);
        }
    }
    return fwrite(it->stored, 1, (size_t)answer.bytes, it->block) == answer.bytes ? 0 : fail("block", "it can't be written");
}

/* The length of the whole lines at the start of a text. */
static size_t whole_lines(const uint8_t *text, size_t len) {
    while (len > 0 && text[len - 1] != '\n') {
        len -= 1;
    }
    return len;
}

static int import_all(import *it) {
    size_t kept = 0;
    for (;;) {
        if (kept == it->text_size && !grow((void **)&it->text, &it->text_size, 2 * it->text_size + FIRST_SIZE, 1)) {
            return fail(it->name, "no memory for a line");
        }
        size_t read = fread(it->text + kept, 1, it->text_size - kept, it->lines);
        if (read == 0 && ferror(it->lines)) {
            return fail(it->name, "it can't be read");
        }
        size_t len = kept + read;
        /* the last line may lack its line feed */
        size_t whole = read == 0 ? len : whole_lines(it->text, len);
        int status = whole > 0 ? import_text(it, whole) : 0;
        if (status != 0 || read == 0) {
            return status;
        }
        kept = len - whole;
        memmove(it->text, it->text + whole, kept);
    }
}

static int open_schema(import *it, const char *path) {
    uint8_t json[1 << 16];
    FILE *file = fopen(path, "rb");
    if (file == NULL) {
        return fail(path, "it can't be opened");
    }
    size_t len = fread(json, 1, sizeof json, file);
    fclose(file);
    kormaglen_answer answer = kormaglen_schema_open(json, len, &it->schema);
    return answer.status == KORMAGLEN_OK ? 0 : fail_answer(path, answer);
}

int main(int count, char **words) {
    if (count != 4) {
        return fail(words[0], "wants SCHEMA LINES BLOCK");
    }
    import it = {0};
    it.name = words[2];
    int status = open_schema(&it, words[1]);
    if (status == 0 && ((it.lines = fopen(words[2], "rb")) == NULL || (it.block = fopen(words[3], "wb")) == NULL)) {
        status = fail(it.lines == NULL ? words[2] : words[3], "it can't be opened");
    }
    if (status == 0) {
        status = import_all(&it);
    }
    if (it.block != NULL && fclose(it.block) != 0 && status == 0) {
        status = fail(words[3], "it can't be written");
    }
    if (it.lines != NULL) {
        fclose(it.lines);
    }
    kormaglen_schema_close(&it.schema);
    free(it.text);
    free(it.stored);
    free(it.answers);
    if (status == 0) {
        printf("%llu lines, %llu refused\n", it.line, it.refused);
    }
    return status != 0 ? status : it.refused > 0;
}
