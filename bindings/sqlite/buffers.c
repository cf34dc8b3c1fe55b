/* Buffers into which the library writes. */
#include "extension.h"

bool reserve(call *it, buffer *to, size_t more) {
    if (more <= to->size - to->len) {
        return true;
    }
    if (more > it->limit || to->len > it->limit - more) {
        return fail(it, SQLITE_TOOBIG);
    }
    uint8_t *larger = sqlite3_realloc64(to->start, to->len + more);
    if (larger == NULL) {
        return fail(it, SQLITE_NOMEM);
    }
    to->start = larger;
    to->size = to->len + more;
    return true;
}

bool reserve_often(call *it, buffer *to, size_t more) {
    enum { LEAST = 256 };
    size_t room = to->size - to->len;
    if (more <= room) {
        return true;
    }
    size_t wanted = more > LEAST + to->size ? more : LEAST + to->size;
    /* (near the limit just what is needed) */
    return reserve(it, to, to->len + wanted <= it->limit ? wanted : more);
}

bool append(call *it, buffer *to, writing write, void *state) {
    /* (an empty buffer points nowhere) */
    if (!reserve(it, to, 1)) {
        return false;
    }
    for (;;) {
        kormaglen_answer answer = write(state, to->start + to->len, to->size - to->len);
        if (answer.status == KORMAGLEN_OK) {
            to->len += (size_t)answer.bytes;
            return true;
        }
        if (answer.status != KORMAGLEN_TOO_SMALL) {
            return refuse(it, answer);
        }
        if (answer.bytes > SIZE_MAX || !reserve(it, to, (size_t)answer.bytes)) {
            return it->fault.code != SQLITE_OK ? false : fail(it, SQLITE_TOOBIG);
        }
    }
}

/* What the call writes, in a buffer of its own; a buffer without bytes where it is refused. */
static buffer write_alone(call *it, writing write, void *state, size_t guess) {
    buffer alone = {0};
    if (!reserve(it, &alone, guess < it->limit ? guess : it->limit) || !append(it, &alone, write, state)) {
        sqlite3_free(alone.start);
        alone.start = NULL;
    }
    return alone;
}

void give_text(call *it, writing write, void *state, size_t guess) {
    buffer text = write_alone(it, write, state, guess);
    if (text.start != NULL) {
        sqlite3_result_text64(it->context, (const char *)text.start, text.len, sqlite3_free, SQLITE_UTF8);
    }
}

void give_blob(call *it, writing write, void *state, size_t guess) {
    buffer blob = write_alone(it, write, state, guess);
    if (blob.start != NULL) {
        sqlite3_result_blob64(it->context, blob.start, blob.len, sqlite3_free);
    }
}

uint64_t number_at(const uint8_t *start) {
    uint64_t number = 0;
    for (int i = 7; i >= 0; i--) {
        number = number << 8 | start[i];
    }
    return number;
}

void put_number(uint8_t *start, uint64_t number) {
    for (int i = 0; i < 8; i++) {
        start[i] = (uint8_t)(number >> (8 * i));
    }
}
