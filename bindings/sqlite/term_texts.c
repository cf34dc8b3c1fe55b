/* The texts of terms; and those of dates and addresses, which the library prints as values of terms. */
#include "extension.h"

#include <string.h>

enum { FIELD = 4, NUMBER = 8, ADDRESS = 16 };

static kormaglen_answer write_text(void *state, uint8_t *start, size_t len) {
    const bytes *term = state;
    return kormaglen_text_of_term(term->start, term->len, start, len);
}

void give_term_text(call *it, bytes term) {
    give_text(it, write_text, &term, term.len + 16);
}

/* Ends the call with the text of the value that a type's letter and these bytes stand for in a term. */
static void give_coded(call *it, uint8_t type, const uint8_t *start, size_t len) {
    uint8_t term[FIELD + 1 + ADDRESS] = {[FIELD] = type};
    memcpy(term + FIELD + 1, start, len);
    give_term_text(it, (bytes){term, FIELD + 1 + len});
}

void give_date(call *it, int64_t nanoseconds) {
    /* (in a term a number counts from the least one, and has its highest byte first) */
    const uint64_t number = (uint64_t)nanoseconds ^ (UINT64_C(1) << 63);
    uint8_t coded[NUMBER];
    for (int i = 0; i < NUMBER; i++) {
        coded[i] = (uint8_t)(number >> (8 * (NUMBER - 1 - i)));
    }
    give_coded(it, 'd', coded, NUMBER);
}

void give_address(call *it, const uint8_t *address) {
    give_coded(it, 'p', address, ADDRESS);
}

void print_term(call *it) {
    bytes term;
    if (blob_argument(it, 0, &term)) {
        give_term_text(it, term);
    }
}
