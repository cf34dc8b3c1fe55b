/* The texts of terms; and those of dates and addresses, which the library prints as values of terms. */
#include "extension.h"

enum { FIELD_LEN = 4, NUMBER_LEN = 8, ADDRESS_LEN = 16 };

static kormaglen_answer write_text(void *state, uint8_t *start, size_t len) {
    const bytes *term = state;
    return kormaglen_text_of_term(term->start, term->len, start, len);
}

static struct varlena *print_term(const call *it, int argument, bytes term) {
    return write_value(it, argument, write_text, &term, term.len + 16);
}

text *term_value(const call *it, int argument, bytes term) {
    return text_or_null(print_term(it, argument, term));
}

/* The text of the value that a type's letter and these bytes stand for in a term. */
static text *print_coded(const call *it, int argument, uint8_t type, const uint8_t *start, size_t len) {
    uint8_t term[FIELD_LEN + 1 + ADDRESS_LEN] = {[FIELD_LEN] = type};
    memcpy(term + FIELD_LEN + 1, start, len);
    return in_server_encoding(it, print_term(it, argument, (bytes){term, FIELD_LEN + 1 + len}));
}

text *print_date(const call *it, int argument, int64_t nanoseconds) {
    /* (in a term a number counts from the least one, and has its highest byte first) */
    const uint64_t number = (uint64_t)nanoseconds ^ (UINT64_C(1) << 63);
    uint8_t coded[NUMBER_LEN];
    for (int i = 0; i < NUMBER_LEN; i++) {
        coded[i] = (uint8_t)(number >> (8 * (NUMBER_LEN - 1 - i)));
    }
    return print_coded(it, argument, 'd', coded, NUMBER_LEN);
}

text *print_address(const call *it, int argument, const uint8_t *address) {
    return print_coded(it, argument, 'p', address, ADDRESS_LEN);
}

PG_FUNCTION_INFO_V1(sql_term_text);
Datum sql_term_text(PG_FUNCTION_ARGS) {
    static const signature NAMES = {"kormaglen_term_text", {"term"}};
    const call it = {.signature = &NAMES, .fcinfo = fcinfo};
    PG_RETURN_TEXT_P(in_server_encoding(&it, print_term(&it, 0, blob_argument(&it, 0))));
}
