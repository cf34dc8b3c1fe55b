/* The two forms of a facet: a text, and encoded, a bytea. */
#include "extension.h"

static kormaglen_answer write_encoded(void *state, uint8_t *start, size_t len) {
    const bytes *text = state;
    return kormaglen_facet_of_text(text->start, text->len, start, len);
}

static kormaglen_answer write_text(void *state, uint8_t *start, size_t len) {
    const bytes *encoded = state;
    return kormaglen_text_of_facet(encoded->start, encoded->len, start, len);
}

bytea *encode_facet(const call *it, int argument, bytes path) {
    return write_value(it, argument, write_encoded, &path, path.len + 1);
}

text *print_facet(const call *it, int argument, bytes encoded) {
    return in_server_encoding(it, write_value(it, argument, write_text, &encoded, encoded.len + 16));
}

PG_FUNCTION_INFO_V1(sql_facet);
Datum sql_facet(PG_FUNCTION_ARGS) {
    static const signature NAMES = {"kormaglen_facet", {"text"}};
    const call it = {.signature = &NAMES, .fcinfo = fcinfo};
    PG_RETURN_BYTEA_P(encode_facet(&it, 0, text_argument(&it, 0)));
}

PG_FUNCTION_INFO_V1(sql_facet_text);
Datum sql_facet_text(PG_FUNCTION_ARGS) {
    static const signature NAMES = {"kormaglen_facet_text", {"facet"}};
    const call it = {.signature = &NAMES, .fcinfo = fcinfo};
    PG_RETURN_TEXT_P(print_facet(&it, 0, blob_argument(&it, 0)));
}
