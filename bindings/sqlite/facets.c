/* The two forms of a facet: a text, and encoded, a blob. */
#include "extension.h"

static kormaglen_answer write_encoded(void *state, uint8_t *start, size_t len) {
    const bytes *text = state;
    return kormaglen_facet_of_text(text->start, text->len, start, len);
}

static kormaglen_answer write_text(void *state, uint8_t *start, size_t len) {
    const bytes *encoded = state;
    return kormaglen_text_of_facet(encoded->start, encoded->len, start, len);
}

bool append_encoded(call *it, bytes text, buffer *to) {
    return append(it, to, write_encoded, &text);
}

bool append_printed(call *it, bytes encoded, buffer *to) {
    return append(it, to, write_text, &encoded);
}

void give_facet(call *it, bytes encoded) {
    give_text(it, write_text, &encoded, encoded.len + 16);
}

void encode_facet(call *it) {
    bytes text;
    if (text_argument(it, 0, &text)) {
        give_blob(it, write_encoded, &text, text.len + 1);
    }
}

void print_facet(call *it) {
    bytes encoded;
    if (blob_argument(it, 0, &encoded)) {
        give_facet(it, encoded);
    }
}
