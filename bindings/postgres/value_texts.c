/* Bytes as the library's JSON prints them. */
#include "extension.h"

#include "common/base64.h"
#include "utils/memutils.h"

/* With padding. */
char *print_base64(const call *it, bytes blob) {
    const size_t size = (blob.len + 2) / 3 * 4;
    if (size > MaxAllocSize - VARHDRSZ) {
        refuse_size(it, size);
    }
    char *text = palloc(size + 1);
    int written = pg_b64_encode((const char *)blob.start, (int)blob.len, text, (int)size);
    if (written < 0) {
        elog(ERROR, "base64 of %zu bytes does not fit %zu characters", blob.len, size);
    }
    text[written] = 0;
    return text;
}
