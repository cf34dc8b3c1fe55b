/* Texts of the library, which are UTF-8, in the server's encoding. */
#include "extension.h"

#include "catalog/namespace.h"
#include "mb/pg_wchar.h"
#include "utils/builtins.h"
#include "utils/memutils.h"

text *make_text(const call *it, bytes utf8) {
    if (utf8.len > MaxAllocSize - VARHDRSZ) {
        refuse_size(it, utf8.len);
    }
    if (memchr(utf8.start, 0, utf8.len) != NULL) {
        ereport(ERROR, errcode(ERRCODE_UNTRANSLATABLE_CHARACTER), errmsg("%s: a text has the character U+0000", it->signature->name),
                errdetail("PostgreSQL has no such texts."), errhint("kormaglen_json writes the character as \\u0000."));
    }
    char *start = (char *)unconstify(uint8_t *, utf8.start);
    /* (what the library gives is UTF-8, and needs no test) */
    if (GetDatabaseEncoding() == PG_UTF8) {
        return cstring_to_text_with_len(start, (int)utf8.len);
    }
    char *converted = pg_any_to_server(start, (int)utf8.len, PG_UTF8);
    return cstring_to_text_with_len(converted, converted == start ? (int)utf8.len : (int)strlen(converted));
}

text *in_server_encoding(const call *it, struct varlena *utf8) {
    const bytes written = {(const uint8_t *)VARDATA(utf8), VARSIZE(utf8) - VARHDRSZ};
    if (GetDatabaseEncoding() == PG_UTF8 && memchr(written.start, 0, written.len) == NULL) {
        return utf8;
    }
    return make_text(it, written);
}

text *text_or_null(struct varlena *utf8) {
    const bytes written = {(const uint8_t *)VARDATA(utf8), VARSIZE(utf8) - VARHDRSZ};
    if (GetDatabaseEncoding() == PG_UTF8 && memchr(written.start, 0, written.len) == NULL) {
        return utf8;
    }
    const char *converted = message_text(written);
    return converted != NULL ? cstring_to_text(converted) : NULL;
}

bytea *make_blob(const call *it, bytes blob) {
    if (blob.len > MaxAllocSize - VARHDRSZ) {
        refuse_size(it, blob.len);
    }
    return (bytea *)cstring_to_text_with_len((const char *)blob.start, (int)blob.len);
}

char *message_text(bytes utf8) {
    const int encoding = GetDatabaseEncoding();
    if (utf8.len > MaxAllocSize / MAX_CONVERSION_GROWTH - 1 || memchr(utf8.start, 0, utf8.len) != NULL) {
        return NULL;
    }
    if (encoding == PG_UTF8 || encoding == PG_SQL_ASCII) {
        return pnstrdup((const char *)utf8.start, utf8.len);
    }
    Oid conversion = FindDefaultConversionProc(PG_UTF8, encoding);
    if (!OidIsValid(conversion)) {
        return NULL;
    }
    size_t size = utf8.len * MAX_CONVERSION_GROWTH + 1;
    unsigned char *text = palloc(size);
    int read = pg_do_encoding_conversion_buf(conversion, PG_UTF8, encoding, unconstify(uint8_t *, utf8.start), (int)utf8.len, text,
                                             (int)size, true);
    return read == (int)utf8.len ? (char *)text : NULL;
}
