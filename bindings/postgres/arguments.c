/* The arguments of a call. Their types are tested by PostgreSQL. */
#include "extension.h"

#include "mb/pg_wchar.h"

bytes text_argument(const call *it, int number) {
    FunctionCallInfo fcinfo = it->fcinfo;
    text *given = PG_GETARG_TEXT_PP(number);
    char *start = VARDATA_ANY(given);
    size_t len = VARSIZE_ANY_EXHDR(given);
    char *utf8 = pg_server_to_any(start, (int)len, PG_UTF8);
    return (bytes){(const uint8_t *)utf8, utf8 == start ? len : strlen(utf8)};
}

bytes blob_argument(const call *it, int number) {
    FunctionCallInfo fcinfo = it->fcinfo;
    bytea *given = PG_GETARG_BYTEA_PP(number);
    return (bytes){(const uint8_t *)VARDATA_ANY(given), VARSIZE_ANY_EXHDR(given)};
}

uint32_t version_argument(const call *it, int number, uint32_t least) {
    FunctionCallInfo fcinfo = it->fcinfo;
    int32 given = PG_GETARG_INT32(number);
    if (given < (int32)least || given > 3) {
        const char *reason = least == 1 ? "a version is 1, 2 or 3" : "what is written has version 2 or 3";
        refuse_argument(it, number, ERRCODE_INVALID_PARAMETER_VALUE, "there is no such version of the store", reason);
    }
    return (uint32_t)given;
}
