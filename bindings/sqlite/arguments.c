/* The arguments of a call: their types and ranges. None is NULL here: a call with a NULL does not come so far. */
#include "extension.h"

int count_arguments(const signature *of) {
    int count = 0;
    while (of->arguments[count] != NULL) {
        count += 1;
    }
    return count;
}

static const char *kind_of(int type) {
    switch (type) {
    case SQLITE_INTEGER: return "a whole number";
    case SQLITE_FLOAT: return "a number with a fraction";
    case SQLITE_TEXT: return "a text";
    case SQLITE_BLOB: return "a blob";
    default: return "NULL";
    }
}

/* Tests the type of an argument. */
static bool expect_type(call *it, int number, int wanted) {
    int type = sqlite3_value_type(it->arguments[number]);
    if (type == wanted) {
        return true;
    }
    char *reason = sqlite3_mprintf("%s is wanted, and it is %s", kind_of(wanted), kind_of(type));
    if (reason != NULL) {
        fail_argument(it, number, reason);
        sqlite3_free(reason);
        return false;
    }
    return fail(it, SQLITE_NOMEM);
}

bool text_argument(call *it, int number, bytes *text) {
    if (!expect_type(it, number, SQLITE_TEXT)) {
        return false;
    }
    text->start = sqlite3_value_text(it->arguments[number]);
    text->len = (size_t)sqlite3_value_bytes(it->arguments[number]);
    return text->start != NULL || fail(it, SQLITE_NOMEM);
}

bool blob_argument(call *it, int number, bytes *blob) {
    if (!expect_type(it, number, SQLITE_BLOB)) {
        return false;
    }
    blob->start = sqlite3_value_blob(it->arguments[number]);
    blob->len = (size_t)sqlite3_value_bytes(it->arguments[number]);
    if (blob->start == NULL) {
        /* an empty blob has no bytes to point to, and one of zeros needs memory for them */
        blob->start = (const uint8_t *)"";
        return blob->len == 0 || fail(it, SQLITE_NOMEM);
    }
    return true;
}

bool number_argument(call *it, int number, sqlite3_int64 *given) {
    if (!expect_type(it, number, SQLITE_INTEGER)) {
        return false;
    }
    *given = sqlite3_value_int64(it->arguments[number]);
    return true;
}

bool truth_argument(call *it, int number, bool *given) {
    sqlite3_int64 value = 0;
    if (it->arguments[number] != NULL && !number_argument(it, number, &value)) {
        return false;
    }
    *given = value == 1;
    return value == 0 || value == 1 || fail_argument(it, number, "0 or 1 is wanted");
}

bool path_argument(call *it, int number, bytes *path) {
    it->path = it->arguments[number];
    return text_argument(it, number, path);
}

bool version_argument(call *it, int number, uint32_t least, uint32_t *version) {
    sqlite3_int64 given;
    if (!number_argument(it, number, &given)) {
        return false;
    }
    if (given < least || given > 3) {
        return fail_argument(it, number, least == 1 ? "a version is 1, 2 or 3" : "what is written has version 2 or 3");
    }
    *version = (uint32_t)given;
    return true;
}
