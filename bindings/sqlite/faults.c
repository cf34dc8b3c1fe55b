/* How a call ends without a result. */
#include "extension.h"

bool fail(call *it, int code) {
    it->fault.code = code;
    return false;
}

bool fail_with(call *it, char *message) {
    it->fault.message = message;
    return fail(it, message != NULL ? SQLITE_ERROR : SQLITE_NOMEM);
}

bool fail_argument(call *it, int number, const char *reason) {
    const signature *of = it->signature;
    return fail_with(it, sqlite3_mprintf("%s: argument %d (%s): %s", of->name, number + 1, of->arguments[number], reason));
}

/* Whether the place of an answer is the number of a field. */
static bool names_field(kormaglen_answer answer) {
    switch (answer.status) {
    case KORMAGLEN_BAD_LINE: return answer.detail >= KORMAGLEN_LINE_OVERFLOW && answer.detail <= KORMAGLEN_LINE_FLOAT;
    case KORMAGLEN_BAD_QUERY: return answer.detail != KORMAGLEN_QUERY_NO_RANGE;
    default: return false;
    }
}

/* Where the refused thing is, as `: field "price"`, or an empty text. NULL where there is no memory, or where the
 * statement is interrupted meanwhile. */
static char *place_of(call *it, kormaglen_answer answer) {
    if (answer.status == KORMAGLEN_BAD_SCHEMA && answer.place > 0) {
        return sqlite3_mprintf(": entry %llu", (unsigned long long)answer.place);
    }
    if (answer.status == KORMAGLEN_NO_FIELD) {
        return sqlite3_mprintf(": \"%s\"", sqlite3_value_text(it->path));
    }
    if (answer.status == KORMAGLEN_BAD_PAIRS) {
        return sqlite3_mprintf(": at byte %llu", (unsigned long long)answer.place);
    }
    if (!names_field(answer)) {
        return sqlite3_mprintf("");
    }
    if (it->schema != NULL && read_names(it) && answer.place < it->schema->fields) {
        return sqlite3_mprintf(": field \"%s\"", sqlite3_value_text(it->schema->names[answer.place]));
    }
    if (it->fault.code == SQLITE_NOMEM || it->fault.code == SQLITE_INTERRUPT) {
        return NULL;
    }
    /* (the names couldn't be read, as where an authorizer forbids it; that isn't what the call is refused for) */
    sqlite3_free(it->fault.message);
    it->fault = (fault){0};
    return sqlite3_mprintf(": field %llu", (unsigned long long)answer.place);
}

/* Why it is refused there, as `: the field is not indexed`, or an empty text; of a line that is no JSON object also what was
 * expected, and at which byte. NULL where there is no memory. */
static char *reason_of(kormaglen_answer answer) {
    const char *detail = kormaglen_detail_text(answer.status, answer.detail);
    if (answer.status != KORMAGLEN_BAD_LINE || answer.detail != KORMAGLEN_LINE_INVALID_JSON) {
        return sqlite3_mprintf("%s%s", detail[0] != 0 ? ": " : "", detail);
    }
    const char *fault = kormaglen_json_fault_text((uint32_t)answer.place);
    if (answer.place == KORMAGLEN_JSON_NOT_UTF8 || answer.place == KORMAGLEN_JSON_NO_OBJECT) {
        return sqlite3_mprintf(": %s: %s", detail, fault);
    }
    return sqlite3_mprintf(": %s: %s at byte %llu", detail, fault, (unsigned long long)answer.bytes);
}

bool refuse(call *it, kormaglen_answer answer) {
    if (answer.status == KORMAGLEN_NO_MEMORY) {
        return fail(it, SQLITE_NOMEM);
    }
    char *place = place_of(it, answer);
    char *reason = place != NULL ? reason_of(answer) : NULL;
    if (reason == NULL) {
        sqlite3_free(place);
        return it->fault.code != SQLITE_OK ? false : fail(it, SQLITE_NOMEM);
    }
    char *message = sqlite3_mprintf("%s: %s%s%s", it->signature->name, kormaglen_status_text(answer.status), place, reason);
    sqlite3_free(place);
    sqlite3_free(reason);
    return fail_with(it, message);
}

void report(sqlite3_context *context, fault why) {
    switch (why.code) {
    case SQLITE_OK: break;
    case SQLITE_NOMEM: sqlite3_result_error_nomem(context); break;
    case SQLITE_TOOBIG: sqlite3_result_error_toobig(context); break;
    default:
        if (why.message != NULL) {
            sqlite3_result_error(context, why.message, -1);
        }
        sqlite3_result_error_code(context, why.code);
    }
    sqlite3_free(why.message);
}
