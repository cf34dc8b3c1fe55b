/* How a call ends without a result: the code, what happened, where, and what may help. */
#include "extension.h"

#include "utils/memutils.h"

static int line_code(uint32_t detail) {
    switch (detail) {
    case KORMAGLEN_LINE_OVERFLOW: return ERRCODE_NUMERIC_VALUE_OUT_OF_RANGE;
    case KORMAGLEN_LINE_NO_ROOM: return ERRCODE_PROGRAM_LIMIT_EXCEEDED;
    default: return ERRCODE_INVALID_TEXT_REPRESENTATION;
    }
}

static int query_code(uint32_t detail) {
    switch (detail) {
    case KORMAGLEN_QUERY_NOT_INDEXED:
    case KORMAGLEN_QUERY_PATH_ENDS:
    case KORMAGLEN_QUERY_NUL_IN_PATH:
    case KORMAGLEN_QUERY_BACKWARDS: return ERRCODE_INVALID_PARAMETER_VALUE;
    default: return ERRCODE_INVALID_TEXT_REPRESENTATION;
    }
}

/* Whether a document that is refused can't be read; else it has no terms by the schema. */
static bool is_corrupt(kormaglen_answer answer) {
    return answer.detail < KORMAGLEN_DOCUMENT_FOREIGN_FIELD;
}

/* The SQLSTATE of a refusal. */
static int code_of(kormaglen_answer answer) {
    switch (answer.status) {
    case KORMAGLEN_NO_MEMORY: return ERRCODE_OUT_OF_MEMORY;
    case KORMAGLEN_NOT_UTF8: return ERRCODE_CHARACTER_NOT_IN_REPERTOIRE;
    case KORMAGLEN_INVALID_JSON:
    case KORMAGLEN_NOT_A_FACET: return ERRCODE_INVALID_TEXT_REPRESENTATION;
    case KORMAGLEN_BAD_SCHEMA: return ERRCODE_INVALID_PARAMETER_VALUE;
    case KORMAGLEN_NO_FIELD: return ERRCODE_UNDEFINED_OBJECT;
    case KORMAGLEN_BAD_DOCUMENT: return is_corrupt(answer) ? ERRCODE_DATA_CORRUPTED : ERRCODE_DATATYPE_MISMATCH;
    case KORMAGLEN_BAD_PAIRS:
    case KORMAGLEN_NOT_A_TERM: return ERRCODE_INVALID_BINARY_REPRESENTATION;
    case KORMAGLEN_BAD_LINE: return line_code(answer.detail);
    case KORMAGLEN_BAD_QUERY: return query_code(answer.detail);
    case KORMAGLEN_NO_END: return ERRCODE_NO_DATA_FOUND;
    default: return ERRCODE_INTERNAL_ERROR;
    }
}

/* Whether the place of an answer is the number of a field. */
static bool names_field(kormaglen_answer answer) {
    switch (answer.status) {
    case KORMAGLEN_BAD_LINE: return answer.detail >= KORMAGLEN_LINE_OVERFLOW && answer.detail <= KORMAGLEN_LINE_FLOAT;
    case KORMAGLEN_BAD_QUERY: return answer.detail != KORMAGLEN_QUERY_NO_RANGE;
    default: return false;
    }
}

/* The argument that is refused: what the call was about, but that a field that is none stands in a path or by its name. */
static int refused_argument(const call *it, int argument, kormaglen_answer answer) {
    for (int i = 0; answer.status == KORMAGLEN_NO_FIELD && i < ARGUMENTS && it->signature->arguments[i] != NULL; i++) {
        if (strcmp(it->signature->arguments[i], "path") == 0 || strcmp(it->signature->arguments[i], "field") == 0) {
            return i;
        }
    }
    return argument;
}

/* Where in the argument the refused thing is, as `, field "price"`, or an empty text. */
static const char *place_of(const call *it, int argument, kormaglen_answer answer) {
    if (answer.status == KORMAGLEN_BAD_SCHEMA && answer.place > 0) {
        return psprintf(", entry %llu", (unsigned long long)answer.place);
    }
    if (answer.status == KORMAGLEN_NO_FIELD) {
        const char *path = message_text(text_argument(it, argument));
        return path != NULL ? psprintf(", \"%s\"", path) : "";
    }
    if (!names_field(answer)) {
        return "";
    }
    if (it->schema != NULL && read_names(it->schema) && answer.place < it->schema->fields) {
        const char *name = message_text(it->schema->names[answer.place]);
        if (name != NULL) {
            return psprintf(", field \"%s\"", name);
        }
    }
    return psprintf(", field %llu", (unsigned long long)answer.place);
}

/* Why it is refused there, as `: the field is not indexed`, or an empty text; of a line that is no JSON object also what was
 * expected, and at which byte. */
static const char *reason_of(kormaglen_answer answer) {
    const char *detail = kormaglen_detail_text(answer.status, answer.detail);
    if (answer.status != KORMAGLEN_BAD_LINE || answer.detail != KORMAGLEN_LINE_INVALID_JSON) {
        return detail[0] != 0 ? psprintf(": %s", detail) : "";
    }
    const char *fault = kormaglen_json_fault_text((uint32_t)answer.place);
    if (answer.place == KORMAGLEN_JSON_NOT_UTF8 || answer.place == KORMAGLEN_JSON_NO_OBJECT) {
        return psprintf(": %s: %s", detail, fault);
    }
    return psprintf(": %s: %s at byte %llu", detail, fault, (unsigned long long)answer.bytes);
}

/* What may help, or NULL. */
static const char *hint_of(kormaglen_answer answer) {
    switch (answer.status) {
    case KORMAGLEN_NO_MEMORY: return "The library takes its memory from the system, and no setting of PostgreSQL's limits it.";
    case KORMAGLEN_INVALID_JSON:
    case KORMAGLEN_BAD_SCHEMA: return "A schema is a JSON array that has an object for each field, as tantivy writes it.";
    case KORMAGLEN_BAD_DOCUMENT:
        return is_corrupt(answer) ? "Nothing in a document says which version it has: perhaps it has another one."
                                  : "Perhaps the document was stored by another schema.";
    case KORMAGLEN_NOT_A_FACET: return "A facet is written as /first/second.";
    case KORMAGLEN_BAD_QUERY:
        return answer.detail == KORMAGLEN_QUERY_PATH_ENDS ? "A path into JSON objects goes on with a dot and a key, as more.size." : NULL;
    default: return NULL;
    }
}

void refuse(const call *it, int about, kormaglen_answer answer) {
    const int argument = refused_argument(it, about, answer);
    const char *place = answer.status != KORMAGLEN_NO_MEMORY ? place_of(it, argument, answer) : "";
    const char *reason = reason_of(answer);
    const char *hint = hint_of(answer);
    const char *name = it->signature->arguments[argument];
    ereport(ERROR, errcode(code_of(answer)), errmsg("%s: %s", it->signature->name, kormaglen_status_text(answer.status)),
            errdetail("Argument %d (%s)%s%s.", argument + 1, name, place, reason),
            hint != NULL ? errhint("%s", hint) : 0);
}

void refuse_argument(const call *it, int argument, int code, const char *what, const char *reason) {
    ereport(ERROR, errcode(code), errmsg("%s: %s", it->signature->name, what),
            errdetail("Argument %d (%s): %s.", argument + 1, it->signature->arguments[argument], reason));
}

void refuse_size(const call *it, uint64_t len) {
    ereport(ERROR, errcode(ERRCODE_PROGRAM_LIMIT_EXCEEDED), errmsg("%s: a value is longer than PostgreSQL has them", it->signature->name),
            errdetail("It has %llu bytes, and a value has at most %llu.", (unsigned long long)len,
                      (unsigned long long)(MaxAllocSize - VARHDRSZ)));
}
