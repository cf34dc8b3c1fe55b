/* Kormaglen in SQLite: the table of its functions, and what SQLite calls when the extension is loaded. docs/ENGINES.md describes each. */
#include "extension.h"

SQLITE_EXTENSION_INIT1

/* The first version of SQLite that has its JSON functions wherever they aren't left out. */
enum { OLDEST = 3038000 };

static void give_version(call *it) {
    sqlite3_result_text(it->context, kormaglen_version(), -1, SQLITE_STATIC);
}

static const function FUNCTIONS[] = {
    {{"kormaglen_version", {NULL}}, give_version, NULL},
    {{"kormaglen_store", {"schema", "line"}}, store_line, NULL},
    {{"kormaglen_json", {"schema", "version", "document"}}, print_document, NULL},
    {{"kormaglen_value", {"schema", "version", "document", "field"}}, give_first_value, NULL},
    {{"kormaglen_migrate", {"from", "document", "to"}}, migrate_document, NULL},
    {{"kormaglen_check", {"version", "document"}}, check_document, NULL},
    {{"kormaglen_facet", {"text"}}, encode_facet, NULL},
    {{"kormaglen_facet_text", {"facet"}}, print_facet, NULL},
    {{"kormaglen_facet_pairs", {"document", "facet"}}, add_pair, give_pairs},
    {{"kormaglen_field", {"schema", "path"}}, give_field, NULL},
    {{"kormaglen_term", {"schema", "path", "text"}}, give_term, NULL},
    {{"kormaglen_term_text", {"term"}}, print_term, NULL},
    {{"kormaglen_range_start", {"schema", "path", "text"}}, give_range_start, NULL},
    {{"kormaglen_range_end", {"schema", "path", "text"}}, give_range_end, NULL},
};

static const table *const TABLES[] = {&DOCUMENT_TERMS, &DOCUMENT_VALUES, &FACET_COUNTS, &QUERY_TERMS, &QUERY_RANGES};

/* What SQLite hands to a function. */
typedef struct function_data {
    const function *function;
    cache *cache;
} function_data;

static void end_function(void *data) {
    function_data *it = data;
    leave_cache(it->cache);
    sqlite3_free(it);
}

static call new_call(sqlite3_context *context, sqlite3_value **arguments) {
    const function_data *data = sqlite3_user_data(context);
    sqlite3 *db = sqlite3_context_db_handle(context);
    call it = {.signature = &data->function->signature, .db = db, .context = context, .arguments = arguments, .cache = data->cache};
    it.limit = (size_t)sqlite3_limit(db, SQLITE_LIMIT_LENGTH, -1);
    return it;
}

/* Runs a function, unless an argument is NULL: then so is the result, and an aggregate leaves the row out. */
static void run(sqlite3_context *context, int count, sqlite3_value **arguments) {
    const function_data *data = sqlite3_user_data(context);
    for (int i = 0; i < count; i++) {
        if (sqlite3_value_type(arguments[i]) == SQLITE_NULL) {
            return;
        }
    }
    call it = new_call(context, arguments);
    data->function->run(&it);
    report(context, it.fault);
}

static void finish(sqlite3_context *context) {
    const function_data *data = sqlite3_user_data(context);
    call it = new_call(context, NULL);
    data->function->finish(&it);
    report(context, it.fault);
}

static int create_function(sqlite3 *db, const function *it, cache *with) {
    const int flags = SQLITE_UTF8 | SQLITE_DETERMINISTIC | SQLITE_INNOCUOUS;
    function_data *data = sqlite3_malloc64(sizeof *data);
    if (data == NULL) {
        return SQLITE_NOMEM;
    }
    *data = (function_data){it, with};
    with->users += 1;
    bool adds = it->finish != NULL;
    /* (SQLite ends the data also where it refuses the function) */
    return sqlite3_create_function_v2(db, it->signature.name, count_arguments(&it->signature), flags, data, adds ? NULL : run,
                                      adds ? run : NULL, adds ? finish : NULL, end_function);
}

/* The extension isn't there, and says why. */
static int end_init(char **message, int code, const char *why) {
    if (message != NULL) {
        *message = sqlite3_mprintf("kormaglen: %s", why);
    }
    return code;
}

/* The one name that is seen from outside. SQLite finds it by the name of the file, kormaglen.so. */
__attribute__((visibility("default"))) int sqlite3_kormaglen_init(sqlite3 *db, char **message, const sqlite3_api_routines *api);

int sqlite3_kormaglen_init(sqlite3 *db, char **message, const sqlite3_api_routines *api) {
    SQLITE_EXTENSION_INIT2(api);
    (void)api;
    if (sqlite3_libversion_number() < OLDEST) {
        return end_init(message, SQLITE_ERROR, "SQLite 3.38 or newer is wanted");
    }
    cache *with = new_cache();
    int code = with == NULL ? SQLITE_NOMEM : SQLITE_OK;
    for (size_t i = 0; code == SQLITE_OK && i < sizeof FUNCTIONS / sizeof *FUNCTIONS; i++) {
        code = create_function(db, &FUNCTIONS[i], with);
    }
    for (size_t i = 0; code == SQLITE_OK && i < sizeof TABLES / sizeof *TABLES; i++) {
        code = create_table(db, TABLES[i], with);
    }
    if (with != NULL) {
        leave_cache(with);
    }
    return code == SQLITE_OK ? code : end_init(message, code, sqlite3_errmsg(db));
}
