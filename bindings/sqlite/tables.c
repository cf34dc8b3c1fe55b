/* What the table-valued functions have in common: a table is filled with records as soon as its arguments are known, and a cursor goes over
 * them. */
#include "extension.h"

#include <string.h>

/* What SQLite hands to each connection of a table. */
typedef struct module_data {
    const table *table;
    cache *cache;
} module_data;

typedef struct connected_table {
    sqlite3_vtab base;
    sqlite3 *db;
    const module_data *data;
} connected_table;

static connected_table *table_of(const cursor *at) {
    return (connected_table *)(void *)at->base.pVtab;
}

static int connect_table(sqlite3 *db, void *data, int count, const char *const *words, sqlite3_vtab **made, char **message) {
    (void)count, (void)words, (void)message;
    const module_data *of = data;
    int code = sqlite3_declare_vtab(db, of->table->declaration);
    if (code == SQLITE_OK) {
        code = sqlite3_vtab_config(db, SQLITE_VTAB_INNOCUOUS);
    }
    if (code != SQLITE_OK) {
        return code;
    }
    connected_table *it = sqlite3_malloc64(sizeof *it);
    if (it == NULL) {
        return SQLITE_NOMEM;
    }
    memset(it, 0, sizeof *it);
    it->db = db;
    it->data = of;
    *made = &it->base;
    return SQLITE_OK;
}

static int disconnect_table(sqlite3_vtab *it) {
    sqlite3_free(it);
    return SQLITE_OK;
}

enum { MISSING = -1, NOT_YET = -2 };

/* The number of the constraint that gives an argument; NOT_YET where one does, but not in this order of tables. */
static int constraint_of(const sqlite3_index_info *plan, int column) {
    int found = MISSING;
    for (int i = 0; i < plan->nConstraint; i++) {
        if (plan->aConstraint[i].iColumn == column && plan->aConstraint[i].op == SQLITE_INDEX_CONSTRAINT_EQ) {
            if (plan->aConstraint[i].usable) {
                return i;
            }
            found = NOT_YET;
        }
    }
    return found;
}

/* The plan's number is 0, or that of the first argument that is missing, from 1; one that may be left out is not missing. Where conditions
 * are joined by OR, SQLite also asks for plans of a part of them, without the arguments: so these aren't refused here, but cost more than
 * any other. */
static int plan_table(sqlite3_vtab *planned, sqlite3_index_info *plan) {
    const table *it = ((connected_table *)(void *)planned)->data->table;
    int count = count_arguments(&it->signature);
    for (int i = 0; i < count; i++) {
        int constraint = constraint_of(plan, it->columns + i);
        if (constraint == NOT_YET) {
            return SQLITE_CONSTRAINT;
        }
        if (constraint == MISSING && it->has_option && i == count - 1) {
            break;
        }
        if (constraint == MISSING) {
            plan->idxNum = i + 1;
            plan->estimatedCost = 1e99;
            return SQLITE_OK;
        }
        plan->aConstraintUsage[constraint].argvIndex = i + 1;
        plan->aConstraintUsage[constraint].omit = 1;
    }
    plan->estimatedCost = 10 * it->rows;
    plan->estimatedRows = (sqlite3_int64)it->rows;
    return SQLITE_OK;
}

static int open_cursor(sqlite3_vtab *it, sqlite3_vtab_cursor **opened) {
    (void)it;
    cursor *made = sqlite3_malloc64(sizeof *made);
    if (made == NULL) {
        return SQLITE_NOMEM;
    }
    memset(made, 0, sizeof *made);
    *opened = &made->base;
    return SQLITE_OK;
}

/* Empties a cursor, which keeps the memory of its records and of its term. */
static void clear_cursor(cursor *it) {
    for (int i = 0; i < ARGUMENTS; i++) {
        sqlite3_value_free(it->arguments[i]);
        it->arguments[i] = NULL;
    }
    give_back_schema(it->schema);
    it->schema = NULL;
    it->records.len = 0;
    it->term.len = 0;
    it->at = 0;
    it->row = 0;
}

static int close_cursor(sqlite3_vtab_cursor *base) {
    cursor *it = (cursor *)(void *)base;
    clear_cursor(it);
    sqlite3_free(it->records.start);
    sqlite3_free(it->term.start);
    sqlite3_free(it);
    return SQLITE_OK;
}

bool cursor_schema(call *it, cursor *to) {
    bytes json;
    if (!text_argument(it, 0, &json)) {
        return false;
    }
    to->schema = take_schema(it, json);
    it->schema = to->schema;
    return to->schema != NULL;
}

/* Ends a call that gives no more rows: the message goes to the table, where SQLite looks for it. */
static int report_fault(cursor *it, fault why) {
    it->records.len = 0;
    sqlite3_free(it->base.pVtab->zErrMsg);
    it->base.pVtab->zErrMsg = why.message;
    return why.code;
}

/* A call of the table's function. */
static call call_of(cursor *it) {
    const connected_table *of = table_of(it);
    return (call){
        .signature = &of->data->table->signature, .db = of->db, .arguments = it->arguments, .cache = of->data->cache, .limit = INT32_MAX};
}

static bool is_past_end(const cursor *it) {
    return it->at >= it->records.len;
}

/* Does what the table does at each record, where the cursor is at one. */
static bool enter_record(call *it, cursor *at) {
    const table *table = table_of(at)->data->table;
    return table->enter_record == NULL || is_past_end(at) || table->enter_record(it, at);
}

static int start_cursor(sqlite3_vtab_cursor *base, int missing, const char *words, int count, sqlite3_value **arguments) {
    (void)words;
    cursor *it = (cursor *)(void *)base;
    call filling = call_of(it);
    clear_cursor(it);
    if (missing > 0) {
        fail_argument(&filling, missing - 1, "it is missing");
        return report_fault(it, filling.fault);
    }
    bool has_null = false;
    for (int i = 0; i < count; i++) {
        it->arguments[i] = sqlite3_value_dup(arguments[i]);
        if (it->arguments[i] == NULL) {
            return SQLITE_NOMEM;
        }
        has_null = has_null || sqlite3_value_type(arguments[i]) == SQLITE_NULL;
    }
    bool is_there = has_null || (table_of(it)->data->table->fill(&filling, it) && enter_record(&filling, it));
    return is_there ? SQLITE_OK : report_fault(it, filling.fault);
}

static int advance_cursor(sqlite3_vtab_cursor *base) {
    cursor *it = (cursor *)(void *)base;
    call going = call_of(it);
    it->at += table_of(it)->data->table->record_len(it->records.start + it->at);
    it->row += 1;
    return enter_record(&going, it) ? SQLITE_OK : report_fault(it, going.fault);
}

static int is_at_end(sqlite3_vtab_cursor *base) {
    return is_past_end((cursor *)(void *)base);
}

/* An argument that is left out has no value. */
static void give_argument(sqlite3_context *context, sqlite3_value *argument) {
    if (argument != NULL) {
        sqlite3_result_value(context, argument);
    }
}

static int give_column(sqlite3_vtab_cursor *base, sqlite3_context *context, int column) {
    cursor *it = (cursor *)(void *)base;
    const table *table = table_of(it)->data->table;
    if (column >= table->columns) {
        give_argument(context, it->arguments[column - table->columns]);
        return SQLITE_OK;
    }
    call giving = call_of(it);
    giving.context = context;
    giving.limit = (size_t)sqlite3_limit(giving.db, SQLITE_LIMIT_LENGTH, -1);
    table->give_column(&giving, it, column);
    report(context, giving.fault);
    return SQLITE_OK;
}

static int give_row(sqlite3_vtab_cursor *base, sqlite3_int64 *row) {
    const cursor *it = (cursor *)(void *)base;
    *row = it->row;
    return SQLITE_OK;
}

/* (a table without xCreate needs no CREATE VIRTUAL TABLE, and has none) */
static const sqlite3_module MODULE = {
    .xConnect = connect_table,
    .xBestIndex = plan_table,
    .xDisconnect = disconnect_table,
    .xOpen = open_cursor,
    .xClose = close_cursor,
    .xFilter = start_cursor,
    .xNext = advance_cursor,
    .xEof = is_at_end,
    .xColumn = give_column,
    .xRowid = give_row,
};

static void end_module(void *data) {
    module_data *it = data;
    leave_cache(it->cache);
    sqlite3_free(it);
}

int create_table(sqlite3 *db, const table *it, cache *with) {
    module_data *data = sqlite3_malloc64(sizeof *data);
    if (data == NULL) {
        return SQLITE_NOMEM;
    }
    *data = (module_data){it, with};
    with->users += 1;
    /* (SQLite ends the data also where it refuses the module) */
    return sqlite3_create_module_v2(db, it->signature.name, &MODULE, data, end_module);
}
