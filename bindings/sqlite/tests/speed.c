/* What a document costs by the extension beside the calls of the C library: speed FILE ROUNDS. The file has a schema's JSON on its first
 * line and documents on the others. Prints nanoseconds of the processor for each document, the best of the rounds: by the calls, and by a
 * statement over a table that has the lines or the documents, less what the same statement takes that only asks for their lengths. */
#include "kormaglen.h"

#include <sqlite3.h>
#include <stdio.h>
#include <stdlib.h>
#include <string.h>
#include <time.h>

int sqlite3_kormaglen_init(sqlite3 *db, char **message, const void *api);

enum { MOST = 200000 };

typedef struct lines {
    char *schema;
    char *line[MOST];
    size_t len[MOST];
    uint8_t *stored[MOST];
    size_t stored_len[MOST];
    size_t count;
} lines;

static void die(const char *why) {
    fprintf(stderr, "%s\n", why);
    exit(1);
}

static double now(void) {
    struct timespec time;
    clock_gettime(CLOCK_PROCESS_CPUTIME_ID, &time);
    return (double)time.tv_sec * 1e9 + (double)time.tv_nsec;
}

static char *copy_of(const char *text) {
    char *copy = strdup(text);
    if (copy == NULL) {
        die("no memory");
    }
    return copy;
}

static void read_lines(const char *path, lines *to) {
    static char line[1 << 16];
    FILE *file = fopen(path, "r");
    if (file == NULL || fgets(line, sizeof line, file) == NULL) {
        die("the file can't be read");
    }
    to->schema = copy_of(line);
    while (to->count < MOST && fgets(line, sizeof line, file) != NULL) {
        line[strcspn(line, "\n")] = 0;
        to->line[to->count] = copy_of(line);
        to->len[to->count++] = strlen(line);
    }
    fclose(file);
}

/* A schema's and a document's handle, and where the calls write. */
typedef struct handles {
    kormaglen_schema schema;
    kormaglen_document document;
    uint8_t bytes[1 << 17];
} handles;

static size_t expect(kormaglen_answer answer) {
    if (answer.status != KORMAGLEN_OK) {
        die(kormaglen_status_text(answer.status));
    }
    return (size_t)answer.bytes;
}

static size_t store(handles *by, const lines *of, size_t i) {
    expect(kormaglen_document_parse(&by->schema, (const uint8_t *)of->line[i], of->len[i], &by->document));
    return expect(kormaglen_document_write(&by->document, &by->schema, 2, by->bytes, sizeof by->bytes));
}

static size_t print(handles *by, const lines *of, size_t i) {
    expect(kormaglen_document_read(2, of->stored[i], of->stored_len[i], &by->document));
    return expect(kormaglen_document_to_json(&by->document, &by->schema, by->bytes, sizeof by->bytes));
}

static size_t read_price(handles *by, const lines *of, size_t i) {
    return expect(kormaglen_schema_values_of_block(&by->schema, (const uint8_t *)"price", 5, 2, of->stored[i], of->stored_len[i], by->bytes,
                                                   sizeof by->bytes));
}

static void keep_stored(handles *by, lines *of) {
    for (size_t i = 0; i < of->count; i++) {
        of->stored_len[i] = store(by, of, i);
        of->stored[i] = malloc(of->stored_len[i]);
        if (of->stored[i] == NULL) {
            die("no memory");
        }
        memcpy(of->stored[i], by->bytes, of->stored_len[i]);
    }
}

static double by_calls(handles *by, const lines *of, size_t (*call)(handles *, const lines *, size_t)) {
    double start = now();
    for (size_t i = 0; i < of->count; i++) {
        call(by, of, i);
    }
    return now() - start;
}

static double by_statement(sqlite3 *db, const char *sql, const char *schema) {
    sqlite3_stmt *statement = NULL;
    if (sqlite3_prepare_v2(db, sql, -1, &statement, NULL) != SQLITE_OK) {
        die(sqlite3_errmsg(db));
    }
    if (sqlite3_bind_parameter_count(statement) > 0) {
        sqlite3_bind_text(statement, 1, schema, -1, SQLITE_STATIC);
    }
    double start = now();
    int code = sqlite3_step(statement);
    double took = now() - start;
    if (code != SQLITE_ROW) {
        die(sqlite3_errmsg(db));
    }
    sqlite3_finalize(statement);
    return took;
}

static sqlite3 *fill_database(const lines *of) {
    sqlite3 *db = NULL;
    sqlite3_stmt *insert = NULL;
    if (sqlite3_open(":memory:", &db) != SQLITE_OK || sqlite3_kormaglen_init(db, NULL, NULL) != SQLITE_OK
        || sqlite3_exec(db, "CREATE TABLE schema(json TEXT); CREATE TABLE one(line TEXT, stored BLOB); BEGIN", NULL, NULL, NULL)
               != SQLITE_OK
        || sqlite3_prepare_v2(db, "INSERT INTO one VALUES (?2, kormaglen_store(?1, ?2))", -1, &insert, NULL) != SQLITE_OK) {
        die(sqlite3_errmsg(db));
    }
    sqlite3_bind_text(insert, 1, of->schema, -1, SQLITE_STATIC);
    for (size_t i = 0; i < of->count; i++) {
        sqlite3_bind_text(insert, 2, of->line[i], (int)of->len[i], SQLITE_STATIC);
        if (sqlite3_step(insert) != SQLITE_DONE) {
            die(sqlite3_errmsg(db));
        }
        sqlite3_reset(insert);
    }
    sqlite3_finalize(insert);
    by_statement(db, "INSERT INTO schema VALUES (?1) RETURNING 1", of->schema);
    sqlite3_exec(db, "COMMIT", NULL, NULL, NULL);
    return db;
}

typedef struct measured {
    const char *name, *sql;
    double best;
} measured;

/* The least of both. */
static void note(double *best, double took) {
    *best = took < *best ? took : *best;
}

static measured STATEMENTS[] = {
    {"a line's length", "SELECT sum(length(line)) FROM one", 1e18},
    {"a document's length", "SELECT sum(length(stored)) FROM one", 1e18},
    {"kormaglen_store", "SELECT sum(length(kormaglen_store(?1, line))) FROM one", 1e18},
    {"  schema by a subquery", "SELECT sum(length(kormaglen_store((SELECT json FROM schema), line))) FROM one", 1e18},
    {"kormaglen_json", "SELECT sum(length(kormaglen_json(?1, 2, stored))) FROM one", 1e18},
    {"kormaglen_check", "SELECT count(kormaglen_check(2, stored)) FROM one", 1e18},
    {"kormaglen_migrate", "SELECT sum(length(kormaglen_migrate(2, stored, 3))) FROM one", 1e18},
    {"kormaglen_value", "SELECT count(kormaglen_value(?1, 2, stored, 'price')) FROM one", 1e18},
    {"  of a text", "SELECT sum(length(kormaglen_value(?1, 2, stored, 'name'))) FROM one", 1e18},
    {"  of a date", "SELECT sum(length(kormaglen_value(?1, 2, stored, 'added'))) FROM one", 1e18},
    {"kormaglen_values", "SELECT count(value) FROM one, kormaglen_values(?1, 2, stored, 'price')", 1e18},
    {"kormaglen_terms", "SELECT sum(length(term)) FROM one, kormaglen_terms(?1, 2, stored)", 1e18},
    {"kormaglen_facet_pairs", "SELECT length(kormaglen_facet_pairs(rowid, '/shop/light')) FROM one", 1e18},
};
enum { COUNT = sizeof STATEMENTS / sizeof *STATEMENTS, LINE = 0, DOCUMENT = 1, STORE = 2, JSON = 4, VALUE = 7 };

int main(int count, char **words) {
    static lines of;
    static handles by;
    if (count != 3) {
        die("usage: speed FILE ROUNDS");
    }
    read_lines(words[1], &of);
    expect(kormaglen_schema_open((const uint8_t *)of.schema, strlen(of.schema), &by.schema));
    keep_stored(&by, &of);
    sqlite3 *db = fill_database(&of);
    double stored = 1e18, printed = 1e18, price = 1e18;
    for (long round = atol(words[2]); round > 0; round--) {
        note(&stored, by_calls(&by, &of, store));
        note(&printed, by_calls(&by, &of, print));
        note(&price, by_calls(&by, &of, read_price));
        for (size_t i = 0; i < COUNT; i++) {
            note(&STATEMENTS[i].best, by_statement(db, STATEMENTS[i].sql, of.schema));
        }
    }
    const double each = (double)of.count;
    printf("nanoseconds for each of %zu documents\n", of.count);
    printf("%-24s %8.0f\n%-24s %8.0f\n%-24s %8.0f\n", "C: parse and write", stored / each, "C: read and print", printed / each, "C: values",
           price / each);
    for (size_t i = 0; i < COUNT; i++) {
        printf("%-24s %8.0f\n", STATEMENTS[i].name, STATEMENTS[i].best / each);
    }
    printf("times the calls: kormaglen_store %.2f, kormaglen_json %.2f, kormaglen_value %.2f\n",
           (STATEMENTS[STORE].best - STATEMENTS[LINE].best) / stored, (STATEMENTS[JSON].best - STATEMENTS[DOCUMENT].best) / printed,
           (STATEMENTS[VALUE].best - STATEMENTS[DOCUMENT].best) / price);
    sqlite3_close(db);
    return 0;
}
