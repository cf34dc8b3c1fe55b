/* The extension where things go wrong, as a part of this program: stress PART NUMBER.
 *
 *   long NUMBER          documents of one key, of up to NUMBER letters, over half as many numbers; memory grows in proportion to them
 *   refused NUMBER       NUMBER calls that are refused; resident memory stays as it is
 *   interrupted NUMBER   statements, until NUMBER were interrupted
 *   limited NUMBER       statements with a limit on SQLite's memory, in NUMBER steps of 100 bytes above what is in use
 *   starved NUMBER       statements where each 1st, 2nd, .. request for memory is refused, SQLite's or the library's, up to this number
 *   random NUMBER        NUMBER random documents, schemas, lines and queries
 *
 * A statement gives what it gives by itself, or ends with an error that fits. Ends with 1 where one does not. */
#include "kormaglen.h"

#include <sqlite3.h>
#include <stdbool.h>
#include <stdio.h>
#include <stdlib.h>
#include <string.h>

int sqlite3_kormaglen_init(sqlite3 *db, char **message, const void *api);

static const char SCHEMA[] = "[{\"name\":\"name\",\"type\":\"text\",\"options\":{\"indexing\":{},\"stored\":true}},"
                             "{\"name\":\"price\",\"type\":\"u64\",\"options\":{\"indexed\":true,\"stored\":true}},"
                             "{\"name\":\"kind\",\"type\":\"facet\",\"options\":{\"stored\":true}},"
                             "{\"name\":\"more\",\"type\":\"json_object\",\"options\":{\"indexing\":{},\"stored\":true,\"fast\":false}}]";

static const char LINE[] = "{\"name\":[\"Lamp\",\"lamp\"],\"price\":20,\"kind\":\"/shop/light\",\"more\":{\"size\":[1,2],\"red\":true}}";

/* ?1 is the schema, ?2 the line. */
static const char *const STATEMENTS[] = {
    "SELECT hex(kormaglen_store(?1, ?2))",
    "SELECT kormaglen_json(?1, 2, kormaglen_store(?1, ?2)), kormaglen_version()",
    "SELECT hex(kormaglen_migrate(2, kormaglen_store((SELECT ?1), ?2), 3))",
    "SELECT kormaglen_check(2, kormaglen_store(?1, ?2)) IS NULL, kormaglen_check(2, x'80ff'), kormaglen_check(3, x'')",
    "SELECT kormaglen_facet_text(kormaglen_facet('/a/b\\/c'))",
    "SELECT kormaglen_field(?1, 'more.size'), hex(kormaglen_term(?1, 'price', '20')), hex(kormaglen_term(?1, 'more.a', 'x'))",
    "SELECT hex(kormaglen_range_start(?1, 'price', '[1 TO 2}')), hex(kormaglen_range_end(?1, 'name', 'la*'))",
    "SELECT field, hex(term), value, kormaglen_version FROM kormaglen_terms(?1, 2, kormaglen_store(?1, ?2))",
    "SELECT field, type, hex(term), value, fault, kormaglen_faults FROM kormaglen_terms(?1, 2, kormaglen_store(?1, ?2), TRUE)",
    "SELECT of.value, field, fault, hex(term) FROM json_each('[0,1]') AS of, kormaglen_terms(replace(?1, 'u64', 'i64'), 2, "
    "kormaglen_store(?1, '{\"name\":[\"a\",\"ab\"]' || iif(of.value, ',\"price\":1}', '}')), of.value)",
    "SELECT kormaglen_term_text(kormaglen_term(?1, 'price', '20')), kormaglen_term_text(kormaglen_term(?1, 'kind', '/shop'))",
    "SELECT hex(term) FROM kormaglen_query_terms(?1, 'more.size', '12')",
    "SELECT hex(start), hex(\"end\") FROM kormaglen_query_ranges(?1, 'more.size', '[1 TO 2]')",
    "SELECT hex(start), hex(\"end\") FROM kormaglen_query_ranges(?1, 'more.size', '1*')",
    "WITH RECURSIVE n(i) AS (VALUES(1) UNION ALL SELECT i + 1 FROM n WHERE i < 40) SELECT count(*), max(hex(t.term)) FROM n, "
    "kormaglen_terms(?1, 2, kormaglen_store((SELECT ?1 WHERE i > 0), '{\"price\":' || i || ',\"name\":[\"a\",\"b\"]}')) AS t",
    "SELECT kormaglen_value(?1, 2, kormaglen_store(?1, ?2), 'price'), kormaglen_value(?1, 2, kormaglen_store((SELECT ?1), ?2), 'kind'), "
    "kormaglen_value(?1, 2, kormaglen_store(?1, ?2), 'more')",
    "SELECT value, kind, kormaglen_field FROM kormaglen_values(?1, 2, kormaglen_store(?1, ?2), 'name')",
    "SELECT value, kind FROM kormaglen_values(?1, 2, kormaglen_store(?1, ?2), 'kind')",
    "WITH RECURSIVE n(i) AS (VALUES(1) UNION ALL SELECT i + 1 FROM n WHERE i < 40) SELECT facet, documents FROM "
    "kormaglen_facet_counts('/a', (SELECT kormaglen_facet_pairs(i % 7, '/a/' || (i % 3) || '/' || i) FROM n))",
    "SELECT hex(kormaglen_facet_pairs(1, x'61')), hex(kormaglen_facet_pairs(NULL, '/a')) FROM json_each('[1,2,3]')",
    "SELECT kormaglen_store(?1, '{\"price\":\"' || ?2 || '\"}')",
    "SELECT kormaglen_term(?1, 'price', 'x')",
    "SELECT kormaglen_term_text(x'00000000') WHERE ?1 <> ''",
    "SELECT kormaglen_term(?1, 'more.size', '1')",
    "SELECT kormaglen_json(?1, 4, x'')",
    "SELECT kormaglen_json(?1, 2, x'8000')",
    "SELECT kormaglen_store(substr(?1, 2), ?2)",
    "SELECT kormaglen_store(replace(?1, 'u64', 'u65'), ?2)",
    "SELECT kormaglen_field(?1, 'nothing')",
    "SELECT term FROM kormaglen_terms(?1, 2, x'81')",
    "SELECT term FROM kormaglen_terms(?1, 2, x'81', TRUE)",
    "SELECT term FROM kormaglen_terms(?1, 2, x'80', 2)",
    "SELECT term FROM kormaglen_terms(replace(?1, 'u64', 'i64'), 2, kormaglen_store(?1, ?2))",
    "SELECT start FROM kormaglen_query_ranges(?1, 'price', '[2 TO 1]')",
    "SELECT kormaglen_value(?1, 2, x'80', 'nothing')",
    "SELECT kormaglen_value(?1, 2, x'8101000000', 'price')",
    "SELECT kormaglen_value(?1, 2, x'80810100000001" "0700000000000000', 'price')",
    "SELECT value FROM kormaglen_values(?1, 2, x'8080', 'price')",
    "SELECT term FROM kormaglen_terms(?1, 2, x'8109000000010100000000000000')",
    "SELECT kormaglen_facet_pairs(value, substr('/a', 1 + value / 3)) FROM json_each('[1,2,3]') WHERE ?1 <> ''",
    "SELECT facet FROM kormaglen_facet_counts('/', x'00') WHERE ?1 <> ''",
    "SELECT facet FROM kormaglen_facet_counts(substr(?1, 1, 1), x'')",
    "SELECT kormaglen_store(?1, replace(?2, ':', ' '))",
    "SELECT kormaglen_store(?1, '[' || ?2 || ']')",
};
enum { COUNT = sizeof STATEMENTS / sizeof *STATEMENTS, FIRST_REFUSED = 20 };

typedef struct outcome {
    int code;
    char text[4096];
} outcome;

static outcome expected[COUNT];

static void die(const char *what, const char *why) {
    fprintf(stderr, "%s: %s\n", what, why);
    exit(1);
}

/* ---- memory that is refused: each n-th request, of SQLite's and of the library's */

static long refuse_at, requests;
static sqlite3_mem_methods memory;

static bool is_refused(void) {
    requests += 1;
    return refuse_at > 0 && requests % refuse_at == 0;
}

void *__real_malloc(size_t size);
void *__real_realloc(void *old, size_t size);
void *__wrap_malloc(size_t size);
void *__wrap_realloc(void *old, size_t size);

void *__wrap_malloc(size_t size) {
    return is_refused() ? NULL : __real_malloc(size);
}

void *__wrap_realloc(void *old, size_t size) {
    return is_refused() ? NULL : __real_realloc(old, size);
}

static void *starved_malloc(int size) {
    return is_refused() ? NULL : memory.xMalloc(size);
}

static void *starved_realloc(void *old, int size) {
    return is_refused() ? NULL : memory.xRealloc(old, size);
}

/* ---- statements */

static void add_text(outcome *to, const char *text) {
    size_t len = strlen(to->text);
    snprintf(to->text + len, sizeof to->text - len, "%s|", text != NULL ? text : "NULL");
}

static int bind_all(sqlite3_stmt *statement, const char *schema, const char *line) {
    int code = sqlite3_bind_text(statement, 1, schema, -1, SQLITE_STATIC);
    return code == SQLITE_OK && sqlite3_bind_parameter_count(statement) > 1 ? sqlite3_bind_text(statement, 2, line, -1, SQLITE_STATIC)
                                                                            : code;
}

/* Steps through the rows. The text has all columns, or the message. */
static void run_rows(sqlite3 *db, sqlite3_stmt *statement, outcome *to) {
    int code;
    to->text[0] = 0;
    while ((code = sqlite3_step(statement)) == SQLITE_ROW) {
        for (int i = 0; i < sqlite3_column_count(statement); i++) {
            add_text(to, (const char *)sqlite3_column_text(statement, i));
        }
    }
    to->code = code == SQLITE_DONE ? SQLITE_OK : code;
    if (to->code != SQLITE_OK) {
        to->text[0] = 0;
        add_text(to, sqlite3_errmsg(db));
    }
}

static outcome run(sqlite3 *db, const char *sql) {
    static outcome done;
    sqlite3_stmt *statement = NULL;
    done.text[0] = 0;
    done.code = sqlite3_prepare_v2(db, sql, -1, &statement, NULL);
    if (done.code == SQLITE_OK && sqlite3_bind_parameter_count(statement) > 0) {
        done.code = bind_all(statement, SCHEMA, LINE);
    }
    if (done.code == SQLITE_OK) {
        run_rows(db, statement, &done);
    }
    sqlite3_finalize(statement);
    return done;
}

static sqlite3 *open_database(void) {
    sqlite3 *db = NULL;
    if (sqlite3_open(":memory:", &db) != SQLITE_OK) {
        die("open", sqlite3_errmsg(db));
    }
    /* (the second time replaces what the first one made) */
    for (int i = 0; i < 2; i++) {
        if (sqlite3_kormaglen_init(db, NULL, NULL) != SQLITE_OK) {
            die("load", sqlite3_errmsg(db));
        }
        if (run(db, "SELECT * FROM kormaglen_query_terms('[{\"name\":\"a\",\"type\":\"facet\",\"options\":{\"stored\":true}}]', 'a', '/')")
                .code
            != 0) {
            die("load", sqlite3_errmsg(db));
        }
    }
    return db;
}

static void expect_all(void) {
    sqlite3 *db = open_database();
    for (int i = 0; i < COUNT; i++) {
        expected[i] = run(db, STATEMENTS[i]);
        bool is_fine = i < FIRST_REFUSED ? expected[i].code == SQLITE_OK
                                         : expected[i].code == SQLITE_ERROR && strstr(expected[i].text, "kormaglen_") == expected[i].text;
        if (!is_fine || expected[i].text[0] == 0) {
            die(STATEMENTS[i], expected[i].text);
        }
    }
    sqlite3_close(db);
}

/* A connection that is closed while its statements are at their first rows: they go on, and end it. */
static void close_early(void) {
    static const char *const SQL[] = {
        "SELECT kormaglen_store(?1, ?2) FROM json_each('[1,2,3]')",
        "SELECT kormaglen_store((SELECT ?1), ?2) FROM json_each('[1,2,3]')",
        "SELECT field, term FROM kormaglen_terms(?1, 2, kormaglen_store(?1, ?2))",
        "SELECT field, term, fault FROM kormaglen_terms(?1, 2, kormaglen_store(?1, ?2), TRUE)",
        "SELECT value FROM kormaglen_values(?1, 2, kormaglen_store(?1, ?2), 'name')",
    };
    enum { STATEMENTS_OPEN = sizeof SQL / sizeof *SQL };
    sqlite3_stmt *statements[STATEMENTS_OPEN];
    sqlite3 *db = open_database();
    for (int i = 0; i < STATEMENTS_OPEN; i++) {
        if (sqlite3_prepare_v2(db, SQL[i], -1, &statements[i], NULL) != SQLITE_OK || bind_all(statements[i], SCHEMA, LINE) != SQLITE_OK
            || sqlite3_step(statements[i]) != SQLITE_ROW) {
            die(SQL[i], sqlite3_errmsg(db));
        }
    }
    if (sqlite3_kormaglen_init(db, NULL, NULL) != SQLITE_BUSY || sqlite3_close_v2(db) != SQLITE_OK) {
        die("close", "statements are running");
    }
    for (int i = 0; i < STATEMENTS_OPEN; i++) {
        if (sqlite3_step(statements[i]) != SQLITE_ROW || sqlite3_finalize(statements[i]) != SQLITE_OK) {
            die(SQL[i], "it ends early");
        }
    }
}

/* The outcome is the expected one, or the code says that it was cut short. */
static bool is_cut_short(int number, const outcome *done, int code) {
    if ((done->code & 0xFF) == code) {
        return true;
    }
    /* (SQLite had no memory for a message of ours) */
    if (code == SQLITE_NOMEM && done->code == expected[number].code && strcmp(done->text, "SQL logic error|") == 0) {
        return true;
    }
    if (done->code != expected[number].code || strcmp(done->text, expected[number].text) != 0) {
        fprintf(stderr, "code %d: %s\nnot code %d: %s\n", done->code, done->text, expected[number].code, expected[number].text);
        die(STATEMENTS[number], "another outcome");
    }
    return false;
}

/* ---- the parts */

/* A figure of the process's memory, in KiB. */
static long memory_status(const char *key) {
    char line[256];
    long figure = -1;
    FILE *file = fopen("/proc/self/status", "r");
    while (file != NULL && figure < 0 && fgets(line, sizeof line, file) != NULL) {
        figure = strncmp(line, key, strlen(key)) == 0 ? atol(line + strlen(key)) : -1;
    }
    if (figure < 0) {
        die("memory", "it can't be read");
    }
    fclose(file);
    return figure;
}

static long resident(void) {
    return memory_status("VmRSS:");
}

/* Of the numbers below one, under a key of so many letters: how many terms they have, how long these are together, and the sum of their values. */
static const char LONG[] = "WITH RECURSIVE n(i) AS (VALUES(0) UNION ALL SELECT i + 1 FROM n WHERE i + 1 < %ld), "
                           "line(json) AS (SELECT '{\"more\":{\"' || printf('%%.*c', %ld, 'k') || '\":' || json_group_array(i) || '}}' FROM n) "
                           "SELECT count(*), sum(length(term)), sum(value), count(fault) FROM line, kormaglen_terms(?1, 2, kormaglen_store(?1, json))";

static void run_long(long number) {
    /* (a term is the field, a code, the key, a zero byte, a code and the number) */
    enum { SIZES = 4, TERM_LEN = 4 + 1 + 1 + 1 + 8, KIB = 1024, MOST_EACH = 200 };
    sqlite3 *db = open_database();
    long before = resident();
    for (long letters = number >> (SIZES - 1); letters <= number; letters *= 2) {
        char sql[sizeof LONG + 64], want[128];
        long numbers = letters / 2;
        snprintf(sql, sizeof sql, LONG, numbers, letters);
        snprintf(want, sizeof want, "%ld|%ld|%ld|0|", numbers, numbers * (letters + TERM_LEN), numbers * (numbers - 1) / 2);
        outcome done = run(db, sql);
        if (done.code != SQLITE_OK || strcmp(done.text, want) != 0) {
            die(want, done.text);
        }
        long grown = memory_status("VmHWM:") - before;
        printf("a key of %ld letters over %ld numbers: memory grew by %ld KiB at most\n", letters, numbers, grown);
        if (grown > KIB + letters * MOST_EACH / KIB) {
            die("memory", "it grew by more than in proportion");
        }
    }
    sqlite3_close(db);
}

/* Statements stay prepared, and each run of one is a refused call. */
static void run_refused(long number) {
    sqlite3 *db = open_database();
    sqlite3_stmt *statements[COUNT - FIRST_REFUSED];
    static outcome done;
    long before = 0;
    for (int i = 0; i < COUNT - FIRST_REFUSED; i++) {
        if (sqlite3_prepare_v2(db, STATEMENTS[FIRST_REFUSED + i], -1, &statements[i], NULL) != SQLITE_OK
            || bind_all(statements[i], SCHEMA, LINE) != SQLITE_OK) {
            die(STATEMENTS[FIRST_REFUSED + i], sqlite3_errmsg(db));
        }
    }
    for (long i = 0; i < number; i++) {
        int at = (int)(i % (COUNT - FIRST_REFUSED));
        run_rows(db, statements[at], &done);
        sqlite3_reset(statements[at]);
        if (is_cut_short(FIRST_REFUSED + at, &done, SQLITE_MISUSE)) {
            die(STATEMENTS[FIRST_REFUSED + at], "misuse");
        }
        if (i == number / 10) {
            before = resident();
        }
    }
    long after = resident();
    for (int i = 0; i < COUNT - FIRST_REFUSED; i++) {
        sqlite3_finalize(statements[i]);
    }
    sqlite3_close(db);
    printf("%ld refused calls, resident memory grew by %ld KiB\n", number, after - before);
    if (after - before > 256) {
        die("memory", "it grew");
    }
}

typedef struct interruption {
    sqlite3 *db;
    long left;
} interruption;

/* Interrupts a statement after this number of its steps, in one way or the other. */
static int interrupt(void *data) {
    interruption *it = data;
    it->left -= 1;
    if (it->left == -1 && it->db != NULL) {
        sqlite3_interrupt(it->db);
        return 0;
    }
    return it->left < 0 && it->db == NULL;
}

static void run_interrupted(long number) {
    sqlite3 *db = open_database();
    long interrupted = 0, i = 0;
    for (; interrupted < number; i++) {
        int at = (int)(i % COUNT);
        interruption it = {i % 3 == 0 ? db : NULL, (i / COUNT) % 40};
        sqlite3_progress_handler(db, 1, interrupt, &it);
        outcome done = run(db, STATEMENTS[at]);
        interrupted += is_cut_short(at, &done, SQLITE_INTERRUPT);
        sqlite3_progress_handler(db, 0, NULL, NULL);
    }
    for (int at = 0; at < COUNT; at++) {
        outcome done = run(db, STATEMENTS[at]);
        if (is_cut_short(at, &done, SQLITE_INTERRUPT)) {
            die(STATEMENTS[at], "it is interrupted still");
        }
    }
    sqlite3_close(db);
    printf("%ld statements, %ld interrupted\n", i, interrupted);
}

/* Opens a database, where that goes, and runs a statement there. Returns whether it was cut short for want of memory. */
static bool run_with_less(int at) {
    sqlite3 *db = NULL;
    int code = sqlite3_open(":memory:", &db);
    if (code == SQLITE_OK) {
        code = sqlite3_kormaglen_init(db, NULL, NULL);
    }
    bool is_cut = code != SQLITE_OK;
    if (is_cut && code != SQLITE_NOMEM) {
        die("open", sqlite3_errstr(code));
    }
    if (!is_cut) {
        outcome done = run(db, STATEMENTS[at]);
        is_cut = is_cut_short(at, &done, SQLITE_NOMEM);
    }
    if (sqlite3_close(db) != SQLITE_OK) {
        die(STATEMENTS[at], "the database is still in use");
    }
    return is_cut;
}

static void run_limited(long number) {
    long cut = 0;
    sqlite3_int64 before = sqlite3_memory_used();
    for (long step = 0; step < number; step++) {
        sqlite3 *db = open_database();
        for (int at = 0; at < COUNT; at++) {
            sqlite3_hard_heap_limit64(sqlite3_memory_used() + 100 * step);
            outcome done = run(db, STATEMENTS[at]);
            sqlite3_hard_heap_limit64(0);
            cut += is_cut_short(at, &done, SQLITE_NOMEM);
        }
        sqlite3_close(db);
    }
    printf("%ld statements with a limit, %ld cut short, %lld bytes kept\n", number * COUNT, cut, sqlite3_memory_used() - before);
    if (sqlite3_memory_used() != before) {
        die("memory", "it is kept");
    }
}

static void run_starved(long number) {
    long cut = 0;
    sqlite3_int64 before = sqlite3_memory_used();
    for (long each = 1; each <= number; each++) {
        for (int at = 0; at < COUNT; at++) {
            requests = 0;
            refuse_at = each;
            cut += run_with_less(at);
            refuse_at = 0;
        }
    }
    printf("%ld statements with refused requests, %ld cut short, %lld bytes kept\n", number * COUNT, cut, sqlite3_memory_used() - before);
    if (sqlite3_memory_used() != before) {
        die("memory", "it is kept");
    }
}

/* ---- random arguments */

static uint64_t state = 0x9E3779B97F4A7C15u;

static size_t below(size_t limit) {
    state ^= state << 13;
    state ^= state >> 7;
    state ^= state << 17;
    return (size_t)(state % limit);
}

/* A text or a blob with some bytes changed, taken out or put in; or random bytes alone. */
static size_t change(uint8_t *bytes, size_t len, size_t size) {
    if (below(8) == 0) {
        len = below(40);
        for (size_t i = 0; i < len; i++) {
            bytes[i] = (uint8_t)(below(2) == 0 ? below(256) : below(16));
        }
        return len;
    }
    for (size_t times = below(4); times > 0 && len > 0 && len < size; times--) {
        size_t at = below(len);
        if (below(3) == 0) {
            memmove(bytes + at, bytes + at + 1, len - at - 1);
            len -= 1;
        } else if (below(2) == 0) {
            memmove(bytes + at + 1, bytes + at, len - at);
            len += 1;
            bytes[at] = (uint8_t)below(256);
        } else {
            bytes[at] = (uint8_t)(below(2) == 0 ? below(256) : (size_t)bytes[below(len)]);
        }
    }
    return len;
}

static const char *const RANDOM_STATEMENTS[] = {
    "SELECT kormaglen_store(?1, ?2)",
    "SELECT kormaglen_json(?1, ?5, ?3), kormaglen_migrate(?5, ?3, 5 - ?5)",
    "SELECT kormaglen_check(?5, ?3)",
    "SELECT kormaglen_migrate(?5, ?3, 3)",
    "SELECT kormaglen_facet_text(?3), kormaglen_facet(?4)",
    "SELECT kormaglen_facet(?4)",
    "SELECT kormaglen_field(?1, ?4)",
    "SELECT kormaglen_term(?1, ?6, ?4)",
    "SELECT kormaglen_term_text(kormaglen_term(?1, ?6, ?4)), kormaglen_term_text(?3)",
    "SELECT kormaglen_term_text(?3)",
    "SELECT kormaglen_range_start(?1, ?6, ?4)",
    "SELECT kormaglen_range_end(?1, ?6, ?4)",
    "SELECT * FROM kormaglen_terms(?1, ?5, ?3)",
    "SELECT * FROM kormaglen_terms(?1, ?5, ?3, ?5 - 1)",
    "SELECT * FROM kormaglen_query_terms(?1, ?6, ?4)",
    "SELECT * FROM kormaglen_query_ranges(?1, ?6, ?4)",
    "SELECT kormaglen_value(?1, ?5, ?3, ?6)",
    "SELECT * FROM kormaglen_values(?1, ?5, ?3, ?6)",
    "SELECT kormaglen_facet_pairs(?5, ?4)",
    "SELECT * FROM kormaglen_facet_counts(?3, (SELECT kormaglen_facet_pairs(?5, ?3)))",
    "SELECT * FROM kormaglen_facet_counts(?4, ?7)",
};
enum { RANDOM_COUNT = sizeof RANDOM_STATEMENTS / sizeof *RANDOM_STATEMENTS, LARGEST = 1024 };

static const char *const PATHS[] = {"name", "price", "kind", "more.size", "more.a\\.b", "more", "nothing"};
/* The pairs of documents 1 and 2 with `/shop/a`. */
static const char PAIRS[] = "\1\0\0\0\0\0\0\0\6\0\0\0\0\0\0\0shop\0a\2\0\0\0\0\0\0\0\6\0\0\0\0\0\0\0shop\0a";

static const char *const TEXTS[] = {"20", "[1 TO 2}", "[* TO a]", "lam*", "/shop/*", "/shop", "*", "2020-01-01T00:00:00Z", "true"};

/* Binds a changed copy, as a text or a blob. Sometimes the other one, and sometimes NULL. */
static void bind_changed(sqlite3_stmt *statement, int number, const void *from, size_t len, bool is_text) {
    uint8_t bytes[LARGEST];
    memcpy(bytes, from, len);
    len = below(3) == 0 ? len : change(bytes, len, sizeof bytes);
    if (below(100) == 0) {
        is_text = !is_text;
    }
    if (number > sqlite3_bind_parameter_count(statement) || below(100) == 0) {
        return;
    }
    if (is_text) {
        sqlite3_bind_text(statement, number, (const char *)bytes, (int)len, SQLITE_TRANSIENT);
    } else {
        sqlite3_bind_blob(statement, number, bytes, (int)len, SQLITE_TRANSIENT);
    }
}

/* Runs a statement with random arguments. Returns whether it was accepted. */
static bool run_random(sqlite3 *db, sqlite3_stmt *statement, const uint8_t *document, size_t document_len) {
    static outcome done;
    const char *path = PATHS[below(sizeof PATHS / sizeof *PATHS)], *text = TEXTS[below(sizeof TEXTS / sizeof *TEXTS)];
    sqlite3_clear_bindings(statement);
    bind_changed(statement, 1, SCHEMA, strlen(SCHEMA), true);
    bind_changed(statement, 2, LINE, strlen(LINE), true);
    bind_changed(statement, 3, document, document_len, false);
    bind_changed(statement, 4, text, strlen(text), true);
    if (sqlite3_bind_parameter_count(statement) >= 5) {
        sqlite3_bind_int(statement, 5, below(20) == 0 ? (int)below(9) : 2);
    }
    bind_changed(statement, 6, path, strlen(path), true);
    bind_changed(statement, 7, PAIRS, sizeof PAIRS - 1, false);
    run_rows(db, statement, &done);
    sqlite3_reset(statement);
    if (done.code != SQLITE_OK && (done.code != SQLITE_ERROR || strstr(done.text, "kormaglen_") != done.text)) {
        die("random arguments", done.text);
    }
    return done.code == SQLITE_OK;
}

static void run_randoms(long number) {
    sqlite3 *db = open_database();
    sqlite3_stmt *statements[RANDOM_COUNT], *stored = NULL;
    uint8_t document[LARGEST];
    long accepted[RANDOM_COUNT] = {0};
    if (sqlite3_prepare_v2(db, STATEMENTS[0], -1, &stored, NULL) != SQLITE_OK || bind_all(stored, SCHEMA, LINE) != SQLITE_OK
        || sqlite3_step(stored) != SQLITE_ROW) {
        die("store", sqlite3_errmsg(db));
    }
    const char *digits = (const char *)sqlite3_column_text(stored, 0);
    size_t len = strlen(digits) / 2;
    for (size_t i = 0; i < len; i++) {
        unsigned byte = 0;
        sscanf(digits + 2 * i, "%2x", &byte);
        document[i] = (uint8_t)byte;
    }
    sqlite3_finalize(stored);
    for (int i = 0; i < RANDOM_COUNT; i++) {
        if (sqlite3_prepare_v2(db, RANDOM_STATEMENTS[i], -1, &statements[i], NULL) != SQLITE_OK) {
            die(RANDOM_STATEMENTS[i], sqlite3_errmsg(db));
        }
    }
    for (long i = 0; i < number; i++) {
        accepted[i % RANDOM_COUNT] += run_random(db, statements[i % RANDOM_COUNT], document, len);
    }
    printf("%ld statements with random arguments; of each accepted:", number);
    for (int i = 0; i < RANDOM_COUNT; i++) {
        printf(" %ld", accepted[i]);
        sqlite3_finalize(statements[i]);
    }
    printf("\n");
    sqlite3_close(db);
}

typedef struct part {
    const char *name;
    void (*run)(long number);
} part;

int main(int count, char **words) {
    static const part PARTS[] = {{"long", run_long},
                                 {"refused", run_refused},
                                 {"interrupted", run_interrupted},
                                 {"limited", run_limited},
                                 {"starved", run_starved},
                                 {"random", run_randoms}};
    /* (no pool of small pieces, so that each request is seen) */
    sqlite3_config(SQLITE_CONFIG_LOOKASIDE, 0, 0);
    sqlite3_config(SQLITE_CONFIG_GETMALLOC, &memory);
    sqlite3_mem_methods starved = memory;
    starved.xMalloc = starved_malloc;
    starved.xRealloc = starved_realloc;
    sqlite3_config(SQLITE_CONFIG_MALLOC, &starved);
    sqlite3_initialize();
    expect_all();
    close_early();
    for (size_t i = 0; count == 3 && i < sizeof PARTS / sizeof *PARTS; i++) {
        if (strcmp(words[1], PARTS[i].name) == 0) {
            PARTS[i].run(atol(words[2]));
            return 0;
        }
    }
    die("stress", "wants PART NUMBER");
}
