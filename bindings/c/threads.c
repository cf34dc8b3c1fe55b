/* Uses handles on many threads, for the compiler's check of threads: each thread has handles of its own, and one pair of handles goes from thread
 * to thread under a lock. Ends with 1 where an answer is another than with one thread. */
#include "kormaglen.h"

#include <pthread.h>
#include <stdio.h>
#include <string.h>

enum { THREADS = 8, ROUNDS = 500 };

static const char SCHEMA[] =
    "[{\"name\":\"name\",\"type\":\"text\",\"options\":{\"stored\":true}},"
    "{\"name\":\"age\",\"type\":\"u64\",\"options\":{\"indexed\":true,\"stored\":true}}]";
static const char LINE[] = "{\"name\":\"Ada\",\"age\":36}";
static const char PRINTED[] = "{\"age\":[36],\"name\":[\"Ada\"]}";

static pthread_mutex_t lock = PTHREAD_MUTEX_INITIALIZER;
static kormaglen_schema shared_schema;
static kormaglen_document shared_document;

static int open_schema(kormaglen_schema *schema) {
    return kormaglen_schema_open((const uint8_t *)SCHEMA, strlen(SCHEMA), schema).status == KORMAGLEN_OK;
}

/* Parses, writes, reads and prints one document. Returns whether each answer is as it has to be. */
static int round_trip(kormaglen_schema *schema, kormaglen_document *document) {
    uint8_t stored[64], text[64];
    if (kormaglen_document_parse(schema, (const uint8_t *)LINE, strlen(LINE), document).status != KORMAGLEN_OK) {
        return 0;
    }
    kormaglen_answer written = kormaglen_document_write(document, schema, 3, stored, sizeof stored);
    if (written.status != KORMAGLEN_OK || kormaglen_document_read(3, stored, (size_t)written.bytes, document).bytes != written.bytes) {
        return 0;
    }
    kormaglen_answer printed = kormaglen_document_to_json(document, schema, text, sizeof text);
    return printed.status == KORMAGLEN_OK && printed.bytes == strlen(PRINTED) && memcmp(text, PRINTED, strlen(PRINTED)) == 0;
}

/* Returns its argument where all answers were right. */
static void *work(void *argument) {
    kormaglen_schema schema = {0};
    kormaglen_document document = {0};
    int holds = open_schema(&schema);
    for (int i = 0; holds && i < ROUNDS; i++) {
        holds = round_trip(&schema, &document);
        pthread_mutex_lock(&lock);
        holds = holds && round_trip(&shared_schema, &shared_document);
        pthread_mutex_unlock(&lock);
    }
    kormaglen_document_close(&document);
    kormaglen_schema_close(&schema);
    return holds ? argument : NULL;
}

/* Gives up handles that another thread opened. */
static void *close_shared(void *argument) {
    kormaglen_document_close(&shared_document);
    kormaglen_schema_close(&shared_schema);
    return argument;
}

int main(void) {
    pthread_t threads[THREADS];
    int numbers[THREADS];
    int wrong = !open_schema(&shared_schema);
    for (int i = 0; i < THREADS; i++) {
        wrong |= pthread_create(&threads[i], NULL, work, &numbers[i]) != 0;
    }
    for (int i = 0; i < THREADS; i++) {
        void *ended = NULL;
        wrong |= pthread_join(threads[i], &ended) != 0 || ended != &numbers[i];
    }
    pthread_t last;
    wrong |= pthread_create(&last, NULL, close_shared, NULL) != 0 || pthread_join(last, NULL) != 0;
    puts(wrong ? "threads: a wrong answer" : "threads: each answer as with one thread");
    return wrong;
}
