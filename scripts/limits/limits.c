/* What any program must at least do to write and to print stored documents, measured: loops without a heap, without a test of room and without
 * a result that can fail, over a list of parts that was made before. They bound from below what the library's calls can take.
 *
 *     cc -O2 -march=x86-64-v2 -o limits scripts/limits/limits.c
 *     ./limits BLOCK [NAME ..]
 *
 * BLOCK is a file of documents in version 2, NAME the names of the schema's fields in their order, for printing. Each loop's text is compared: that of
 * `write` with the block, and that of `print` is written to the standard output with the option -p, to be compared with `kormaglen export`. */
#include <stdint.h>
#include <stdio.h>
#include <stdlib.h>
#include <string.h>
#include <time.h>

enum { TEXT = 0, U64 = 1, I64 = 2, FACET = 3, BYTES = 4, DATE = 5, BOOL = 9, IP = 10, NULL_VALUE = 11, ARRAY = 12, OBJECT = 13, DOCUMENT = 100, FIELD = 101 };

/* A part of a document: where its payload stands and how long it is; of a list how many values it has, of an object entries. */
struct part {
    const uint8_t *at;
    uint64_t count;
    uint8_t code;
};

static struct part *parts;
static size_t part_count;
static size_t part_room;
static const uint8_t *end;
static int can_print = 1;

static void fail(const char *what)
{
    fprintf(stderr, "limits: %s\n", what);
    exit(1);
}

static void add_part(uint8_t code, const uint8_t *at, uint64_t count)
{
    if (part_count == part_room) {
        part_room = part_room ? 2 * part_room : 1024;
        parts = realloc(parts, part_room * sizeof *parts);
        if (!parts) fail("memory was refused");
    }
    parts[part_count++] = (struct part){at, count, code};
}

static const uint8_t *take(const uint8_t *at, uint64_t count)
{
    if (count > (uint64_t)(end - at)) fail("the block ends inside a document");
    return at + count;
}

static const uint8_t *read_number(const uint8_t *at, uint64_t *number)
{
    *number = 0;
    for (int shift = 0; shift < 64; shift += 7) {
        const uint8_t *after = take(at, 1);
        *number |= (uint64_t)(*at & 127) << shift;
        if (*at & 128) return after;
        at = after;
    }
    fail("a number is too long");
    return at;
}

/* Lists the parts of a value. */
static const uint8_t *list_value(const uint8_t *at)
{
    uint8_t code = *at;
    uint64_t count;
    at = take(at, 1);
    switch (code) {
    case TEXT:
    case FACET:
    case BYTES:
        at = read_number(at, &count);
        add_part(code, at, count);
        if (code != TEXT) can_print = 0;
        return take(at, count);
    case U64:
    case I64:
    case DATE:
        add_part(code, at, 8);
        if (code == DATE) can_print = 0;
        return take(at, 8);
    case BOOL:
        add_part(code, at, 1);
        return take(at, 1);
    case IP:
        can_print = 0;
        add_part(code, at, 16);
        return take(at, 16);
    case NULL_VALUE:
        add_part(code, at, 0);
        return at;
    case ARRAY:
    case OBJECT:
        at = read_number(at, &count);
        add_part(code, at, code == OBJECT ? count / 2 : count);
        for (uint64_t n = 0; n < count; n++) at = list_value(at);
        return at;
    default:
        fail("a value of a kind that isn't measured");
        return at;
    }
}

/* Lists the parts of all documents. */
static size_t list_block(const uint8_t *at)
{
    size_t documents = 0;
    while (at < end) {
        uint64_t pairs;
        at = read_number(at, &pairs);
        add_part(DOCUMENT, at, pairs);
        for (uint64_t n = 0; n < pairs; n++) {
            uint32_t field;
            memcpy(&field, at, 4);
            add_part(FIELD, at, field);
            at = list_value(take(at, 4));
        }
        documents++;
    }
    return documents;
}

static inline uint8_t *write_number(uint8_t *to, uint64_t number)
{
    while (number > 127) {
        *to++ = number & 127;
        number >>= 7;
    }
    *to++ = (uint8_t)(number | 128);
    return to;
}

/* Copies bytes, of which 16 may be copied at once where fewer are asked for. */
static inline uint8_t *copy(uint8_t *to, const uint8_t *from, uint64_t count)
{
    if (count <= 16)
        memcpy(to, from, 16);
    else
        memcpy(to, from, count);
    return to + count;
}

/* Writes all documents in version 2. */
static uint8_t *write_all(uint8_t *to)
{
    for (const struct part *part = parts, *last = parts + part_count; part < last; part++) {
        uint32_t field;
        switch (part->code) {
        case DOCUMENT:
            to = write_number(to, part->count);
            break;
        case FIELD:
            field = (uint32_t)part->count;
            memcpy(to, &field, 4);
            to += 4;
            break;
        case TEXT:
        case FACET:
        case BYTES:
            *to++ = part->code;
            to = copy(write_number(to, part->count), part->at, part->count);
            break;
        case ARRAY:
            *to++ = part->code;
            to = write_number(to, part->count);
            break;
        case OBJECT:
            *to++ = part->code;
            to = write_number(to, 2 * part->count);
            break;
        default:
            *to++ = part->code;
            to = copy(to, part->at, part->count);
        }
    }
    return to;
}

static char **names;
static size_t name_count;

static inline uint8_t *print_digits(uint8_t *to, uint64_t number)
{
    uint8_t digits[20];
    int at = 20;
    do digits[--at] = (uint8_t)('0' + number % 10);
    while (number /= 10);
    memcpy(to, digits + at, 20 - at);
    return to + 20 - at;
}

/* Prints a text in quotes. What has to be escaped is looked for in one pass. */
static inline uint8_t *print_text(uint8_t *to, const uint8_t *from, uint64_t count)
{
    *to++ = '"';
    uint8_t *start = to;
    to = copy(to, from, count);
    for (uint8_t *at = start; at < to; at++)
        if (*at < 32 || *at == '"' || *at == '\\') fail("a text with an escape isn't measured");
    *to++ = '"';
    return to;
}

/* Prints a value and goes past its parts. */
static uint8_t *print_value(uint8_t *to, const struct part **next)
{
    const struct part *part = (*next)++;
    uint64_t number;
    switch (part->code) {
    case TEXT:
        return print_text(to, part->at, part->count);
    case U64:
    case I64:
        memcpy(&number, part->at, 8);
        if (part->code == I64 && (int64_t)number < 0) {
            *to++ = '-';
            number = -number;
        }
        return print_digits(to, number);
    case BOOL:
        memcpy(to, *part->at ? "true" : "false", 5);
        return to + (*part->at ? 4 : 5);
    case NULL_VALUE:
        memcpy(to, "null", 4);
        return to + 4;
    case ARRAY:
        *to++ = '[';
        for (uint64_t n = 0; n < part->count; n++) {
            if (n) *to++ = ',';
            to = print_value(to, next);
        }
        *to++ = ']';
        return to;
    default:
        *to++ = '{';
        for (uint64_t n = 0; n < part->count; n++) {
            if (n) *to++ = ',';
            to = print_value(to, next);
            *to++ = ':';
            to = print_value(to, next);
        }
        *to++ = '}';
        return to;
    }
}

/* Prints all documents as lines of JSON. Pairs of one field have to stand together, and the names and keys have to rise. */
static uint8_t *print_all(uint8_t *to)
{
    const struct part *next = parts;
    while (next < parts + part_count) {
        uint64_t pairs = (next++)->count;
        uint64_t field = UINT64_MAX;
        *to++ = '{';
        for (uint64_t n = 0; n < pairs; n++) {
            uint64_t here = (next++)->count;
            if (here == field) {
                *to++ = ',';
            } else {
                if (n) to = (uint8_t *)memcpy(to, "],", 2) + 2;
                if (here >= name_count) fail("a field has no name");
                *to++ = '"';
                size_t length = strlen(names[here]);
                memcpy(to, names[here], length);
                to = (uint8_t *)memcpy(to + length, "\":[", 3) + 3;
                field = here;
            }
            to = print_value(to, &next);
        }
        if (pairs) *to++ = ']';
        to = (uint8_t *)memcpy(to, "}\n", 2) + 2;
    }
    return to;
}

static double now(void)
{
    struct timespec time;
    clock_gettime(CLOCK_MONOTONIC, &time);
    return (double)time.tv_sec * 1e9 + (double)time.tv_nsec;
}

/* The best of many rounds, in nanoseconds a document. */
static void measure(const char *name, uint8_t *(*all)(uint8_t *), uint8_t *buffer, size_t documents)
{
    double best = 1e18;
    for (int round = 0; round < 200; round++) {
        double start = now();
        all(buffer);
        double taken = now() - start;
        if (taken < best) best = taken;
    }
    fprintf(stderr, "%-6s %8.1f nanoseconds a document\n", name, best / (double)documents);
}

int main(int count, char **words)
{
    int prints = count > 1 && strcmp(words[1], "-p") == 0;
    if (count - prints < 2) fail("limits [-p] BLOCK [NAME ..]");
    FILE *file = fopen(words[1 + prints], "rb");
    if (!file) fail("the block can't be opened");
    static uint8_t block[64 << 20];
    size_t length = fread(block, 1, sizeof block - 16, file);
    fclose(file);
    end = block + length;
    size_t documents = list_block(block);
    names = words + 2 + prints;
    name_count = (size_t)(count - 2 - prints);
    uint8_t *buffer = malloc(8 * length + 64);
    if (!buffer || !documents) fail("no document, or no memory");
    if (write_all(buffer) != buffer + length || memcmp(buffer, block, length) != 0) fail("what is written isn't the block");
    fprintf(stderr, "%zu documents of %zu parts and %zu bytes\n", documents, part_count / documents, length / documents);
    measure("write", write_all, buffer, documents);
    if (name_count && can_print) {
        measure("print", print_all, buffer, documents);
        if (prints) fwrite(buffer, 1, (size_t)(print_all(buffer) - buffer), stdout);
    }
    return 0;
}
