/* Buffers into which the library writes. They are PostgreSQL's memory. */
#include "extension.h"

#include "miscadmin.h"
#include "utils/memutils.h"

/* A guess is at most so long: a longer value is asked for its length first, and takes no memory that it doesn't need. */
enum { LARGEST_GUESS = 1 << 24, LARGEST_MULTIPLIED = 1 << 20 };

size_t guess_size(size_t len, size_t times) {
    return 256 + (len < LARGEST_MULTIPLIED ? times * len : len);
}

void reserve(const call *it, buffer *to, size_t more) {
    if (more <= to->size - to->len) {
        return;
    }
    if (more > MaxAllocHugeSize - to->len) {
        refuse_size(it, (uint64_t)to->len + more);
    }
    size_t size = to->len + more > 2 * to->size ? to->len + more : 2 * to->size;
    size = size < MaxAllocHugeSize ? size : MaxAllocHugeSize;
    if (to->start == NULL) {
        to->start = palloc_extended(size, MCXT_ALLOC_HUGE);
    } else {
        to->start = repalloc_huge(to->start, size);
    }
    to->size = size;
}

void append(const call *it, int argument, buffer *to, writing write, void *state) {
    /* (an empty buffer points nowhere) */
    reserve(it, to, 1);
    for (;;) {
        CHECK_FOR_INTERRUPTS();
        kormaglen_answer answer = write(state, to->start + to->len, to->size - to->len);
        if (answer.status == KORMAGLEN_OK) {
            to->len += (size_t)answer.bytes;
            return;
        }
        if (answer.status != KORMAGLEN_TOO_SMALL) {
            refuse(it, argument, answer);
        }
        reserve(it, to, (size_t)answer.bytes);
    }
}

struct varlena *write_value(const call *it, int argument, writing write, void *state, size_t guess) {
    size_t room = guess < LARGEST_GUESS ? guess : LARGEST_GUESS;
    for (;;) {
        CHECK_FOR_INTERRUPTS();
        struct varlena *value = palloc(VARHDRSZ + room);
        kormaglen_answer answer = write(state, (uint8_t *)VARDATA(value), room);
        if (answer.status == KORMAGLEN_OK) {
            SET_VARSIZE(value, VARHDRSZ + (size_t)answer.bytes);
            return value;
        }
        if (answer.status != KORMAGLEN_TOO_SMALL) {
            refuse(it, argument, answer);
        }
        if (answer.bytes > MaxAllocSize - VARHDRSZ) {
            refuse_size(it, answer.bytes);
        }
        pfree(value);
        room = (size_t)answer.bytes;
    }
}

uint64_t number_at(const uint8_t *start) {
    uint64_t number = 0;
    for (int i = 7; i >= 0; i--) {
        number = number << 8 | start[i];
    }
    return number;
}

void put_number(uint8_t *start, uint64_t number) {
    for (int i = 0; i < 8; i++) {
        start[i] = (uint8_t)(number >> (8 * i));
    }
}
