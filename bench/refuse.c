// refuse.c   Refuses one request for memory, as the program orders that it is loaded into before the C library (LD_PRELOAD). An order is a
// request itself, for more than any block can have: for 2^63 - 1 - k bytes, that the k-th request from there on is refused, and no other;
// for 2^63 - 1 bytes, that the order is taken back, and that the next request is refused where it was carried out, which is how the
// program learns of it. Without this the program asks the same, and nothing is refused but the orders themselves.
#include <errno.h>
#include <stddef.h>
#include <stdint.h>
#include <stdio.h>
#include <stdlib.h>

extern void *__libc_malloc(size_t);
extern void *__libc_calloc(size_t, size_t);
extern void *__libc_realloc(void *, size_t);

#define GREATEST ((size_t)PTRDIFF_MAX)
#define MOST 10000

static _Thread_local size_t left;
static _Thread_local int asked, carried_out;
static size_t refusals;

static int refuses(size_t size) {
    if (size <= GREATEST && GREATEST - size <= MOST) {
        if (size == GREATEST) {
            asked = 1;
        } else {
            left = GREATEST - size;
            carried_out = 0;
        }
        return 1;
    }
    if (asked) {
        asked = 0;
        left = 0;
        return carried_out;
    }
    if (left == 0 || --left > 0)
        return 0;
    carried_out = 1;
    refusals++;
    return 1;
}

static void *none(void) {
    errno = ENOMEM;
    return NULL;
}

void *malloc(size_t size) { return refuses(size) ? none() : __libc_malloc(size); }

void *calloc(size_t count, size_t size) {
    return refuses(size != 0 && count > SIZE_MAX / size ? SIZE_MAX : count * size) ? none() : __libc_calloc(count, size);
}

void *realloc(void *block, size_t size) { return refuses(size) ? none() : __libc_realloc(block, size); }

__attribute__((destructor)) static void tell(void) { fprintf(stderr, "%zu requests refused\n", refusals); }
