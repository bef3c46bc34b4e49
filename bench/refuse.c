/* Refuses one allocation of a program, to see what the program makes of it (bench/hostile.py, bench/refusals.sh).
 *
 *     gcc -O2 -shared -fPIC -o refuse.so refuse.c
 *     REFUSE=12 LD_PRELOAD=./refuse.so PROGRAM
 *
 * refuses allocation number 12 of the program, counted from 1, and no other. Where REFUSE_TOLD is the number of a
 * descriptor, a byte is written there once it was refused.
 *
 * A program may also ask for a refusal itself, so that one run tries them all: an allocation of ARM + n bytes is refused,
 * and so is the nth after it; one of ASKED bytes is refused where that nth was met, and ends it where it was not.
 */
#include <errno.h>
#include <stddef.h>
#include <stdlib.h>
#include <unistd.h>

#define ARM ((size_t)1 << 60)
#define ASKED ((size_t)7777777)

extern void *__libc_malloc(size_t), *__libc_calloc(size_t, size_t), *__libc_realloc(void *, size_t), *__libc_memalign(size_t, size_t);

static size_t left; /* how many allocations there are up to the one that is refused; 0: none is */
static int met, told = -1;

__attribute__((constructor)) static void begin(void) {
    const char *number = getenv("REFUSE"), *descriptor = getenv("REFUSE_TOLD");
    left = number ? strtoull(number, NULL, 10) : 0;
    told = descriptor ? atoi(descriptor) : -1;
}

static int is_refused(size_t size) {
    if (size >= ARM) {
        left = size - ARM;
        met = 0;
        return 1;
    }
    if (size == ASKED) {
        left = 0;
        return met;
    }
    if (left == 0 || --left > 0)
        return 0;
    met = 1;
    return told < 0 || write(told, "x", 1) == 1;
}

static void *refused(void) {
    errno = ENOMEM;
    return NULL;
}

void *malloc(size_t size) { return is_refused(size) ? refused() : __libc_malloc(size); }

void *calloc(size_t count, size_t size) { return is_refused(count * size) ? refused() : __libc_calloc(count, size); }

void *realloc(void *old, size_t size) { return is_refused(size) ? refused() : __libc_realloc(old, size); }

void *memalign(size_t align, size_t size) { return is_refused(size) ? refused() : __libc_memalign(align, size); }

void *aligned_alloc(size_t align, size_t size) { return memalign(align, size); }

int posix_memalign(void **at, size_t align, size_t size) {
    *at = memalign(align, size);
    return *at ? 0 : ENOMEM;
}
