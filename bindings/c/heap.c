/* The heap of the library: three functions over malloc, realloc and free, as the toolchain's library declares them, and the limit of a
   thread. A size of 0 gets a block of `align` bytes. Where an allocation fails the pointer is of no use, and is not null.

   Each block ends with the number of the limit under which it was taken, 0 where there was none: so what is given back makes room only
   where it counts. */
#include "tmpl.h"
#include <malloc.h>
#include <stdatomic.h>
#include <stdbool.h>
#include <stddef.h>
#include <stdint.h>
#include <stdlib.h>
#include <string.h>

struct tried {
    bool is_there;
    void *at;
};

struct tried rattle_alloc(size_t size, size_t align);
struct tried rattle_realloc(void *old, size_t kept, size_t size, size_t align);
void rattle_dealloc(void *at);

static char nothing;

static atomic_uint_least64_t limits;     /* how many limits were set, by all threads */
static _Thread_local uint64_t number;    /* that of the thread's own; 0: it has none, and nothing is counted */
static _Thread_local size_t most, taken; /* how many bytes it allows, and how many blocks have that were taken under it and are there */

void tmpl_limit_memory(size_t bytes) {
    number = bytes != 0 ? atomic_fetch_add_explicit(&limits, 1, memory_order_relaxed) + 1 : 0;
    most = bytes, taken = 0;
}

/* Where the number of a block lies. */
static char *mark_of(void *at) { return (char *)at + malloc_usable_size(at) - sizeof number; }

/* How many bytes of a block count. */
static size_t counted(void *at) {
    uint64_t own;
    if (number == 0) return 0;
    memcpy(&own, mark_of(at), sizeof own);
    return own == number ? malloc_usable_size(at) : 0;
}

/* The bytes to ask for, with room for the number; 0 where they are too many, or more than what is left beside these. */
static size_t asked(size_t size, size_t align, size_t beside) {
    size = size != 0 ? size : align;
    if (size > SIZE_MAX - sizeof number || (number != 0 && (beside > most || size > most - beside))) return 0;
    return size + sizeof number;
}

/* Marks a new block with the number of the limit, and counts it beside the bytes that the thread holds; a null block is a failed allocation. */
static struct tried told(void *at, size_t beside) {
    if (at == NULL) return (struct tried){false, &nothing};
    memcpy(mark_of(at), &number, sizeof number);
    if (number != 0) taken = beside + malloc_usable_size(at);
    return (struct tried){true, at};
}

struct tried rattle_alloc(size_t size, size_t align) {
    size = asked(size, align, taken);
    return told(size != 0 ? malloc(size) : NULL, taken);
}

struct tried rattle_realloc(void *old, size_t kept, size_t size, size_t align) {
    (void)kept;
    size_t beside = taken - counted(old);
    size = asked(size, align, beside);
    return told(size != 0 ? realloc(old, size) : NULL, beside);
}

void rattle_dealloc(void *at) {
    taken -= counted(at);
    free(at);
}
