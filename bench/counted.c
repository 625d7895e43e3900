/* Counts the allocations of the program that it is loaded into: LD_PRELOAD=counted.so COUNTED=FILE
   program. At the end the file has a line: how many allocations were made, how many bytes they asked
   for, the most that one asked for, and the most bytes that were held at one time (as the C library
   rounds them). Allocations of the C library for its own use, as those of a thread's start, are counted
   alike. */
#include "allocations.h"

static atomic_long made, asked, largest, held, most;

static void tell(void) {
    char line[128];
    snprintf(line, sizeof line, "%ld %ld %ld %ld\n", atomic_load(&made), atomic_load(&asked),
             atomic_load(&largest), atomic_load(&most));
    tell_line("COUNTED", line);
}

static void raise_to(atomic_long *place, long value) {
    long before = atomic_load(place);
    while (before < value && !atomic_compare_exchange_weak(place, &before, value))
        ;
}

static void *counted(void *block, size_t size) {
    if (block) {
        atomic_fetch_add(&made, 1);
        atomic_fetch_add(&asked, size);
        raise_to(&largest, size);
        long usable = malloc_usable_size(block);
        raise_to(&most, atomic_fetch_add(&held, usable) + usable);
    }
    return block;
}

void *malloc(size_t size) {
    return counted(__libc_malloc(size), size);
}

void *calloc(size_t count, size_t size) {
    return counted(__libc_calloc(count, size), count * size);
}

void *realloc(void *old, size_t size) {
    long before = old ? malloc_usable_size(old) : 0;
    void *block = __libc_realloc(old, size);
    if (block || !size)
        atomic_fetch_sub(&held, before);
    return counted(block, size);
}

void *memalign(size_t alignment, size_t size) {
    return counted(__libc_memalign(alignment, size), size);
}

void free(void *block) {
    if (block)
        atomic_fetch_sub(&held, malloc_usable_size(block));
    __libc_free(block);
}
