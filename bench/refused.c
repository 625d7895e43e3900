/* Refuses allocations of the program that it is loaded into, as refusing.h says. */
#include "allocations.h"
#include "refusing.h"

void *malloc(size_t size) {
    return is_refused(ENOMEM) ? NULL : __libc_malloc(size);
}

void *calloc(size_t count, size_t size) {
    return is_refused(ENOMEM) ? NULL : __libc_calloc(count, size);
}

void *realloc(void *old, size_t size) {
    return is_refused(ENOMEM) ? NULL : __libc_realloc(old, size);
}

void *memalign(size_t alignment, size_t size) {
    return is_refused(ENOMEM) ? NULL : __libc_memalign(alignment, size);
}
