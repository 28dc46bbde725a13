// Refuses one growth: of the calls that ask the allocator for memory, the one whose number is in
// the variable REFUSED, from 1. A byte on the descriptor REFUSED_TOLD says that it was refused.
#include <errno.h>
#include <stdatomic.h>
#include <stddef.h>
#include <stdlib.h>
#include <unistd.h>

void *__libc_malloc(size_t size);
void *__libc_calloc(size_t count, size_t size);
void *__libc_realloc(void *block, size_t size);
void *__libc_memalign(size_t alignment, size_t size);

static long refused;
static int told = -1;
static atomic_long asked;

__attribute__((constructor)) static void begin(void) {
    const char *number = getenv("REFUSED"), *descriptor = getenv("REFUSED_TOLD");
    told = descriptor ? atoi(descriptor) : -1;
    asked = 0;
    refused = number ? atol(number) : 0;
}

static int is_refused(void) {
    if (refused == 0 || atomic_fetch_add(&asked, 1) + 1 != refused)
        return 0;
    if (told >= 0 && write(told, "", 1) != 1)
        abort();
    errno = ENOMEM;
    return 1;
}

void *malloc(size_t size) {
    return is_refused() ? NULL : __libc_malloc(size);
}

void *calloc(size_t count, size_t size) {
    return is_refused() ? NULL : __libc_calloc(count, size);
}

void *realloc(void *block, size_t size) {
    return is_refused() ? NULL : __libc_realloc(block, size);
}

void *aligned_alloc(size_t alignment, size_t size) {
    return is_refused() ? NULL : __libc_memalign(alignment, size);
}

int posix_memalign(void **block, size_t alignment, size_t size) {
    void *made = is_refused() ? NULL : __libc_memalign(alignment, size);
    if (!made)
        return ENOMEM;
    *block = made;
    return 0;
}
