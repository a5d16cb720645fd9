#define _DEFAULT_SOURCE /* madvise */
#include "memory.h"

#include <stdint.h>
#include <stdlib.h>

#ifdef __linux__
#include <sys/mman.h>
#include <unistd.h>
#endif

/* Smaller blocks have no large page to themselves. */
enum { LEAST_LARGE = 4 << 20 };

/* A hint: it changes no byte, and it may be refused. */
static void use_large_pages(void *block, size_t length)
{
#if defined(__linux__) && defined(MADV_HUGEPAGE)
    long page = sysconf(_SC_PAGESIZE);
    if (page <= 0 || length < LEAST_LARGE)
        return;
    size_t skipped = ((size_t)page - (uintptr_t)block % (size_t)page) % (size_t)page;
    (void)madvise((char *)block + skipped, (length - skipped) / (size_t)page * (size_t)page, MADV_HUGEPAGE);
#else
    (void)block;
    (void)length;
#endif
}

void *memory_of(size_t count, size_t size)
{
    void *block = calloc(count, size);
    if (block != NULL)
        use_large_pages(block, count * size);
    return block;
}
