/* The memory of libstarlark_c.a, over malloc. A program with its own allocator defines these three functions over that instead. */
#include <stdbool.h>
#include <stddef.h>
#include <stdlib.h>
#ifdef __GLIBC__
#include <malloc.h>
#endif

/* Whether the allocation succeeded, and the block. The pointer is never null. */
struct tried {
    bool ok;
    void *block;
};

static char nothing;

static struct tried tried(void *block)
{
    return block ? (struct tried){true, block} : (struct tried){false, &nothing};
}

#ifdef __GLIBC__
/* glibc keeps freed memory for the next allocations: after a tree that is as much as the tree took. The library frees its result last,
 * after the tree. So when a block of this many bytes is freed, the memory goes back to the system. */
enum { LARGE = 1 << 20 };

static void freed(void *block)
{
    bool is_large = malloc_usable_size(block) >= LARGE;
    free(block);
    if (is_large) {
        malloc_trim(0);
    }
}
#else
#define freed free
#endif

struct tried rattle_alloc(size_t size, size_t align)
{
    return tried(malloc(size ? size : align));
}

struct tried rattle_realloc(void *block, size_t kept, size_t size, size_t align)
{
    (void)kept;
    return tried(realloc(block, size ? size : align));
}

void rattle_dealloc(void *block)
{
    freed(block);
}
