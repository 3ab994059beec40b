/* The memory of the library: malloc and free, unless jalwedd_memory named others. jalwedd_new allocates three blocks,
 * one of 2,760 octets and those of 136 and 8 octets for each source of the capacity, aligned as by malloc, and
 * jalwedd_free frees them: at most JALWEDD_MEMORY(capacity), each rounded up to a multiple of 16. No other call
 * allocates. A host without a heap that links libjalwedd.a may instead put its own rattle_alloc, rattle_realloc,
 * rattle_dealloc and jalwedd_memory before the archive: then this file is not linked. */
#include "jalwedd.h"

#include <stdlib.h>
#include <string.h>

/* A block; or `ok` is 0, and `at` any address that is not NULL. */
struct rattle_block {
    uint8_t ok;
    void *at;
};

static max_align_t nothing;
static void *(*allocate_by)(size_t size) = malloc;
static void (*release_by)(void *at) = free;

void jalwedd_memory(void *(*allocate)(size_t size), void (*release)(void *at))
{
    allocate_by = allocate;
    release_by = release;
}

struct rattle_block rattle_alloc(size_t size, size_t alignment)
{
    void *at = allocate_by(size != 0 ? size : alignment);
    return (struct rattle_block){at != NULL, at != NULL ? at : &nothing};
}

struct rattle_block rattle_realloc(void *at, size_t old_size, size_t size, size_t alignment)
{
    const struct rattle_block block = rattle_alloc(size, alignment);
    if (block.ok) {
        memcpy(block.at, at, old_size < size ? old_size : size);
        release_by(at);
    }
    return block;
}

void rattle_dealloc(void *at)
{
    release_by(at);
}
