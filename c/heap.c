/* The allocator for the seven functions of the library that allocate, over malloc.
 *
 * A block of 0 bytes gets the size of its alignment, so that its address is unique. If malloc fails,
 * the result points to a byte that is never read and must not be freed. */
#include <stdbool.h>
#include <stddef.h>
#include <stdlib.h>

struct allocation {
    bool ok;
    unsigned char *block;
};

struct allocation rattle_alloc(size_t size, size_t align);
struct allocation rattle_realloc(unsigned char *block, size_t kept, size_t size, size_t align);
void rattle_dealloc(unsigned char *block);

static unsigned char none;

static struct allocation allocation_of(void *block)
{
    if (block == NULL)
        return (struct allocation){ false, &none };
    return (struct allocation){ true, block };
}

struct allocation rattle_alloc(size_t size, size_t align)
{
    return allocation_of(malloc(size == 0 ? align : size));
}

struct allocation rattle_realloc(unsigned char *block, size_t kept, size_t size, size_t align)
{
    (void)kept;
    return allocation_of(realloc(block, size == 0 ? align : size));
}

void rattle_dealloc(unsigned char *block)
{
    free(block);
}
