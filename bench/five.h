/* Five kinds of a link, which the libraries in C read in the case `five`. */
#include <stddef.h>
#include <stdint.h>
#include <string.h>

struct five {
    const void *name, *address;
    size_t name_size, address_size; /* the name without its zero; only five_bytes needs the sizes */
    uint32_t mtu, queue;
    uint8_t state;
};

/* Returns the sum of the numbers, and of the first bytes of the name and of the address. */
static inline size_t five_sum(const struct five *it)
{
    return (size_t)it->mtu + it->queue + it->state + *(const uint8_t *)it->name + *(const uint8_t *)it->address;
}

/* Writes the values, the numbers in native byte order. Returns the size, or 0 if `out` is too small. */
static inline size_t five_bytes(const struct five *it, uint8_t *out, size_t room)
{
    const uint32_t numbers[3] = { it->mtu, it->queue, it->state };
    const size_t size = sizeof numbers + it->name_size + it->address_size;
    if (size > room)
        return 0;
    memcpy(out, numbers, sizeof numbers);
    memcpy(out + sizeof numbers, it->name, it->name_size);
    memcpy(out + sizeof numbers + it->name_size, it->address, it->address_size);
    return size;
}
