/* What the header states of attributes, frames and values, computed in plain C after linux/netlink.h, and pages for
 * what is passed to a call. Nothing here calls the library, so that its mistakes cannot hide. */
#ifndef MODEL_H
#define MODEL_H

#include "netlink_packet.h"

#include <string.h>
#include <sys/mman.h>

/* Pages of the machine, and those between two that cannot be used: a value of the largest size fits. */
enum { PAGE = 4096, ROOM = 18 * PAGE };

/* Makes pages between two that cannot be used. Returns NULL if there are none. */
static inline uint8_t *guarded_pages(void)
{
    uint8_t *all = mmap(NULL, ROOM + 2 * PAGE, PROT_READ | PROT_WRITE, MAP_PRIVATE | MAP_ANONYMOUS, -1, 0);
    if (all == MAP_FAILED || mprotect(all, PAGE, PROT_NONE) != 0 || mprotect(all + PAGE + ROOM, PAGE, PROT_NONE) != 0)
        return NULL;
    return all + PAGE;
}

/* Returns the place for `size` bytes in pages: at their end, or else at their start. */
static inline void *place_in(uint8_t *pages, size_t size, bool at_end)
{
    return pages + (at_end ? ROOM - size : 0);
}

/* NLMSG_ALIGN and NLA_ALIGN. */
static inline size_t aligned(size_t size)
{
    return (size + 3) & ~(size_t)3;
}

static inline uint64_t number(const uint8_t *value, size_t size, bool is_big)
{
    uint64_t sum = 0;
    for (size_t i = 0; i < size; i++)
        sum = sum << 8 | value[is_big ? i : size - 1 - i];
    return sum;
}

static inline void write_number(uint8_t *value, size_t size, bool is_big, uint64_t sum)
{
    for (size_t i = 0; i < size; i++)
        value[is_big ? size - 1 - i : i] = (uint8_t)(sum >> 8 * i);
}

/* Returns the offset past the `size` bytes at `at` and their padding, which may be missing at the end. Nothing here
 * overflows for a size near the largest one. */
static inline size_t past(size_t at, size_t size, size_t len)
{
    const size_t padding = aligned(size) - size;
    return len - at - size < padding ? len : at + size + padding;
}

/* One step of a walk over struct nlattr: the attribute at `*at`, or the end, or an error. */
static inline uint32_t step(const uint8_t *block, size_t len, size_t *at, struct nlp_attr *item,
                            struct nlp_fault *fault)
{
    size_t left = *at < len ? len - *at : 0, said = left < 4 ? 0 : (size_t)number(block + *at, 2, false);
    if (left == 0)
        return NLP_END;
    if (left < 4 || said > left || said < 4) {
        uint32_t cause = left < 4 ? NLP_ATTR_SHORT : said > left ? NLP_ATTR_CUT : NLP_ATTR_LENGTH;
        *fault = (struct nlp_fault){ cause, 0, cause == NLP_ATTR_LENGTH ? 4 : left, left < 4 ? 4 : said };
        *at = len;
        return cause;
    }
    *item = (struct nlp_attr){ (uint16_t)number(block + *at + 2, 2, false), *at + 4, said - 4 };
    *at = past(*at, said, len);
    return NLP_OK;
}

/* One step of a walk over struct nlmsghdr: the message at `*at`, or the end, or an error. */
static inline uint32_t message_step(const uint8_t *bytes, size_t len, size_t *at, struct nlp_message *item,
                                    struct nlp_fault *fault)
{
    size_t left = *at < len ? len - *at : 0, said = left < 16 ? 0 : (size_t)number(bytes + *at, 4, false);
    if (left == 0)
        return NLP_END;
    if (left < 16 || said > left || said < 16) {
        uint32_t cause = left < 16 ? NLP_FRAME_SHORT : said > left ? NLP_FRAME_CUT : NLP_FRAME_LENGTH;
        *fault = (struct nlp_fault){ cause, 0, cause == NLP_FRAME_LENGTH ? 0 : left, said };
        *at = len;
        return cause;
    }
    item->header.length = (uint32_t)said;
    item->header.message_type = (uint16_t)number(bytes + *at + 4, 2, false);
    item->header.flags = (uint16_t)number(bytes + *at + 6, 2, false);
    item->header.sequence_number = (uint32_t)number(bytes + *at + 8, 4, false);
    item->header.port_number = (uint32_t)number(bytes + *at + 12, 4, false);
    item->payload = (struct nlp_part){ *at + 16, said - 16 };
    *at = past(*at, said, len);
    return NLP_OK;
}

/* Up to 16 steps of that walk: the messages before the end or an error, or else that. */
static inline uint32_t model_fill(const uint8_t *bytes, size_t len, struct nlp_message_batch *batch, struct nlp_fault *fault)
{
    struct nlp_fault found = *fault;
    struct nlp_message item;
    size_t at = batch->cursor, count = 0;
    uint32_t result;
    while ((result = message_step(bytes, len, &at, &item, &found)) == NLP_OK) {
        batch->item[count++] = item;
        batch->cursor = at;
        if (count == 16)
            break;
    }
    if (count > 0) {
        batch->count = count;
        return NLP_OK;
    }
    batch->cursor = at;
    *fault = found;
    return result;
}

/* The same for attributes. */
static inline uint32_t model_fill_attrs(const uint8_t *block, size_t len, struct nlp_attr_batch *batch, struct nlp_fault *fault)
{
    struct nlp_fault found = *fault;
    struct nlp_attr item;
    size_t at = batch->cursor, count = 0;
    uint32_t result = NLP_OK;
    while (count < 16 && (result = step(block, len, &at, &item, &found)) == NLP_OK) {
        batch->item[count++] = item;
        batch->cursor = at;
    }
    if (count > 0) {
        batch->count = count;
        return NLP_OK;
    }
    batch->cursor = at;
    *fault = found;
    return result;
}

static inline bool same_fault(const struct nlp_fault *f, const struct nlp_fault *g)
{
    return f->cause == g->cause && f->inside == g->inside && f->size == g->size && f->wanted == g->wanted;
}

static inline bool same_attr(const struct nlp_attr *a, const struct nlp_attr *b)
{
    return a->kind == b->kind && a->offset == b->offset && a->size == b->size;
}

/* Compares two batches: the first `count` entries by their fields, because an attribute has padding, and the others
 * byte for byte. */
static inline bool same_batch(const struct nlp_attr_batch *a, const struct nlp_attr_batch *b, size_t count)
{
    for (size_t i = 0; i < count; i++)
        if (!same_attr(&a->item[i], &b->item[i]))
            return false;
    return a->cursor == b->cursor && a->count == b->count
        && memcmp(a->item + count, b->item + count, (NLP_BATCH - count) * sizeof a->item[0]) == 0;
}

static inline bool same_part(const struct nlp_part *a, const struct nlp_part *b)
{
    return a->offset == b->offset && a->size == b->size;
}

/* Whether a value has a shape. */
static inline bool fits(const uint8_t *value, size_t size, uint16_t shape, size_t stated)
{
    static const size_t sizes[5] = { 1, 2, 4, 8, 0 };
    size_t text = size != 0 && value[size - 1] == 0 ? size - 1 : size;
    bool is_string = size != 0 && (stated == 0 || text <= stated);
    if (shape >= NLP_U8 && shape <= NLP_FLAG)
        return size == sizes[shape - NLP_U8];
    return shape == NLP_EXACTLY ? size == stated : shape == NLP_AT_LEAST ? size >= stated
        : shape == NLP_AT_MOST ? stated == 0 || size <= stated : shape == NLP_STRING ? is_string
        : shape == NLP_NUL_STRING ? is_string && memchr(value, 0, size) != NULL
        : shape == NLP_NESTED ? size == 0 || size >= 4 : true;
}

/* Finds the last attribute of a kind: what nlp_attrs_find returns and writes. */
static inline uint32_t model_find(const uint8_t *block, size_t len, uint16_t kind, struct nlp_attr *item,
                                  struct nlp_fault *fault)
{
    struct nlp_attr one;
    uint32_t result, found = NLP_NO_PLACE;
    size_t at = 0;
    while ((result = step(block, len, &at, &one, fault)) == NLP_OK)
        if ((one.kind & NLP_KIND_MASK) == kind) {
            *item = one;
            found = NLP_OK;
        }
    return result == NLP_END ? found : result;
}

/* Fills a table by kind, whose entries are zeros. */
static inline uint32_t model_table(const uint8_t *block, size_t len, struct nlp_attr *table, size_t count,
                                   struct nlp_fault *fault)
{
    struct nlp_attr one;
    uint32_t result;
    size_t at = 0;
    while ((result = step(block, len, &at, &one, fault)) == NLP_OK)
        if ((one.kind & NLP_KIND_MASK) < count)
            table[one.kind & NLP_KIND_MASK] = one;
    return result == NLP_END ? NLP_OK : result;
}

/* Checks a block against a policy. */
static inline uint32_t model_validate(const uint8_t *block, size_t len, const struct nlp_policy *policy, size_t count,
                                      size_t *offset, struct nlp_fault *fault)
{
    struct nlp_attr one;
    uint32_t result;
    size_t at = 0, start = 0;
    while ((result = step(block, len, &at, &one, fault)) == NLP_OK) {
        for (size_t i = 0; i < count; i++)
            if ((one.kind & NLP_KIND_MASK) == policy[i].kind
                && !fits(block + one.offset, one.size, policy[i].shape, policy[i].size))
                result = NLP_WRONG_SHAPE;
        if (result != NLP_OK)
            break;
        start = at;
    }
    if (result == NLP_END)
        return NLP_OK;
    *offset = start;
    return result;
}

/* What a getter of `size` bytes returns. */
static inline uint32_t get_result(size_t len, const struct nlp_attr *item, size_t size)
{
    if (item->offset == 0 || item->offset > len || item->size > len - item->offset)
        return NLP_NO_PLACE;
    return item->size == size ? NLP_OK : NLP_WRONG_SIZE;
}

#endif
