/* Calls the functions for attributes by kind, for values, for messages and for big-endian puts with bad input: lengths
 * from 0 to 20, cursors past the end, buffers that are one byte short, kinds 0 and 0xffff, tables and policies of 0 and 1
 * rows. Compares the results and the outputs with what the header states, as a model computes it. What is passed ends
 * where a page begins that cannot be read or written, or begins where such a page ends. */
#define _DEFAULT_SOURCE
#include "model.h"

#include <stdio.h>

static int passed, failed;
static uint8_t *pages[3];

static void expect(const char *what, bool holds)
{
    if (holds) {
        passed++;
    } else {
        failed++;
        fprintf(stderr, "failed: %s\n", what);
    }
}

/* Returns the place for `size` bytes of some pages: at their end, or else at their start. */
static void *place(size_t page, size_t size, bool at_end)
{
    return place_in(pages[page], size, at_end);
}

static uint32_t seed = 1;

static uint32_t any(uint32_t below)
{
    seed = seed * 1664525u + 1013904223u;
    return (seed >> 8) % below;
}

/* Fills with attributes and frames whose lengths and kinds are often valid. */
static void fill(uint8_t *bytes, size_t len)
{
    static const uint8_t usual[12] = { 0, 1, 2, 4, 5, 6, 8, 9, 12, 16, 17, 20 };
    for (size_t i = 0; i < len; i++)
        bytes[i] = any(40) == 0 ? 0xff : i % 4 == 1 && any(8) != 0 ? 0 : usual[any(12)];
}

/* The last attribute of a kind. */
static bool finds(const uint8_t *block, size_t len, uint16_t kind)
{
    struct nlp_fault fault = { 99, 98, 97, 96 }, wanted = fault;
    struct nlp_attr item = { 95, 94, 93 }, last = item;
    uint32_t result = model_find(block, len, kind, &last, &wanted);
    return nlp_attrs_find(block, len, kind, &item, &fault) == result && same_attr(&item, &last) && same_fault(&fault, &wanted);
}

static bool fills_table(const uint8_t *block, size_t len, size_t count, bool at_end)
{
    struct nlp_fault fault = { 99, 98, 97, 96 }, wanted = fault;
    struct nlp_attr expected[4] = { { 0, 0, 0 }, { 0, 0, 0 }, { 0, 0, 0 }, { 0, 0, 0 } };
    struct nlp_attr *table = place(1, count * sizeof *table, at_end);
    uint32_t result = model_table(block, len, expected, count, &wanted);
    memset(table, 0xee, count * sizeof *table);
    bool holds = nlp_attrs_table(block, len, table, count, &fault) == result && same_fault(&fault, &wanted);
    for (size_t i = 0; i < count; i++)
        holds = holds && same_attr(&table[i], &expected[i]);
    return holds;
}

static bool validates(const uint8_t *block, size_t len, size_t count, bool at_end)
{
    struct nlp_fault fault = { 99, 98, 97, 96 }, wanted = fault;
    struct nlp_policy *policy = place(1, count * sizeof *policy, at_end);
    size_t offset = 95, expected = 95;
    for (size_t i = 0; i < count; i++)
        policy[i] = (struct nlp_policy){ (uint16_t)(any(8) == 0 ? 0xffff : any(3)), (uint16_t)any(13), any(6) };
    uint32_t result = model_validate(block, len, policy, count, &expected, &wanted);
    return nlp_attrs_validate(block, len, policy, count, &offset, &fault) == result
        && offset == expected && same_fault(&fault, &wanted);
}

#define GETS(name, type, width, is_big) do { \
        type got = 77; \
        uint32_t result = get_result(len, item, width); \
        holds = holds && name(block, len, item, &got) == result && got == (result == NLP_OK ? number(block + item->offset, width, is_big) : 77u); \
    } while (0)

static bool gets(const uint8_t *block, size_t len, const struct nlp_attr *item, bool at_end)
{
    bool holds = true;
    GETS(nlp_get_u8, uint8_t, 1, false);
    GETS(nlp_get_u16, uint16_t, 2, false);
    GETS(nlp_get_u32, uint32_t, 4, false);
    GETS(nlp_get_u64, uint64_t, 8, false);
    GETS(nlp_get_be16, uint16_t, 2, true);
    GETS(nlp_get_be32, uint32_t, 4, true);
    GETS(nlp_get_be64, uint64_t, 8, true);
    struct nlp_part text = { 95, 94 };
    bool is_inside = get_result(len, item, item->size) == NLP_OK;
    const uint8_t *zero = is_inside ? memchr(block + item->offset, 0, item->size) : NULL;
    size_t size = zero != NULL ? (size_t)(zero - block) - item->offset : item->size;
    holds = holds && nlp_get_str(block, len, item, &text) == (is_inside ? NLP_OK : NLP_NO_PLACE)
        && text.offset == (is_inside ? item->offset : 95) && text.size == (is_inside ? size : 94);
    for (size_t room = item->size == 0 || item->size > 20 ? 0 : item->size - 1; room <= item->size + 1 && room <= 21; room++) {
        uint8_t *to = place(1, room, at_end), other[21];
        uint32_t result = get_result(len, item, room);
        memset(to, 0xee, room);
        memset(other, 0xee, sizeof other);
        holds = holds && nlp_get_bytes(block, len, item, to, room) == result
            && memcmp(to, result == NLP_OK ? block + item->offset : other, room) == 0;
    }
    return holds;
}

static bool gets_all(const uint8_t *block, size_t len, bool at_end)
{
    const size_t edges[6] = { SIZE_MAX, SIZE_MAX - 1, SIZE_MAX / 2 + 1, len, len + 1, 0 };
    bool holds = true;
    for (size_t offset = 0; offset <= len + 1; offset++)
        for (size_t size = 0; size <= 9; size++)
            holds = holds && gets(block, len, &(struct nlp_attr){ 1, offset, size }, at_end);
    for (size_t i = 0; i < 6; i++)
        for (size_t j = 0; j < 6; j++)
            holds = holds && gets(block, len, &(struct nlp_attr){ 1, edges[i], edges[j] }, at_end);
    return holds;
}

/* The message at a cursor. */
static bool reads_message(const uint8_t *bytes, size_t len, size_t at)
{
    struct nlp_fault fault = { 99, 98, 97, 96 }, wanted = fault;
    struct nlp_message item = { { 1, 2, 3, 4, 5 }, { 6, 7 } }, expected = item;
    size_t next = at, cursor = at;
    uint32_t result = message_step(bytes, len, &next, &expected, &wanted);
    return nlp_message_read(bytes, len, &cursor, &item, &fault) == result && cursor == next && same_fault(&fault, &wanted)
        && memcmp(&item, &expected, sizeof item) == 0;
}

/* The messages at a cursor, in one call. */
static uint32_t fills_batch(const uint8_t *bytes, size_t len, size_t *at, bool at_end, bool *holds)
{
    struct nlp_fault fault = { 99, 98, 97, 96 }, wanted = fault;
    struct nlp_message_batch *batch = place(1, sizeof *batch, at_end), expected;
    memset(batch, 0xee, sizeof *batch);
    batch->cursor = *at;
    expected = *batch;
    uint32_t result = model_fill(bytes, len, &expected, &wanted);
    *holds = *holds && nlp_messages_fill(bytes, len, batch, &fault) == result && same_fault(&fault, &wanted)
        && memcmp(batch, &expected, sizeof expected) == 0;
    *at = expected.cursor;
    return result;
}

/* A datagram of messages with payloads of 5 to 8 bytes, and other bytes after them. The length of the message at
 * `damaged`, if there is one, is wrong. */
static bool fills_batches(size_t count, size_t rest, size_t damaged, bool at_end)
{
    static const uint32_t wrong[4] = { 0, 15, 0x10000, 0xffffffff };
    const size_t len = 24 * count + rest;
    uint8_t *bytes = place(0, len, at_end);
    size_t at = 0;
    bool holds = true;
    fill(bytes, len);
    for (size_t i = 0; i < count; i++)
        write_number(bytes + 24 * i, 4, false, i == damaged ? wrong[any(4)] : 21 + any(4));
    while (fills_batch(bytes, len, &at, at_end, &holds) != NLP_END)
        ;
    return holds;
}

/* The attributes at a cursor, in one call. */
static uint32_t fills_attrs(const uint8_t *block, size_t len, size_t *at, bool at_end, bool *holds)
{
    struct nlp_fault fault = { 99, 98, 97, 96 }, wanted = fault;
    struct nlp_attr_batch *batch = place(1, sizeof *batch, at_end), expected;
    memset(batch, 0xee, sizeof *batch);
    batch->cursor = *at;
    memcpy(&expected, batch, sizeof expected);
    uint32_t result = model_fill_attrs(block, len, &expected, &wanted);
    *holds = *holds && nlp_attrs_fill(block, len, batch, &fault) == result && same_fault(&fault, &wanted)
        && same_batch(batch, &expected, result == NLP_OK ? expected.count : 0);
    *at = expected.cursor;
    return result;
}

/* A block of attributes with values of 1 to 4 bytes, and other bytes after them. The length of the attribute at
 * `damaged`, if there is one, is wrong. */
static bool fills_all_attrs(size_t count, size_t rest, size_t damaged, bool at_end)
{
    static const uint16_t wrong[4] = { 0, 3, 0x7fff, 0xffff };
    const size_t len = 8 * count + rest;
    uint8_t *block = place(0, len, at_end);
    size_t at = 0;
    bool holds = true;
    fill(block, len);
    for (size_t i = 0; i < count; i++)
        write_number(block + 8 * i, 2, false, i == damaged ? wrong[any(4)] : 5 + any(4));
    while (fills_attrs(block, len, &at, at_end, &holds) != NLP_END)
        ;
    return holds;
}

#define PUTS(name, value, ...) do { \
        static const uint8_t bytes[] = { __VA_ARGS__ }; \
        size_t size = sizeof bytes, whole = 4 + (size + 3) / 4 * 4, at = cursor; \
        uint32_t result = cursor <= capacity && whole <= capacity - cursor ? NLP_OK : NLP_NO_ROOM; \
        memset(buffer, 0xee, capacity); \
        holds = holds && name(buffer, capacity, &at, kind, value) == result && at == (result == NLP_OK ? cursor + whole : cursor); \
        for (size_t i = 0; i < capacity; i++) { \
            size_t in = i - cursor; \
            uint8_t byte = result != NLP_OK || i < cursor || in >= whole ? 0xee : in == 0 ? (uint8_t)(4 + size) : in == 1 ? 0 \
                : in == 2 ? (uint8_t)kind : in == 3 ? (uint8_t)(kind >> 8) : in < 4 + size ? bytes[in - 4] : 0; \
            holds = holds && buffer[i] == byte; \
        } \
    } while (0)

static bool puts_all(uint8_t *buffer, size_t capacity, size_t cursor, uint16_t kind)
{
    bool holds = true;
    PUTS(nlp_attr_put_be16, 0x1122, 0x11, 0x22);
    PUTS(nlp_attr_put_be32, 0x11223344, 0x11, 0x22, 0x33, 0x44);
    PUTS(nlp_attr_put_be64, 0x1122334455667788, 0x11, 0x22, 0x33, 0x44, 0x55, 0x66, 0x77, 0x88);
    size_t at = cursor;
    bool has_room = cursor <= capacity && 4 <= capacity - cursor;
    memset(buffer, 0xee, capacity);
    holds = holds && nlp_attr_put_flag(buffer, capacity, &at, kind) == (has_room ? NLP_OK : NLP_NO_ROOM) && at == (has_room ? cursor + 4 : cursor);
    for (size_t i = 0; i < capacity; i++) {
        const uint8_t header[4] = { 4, 0, (uint8_t)kind, (uint8_t)(kind >> 8) };
        holds = holds && buffer[i] == (has_room && i >= cursor && i < cursor + 4 ? header[i - cursor] : 0xee);
    }
    return holds;
}

int main(void)
{
    static const uint16_t kinds[6] = { 0, 1, 2, 0x3fff, 0x8001, 0xffff };
    bool found = true, filled = true, valid = true, got = true, read = true, batches = true, attributes = true, put = true;
    for (size_t i = 0; i < 3; i++)
        if ((pages[i] = guarded_pages()) == NULL)
            return 1;
    for (int turn = 0; turn < 4000; turn++) {
        const bool at_end = turn % 2 == 0;
        const size_t len = (size_t)turn / 2 % 21;
        uint8_t *bytes = place(0, len, at_end);
        fill(bytes, len);
        for (size_t i = 0; i < 6; i++)
            found = found && finds(bytes, len, kinds[i]);
        for (size_t count = 0; count <= 3; count++) {
            filled = filled && fills_table(bytes, len, count, at_end);
            valid = valid && validates(bytes, len, count, at_end);
        }
        const size_t cursors[7] = { 0, 1, 4, len, len + 1, SIZE_MAX - 15, SIZE_MAX };
        for (size_t i = 0; i < 7; i++)
            read = read && reads_message(bytes, len, cursors[i]);
        for (size_t i = 0; i < 7; i++) {
            size_t at = cursors[i];
            fills_batch(bytes, len, &at, at_end, &batches);
            at = cursors[i];
            fills_attrs(bytes, len, &at, at_end, &attributes);
        }
        if (turn < 420)
            got = got && gets_all(bytes, len, at_end);
        for (size_t i = 0; turn < 42 && i < 6; i++)
            for (size_t cursor = 0; cursor <= len + 1; cursor++)
                put = put && puts_all(bytes, len, cursor, kinds[i]) && puts_all(bytes, len, SIZE_MAX - cursor, kinds[i]);
    }
    for (size_t count = 0; count <= 34; count++)
        for (size_t rest = 0; rest <= 20; rest++)
            for (size_t damaged = 0; damaged <= count; damaged++)
                batches = batches && fills_batches(count, rest, damaged, rest % 2 == 0);
    for (size_t count = 0; count <= 34; count++)
        for (size_t rest = 0; rest <= 8; rest++)
            for (size_t damaged = 0; damaged <= count; damaged++)
                attributes = attributes && fills_all_attrs(count, rest, damaged, rest % 2 == 0);
    expect("attributes are found", found);
    expect("tables are filled", filled);
    expect("blocks are validated", valid);
    expect("values are read", got);
    expect("messages are read", read);
    expect("batches of messages are read", batches);
    expect("batches of attributes are read", attributes);
    expect("values are put", put);
    printf("%d passed, %d failed\n", passed, failed);
    return failed != 0;
}
