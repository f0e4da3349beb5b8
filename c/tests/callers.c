/* Tests the functions for attributes by kind, for values with a check of their size, and for messages. */
#include "netlink_packet.h"

#include <stdio.h>
#include <string.h>

static int passed, failed;

static void expect(const char *what, bool holds)
{
    if (holds) {
        passed++;
    } else {
        failed++;
        fprintf(stderr, "failed: %s\n", what);
    }
}

/* (1, aa), (2 with the nested flag, 01020304), (1, bbcc), (3 with the byte-order flag, 0102..08), (0, "lo\0x"),
 * (5, no value), and an attribute of kind 2 that is truncated. */
static const uint8_t block[54] = { 5, 0, 1, 0, 0xaa, 0, 0, 0, 8, 0, 2, 0x80, 1, 2, 3, 4, 6, 0, 1, 0, 0xbb, 0xcc, 0, 0,
    12, 0, 3, 0x40, 1, 2, 3, 4, 5, 6, 7, 8, 8, 0, 0, 0, 'l', 'o', 0, 'x', 4, 0, 5, 0, 9, 0, 2, 0, 1, 2 };

/* The size of the block without the last one. */
#define WHOLE 48

static bool is_fault(const struct nlp_fault *f, uint32_t cause, size_t size, size_t wanted)
{
    return f->cause == cause && f->inside == 0 && f->size == size && f->wanted == wanted;
}

static bool is_attr(const struct nlp_attr *a, uint16_t kind, size_t offset, size_t size)
{
    return a->kind == kind && a->offset == offset && a->size == size;
}

/* Returns whether the search has this result, and leaves the attribute at (99, 98, 97) and the fault at 96. */
static bool leaves(const uint8_t *bytes, size_t len, uint16_t kind, uint32_t result)
{
    struct nlp_fault fault = { 96, 0, 0, 0 };
    struct nlp_attr attr = { 99, 98, 97 };
    return nlp_attrs_find(bytes, len, kind, &attr, &fault) == result && is_attr(&attr, 99, 98, 97) && is_fault(&fault, 96, 0, 0);
}

static void finds(void)
{
    struct nlp_fault fault = { 0, 0, 0, 0 };
    struct nlp_attr attr = { 0, 0, 0 };
    expect("the last of two", nlp_attrs_find(block, WHOLE, 1, &attr, &fault) == NLP_OK && is_attr(&attr, 1, 20, 2) && fault.cause == 0);
    expect("a kind without its flag", nlp_attrs_find(block, WHOLE, 2, &attr, &fault) == NLP_OK && is_attr(&attr, 0x8002, 12, 4));
    expect("the other flag", nlp_attrs_find(block, WHOLE, 3, &attr, &fault) == NLP_OK && is_attr(&attr, 0x4003, 28, 8));
    expect("kind 0", nlp_attrs_find(block, WHOLE, 0, &attr, &fault) == NLP_OK && is_attr(&attr, 0, 40, 4));
    expect("no value", nlp_attrs_find(block, WHOLE, 5, &attr, &fault) == NLP_OK && is_attr(&attr, 5, 48, 0));
    expect("a kind with its flag", leaves(block, WHOLE, 0x8002, NLP_NO_PLACE));
    expect("kind 0xffff", leaves(block, WHOLE, 0xffff, NLP_NO_PLACE));
    expect("no such kind", leaves(block, WHOLE, 4, NLP_NO_PLACE));
    expect("nothing in no bytes", leaves(NULL, 0, 0, NLP_NO_PLACE));
    expect("the last before an error", nlp_attrs_find(block, sizeof block, 2, &attr, &fault) == NLP_ATTR_CUT && is_attr(&attr, 0x8002, 12, 4)
        && is_fault(&fault, 6, 6, 9));
    attr.offset = 0;
    expect("none before an error", nlp_attrs_find(block, sizeof block, 4, &attr, &fault) == NLP_ATTR_CUT && is_attr(&attr, 0x8002, 0, 4));
}

/* Returns whether the last attribute of a kind has this index; SIZE_MAX if there is none, which changes nothing. */
static bool is_index(const uint8_t *bytes, size_t len, uint16_t kind, size_t wanted)
{
    const uint32_t result = wanted == SIZE_MAX ? NLP_NO_PLACE : NLP_OK;
    size_t index = SIZE_MAX;
    return nlp_attrs_index(bytes, len, kind, &index) == result && index == wanted;
}

static void indexes(void)
{
    uint8_t copy[WHOLE];
    size_t index = 0;
    expect("the index of the last of two", is_index(block, WHOLE, 1, 2));
    expect("the index of the first attribute", is_index(block, 16, 1, 0));
    expect("the index of a kind without its flag", is_index(block, WHOLE, 2, 1));
    expect("the index of the other flag", is_index(block, WHOLE, 3, 3));
    expect("the index of kind 0", is_index(block, WHOLE, 0, 4));
    expect("the index of the last attribute", is_index(block, WHOLE, 5, 5));
    expect("no index of a kind with its flag", is_index(block, WHOLE, 0x8002, SIZE_MAX));
    expect("no index of another kind", is_index(block, WHOLE, 4, SIZE_MAX));
    expect("no index in no bytes", is_index(NULL, 0, 0, SIZE_MAX));
    expect("an index before an error", is_index(block, sizeof block, 2, 1));
    memcpy(copy, block, sizeof copy);
    expect("the value at an index is written", nlp_attrs_index(copy, WHOLE, 1, &index) == NLP_OK
        && nlp_attr_write(copy, WHOLE, index, (const uint8_t *)"xy", 2) == NLP_OK && copy[4] == 0xaa && copy[20] == 'x' && copy[21] == 'y');
}

/* Each length up to 20: what the search for kind 1 and the table return, and where the attribute then is. */
static void lengths(void)
{
    static const uint32_t results[21] = { 0, 5, 5, 5, 6, 0, 0, 0, 0, 5, 5, 5, 6, 6, 6, 6, 0, 5, 5, 5, 6 };
    bool finds = true, fills = true;
    for (size_t len = 0; len <= 20; len++) {
        struct nlp_fault fault = { 0, 0, 0, 0 };
        struct nlp_attr attr = { 0, 0, 0 }, table[2] = { { 9, 9, 9 }, { 9, 9, 9 } };
        uint32_t wanted = len == 0 ? NLP_NO_PLACE : results[len];
        finds = finds && nlp_attrs_find(block, len, 1, &attr, &fault) == wanted && attr.offset == (len < 5 ? 0u : 4u) && fault.cause == results[len];
        fills = fills && nlp_attrs_table(block, len, table, 2, &fault) == results[len] && is_attr(&table[0], 0, 0, 0)
            && is_attr(&table[1], len < 5 ? 0 : 1, len < 5 ? 0 : 4, len < 5 ? 0 : 1);
    }
    expect("a search in each length up to 20", finds);
    expect("a table of each length up to 20", fills);
}

static void tables(void)
{
    struct nlp_fault fault = { 0, 0, 0, 0 };
    struct nlp_attr table[7];
    memset(table, 0xff, sizeof table);
    expect("a table", nlp_attrs_table(block, WHOLE, table, 6, &fault) == NLP_OK && fault.cause == 0 && is_attr(&table[0], 0, 40, 4)
        && is_attr(&table[1], 1, 20, 2) && is_attr(&table[2], 0x8002, 12, 4) && is_attr(&table[3], 0x4003, 28, 8)
        && is_attr(&table[4], 0, 0, 0) && is_attr(&table[5], 5, 48, 0));
    expect("what follows the table", is_attr(&table[6], 0xffff, SIZE_MAX, SIZE_MAX));
    memset(table, 0xff, sizeof table);
    expect("a table before an error", nlp_attrs_table(block, sizeof block, table, 3, &fault) == NLP_ATTR_CUT && is_fault(&fault, 6, 6, 9)
        && is_attr(&table[0], 0, 40, 4) && is_attr(&table[1], 1, 20, 2) && is_attr(&table[2], 0x8002, 12, 4));
    expect("what follows a short table", is_attr(&table[3], 0xffff, SIZE_MAX, SIZE_MAX));
    expect("a table of one entry", nlp_attrs_table(block, WHOLE, table, 1, &fault) == NLP_OK && is_attr(&table[0], 0, 40, 4));
    expect("a table of no entries", nlp_attrs_table(block, WHOLE, NULL, 0, &fault) == NLP_OK);
    expect("a table of no entries and an error", nlp_attrs_table(block, sizeof block, NULL, 0, &fault) == NLP_ATTR_CUT);
    expect("a table of no bytes", nlp_attrs_table(NULL, 0, table, 2, &fault) == NLP_OK && is_attr(&table[0], 0, 0, 0) && is_attr(&table[1], 0, 0, 0));
}

/* Returns whether the block has this result and this offset, which is 99 if it is unchanged. */
static bool validates(size_t len, const struct nlp_policy *policy, size_t count, uint32_t result, size_t offset)
{
    struct nlp_fault fault = { 96, 0, 0, 0 };
    size_t at = 99;
    uint32_t got = nlp_attrs_validate(block, len, policy, count, &at, &fault);
    return got == result && at == offset && (result == NLP_ATTR_CUT ? is_fault(&fault, 6, 6, 9) : is_fault(&fault, 96, 0, 0));
}

static void policies(void)
{
    const struct nlp_policy fits[6] = { { 2, NLP_EXACTLY, 4 }, { 1, NLP_AT_LEAST, 1 }, { 1, NLP_AT_MOST, 2 }, { 5, NLP_EXACTLY, 0 },
        { 2, 0, 3 }, { 2, 12, 3 } };
    const struct nlp_policy two[2] = { { 3, NLP_EXACTLY, 4 }, { 2, NLP_EXACTLY, 3 } };
    expect("a policy that fits", validates(WHOLE, fits, 6, NLP_OK, 99));
    expect("a policy of no rows", validates(WHOLE, NULL, 0, NLP_OK, 99));
    expect("a policy of no rows and an error", validates(sizeof block, NULL, 0, NLP_ATTR_CUT, 48));
    expect("a policy and no bytes", validates(0, two, 2, NLP_OK, 99));
    expect("a policy that fits before an error", validates(sizeof block, fits, 6, NLP_ATTR_CUT, 48));
    expect("the first in the block", validates(WHOLE, two, 2, NLP_WRONG_SHAPE, 8));
    expect("the first before an error", validates(sizeof block, two, 2, NLP_WRONG_SHAPE, 8));
    expect("a policy of one row", validates(WHOLE, two, 1, NLP_WRONG_SHAPE, 24));
    expect("a row with a flag", validates(WHOLE, &(struct nlp_policy){ 0x8002, NLP_EXACTLY, 3 }, 1, NLP_OK, 99));
    expect("a row of kind 0xffff", validates(WHOLE, &(struct nlp_policy){ 0xffff, NLP_EXACTLY, 3 }, 1, NLP_OK, 99));
}

/* Returns whether a value of kind 7 has a shape, or the error for another shape. */
static bool has_shape(const char *value, size_t size, uint16_t shape, size_t stated)
{
    uint8_t bytes[20];
    const struct nlp_policy row = { 7, shape, stated };
    struct nlp_fault fault = { 96, 0, 0, 0 };
    size_t at = 0, offset = 99;
    if (nlp_attr_put(bytes, sizeof bytes, &at, 0x4007, (const uint8_t *)value, size) != NLP_OK)
        return false;
    uint32_t result = nlp_attrs_validate(bytes, at, &row, 1, &offset, &fault);
    expect("the offset and the fault of a shape", offset == (result == NLP_OK ? 99u : 0u) && is_fault(&fault, 96, 0, 0));
    return result == NLP_OK || result != NLP_WRONG_SHAPE;
}

/* The shapes, by what lib/nlattr.c of the kernel accepts for the NLA_* of the same name. */
static void shapes(void)
{
    static const uint16_t sizes[5][2] = { { NLP_U8, 1 }, { NLP_U16, 2 }, { NLP_U32, 4 }, { NLP_U64, 8 }, { NLP_FLAG, 0 } };
    bool integers = true, counts = true, nests = true;
    for (size_t size = 0; size <= 9; size++) {
        for (size_t row = 0; row < 5; row++)
            integers = integers && has_shape("123456789", size, sizes[row][0], 5) == (size == sizes[row][1]);
        counts = counts && has_shape("123456789", size, NLP_EXACTLY, 3) == (size == 3) && has_shape("123456789", size, NLP_AT_LEAST, 3) == (size >= 3)
            && has_shape("123456789", size, NLP_AT_MOST, 3) == (size <= 3) && has_shape("123456789", size, NLP_AT_MOST, 0) && has_shape("123456789", size, 0, 3) && has_shape("123456789", size, 12, 3);
        nests = nests && has_shape("123456789", size, NLP_NESTED, 5) == (size == 0 || size >= 4);
    }
    expect("the sizes of integers and flags", integers);
    expect("exactly, at least and at most", counts);
    expect("the sizes of nests", nests);
    expect("a string", has_shape("lo", 2, NLP_STRING, 0) && has_shape("lo", 3, NLP_STRING, 0) && has_shape("", 1, NLP_STRING, 0));
    expect("no bytes are no string", !has_shape("", 0, NLP_STRING, 0) && !has_shape("", 0, NLP_NUL_STRING, 0));
    expect("the most of a string", has_shape("lo", 2, NLP_STRING, 2) && has_shape("lo", 3, NLP_STRING, 2) && !has_shape("lo2", 3, NLP_STRING, 2)
        && !has_shape("lo\0", 4, NLP_STRING, 2) && has_shape("", 1, NLP_STRING, 1));
    expect("a string with a zero", has_shape("lo", 3, NLP_NUL_STRING, 0) && !has_shape("lo", 2, NLP_NUL_STRING, 0) && has_shape("", 1, NLP_NUL_STRING, 0)
        && has_shape("l\0o", 3, NLP_NUL_STRING, 0) && has_shape("\0o", 2, NLP_NUL_STRING, 0));
    expect("the most of a string with a zero", has_shape("lo", 3, NLP_NUL_STRING, 2) && !has_shape("lo2", 4, NLP_NUL_STRING, 2)
        && !has_shape("lo", 2, NLP_NUL_STRING, 2) && !has_shape("l\0o", 3, NLP_NUL_STRING, 2) && has_shape("l\0o", 4, NLP_NUL_STRING, 3));
}

/* Returns whether each getter of an integer returns this result, and changes nothing. */
static bool refuse_all(const uint8_t *bytes, size_t len, struct nlp_attr attr, uint32_t result)
{
    uint8_t a = 1;
    uint16_t b = 2;
    uint32_t c = 3;
    uint64_t d = 4;
    return nlp_get_u8(bytes, len, &attr, &a) == result && nlp_get_u16(bytes, len, &attr, &b) == result
        && nlp_get_u32(bytes, len, &attr, &c) == result && nlp_get_u64(bytes, len, &attr, &d) == result
        && nlp_get_be16(bytes, len, &attr, &b) == result && nlp_get_be32(bytes, len, &attr, &c) == result
        && nlp_get_be64(bytes, len, &attr, &d) == result && a == 1 && b == 2 && c == 3 && d == 4;
}

static void gets_numbers(void)
{
    const struct nlp_attr one = { 1, 4, 1 }, two = { 1, 20, 2 }, four = { 0x8002, 12, 4 }, eight = { 0x4003, 28, 8 };
    uint8_t a = 1;
    uint16_t b = 2;
    uint32_t c = 3;
    uint64_t d = 4;
    expect("1 byte", nlp_get_u8(block, WHOLE, &one, &a) == NLP_OK && a == 0xaa);
    expect("2 bytes", nlp_get_u16(block, WHOLE, &two, &b) == NLP_OK && b == 0xccbb);
    expect("2 bytes, big-endian", nlp_get_be16(block, WHOLE, &two, &b) == NLP_OK && b == 0xbbcc);
    expect("4 bytes", nlp_get_u32(block, WHOLE, &four, &c) == NLP_OK && c == 0x04030201);
    expect("4 bytes, big-endian", nlp_get_be32(block, WHOLE, &four, &c) == NLP_OK && c == 0x01020304);
    expect("8 bytes", nlp_get_u64(block, WHOLE, &eight, &d) == NLP_OK && d == 0x0807060504030201);
    expect("8 bytes, big-endian", nlp_get_be64(block, WHOLE, &eight, &d) == NLP_OK && d == 0x0102030405060708);
    expect("2 bytes are not 1", nlp_get_u8(block, WHOLE, &two, &a) == NLP_WRONG_SIZE && a == 0xaa);
    expect("4 bytes are not 2", nlp_get_u16(block, WHOLE, &four, &b) == NLP_WRONG_SIZE && b == 0xbbcc);
    expect("8 bytes are not 4", nlp_get_be32(block, WHOLE, &eight, &c) == NLP_WRONG_SIZE && c == 0x01020304);
    expect("4 bytes are not 8", nlp_get_be64(block, WHOLE, &four, &d) == NLP_WRONG_SIZE && d == 0x0102030405060708);
    expect("no value", refuse_all(block, WHOLE, (struct nlp_attr){ 5, 48, 0 }, NLP_WRONG_SIZE));
    expect("3 bytes", refuse_all(block, WHOLE, (struct nlp_attr){ 1, 4, 3 }, NLP_WRONG_SIZE));
    expect("an absent attribute", refuse_all(block, WHOLE, (struct nlp_attr){ 0, 0, 0 }, NLP_NO_PLACE));
    expect("an attribute after the block", refuse_all(block, WHOLE, (struct nlp_attr){ 1, 49, 0 }, NLP_NO_PLACE));
    expect("an attribute that ends after the block", refuse_all(block, 11, (struct nlp_attr){ 1, 4, 8 }, NLP_NO_PLACE));
    expect("an offset that is too large", refuse_all(block, WHOLE, (struct nlp_attr){ 1, SIZE_MAX, 2 }, NLP_NO_PLACE));
    expect("a size that is too large", refuse_all(block, WHOLE, (struct nlp_attr){ 1, 2, SIZE_MAX }, NLP_NO_PLACE));
    expect("an attribute of no bytes", refuse_all(NULL, 0, (struct nlp_attr){ 1, 4, 1 }, NLP_NO_PLACE));
}

static void gets_bytes(void)
{
    const struct nlp_attr two = { 1, 20, 2 }, eight = { 3, 28, 8 }, name = { 0, 40, 4 }, none = { 5, 48, 0 }, absent = { 0, 0, 0 };
    uint8_t bytes[9];
    struct nlp_part text = { 1, 1 };
    memset(bytes, 0xff, sizeof bytes);
    expect("7 of 8 bytes", nlp_get_bytes(block, WHOLE, &eight, bytes, 7) == NLP_WRONG_SIZE && bytes[0] == 0xff);
    expect("9 of 8 bytes", nlp_get_bytes(block, WHOLE, &eight, bytes, 9) == NLP_WRONG_SIZE && bytes[0] == 0xff);
    expect("bytes of an absent attribute", nlp_get_bytes(block, WHOLE, &absent, bytes, 8) == NLP_NO_PLACE && bytes[0] == 0xff);
    expect("8 bytes", nlp_get_bytes(block, WHOLE, &eight, bytes, 8) == NLP_OK && memcmp(bytes, block + 28, 8) == 0 && bytes[8] == 0xff);
    expect("no bytes", nlp_get_bytes(block, WHOLE, &none, NULL, 0) == NLP_OK);
    expect("no absent bytes", nlp_get_bytes(NULL, 0, &absent, NULL, 0) == NLP_NO_PLACE);
    expect("a text of an absent attribute", nlp_get_str(block, WHOLE, &absent, &text) == NLP_NO_PLACE && text.offset == 1 && text.size == 1);
    expect("a text after the block", nlp_get_str(block, 43, &name, &text) == NLP_NO_PLACE && text.offset == 1 && text.size == 1);
    expect("a text up to its zero", nlp_get_str(block, WHOLE, &name, &text) == NLP_OK && text.offset == 40 && text.size == 2);
    expect("a text without a zero", nlp_get_str(block, WHOLE, &two, &text) == NLP_OK && text.offset == 20 && text.size == 2);
    expect("a text of no bytes", nlp_get_str(block, WHOLE, &none, &text) == NLP_OK && text.offset == 48 && text.size == 0);
}

static void puts_values(void)
{
    static const uint8_t wanted[32] = { 6, 0, 2, 0, 0x12, 0x34, 0, 0, 8, 0, 3, 0x40, 0x12, 0x34, 0x56, 0x78,
        12, 0, 4, 0, 1, 2, 3, 4, 5, 6, 7, 8, 4, 0, 5, 0 };
    uint8_t buffer[32];
    size_t at = 0;
    memset(buffer, 0xff, sizeof buffer);
    expect("2 bytes are put", nlp_attr_put_be16(buffer, sizeof buffer, &at, 2, 0x1234) == NLP_OK && at == 8);
    expect("no room for 4 bytes", nlp_attr_put_be32(buffer, 15, &at, 3, 1) == NLP_NO_ROOM && at == 8 && buffer[8] == 0xff);
    expect("4 bytes are put", nlp_attr_put_be32(buffer, sizeof buffer, &at, 0x4003, 0x12345678) == NLP_OK && at == 16);
    expect("no room for 8 bytes", nlp_attr_put_be64(buffer, 27, &at, 4, 1) == NLP_NO_ROOM && at == 16 && buffer[16] == 0xff);
    expect("8 bytes are put", nlp_attr_put_be64(buffer, sizeof buffer, &at, 4, 0x0102030405060708) == NLP_OK && at == 28);
    expect("no room for a flag", nlp_attr_put_flag(buffer, 31, &at, 5) == NLP_NO_ROOM && at == 28 && buffer[28] == 0xff);
    expect("a flag is put", nlp_attr_put_flag(buffer, sizeof buffer, &at, 5) == NLP_OK && at == 32);
    expect("no room for 2 bytes", nlp_attr_put_be16(buffer, sizeof buffer, &at, 2, 1) == NLP_NO_ROOM && at == 32);
    expect("the bytes of what was put", memcmp(buffer, wanted, sizeof wanted) == 0);
}

static bool is_message(const struct nlp_message *m, uint32_t length, uint16_t type, size_t offset, size_t size)
{
    return m->header.length == length && m->header.message_type == type && m->payload.offset == offset && m->payload.size == size;
}

static void messages(void)
{
    /* A message with a payload of 1 byte and its padding, one without a payload, and 4 bytes. */
    static const uint8_t bytes[40] = { 17, 0, 0, 0, 18, 0, 1, 3, 7, 0, 0, 0, 9, 0, 0, 0, 0xbb, 0, 0, 0, 16, 0, 0, 0, 20, 0, 0, 0, 0, 0, 0, 0, 0, 0, 0, 0, 1, 2, 3, 4 };
    struct nlp_fault fault = { 0, 0, 0, 0 };
    struct nlp_message m = { { 1, 1, 1, 1, 1 }, { 1, 1 } };
    size_t at = 0;
    expect("no message in no bytes", nlp_message_read(NULL, 0, &at, &m, &fault) == NLP_END && at == 0 && is_message(&m, 1, 1, 1, 1));
    expect("a truncated message", nlp_message_read(bytes, 16, &at, &m, &fault) == NLP_FRAME_CUT && at == 16 && is_fault(&fault, 10, 16, 17) && is_message(&m, 1, 1, 1, 1));
    at = 0;
    expect("the first message", nlp_message_read(bytes, sizeof bytes, &at, &m, &fault) == NLP_OK && at == 20 && is_message(&m, 17, 18, 16, 1)
        && m.header.flags == 0x301 && m.header.sequence_number == 7 && m.header.port_number == 9);
    expect("the second message", nlp_message_read(bytes, sizeof bytes, &at, &m, &fault) == NLP_OK && at == 36 && is_message(&m, 16, 20, 36, 0));
    expect("no third message", nlp_message_read(bytes, sizeof bytes, &at, &m, &fault) == NLP_FRAME_SHORT && at == 40 && is_fault(&fault, 9, 4, 0) && is_message(&m, 16, 20, 36, 0));
    expect("the end of the messages", nlp_message_read(bytes, sizeof bytes, &at, &m, &fault) == NLP_END && at == 40);
    at = SIZE_MAX;
    expect("messages past the end", nlp_message_read(bytes, sizeof bytes, &at, &m, &fault) == NLP_END && at == SIZE_MAX);
}

/* The same messages in one call. */
static void batches(void)
{
    static const uint8_t bytes[40] = { 17, 0, 0, 0, 18, 0, 1, 3, 7, 0, 0, 0, 9, 0, 0, 0, 0xbb, 0, 0, 0, 16, 0, 0, 0, 20, 0, 0, 0, 0, 0, 0, 0, 0, 0, 0, 0, 1, 2, 3, 4 };
    uint8_t many[17 * 16], damaged[40];
    struct nlp_fault fault = { 0, 0, 0, 0 };
    struct nlp_message_batch all = { 0, 77, { { { 0, 0, 0, 0, 0 }, { 0, 0 } } } };
    struct nlp_message *m = all.item;
    m[1] = m[2] = m[15] = (struct nlp_message){ { 1, 1, 1, 1, 1 }, { 1, 1 } };
    expect("no messages in no bytes", nlp_messages_fill(NULL, 0, &all, &fault) == NLP_END && all.cursor == 0 && all.count == 77);
    expect("no complete message", nlp_messages_fill(bytes, 16, &all, &fault) == NLP_FRAME_CUT && all.cursor == 16 && all.count == 77 && is_fault(&fault, 10, 16, 17)
        && is_message(&m[0], 0, 0, 0, 0));
    fault = (struct nlp_fault){ 0, 0, 0, 0 };
    all.cursor = 0;
    expect("two messages", nlp_messages_fill(bytes, sizeof bytes, &all, &fault) == NLP_OK && all.cursor == 36 && all.count == 2 && is_message(&m[0], 17, 18, 16, 1)
        && m[0].header.flags == 0x301 && m[0].header.sequence_number == 7 && m[0].header.port_number == 9 && is_message(&m[1], 16, 20, 36, 0));
    expect("no more entries", is_message(&m[2], 1, 1, 1, 1) && is_message(&m[15], 1, 1, 1, 1) && is_fault(&fault, 0, 0, 0));
    expect("the error after them", nlp_messages_fill(bytes, sizeof bytes, &all, &fault) == NLP_FRAME_SHORT && all.cursor == 40 && all.count == 2 && is_fault(&fault, 9, 4, 0)
        && is_message(&m[0], 17, 18, 16, 1));
    expect("the end after that", nlp_messages_fill(bytes, sizeof bytes, &all, &fault) == NLP_END && all.cursor == 40 && all.count == 2);
    all.cursor = SIZE_MAX;
    expect("batches past the end", nlp_messages_fill(bytes, sizeof bytes, &all, &fault) == NLP_END && all.cursor == SIZE_MAX);
    memcpy(damaged, bytes, sizeof damaged);
    damaged[20] = 15;
    all.cursor = 0;
    expect("the message before a damaged one", nlp_messages_fill(damaged, sizeof damaged, &all, &fault) == NLP_OK && all.cursor == 20 && all.count == 1
        && is_message(&m[1], 16, 20, 36, 0));
    expect("a damaged message", nlp_messages_fill(damaged, sizeof damaged, &all, &fault) == NLP_FRAME_LENGTH && all.cursor == 40 && is_fault(&fault, 11, 0, 15));
    memset(many, 0, sizeof many);
    for (size_t i = 0; i < 17; i++) {
        many[16 * i] = 16;
        many[16 * i + 4] = (uint8_t)(20 + i);
    }
    all.cursor = 0;
    expect("16 messages", nlp_messages_fill(many, sizeof many, &all, &fault) == NLP_OK && all.cursor == 256 && all.count == 16 && is_message(&m[15], 16, 35, 256, 0));
    expect("the 17th message", nlp_messages_fill(many, sizeof many, &all, &fault) == NLP_OK && all.cursor == 272 && all.count == 1 && is_message(&m[0], 16, 36, 272, 0)
        && is_message(&m[15], 16, 35, 256, 0));
    expect("the end after 17", nlp_messages_fill(many, sizeof many, &all, &fault) == NLP_END && all.cursor == 272 && all.count == 1);
}

/* Returns whether the attributes of a message with this payload are these, or unchanged at (1, 1). */
static bool has_attributes(size_t offset, size_t size, size_t fixed, uint32_t result, size_t start, size_t left)
{
    const struct nlp_message m = { { 0, 0, 0, 0, 0 }, { offset, size } };
    struct nlp_part part = { 1, 1 };
    return nlp_message_attrs(&m, fixed, &part) == result && part.offset == start && part.size == left;
}

static void attributes(void)
{
    expect("no fixed header", has_attributes(16, 8, 0, NLP_OK, 16, 8));
    expect("a fixed header", has_attributes(16, 8, 4, NLP_OK, 20, 4));
    expect("a fixed header alone", has_attributes(16, 8, 8, NLP_OK, 24, 0));
    expect("a fixed header and its padding", has_attributes(16, 12, 5, NLP_OK, 24, 4));
    expect("a fixed header that is short", has_attributes(16, 8, 9, NLP_WRONG_SIZE, 1, 1));
    expect("padding that is short", has_attributes(16, 6, 5, NLP_OK, 22, 0));
    expect("no payload", has_attributes(36, 0, 1, NLP_WRONG_SIZE, 1, 1));
    expect("a fixed header that is too large", has_attributes(16, 8, SIZE_MAX, NLP_WRONG_SIZE, 1, 1));
    expect("an offset that is too large", has_attributes(SIZE_MAX, 1, 0, NLP_NO_PLACE, 1, 1));
    expect("a size that is too large", has_attributes(1, SIZE_MAX, 0, NLP_NO_PLACE, 1, 1));
    expect("the largest size", has_attributes(0, SIZE_MAX, SIZE_MAX, NLP_OK, SIZE_MAX, 0));
}

int main(void)
{
    finds();
    indexes();
    lengths();
    tables();
    policies();
    shapes();
    gets_numbers();
    gets_bytes();
    puts_values();
    messages();
    batches();
    attributes();
    printf("%d passed, %d failed\n", passed, failed);
    return failed != 0;
}
