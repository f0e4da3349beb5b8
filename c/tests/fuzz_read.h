/* The calls that read attributes and values, compared with the model. */
#ifndef FUZZ_READ_H
#define FUZZ_READ_H

#include "fuzz.h"

static const struct nlp_attr no_attr = { 95, 94, 93 };
static const struct nlp_part no_part = { 92, 91 };

static void walk_attrs(const struct input *in)
{
    struct nlp_attr *item = place(OUT, sizeof *item);
    size_t *at = place(CURSOR, sizeof *at), next = *at = in->args[0] < 192 ? 0 : near(in->args[1], in->len);
    uint32_t result;
    do {
        struct nlp_fault wanted = begin_fault();
        struct nlp_attr expected = *item = no_attr;
        result = step(in->bytes, in->len, &next, &expected, &wanted);
        RESULT(OPT(nlp_attrs_next, in->bytes, in->len, at, item), result);
        CHECK(*at == next);
        CHECK(same_attr(item, &expected));
        check_fault(&wanted);
    } while (result != NLP_END);
}

/* The same attributes, up to 16 in a call. */
static void fill_attrs(const struct input *in)
{
    struct nlp_attr_batch *batch = place(EXTRA, sizeof *batch), expected;
    uint32_t result;
    memset(batch, 0xee, sizeof *batch);
    batch->cursor = in->args[0] < 192 ? 0 : near(in->args[1], in->len);
    do {
        struct nlp_fault wanted = begin_fault();
        memcpy(&expected, batch, sizeof expected);
        result = model_fill_attrs(in->bytes, in->len, &expected, &wanted);
        RESULT(OPT(nlp_attrs_fill, in->bytes, in->len, batch), result);
        CHECK(same_batch(batch, &expected, result == NLP_OK ? expected.count : 0));
        check_fault(&wanted);
    } while (result != NLP_END);
}

/* And one by one. */
static void read_attrs(const struct input *in)
{
    struct nlp_attrs *walk = place(EXTRA, sizeof *walk);
    size_t at = 0;
    uint32_t result;
    memset(walk, 0xee, sizeof *walk);
    nlp_attrs_begin(walk, in->bytes, in->len);
    do {
        struct nlp_fault wanted = walk->fault = no_fault;
        struct nlp_attr expected = no_attr;
        result = step(in->bytes, in->len, &at, &expected, &wanted);
        const struct nlp_attr *item = nlp_attrs_read(walk);
        CHECK((item != NULL) == (result == NLP_OK));
        RESULT(walk->result, result);
        CHECK(item == NULL || same_attr(item, &expected));
        CHECK(same_fault(&walk->fault, &wanted));
    } while (result != NLP_END);
}

static void find_attr(const struct input *in)
{
    struct nlp_attr *item = place(OUT, sizeof *item), expected = *item = no_attr;
    struct nlp_fault wanted = begin_fault();
    const uint16_t kind = kind_of(in->args[0], in->args[1]);
    RESULT(OPT(nlp_attrs_find, in->bytes, in->len, kind, item),
           model_find(in->bytes, in->len, kind, &expected, &wanted));
    CHECK(same_attr(item, &expected));
    check_fault(&wanted);
}

static void fill_table(const struct input *in)
{
    struct nlp_attr expected[32];
    const size_t count = in->args[0] % 33;
    struct nlp_attr *table = place(EXTRA, count * sizeof *table);
    struct nlp_fault wanted = begin_fault();
    memset(table, 0xee, count * sizeof *table);
    memset(expected, 0, count * sizeof *expected);
    RESULT(OPT(nlp_attrs_table, in->bytes, in->len, count == 0 && in->args[1] % 2 ? NULL : table, count),
           model_table(in->bytes, in->len, expected, count, &wanted));
    for (size_t i = 0; i < count; i++)
        CHECK(same_attr(&table[i], &expected[i]));
    check_fault(&wanted);
}

static void validate(const struct input *in)
{
    static const uint8_t sizes[8] = { 0, 1, 2, 3, 4, 5, 8, 255 };
    const size_t count = in->args[0] % 5;
    struct nlp_policy *policy = place(EXTRA, count * sizeof *policy);
    size_t *offset = place(CURSOR, sizeof *offset), expected = *offset = 90;
    struct nlp_fault wanted = begin_fault();
    for (size_t i = 0; i < count; i++) {
        const uint8_t *row = &in->args[1 + 2 * i];
        policy[i].kind = row[0] % 32 == 31 ? 0x8001 : row[0] % 8;
        policy[i].shape = row[1] % 13;
        policy[i].size = sizes[row[1] / 13 % 8];
    }
    RESULT(OPT(nlp_attrs_validate, in->bytes, in->len, policy, count, offset),
           model_validate(in->bytes, in->len, policy, count, &expected, &wanted));
    CHECK(*offset == expected);
    check_fault(&wanted);
}

/* Returns an attribute of the block, or one that is changed to be next to it, or any. */
static struct nlp_attr chosen_attr(const struct input *in)
{
    struct nlp_attr item = { 1, near(in->args[2], in->len), near(in->args[3], in->len) }, one;
    struct nlp_fault ignored;
    size_t at = 0;
    if (in->args[0] >= 224)
        return item;
    for (size_t left = in->args[1] % 8; step(in->bytes, in->len, &at, &one, &ignored) == NLP_OK; left--) {
        item = one;
        if (left == 0)
            break;
    }
    item.offset = in->args[0] % 16 == 15 ? 0 : item.offset + in->args[0] % 16 / 14;
    item.size += in->args[0] / 16 == 13;
    return item;
}

#define GETS(name, type, width, is_big) do { \
        type *value = place(OUT, sizeof *value); \
        const uint32_t result = get_result(in->len, item, width); \
        *value = 77; \
        RESULT(name(in->bytes, in->len, item, value), result); \
        CHECK(*value == (result == NLP_OK ? number(in->bytes + item->offset, width, is_big) : 77)); \
    } while (0)

static void get_bytes(const struct input *in, const struct nlp_attr *item)
{
    static uint8_t before[MAX_LEN + 8];
    const bool is_any = item->size > in->len || in->args[4] >= 224;
    const size_t size = is_any ? in->args[4] % 32 : item->size + in->args[4] % 8 / 7;
    uint8_t *to = place(BUFFER, size);
    const uint32_t result = get_result(in->len, item, size);
    memset(to, 0xee, size);
    memset(before, 0xee, size);
    RESULT(nlp_get_bytes(in->bytes, in->len, item, size == 0 && in->args[5] % 2 ? NULL : to, size), result);
    CHECK(size == 0 || memcmp(to, result == NLP_OK ? in->bytes + item->offset : before, size) == 0);
}

static void get_str(const struct input *in, const struct nlp_attr *item)
{
    struct nlp_part *text = place(OUT, sizeof *text), expected = *text = no_part;
    const uint32_t result = get_result(in->len, item, item->size);
    if (result == NLP_OK) {
        expected = (struct nlp_part){ item->offset, 0 };
        while (expected.size < item->size && in->bytes[item->offset + expected.size] != 0)
            expected.size++;
    }
    RESULT(nlp_get_str(in->bytes, in->len, item, text), result);
    CHECK(same_part(text, &expected));
}

static void get_value(const struct input *in)
{
    const struct nlp_attr one = chosen_attr(in);
    struct nlp_attr *item = place(CURSOR, sizeof *item);
    *item = one;
    switch (in->args[6] % 10) {
    case 0: GETS(nlp_get_u8, uint8_t, 1, false); break;
    case 1: GETS(nlp_get_u16, uint16_t, 2, false); break;
    case 2: GETS(nlp_get_u32, uint32_t, 4, false); break;
    case 3: GETS(nlp_get_u64, uint64_t, 8, false); break;
    case 4: GETS(nlp_get_be16, uint16_t, 2, true); break;
    case 5: GETS(nlp_get_be32, uint32_t, 4, true); break;
    case 6: GETS(nlp_get_be64, uint64_t, 8, true); break;
    case 7: get_str(in, item); break;
    default: get_bytes(in, item);
    }
    CHECK(same_attr(item, &one));
}

/* The integers of the last bytes, up to the edge. */
static void read_integers(const struct input *in)
{
    if (in->len < 2)
        return;
    const uint8_t *end = in->bytes + in->len;
    CHECK(nlp_u16(end - 2) == number(end - 2, 2, false));
    if (in->len >= 4)
        CHECK(nlp_u32(end - 4) == number(end - 4, 4, false));
    if (in->len >= 8)
        CHECK(nlp_u64(end - 8) == number(end - 8, 8, false));
}

static void write_attr(const struct input *in)
{
    static uint8_t expected[MAX_LEN];
    uint8_t *block = place(BUFFER, in->len);
    size_t at = 0, index = in->args[0] >= 240 ? SIZE_MAX - in->args[0] % 2 : in->args[0] % 4, left = index;
    struct nlp_attr item = no_attr;
    struct nlp_fault ignored;
    uint32_t result = step(in->bytes, in->len, &at, &item, &ignored);
    for (; result == NLP_OK && left > 0; left--)
        result = step(in->bytes, in->len, &at, &item, &ignored);
    const size_t size = result != NLP_OK || in->args[1] >= 192 ? in->args[1] % 16 : item.size;
    uint8_t *value = place(EXTRA, size);
    for (size_t i = 0; i < size; i++)
        value[i] = (uint8_t)(in->args[2] + i);
    if (in->len != 0) {
        memcpy(block, in->bytes, in->len);
        memcpy(expected, in->bytes, in->len);
    }
    result = result == NLP_OK && item.size == size ? NLP_OK : NLP_NO_PLACE;
    if (result == NLP_OK)
        memcpy(expected + item.offset, value, size);
    RESULT(nlp_attr_write(block, in->len, index, value, size), result);
    CHECK(memcmp(block, expected, in->len) == 0);
}

#endif
