/* Tests the functions that read 16 attributes of a block in one call: nlp_attrs_fill, its form with a fault that may be
 * NULL, and the inline walk over it. */
#include "netlink_packet.h"

#include <stdio.h>
#include <string.h>

static int passed, failed;

static void expect(const char *what, bool holds)
{
    if (holds) {
        passed++;
    } else {
        failed++;
        fprintf(stderr, "failed: %s\n", what);
    }
}

/* Two attributes, (1, aa) and (2 with the nested flag, 01020304), and a third that is truncated. */
static const uint8_t block[22] = { 5, 0, 1, 0, 0xaa, 0, 0, 0, 8, 0, 2, 0x80, 1, 2, 3, 4, 9, 0, 3, 0, 1, 2 };

static bool is_fault(const struct nlp_fault *f, uint32_t cause, size_t size, size_t wanted)
{
    return f->cause == cause && f->inside == 0 && f->size == size && f->wanted == wanted;
}

static bool is_attr(const struct nlp_attr *a, uint16_t kind, size_t offset, size_t size)
{
    return a->kind == kind && a->offset == offset && a->size == size;
}

/* Returns whether calls read these numbers of attributes, of 1 byte each, up to the end. The block lacks `cut` bytes of
 * the last one's padding. An entry after the count is still that of the call before, or zeros. */
static bool reads_numbers(const uint8_t *counts, size_t cut)
{
    uint8_t many[33 * 8] = { 0 };
    struct nlp_fault fault = { 0, 0, 0, 0 };
    struct nlp_attr_batch batch = { 0, 0, { { 0, 0, 0 } } };
    size_t before = 0, len = 0;
    bool holds = true;
    for (size_t i = 0; i < 33; i++) {
        many[8 * i] = 5;
        many[8 * i + 2] = (uint8_t)(i + 1);
    }
    for (const uint8_t *count = counts; *count != 0; count++)
        len += (size_t)8 * *count;
    len -= cut;
    for (; *counts != 0; before += *counts++) {
        holds = holds && nlp_attrs_fill(many, len, &batch, &fault) == NLP_OK && batch.count == *counts
            && batch.cursor == (counts[1] == 0 ? len : 8 * (before + 16));
        for (size_t i = 0; i < 16; i++) {
            const size_t index = i < *counts ? before + i : before + i - 16;
            const bool is_new = i < *counts || before != 0;
            holds = holds && is_attr(&batch.item[i], is_new ? (uint16_t)(index + 1) : 0, is_new ? 8 * index + 4 : 0, is_new);
        }
    }
    return holds && nlp_attrs_fill(many, len, &batch, &fault) == NLP_END && batch.cursor == len && is_fault(&fault, 0, 0, 0);
}

/* 1, 15, 16, 17 and 33 attributes. */
static void numbers(void)
{
    static const uint8_t counts[5][4] = { { 1, 0, 0, 0 }, { 15, 0, 0, 0 }, { 16, 0, 0, 0 }, { 16, 1, 0, 0 }, { 16, 16, 1, 0 } };
    for (size_t i = 0; i < 5; i++) {
        expect("attributes with their padding", reads_numbers(counts[i], 0));
        expect("attributes, the last without its padding", reads_numbers(counts[i], 3));
    }
}

/* Errors and ends. */
static void batches(void)
{
    struct nlp_fault fault = { 0, 0, 0, 0 };
    struct nlp_attr_batch all = { 0, 77, { { 1, 1, 1 } } };
    const struct nlp_attr *a = all.item;
    for (size_t i = 1; i < 16; i++)
        all.item[i] = a[0];
    expect("no attributes in no bytes", nlp_attrs_fill(NULL, 0, &all, &fault) == NLP_END && all.cursor == 0 && all.count == 77 && is_attr(a, 1, 1, 1));
    expect("no complete attribute", nlp_attrs_fill(block, 4, &all, &fault) == NLP_ATTR_CUT && is_fault(&fault, 6, 4, 5) && all.cursor == 4
        && all.count == 77 && is_attr(a, 1, 1, 1));
    fault = (struct nlp_fault){ 0, 0, 0, 0 };
    all.cursor = 0;
    expect("two attributes", nlp_attrs_fill(block, sizeof block, &all, &fault) == NLP_OK && is_fault(&fault, 0, 0, 0) && all.cursor == 16 && all.count == 2
        && is_attr(&a[0], 1, 4, 1) && is_attr(&a[1], 0x8002, 12, 4));
    expect("the entries after them", is_attr(&a[2], 1, 1, 1) && is_attr(&a[15], 1, 1, 1));
    expect("the error after them", nlp_attrs_fill(block, sizeof block, &all, &fault) == NLP_ATTR_CUT && is_fault(&fault, 6, 6, 9) && all.cursor == 22
        && all.count == 2 && is_attr(&a[0], 1, 4, 1));
    expect("the end after that", nlp_attrs_fill(block, sizeof block, &all, &fault) == NLP_END && all.cursor == 22 && all.count == 2);
    all.cursor = SIZE_MAX;
    expect("attributes past the end", nlp_attrs_fill(block, sizeof block, &all, &fault) == NLP_END && all.cursor == SIZE_MAX);
    all.cursor = 19;
    expect("fewer than 4 bytes", nlp_attrs_fill(block, sizeof block, &all, &fault) == NLP_ATTR_SHORT && is_fault(&fault, 5, 3, 4) && all.cursor == 22);
    all.cursor = 5;
    expect("a length of 0", nlp_attrs_fill(block, 12, &all, &fault) == NLP_ATTR_LENGTH && is_fault(&fault, 7, 4, 0) && all.cursor == 12);
}

/* A batch without a fault and with one. */
static void faults(void)
{
    struct nlp_fault fault = { 0, 0, 0, 0 };
    struct nlp_attr_batch batch;
    for (int with = 0; with < 2; with++) {
        struct nlp_fault *to = with ? &fault : NULL;
        batch.cursor = 0;
        expect("a batch", nlp_attrs_fill_opt(block, sizeof block, &batch, to) == NLP_OK && batch.count == 2 && is_attr(&batch.item[1], 0x8002, 12, 4));
        expect("no batch", nlp_attrs_fill_opt(block, sizeof block, &batch, to) == NLP_ATTR_CUT && is_fault(&fault, with ? 6 : 0, with ? 6 : 0, with ? 9 : 0));
    }
}

/* The attributes one by one. */
static void reads(void)
{
    struct nlp_attrs walk;
    const struct nlp_attr *attr;
    memset(&walk, 0xee, sizeof walk);
    nlp_attrs_begin(&walk, block, sizeof block);
    expect("a walk that begins", walk.block == block && walk.len == sizeof block && walk.batch.cursor == 0 && walk.batch.count == 0 && walk.next == 0
        && walk.result == NLP_OK);
    attr = nlp_attrs_read(&walk);
    expect("the first attribute of a walk", attr == walk.batch.item && is_attr(attr, 1, 4, 1) && walk.result == NLP_OK);
    attr = nlp_attrs_read(&walk);
    expect("the second attribute of a walk", attr == walk.batch.item + 1 && is_attr(attr, 0x8002, 12, 4) && walk.result == NLP_OK);
    expect("the error of a walk", nlp_attrs_read(&walk) == NULL && walk.result == NLP_ATTR_CUT && is_fault(&walk.fault, 6, 6, 9));
    expect("the end of a walk", nlp_attrs_read(&walk) == NULL && walk.result == NLP_END && nlp_attrs_read(&walk) == NULL && walk.result == NLP_END);
    nlp_attrs_begin(&walk, NULL, 0);
    expect("a walk over no bytes", nlp_attrs_read(&walk) == NULL && walk.result == NLP_END);
}

/* Blocks of 1 to 40 attributes without values. */
static void reads_many(void)
{
    uint8_t many[40 * 4] = { 0 };
    struct nlp_attrs walk;
    const struct nlp_attr *attr;
    bool holds = true;
    for (size_t count = 1; count <= 40; count++) {
        size_t seen = 0;
        many[4 * (count - 1)] = 4;
        many[4 * (count - 1) + 2] = (uint8_t)count;
        nlp_attrs_begin(&walk, many, 4 * count);
        while ((attr = nlp_attrs_read(&walk)) != NULL)
            seen += is_attr(attr, (uint16_t)(seen + 1), 4 * seen + 4, 0);
        holds = holds && seen == count && walk.result == NLP_END;
    }
    expect("each attribute of a walk", holds);
}

int main(void)
{
    numbers();
    batches();
    faults();
    reads();
    reads_many();
    printf("%d passed, %d failed\n", passed, failed);
    return failed != 0;
}
