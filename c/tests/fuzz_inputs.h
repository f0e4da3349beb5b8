/* Makes inputs from a seed: blocks, datagrams and bodies that are mostly valid, and then small mistakes. */
#ifndef FUZZ_INPUTS_H
#define FUZZ_INPUTS_H

#include "fuzz.h"
#include "route_model.h"

/* What the bytes of a call's inputs are. */
enum shape { BLOCK, ATTRIBUTES, DATAGRAM, MESSAGES, ERROR_BODY, ACKNOWLEDGEMENT, PAYLOAD, ANY_BYTES, SHAPES };

/* An input while it is made. */
struct draft_input {
    uint8_t bytes[1 + ARGUMENTS + MAX_LEN];
    size_t size;
};

static uint64_t state;

/* Returns the next number of xorshift64*. */
static uint32_t next_number(void)
{
    state ^= state >> 12;
    state ^= state << 25;
    state ^= state >> 27;
    return (uint32_t)(state * 0x2545f4914f6cdd1d >> 32);
}

/* Begins the numbers of a seed. One step of splitmix64 makes seeds that are near unlike. */
static void begin_numbers(uint64_t seed)
{
    seed = (seed + 1) * 0x9e3779b97f4a7c15;
    seed = (seed ^ seed >> 30) * 0xbf58476d1ce4e5b9;
    seed = (seed ^ seed >> 27) * 0x94d049bb133111eb;
    state = (seed ^ seed >> 31) | 1;
}

static uint32_t below(uint32_t n)
{
    return (uint32_t)((uint64_t)next_number() * n >> 32);
}

static void add_number(struct draft_input *draft, size_t size, uint64_t sum)
{
    write_number(draft->bytes + draft->size, size, false, sum);
    draft->size += size;
}

static void add_any(struct draft_input *draft, size_t size)
{
    for (; size >= 4; size -= 4)
        add_number(draft, 4, next_number());
    add_number(draft, size, next_number());
}

/* Adds what fills up to a multiple of 4, counted from `start`. It is zero most of the time. */
static void add_padding(struct draft_input *draft, size_t start)
{
    const size_t size = aligned(draft->size - start) - (draft->size - start);
    add_number(draft, size, below(8) == 0 ? next_number() : 0);
}

/* Adds attributes, some of which have attributes as a value. */
static void add_block(struct draft_input *draft, uint32_t depth)
{
    static const uint8_t sizes[16] = { 0, 0, 1, 2, 3, 4, 4, 4, 4, 5, 6, 7, 8, 8, 12, 19 };
    const uint32_t start = (uint32_t)draft->size;
    for (uint32_t left = below(depth == 0 ? 6 : 4); left > 0 && draft->size < 400; left--) {
        const size_t at = draft->size;
        const uint32_t chance = below(64);
        add_number(draft, 2, 0);
        add_number(draft, 2, below(8) | (chance < 12 ? chance % 4 << 14 : chance == 12 ? next_number() : 0));
        if (depth < 3 && chance >= 48)
            add_block(draft, depth + 1);
        else if (chance == 47)
            add_number(draft, 4, 0);
        else if (chance >= 40)
            add_number(draft, 4, below(80));
        else
            add_any(draft, sizes[below(16)]);
        write_number(draft->bytes + at, 2, false, draft->size - at);
        if (left > 1 || below(4) != 0)
            add_padding(draft, start);
    }
}

/* Adds a header of a request with a length that is often right, and its attributes. */
static void add_request(struct draft_input *draft)
{
    const size_t at = draft->size;
    add_any(draft, 16 + (below(4) == 0 ? below(8) : below(3) * 4));
    if (below(2) == 0)
        add_block(draft, 1);
    const uint32_t chance = below(8);
    write_number(draft->bytes + at, 4, false, chance == 0 ? below(20) : chance == 1 ? next_number() : draft->size - at);
}

/* Adds the body of an error message: a code, the request, and attributes. */
static void add_error(struct draft_input *draft)
{
    const size_t start = draft->size;
    add_number(draft, 4, below(3) == 0 ? 0u : 0u - below(130));
    if (below(8) != 0)
        add_request(draft);
    if (below(8) != 0)
        add_padding(draft, start);
    if (below(4) != 0)
        add_block(draft, 1);
}

static void add_frame(struct draft_input *draft)
{
    static const uint8_t types[32] = { 16, 16, 16, 16, 16, 17, 18, 20, 24, 255, 1, 1, 1, 2, 2, 2, 2, 2, 2, 2,
        3, 3, 3, 3, 3, 4, 4, 0, 5, 15, 14, 9 };
    const uint32_t flags = below(2) << 1 | below(4) << 8 | (below(16) == 0 ? 0x10u : 0u);
    const size_t at = draft->size;
    const uint16_t type = types[below(32)];
    const uint32_t chance = below(64);
    add_number(draft, 4, 0);
    add_number(draft, 2, type);
    add_number(draft, 2, chance == 0 ? next_number() : flags);
    add_number(draft, 4, below(16) == 0 ? below(4) : 1);
    add_number(draft, 4, below(16) == 0 ? below(4) : 2);
    if (chance < 8)
        add_any(draft, below(8));
    else if (type == 2)
        add_error(draft);
    else if (type == 3 && chance < 32)
        add_number(draft, 4, chance < 16 ? next_number() : 0);
    else if (type != 3 || chance >= 48) {
        add_any(draft, 4 * below(3));
        add_block(draft, 1);
    }
    write_number(draft->bytes + at, 4, false, draft->size - at);
}

static void add_datagram(struct draft_input *draft)
{
    const size_t start = draft->size;
    for (uint32_t left = below(16) == 0 ? 0 : 1 + below(3); left > 0 && draft->size < 450; left--) {
        add_frame(draft);
        if (left > 1 || below(4) != 0)
            add_padding(draft, start);
    }
}

/* Adds up to 40 messages with payloads of at most 8 bytes. */
static void add_messages(struct draft_input *draft)
{
    const size_t start = draft->size;
    for (uint32_t left = below(41); left > 0; left--) {
        const size_t payload = below(9);
        add_number(draft, 4, 16 + payload);
        add_any(draft, 12 + payload);
        if (left > 1 || below(4) != 0)
            add_padding(draft, start);
    }
}

/* Adds up to 40 attributes with values of at most 8 bytes. */
static void add_attributes(struct draft_input *draft)
{
    const size_t start = draft->size;
    for (uint32_t left = below(41); left > 0; left--) {
        const size_t size = below(9);
        add_number(draft, 2, 4 + size);
        add_any(draft, 2 + size);
        if (left > 1 || below(4) != 0)
            add_padding(draft, start);
    }
}

/* Adds the attributes of an acknowledgement, such as an offset, and a request. The first argument is their size. */
static void add_acknowledgement(struct draft_input *draft)
{
    const size_t start = draft->size;
    if (below(4) == 0)
        add_block(draft, 1);
    add_padding(draft, start);
    if (below(8) != 0) {
        add_number(draft, 4, 8 | 2 << 16);
        add_number(draft, 4, below(8) == 0 ? below(200) : 16 + 4 * below(30));
    }
    draft->bytes[1] = (uint8_t)(draft->size - start);
    add_any(draft, 16 + 4 * (draft->bytes[2] % 5u));
    add_block(draft, 0);
}

static void add_rows(struct draft_input *draft, uint32_t family, uint16_t policy, uint32_t depth);

/* Adds a value of the form of a row. */
static void add_value(struct draft_input *draft, const struct model_row *row, uint32_t depth)
{
    if (row->form <= FORM_FLAG)
        add_any(draft, form_sizes[row->form]);
    else if (row->form == FORM_STRING)
        for (uint32_t left = below(6); left > 0; left--)
            add_number(draft, 1, left == 1 && below(2) == 0 ? 0 : 'a' + below(26));
    else if (row->form == FORM_ADDRESS)
        add_any(draft, below(2) == 0 ? 4 : 16);
    else if (row->form == FORM_ELEMENTS)
        add_any(draft, row->size * below(4) + (below(8) == 0));
    else if (row->form == FORM_BYTES)
        add_any(draft, below(3) == 0 ? 6 : below(10));
    else
        add_any(draft, row->size + (row->form == FORM_LEAST ? below(3) : 0));
    if (row->form >= FORM_NEST && depth < 4)
        add_rows(draft, row->family, row->inner, depth + 1);
}

/* Adds an attribute: a length of 0, a kind, and the value of a row, whose length it then writes. */
static void add_row(struct draft_input *draft, const struct model_row *row, uint32_t depth)
{
    const size_t at = draft->size;
    add_number(draft, 2, 0);
    add_number(draft, 2, row->kind == 0xffff ? below(4) : row->kind | (below(8) == 0 ? below(4) << 14 : 0));
    add_value(draft, row, depth);
    write_number(draft->bytes + at, 2, false, draft->size - at);
}

/* Adds the kind of a link or of a discipline and, before it or after it, its data. */
static void add_link(struct draft_input *draft, const struct model_link *link, uint32_t depth)
{
    const struct model_row data = { link->family, link->within, NLP_IFLA_INFO_DATA, FORM_NEST, 0, link->policy };
    const size_t size = strlen(link->name), start = draft->size;
    const uint32_t order = below(4);
    if (order == 0)
        add_row(draft, &data, depth);
    add_padding(draft, start);
    add_number(draft, 2, 4 + size);
    add_number(draft, 2, NLP_IFLA_INFO_KIND);
    memcpy(draft->bytes + draft->size, link->name, size);
    draft->size += size;
    add_padding(draft, start);
    if (order > 1)
        add_row(draft, &data, depth);
}

/* Adds, most of the time, one of the kinds that choose the shape of data in a policy, if it has some. */
static void add_chosen(struct draft_input *draft, uint32_t family, uint16_t policy, uint32_t depth)
{
    uint32_t count = 0, chosen = 0;
    for (uint32_t i = 0; i < LINKS; i++)
        if (model_links[i].family == family && model_links[i].within == policy && below(++count) == 0)
            chosen = i;
    if (count > 0 && below(8) != 0)
        add_link(draft, &model_links[chosen], depth);
}

/* Adds the type of an encapsulation and, before it or after it, the encapsulation. */
static void add_encapsulation(struct draft_input *draft, uint32_t depth)
{
    const struct model_encapsulation *chosen = &model_encapsulations[below(ENCAPSULATIONS)];
    const struct model_row data = { ROUTES, 0, NLP_RTA_ENCAP, FORM_NEST, 0, chosen->policy };
    const size_t start = draft->size;
    const uint32_t order = below(4);
    if (order == 0)
        add_row(draft, &data, depth);
    add_padding(draft, start);
    add_number(draft, 4, 6 | (uint32_t)NLP_RTA_ENCAP_TYPE << 16);
    add_number(draft, 2, chosen->type);
    add_padding(draft, start);
    if (order > 1)
        add_row(draft, &data, depth);
}

/* Adds attributes of rows of a policy. */
static void add_rows(struct draft_input *draft, uint32_t family, uint16_t policy, uint32_t depth)
{
    const size_t start = draft->size;
    add_chosen(draft, family, policy, depth);
    if (family == ROUTES && policy == 0 && draft->size < 350 && below(2) != 0)
        add_encapsulation(draft, depth);
    for (uint32_t left = below(depth == 0 ? 7 : 4); left > 0 && draft->size < 350; left--) {
        uint32_t count = 0, chosen = 0;
        for (uint32_t i = 0; i < ROWS; i++)
            if (model_rows[i].family == family && model_rows[i].policy == policy
                && below(++count) < (model_rows[i].form >= FORM_NEST ? 4 : 1))
                chosen = i;
        add_padding(draft, start);
        if (count > 0)
            add_row(draft, &model_rows[chosen], depth);
    }
    if (below(4) != 0)
        add_padding(draft, start);
}

/* Returns the policy of the attributes of a payload. Those of groups are bytes, which a caller reads by a policy of 1 to 10:
 * the arguments 7 and 8 then choose a view with it. */
static uint16_t policy_of_payload(struct draft_input *draft, uint32_t family)
{
    if (model_families[family].type != NLP_RTM_NEWMDB || below(2) == 0)
        return 0;
    draft->bytes[1 + 7] = 2;
    draft->bytes[1 + 8] = (uint8_t)(1 + below(10));
    return draft->bytes[1 + 8];
}

/* Adds the payload of a message. The first two arguments are its type. */
static void add_payload(struct draft_input *draft)
{
    const uint32_t family = below(2) == 0 ? 0 : below(FAMILIES);
    draft->bytes[1] = (uint8_t)(model_families[family].type + below(4));
    draft->bytes[2] %= 128;
    add_any(draft, below(16) == 0 ? below(6) : model_families[family].size);
    add_rows(draft, family, policy_of_payload(draft, family), 0);
}

/* Makes a mistake: in a length, in any byte, or at the end. */
static void make_mistake(struct draft_input *draft, size_t start)
{
    static const uint8_t usual[12] = { 0, 1, 2, 3, 4, 5, 8, 15, 16, 17, 0x80, 0xff };
    const size_t len = draft->size - start;
    const uint32_t chance = below(8);
    uint8_t *at = draft->bytes + start + below((uint32_t)len + (len == 0));
    if (len == 0)
        return;
    if (chance < 3)
        draft->bytes[start + ((size_t)(at - draft->bytes) - start) / 4 * 4] += (uint8_t)(below(2) == 0 ? 1 : 255);
    else if (chance == 3)
        *at ^= (uint8_t)(1u << below(8));
    else if (chance == 4)
        *at = usual[below(12)];
    else if (chance < 7)
        draft->size -= below(len < 9 ? (uint32_t)len + 1 : 9);
    else
        add_any(draft, below(6));
}

/* Makes the input of a call whose bytes have a shape, or sometimes another one. */
static void make_input(struct draft_input *draft, uint32_t call, uint32_t shape)
{
    draft->size = 0;
    add_number(draft, 1, call);
    add_any(draft, ARGUMENTS);
    switch (below(32) == 0 ? below(SHAPES) : shape) {
    case BLOCK: add_block(draft, 0); break;
    case ATTRIBUTES: add_attributes(draft); break;
    case DATAGRAM: add_datagram(draft); break;
    case MESSAGES: add_messages(draft); break;
    case ERROR_BODY: add_error(draft); break;
    case ACKNOWLEDGEMENT: add_acknowledgement(draft); break;
    case PAYLOAD: add_payload(draft); break;
    default: add_any(draft, below(160));
    }
    if (shape != ANY_BYTES && (shape != PAYLOAD || below(4) == 0))
        for (uint32_t left = below(3); left > 0; left--)
            make_mistake(draft, 1 + ARGUMENTS);
}

#endif
