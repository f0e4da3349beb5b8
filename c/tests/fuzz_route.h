/* The calls of netlink_packet_route.h, compared with the model. */
#ifndef FUZZ_ROUTE_H
#define FUZZ_ROUTE_H

#include "fuzz.h"
#include "route_model.h"

static const struct nlp_view no_view = { 89, 88, 87, { 86, 85 }, { 84, 83 } };
static const struct nlp_route_error no_error = { 82, 81, 80, 79, 78, 77 };

static bool same_view(const struct nlp_view *a, const struct nlp_view *b)
{
    return a->message_type == b->message_type && a->policy == b->policy && a->missing == b->missing
        && a->header.offset == b->header.offset && a->header.size == b->header.size
        && a->attributes.offset == b->attributes.offset && a->attributes.size == b->attributes.size;
}

static bool same_error(const struct nlp_route_error *a, const struct nlp_route_error *b)
{
    return a->reason == b->reason && a->kind == b->kind && a->policy == b->policy && a->offset == b->offset
        && a->expected == b->expected && a->received == b->received;
}

static uint16_t route_type(const struct input *in)
{
    return (uint16_t)(in->args[0] | (in->args[1] == 255 ? 256 : 0));
}

/* Views a payload. */
static void view_payload(const struct input *in)
{
    struct nlp_view *view = place(OUT, sizeof *view), expected = *view = no_view;
    struct nlp_route_error *error = place(FAULT, sizeof *error), wanted = *error = no_error;
    RESULT(nlp_route_view(route_type(in), in->bytes, in->len, view, error),
           model_view(route_type(in), in->bytes, in->len, &expected, &wanted));
    CHECK(same_view(view, &expected));
    CHECK(same_error(error, &wanted));
}

/* The text of an error, of a payload or of any numbers. */
static void text_of_error(const struct input *in)
{
    static const uint8_t reasons[20] = { 0, 5, 6, 7, 8, 16, 32, 33, 36, 39, 40, 41, 42, 43, 44, 45, 46, 47, 48, 49 };
    struct nlp_view view;
    struct nlp_route_error *error = place(FAULT, sizeof *error);
    size_t *size = place(CURSOR, sizeof *size);
    char text[256];
    *error = (struct nlp_route_error){ reasons[in->args[2] % 20], in->args[3] * 257u % 65536u, in->args[4], near(in->args[5], in->len),
                                       near(in->args[6], 9), near(in->args[7], 900) };
    if (in->args[8] % 2)
        model_view(route_type(in), in->bytes, in->len, &view, error);
    const struct nlp_route_error before = *error;
    const size_t wanted = model_error_text(error, text, sizeof text), capacity = capacity_near(in->args[9], wanted);
    uint8_t *buffer = place(BUFFER, capacity);
    memset(buffer, 0xee, capacity);
    *size = 76;
    const uint32_t result = wanted == 0 ? NLP_NO_PLACE : wanted <= capacity ? NLP_OK : NLP_NO_ROOM;
    RESULT(nlp_route_error_text(error, buffer, capacity, size), result);
    CHECK(*size == (wanted == 0 ? 76 : wanted));
    for (size_t i = 0; i < capacity; i++)
        CHECK(buffer[i] == (result == NLP_OK && i < wanted ? (uint8_t)text[i] : 0xee));
    CHECK(same_error(error, &before));
}

/* Returns the kind of one of the attributes of a view, or another kind. */
static uint16_t chosen_kind(const struct input *in, const struct nlp_view *view, uint8_t choice)
{
    const struct nlp_part *block = &view->attributes;
    struct nlp_fault ignored;
    struct nlp_attr item;
    uint16_t kind = kind_of(choice, in->args[2]);
    size_t at = 0;
    if (choice >= 240 || in->len == 0 || block->offset > in->len || block->size > in->len - block->offset)
        return kind;
    for (uint32_t left = choice % 6; step(in->bytes + block->offset, block->size, &at, &item, &ignored) == NLP_OK; left--) {
        kind = item.kind & NLP_KIND_MASK;
        if (left == 0)
            break;
    }
    return kind;
}

/* Compares the getter of a nest, and moves to the nest. */
static void get_nest(const struct input *in, struct nlp_view *view, uint16_t kind)
{
    struct nlp_view *inner = place(OUT, sizeof *inner), expected = *inner = no_view;
    struct model_row row;
    struct nlp_part value;
    uint32_t result = model_first(in->bytes, in->len, view, kind, &row, &value);
    if (result == NLP_OK && row.form != FORM_NEST && row.form != FORM_HEADER)
        result = NLP_NO_PLACE;
    if (result == NLP_OK)
        expected = (struct nlp_view){ view->message_type, row.inner, 0, { value.offset, row.size },
                                      { value.offset + row.size, value.size - row.size } };
    RESULT(nlp_view_nest(in->bytes, in->len, view, kind, inner), result);
    CHECK(same_view(inner, &expected));
    if (result == NLP_OK)
        *view = *inner;
}

/* Returns whether a view is of traffic control, whose TCA_KIND chooses what TCA_OPTIONS is. */
static bool is_traffic(const struct nlp_view *view)
{
    const uint16_t type = view->message_type;
    return (type >= NLP_RTM_NEWQDISC && type <= NLP_RTM_GETTFILTER) || (type >= NLP_RTM_NEWCHAIN && type <= NLP_RTM_GETCHAIN);
}

/* Returns whether a policy has the kinds of links, the disciplines or the encapsulations, among which others choose. */
static bool is_choice(const struct nlp_view *view, uint16_t policy)
{
    const int family = family_of(view->message_type);
    return family == ROUTES || is_traffic(view) ? policy == 3 : family == 0 && policy == 4;
}

/* Returns a view of the payload, or one that was changed, or of one of its nests. */
static struct nlp_view *chosen_view(const struct input *in)
{
    struct nlp_view *view = place(CURSOR, sizeof *view), found = { 16, 0, 0, { 0, 16 }, { 16, in->len < 16 ? 0 : in->len - 16 } };
    struct nlp_route_error ignored;
    model_view(route_type(in), in->bytes, in->len, &found, &ignored);
    for (uint32_t left = in->args[3] % 4; left > 0; left--)
        get_nest(in, &found, chosen_kind(in, &found, in->args[3 + left]));
    if (in->args[7] >= 224)
        found.attributes.offset = near(in->args[8], in->len);
    if (in->args[7] % 16 == 1)
        found.attributes.size = near(in->args[8], in->len);
    if (in->args[7] % 16 == 2)
        found.policy = is_choice(&found, in->args[8]) ? 5 : in->args[8]; /* no view has such a policy */
    if (in->args[7] % 16 == 3)
        found.header = (struct nlp_part){ near(in->args[8], in->len), in->args[4] % 32 };
    if (in->args[7] % 16 == 4)
        found.missing = near(in->args[8], 8);
    *view = found;
    return view;
}

#define GETS_NUMBER(name, type, its_form) do { \
        type *to = place(OUT, sizeof *to), expected = *to = 75; \
        if (result == NLP_OK && row.form != its_form) \
            result = NLP_NO_PLACE; \
        if (result == NLP_OK) \
            expected = (type)number(in->bytes + value.offset, sizeof *to, its_form >= FORM_BE16); \
        RESULT(name(in->bytes, in->len, view, kind, to), result); \
        CHECK(*to == expected); \
    } while (0)

#define GETS_PART(name, holds, part_size) do { \
        struct nlp_part *to = place(OUT, sizeof *to), expected = *to = (struct nlp_part){ 74, 73 }; \
        if (result == NLP_OK && !(holds)) \
            result = NLP_NO_PLACE; \
        if (result == NLP_OK) \
            expected = (struct nlp_part){ value.offset, part_size }; \
        RESULT(name(in->bytes, in->len, view, kind, to), result); \
        CHECK(same_part(to, &expected)); \
    } while (0)

static size_t text_size(const uint8_t *value, size_t size)
{
    return size > 0 && value[size - 1] == 0 ? size - 1 : size;
}

static void get_mac(const struct input *in, const struct nlp_view *view, uint16_t kind, const struct model_row *row,
                    const struct nlp_part *value, uint32_t result)
{
    static const uint8_t before[6] = { 1, 2, 3, 4, 5, 6 };
    uint8_t (*to)[6] = place(OUT, sizeof *to);
    memcpy(to, before, sizeof before);
    if (result == NLP_OK && ((row->form != FORM_BYTES && row->form != FORM_LEAST) || value->size != 6))
        result = NLP_NO_PLACE;
    RESULT(nlp_view_mac(in->bytes, in->len, view, kind, to), result);
    CHECK(memcmp(to, result == NLP_OK ? in->bytes + value->offset : before, sizeof before) == 0);
}

static void get_from_view(const struct input *in)
{
    struct nlp_view *view = chosen_view(in);
    const struct nlp_view before = *view;
    const uint16_t kind = chosen_kind(in, view, in->args[9]);
    struct model_row row = { 0, 0, 0, FORM_BYTES, 0, 0 };
    struct nlp_part value = { 0, 0 };
    uint32_t result = model_first(in->bytes, in->len, view, kind, &row, &value);
    const uint32_t own = result != NLP_OK || in->args[2] % 4 == 0 ? in->args[2] / 4 % 16u : (uint32_t)row.form;
    switch (own) {
    case FORM_U8: GETS_NUMBER(nlp_view_u8, uint8_t, FORM_U8); break;
    case FORM_U16: GETS_NUMBER(nlp_view_u16, uint16_t, FORM_U16); break;
    case FORM_U32: GETS_NUMBER(nlp_view_u32, uint32_t, FORM_U32); break;
    case FORM_U64: GETS_NUMBER(nlp_view_u64, uint64_t, FORM_U64); break;
    case FORM_S32: GETS_NUMBER(nlp_view_i32, int32_t, FORM_S32); break;
    case FORM_S64: GETS_NUMBER(nlp_view_i64, int64_t, FORM_S64); break;
    case FORM_BE16: GETS_NUMBER(nlp_view_be16, uint16_t, FORM_BE16); break;
    case FORM_BE32: GETS_NUMBER(nlp_view_be32, uint32_t, FORM_BE32); break;
    case FORM_BE64: GETS_NUMBER(nlp_view_be64, uint64_t, FORM_BE64); break;
    case FORM_STRING: GETS_PART(nlp_view_str, row.form == FORM_STRING, text_size(in->bytes + value.offset, value.size)); break;
    case FORM_ADDRESS: GETS_PART(nlp_view_ip, row.form == FORM_ADDRESS, value.size); break;
    case FORM_BYTES: get_mac(in, view, kind, &row, &value, result); break;
    case FORM_LEAST: GETS_PART(nlp_view_bytes, row.form == FORM_BYTES || row.form == FORM_LEAST, value.size); break;
    case FORM_EXACT: GETS_PART(nlp_view_exact, row.form == FORM_EXACT, value.size); break;
    default: GETS_PART(nlp_view_first, true, value.size);
    }
    CHECK(same_view(view, &before));
}

static bool same_shape(const struct nlp_shape *a, const struct nlp_shape *b)
{
    return a->shape == b->shape && a->size == b->size && a->policy == b->policy;
}

static void shape_of_kind(const struct input *in)
{
    struct nlp_view *view = chosen_view(in);
    const struct nlp_view before = *view;
    struct nlp_shape *shape = place(OUT, sizeof *shape), expected = *shape = (struct nlp_shape){ 70, 69, 68 };
    const uint16_t kind = (uint16_t)(chosen_kind(in, view, in->args[9]) | (in->args[10] % 4 << 14));
    RESULT(nlp_view_shape(in->bytes, in->len, view, kind, shape), model_shape(in->bytes, in->len, view, kind, &expected));
    CHECK(same_shape(shape, &expected) && same_view(view, &before));
}

/* Returns whether a shape that is kept is the one of IFLA_INFO_DATA or TCA_OPTIONS, which a name chooses from the policy 4
 * or 3, or that of RTA_ENCAP, which a number chooses from the policy 3. */
static bool is_chosen(const struct input *in, const struct nlp_view *view, const struct nlp_kept_shape *kept)
{
    const bool is_route = family_of(view->message_type) == ROUTES, is_top = is_route || is_traffic(view);
    struct nlp_view info = *view;
    struct nlp_shape shape = { 0, 0, 0 };
    info.policy = is_top ? 0 : 1;
    model_shape(in->bytes, in->len, &info, is_route ? NLP_RTA_ENCAP : NLP_IFLA_INFO_DATA, &shape);
    if (kept->kept != (is_route ? 2 : 1))
        return true;
    return kept->by == (is_route ? NLP_RTA_ENCAP_TYPE : NLP_IFLA_INFO_KIND) && kept->policy == (is_top ? 3 : 4)
        && same_shape(&kept->shape, &shape);
}

/* Walks a view from its start or from anywhere, with nothing kept. */
static void walk_view(const struct input *in)
{
    static const struct nlp_item no_item = { 67, { 66, 65, 64 }, { 63, 62 }, { 61, 60, 59, { 58, 57 }, { 56, 55 } } };
    static const struct nlp_kept_shape none[3] = { { 0, 0, 0, { 0, 0, 0 } }, { 3, NLP_IFLA_INFO_KIND, 4, { 1, 2, 3 } },
                                                   { 3, NLP_RTA_ENCAP_TYPE, 3, { 1, 2, 3 } } };
    struct nlp_view *view = chosen_view(in);
    const struct nlp_view before = *view;
    struct nlp_view_walk *walk = place(EXTRA, sizeof *walk), old;
    struct nlp_item *item = place(BUFFER, sizeof *item), expected;
    const size_t size = view->attributes.size;
    size_t at = in->args[9] % 4 == 0 ? near(in->args[10], size < in->len ? size : in->len) : 0;
    uint32_t result;
    *walk = (struct nlp_view_walk){ at, none[in->args[9] / 4 % 3], none[in->args[9] / 12 % 3] };
    do {
        expected = *item = no_item;
        old = *walk;
        result = model_next(in->bytes, in->len, view, &at, &expected);
        RESULT(nlp_view_next(in->bytes, in->len, view, walk, item), result);
        CHECK(item->kind == expected.kind && same_shape(&item->shape, &expected.shape) && same_part(&item->value, &expected.value));
        CHECK(same_view(&item->nest, &expected.nest) && walk->at == at);
        CHECK(result == NLP_OK ? is_chosen(in, view, &walk->last) && is_chosen(in, view, &walk->before)
            : memcmp(walk, &old, sizeof old) == 0);
    } while (result == NLP_OK);
    CHECK(same_view(view, &before));
}

/* Returns a value: that of one of the attributes of a view, which then ends before it; or bytes; or one that may be too
 * long. */
static const uint8_t *chosen_value(const struct input *in, struct nlp_view *view, uint16_t *kind, size_t *size)
{
    const uint8_t *block = view_block(in->bytes, in->len, view), *value = in->bytes;
    const size_t end = view->attributes.size;
    struct nlp_fault ignored;
    struct nlp_attr item;
    size_t at = 0, start = 0;
    *kind = kind_of(in->args[9], in->args[2]);
    *size = in->len < in->args[10] ? in->len : in->args[10];
    if (in->args[10] >= 252) {
        *size = 65531 + in->args[10] % 2;
        return memset(place(BUFFER, *size), 0, *size);
    }
    if (in->args[10] >= 224 || block == NULL)
        return value;
    for (uint32_t left = in->args[9] % 6; step(block, end, &at, &item, &ignored) == NLP_OK; left--, start = at) {
        view->attributes.size = start;
        value = block + item.offset;
        *kind = item.kind;
        *size = item.size;
        if (left == 0)
            break;
    }
    return value;
}

/* Checks a value before it is put. */
static void check_value(const struct input *in)
{
    struct nlp_view *view = chosen_view(in);
    uint16_t kind;
    size_t size;
    const uint8_t *value = chosen_value(in, view, &kind, &size);
    const struct nlp_view before = *view;
    struct nlp_shape own = { 0, 0, 0 };
    struct nlp_route_error *error = place(FAULT, sizeof *error), wanted = *error = no_error;
    model_shape(in->bytes, in->len, view, kind, &own);
    const uint16_t shape = in->args[2] % 4 > 1 ? own.shape : in->args[2] % 4 == 1 ? NLP_SHAPE_ANY : in->args[2] / 4 % 20;
    RESULT(nlp_view_check(in->bytes, in->len, view, shape, kind, value, size, error),
           model_check(in->bytes, in->len, view, shape, kind, value, size, &wanted));
    CHECK(same_error(error, &wanted) && same_view(view, &before));
}

#define GETS_FIELD(name, type, shape) do { \
        type *to = place(OUT, sizeof *to), expected = *to = 72; \
        const uint32_t result = model_field(in->len, view, field, shape, sizeof *to); \
        if (result == NLP_OK) \
            expected = (type)model_number(in->bytes, &view->header, field / 256, sizeof *to); \
        RESULT(name(in->bytes, in->len, view, field, to), result); \
        CHECK(*to == expected); \
    } while (0)

static void get_field(const struct input *in)
{
    struct nlp_view *view = chosen_view(in);
    const uint32_t far = in->args[10] >= 250 ? 0xffffff00u : 0, shape = in->args[2] % 4 + 1u;
    const uint32_t field = far + in->args[9] % 20 * 256u + (in->args[9] >= 240 ? in->args[10] % 7u : shape);
    switch (shape) {
    case 1: GETS_FIELD(nlp_view_header_u8, uint8_t, 1); break;
    case 2: GETS_FIELD(nlp_view_header_u16, uint16_t, 2); break;
    case 3: GETS_FIELD(nlp_view_header_u32, uint32_t, 3); break;
    default: GETS_FIELD(nlp_view_header_i32, int32_t, 4);
    }
}

/* The text of a payload begins with its type, and its size does not depend on the room. */
static void show_payload(const struct input *in)
{
    struct nlp_view view;
    struct nlp_route_error *error = place(FAULT, sizeof *error), wanted = *error = no_error;
    size_t *size = place(CURSOR, sizeof *size);
    char line[32];
    uint32_t result = model_view(route_type(in), in->bytes, in->len, &view, &wanted);
    *size = 71;
    const uint32_t first = nlp_route_show(route_type(in), in->bytes, in->len, NULL, 0, size, error);
    CHECK(first == (result == NLP_OK ? (uint32_t)NLP_NO_ROOM : result) && (result == NLP_OK || *size == 71));
    const size_t whole = *size, capacity = result == NLP_OK ? whole - (in->args[2] % 4 == 0) : 8;
    if (result == NLP_OK && capacity < whole)
        result = NLP_NO_ROOM;
    CHECK(capacity <= ROOM);
    uint8_t *buffer = place(BUFFER, capacity);
    RESULT(nlp_route_show(route_type(in), in->bytes, in->len, buffer, capacity, size, error), result);
    CHECK(*size == whole && same_error(error, &wanted));
    const int start = snprintf(line, sizeof line, "type %u\n", (unsigned)route_type(in));
    CHECK(result != NLP_OK || (memcmp(buffer, line, (size_t)start) == 0 && buffer[whole - 1] == '\n'));
}

#endif
