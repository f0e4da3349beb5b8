/* What netlink_packet_route.h states of payloads and views, computed in plain C by the rows of tests/kinds.txt. Nothing
 * here calls the library. */
#ifndef ROUTE_MODEL_H
#define ROUTE_MODEL_H

#include "model.h"
#include "netlink_packet_route.h"

#include <stdio.h>

/* The forms of values, as tests/kinds.txt names them. */
enum form { FORM_U8, FORM_U16, FORM_U32, FORM_U64, FORM_S32, FORM_S64, FORM_BE16, FORM_BE32, FORM_BE64, FORM_FLAG, FORM_STRING, FORM_ADDRESS, FORM_BYTES, FORM_EXACT, FORM_LEAST, FORM_ELEMENTS, FORM_NEST, FORM_HEADER };

#include "route_rows.h"

enum { FAMILIES = sizeof model_families / sizeof model_families[0], ROWS = sizeof model_rows / sizeof model_rows[0],
       LINKS = sizeof model_links / sizeof model_links[0],
       ENCAPSULATIONS = sizeof model_encapsulations / sizeof model_encapsulations[0], ROUTES = 2, NESTS = 8 };

static const size_t form_sizes[] = { 1, 2, 4, 8, 4, 8, 2, 4, 8, 0 };

/* Returns how many message types a family has: links have four, announced prefixes have one, and statistics and VLANs have
 * two families each, since their requests have other kinds. */
static inline int types_of(uint16_t first)
{
    return first == 16 ? 4 : first == 52 || first == 92 || first == 114 ? 1 : first == 94 || first == 112 ? 2 : 3;
}

/* Returns the family of a message type, or -1. The types of a family follow one another, except that the neighbour tables
 * have no second one, but a fourth. */
static inline int family_of(uint16_t type)
{
    for (int i = 0; i < FAMILIES; i++) {
        const uint16_t first = model_families[i].type;
        const int at = type - first;
        if (first == 64 ? at == 0 || at == 2 || at == 3 : at >= 0 && at < types_of(first))
            return i;
    }
    return -1;
}

/* Returns the row of a kind in a policy, or the one that the policy has for every kind, or one of any bytes. */
static inline struct model_row row_of(int family, uint16_t policy, uint16_t kind)
{
    struct model_row found = { 0, policy, kind, FORM_BYTES, 0, 0 };
    for (size_t i = 0; i < ROWS; i++)
        if (model_rows[i].family == family && model_rows[i].policy == policy
            && (model_rows[i].kind == kind || model_rows[i].kind == 0xffff))
            found = model_rows[i];
    return found;
}

/* Finds the first attribute of a kind before an error of the walk. */
static inline bool first_of(const uint8_t *block, size_t len, uint16_t kind, struct nlp_attr *item)
{
    struct nlp_fault ignored;
    size_t at = 0;
    while (step(block, len, &at, item, &ignored) == NLP_OK)
        if ((item->kind & NLP_KIND_MASK) == kind)
            return true;
    return false;
}

/* Returns the row of RTA_ENCAP in a block of a route, by its own one. The first RTA_ENCAP_TYPE chooses what it is. */
static inline struct model_row encapsulation_in(const uint8_t *block, size_t len, struct model_row row)
{
    struct nlp_attr chooser;
    if (!first_of(block, len, NLP_RTA_ENCAP_TYPE, &chooser) || chooser.size != 2)
        return row;
    for (size_t i = 0; i < ENCAPSULATIONS; i++)
        if (model_encapsulations[i].type == number(block + chooser.offset, 2, false)) {
            row.form = FORM_NEST;
            row.inner = model_encapsulations[i].policy;
        }
    return row;
}

/* Returns the row of a kind in a block. The first IFLA_INFO_KIND chooses what IFLA_INFO_DATA is, and the first TCA_KIND
 * what TCA_OPTIONS is, which have the same numbers. */
static inline struct model_row row_in(int family, uint16_t policy, const uint8_t *block, size_t len, uint16_t kind)
{
    struct model_row row = row_of(family, policy, kind & NLP_KIND_MASK);
    struct nlp_attr chooser;
    if (family == ROUTES && policy == 0 && row.kind == NLP_RTA_ENCAP)
        return encapsulation_in(block, len, row);
    if (row.kind != NLP_IFLA_INFO_DATA || !first_of(block, len, NLP_IFLA_INFO_KIND, &chooser))
        return row;
    const uint8_t *name = block + chooser.offset, *end = memchr(name, 0, chooser.size);
    const size_t size = end == NULL ? chooser.size : (size_t)(end - name);
    for (size_t i = 0; i < LINKS; i++)
        if (model_links[i].family == family && model_links[i].within == policy && strlen(model_links[i].name) == size
            && memcmp(model_links[i].name, name, size) == 0) {
            row.form = FORM_NEST;
            row.inner = model_links[i].policy;
        }
    return row;
}

static inline bool has_form(const struct model_row *row, const uint8_t *value, size_t size)
{
    if (row->form <= FORM_FLAG)
        return size == form_sizes[row->form];
    return row->form == FORM_STRING ? size == 0 || memchr(value, 0, size - 1) == NULL
        : row->form == FORM_ADDRESS ? size == 4 || size == 16 : row->form == FORM_EXACT ? size == row->size
        : row->form == FORM_ELEMENTS ? size % row->size == 0
        : row->form == FORM_LEAST || row->form == FORM_HEADER ? size >= row->size : true;
}

/* Returns what is wrong with a value that does not have its form. */
static inline struct nlp_route_error form_error(const struct model_row *row, uint16_t kind, uint16_t policy, size_t offset,
                                                size_t size)
{
    struct nlp_route_error error = { NLP_VALUE_SIZE, kind, policy, offset, row->form <= FORM_FLAG ? form_sizes[row->form] : row->size, size };
    if (row->form == FORM_STRING)
        error = (struct nlp_route_error){ NLP_INTERIOR_NUL, kind, policy, offset, 0, 0 };
    if (row->form == FORM_ADDRESS)
        error = (struct nlp_route_error){ NLP_ADDRESS_SIZE, kind, policy, offset, 0, size };
    if (row->form == FORM_LEAST || row->form == FORM_HEADER)
        error.reason = NLP_VALUE_SHORT;
    if (row->form == FORM_ELEMENTS)
        error.reason = NLP_NO_MULTIPLE;
    return error;
}

static inline uint32_t block_error(int family, uint16_t policy, const uint8_t *block, size_t len, size_t start, int levels,
                                   struct nlp_route_error *error);

/* Finds the first error of a value of a row, by its kind and the offset of its attribute in the payload. */
static inline uint32_t value_error(const struct model_row *row, int family, uint16_t policy, uint16_t kind, const uint8_t *value,
                                   size_t size, size_t at, int levels, struct nlp_route_error *error)
{
    if (!has_form(row, value, size)) {
        *error = form_error(row, kind, policy, at, size);
        return error->reason;
    }
    if (row->form != FORM_NEST && row->form != FORM_HEADER)
        return NLP_OK;
    if (levels == 0) {
        *error = (struct nlp_route_error){ NLP_TOO_DEEP, kind, policy, at, 0, 0 };
        return NLP_TOO_DEEP;
    }
    if (size == row->size)
        return NLP_OK;
    return block_error(family, row->inner, value + row->size, size - row->size, at + 4 + row->size, levels - 1, error);
}

/* Finds the first error of a block that starts at an offset of the payload. */
static inline uint32_t block_error(int family, uint16_t policy, const uint8_t *block, size_t len, size_t start, int levels,
                                   struct nlp_route_error *error)
{
    struct nlp_fault fault;
    struct nlp_attr item;
    size_t at = 0, before = 0;
    uint32_t result;
    for (; (result = step(block, len, &at, &item, &fault)) == NLP_OK; before = at) {
        const struct model_row row = row_in(family, policy, block, len, item.kind);
        result = value_error(&row, family, policy, item.kind, block + item.offset, item.size, start + before, levels, error);
        if (result != NLP_OK)
            return result;
    }
    if (result == NLP_END)
        return NLP_OK;
    *error = (struct nlp_route_error){ result, 0, policy, start + before, result == NLP_ATTR_CUT ? fault.wanted : 0,
                                       result == NLP_ATTR_LENGTH ? fault.wanted : fault.size };
    return result;
}

/* Checks a payload, and writes its view or its error. */
static inline uint32_t model_view(uint16_t type, const uint8_t *payload, size_t len, struct nlp_view *view,
                                  struct nlp_route_error *error)
{
    const int family = family_of(type);
    if (family < 0) {
        *error = (struct nlp_route_error){ NLP_UNKNOWN_TYPE, type, 0, 0, 0, 0 };
        return NLP_UNKNOWN_TYPE;
    }
    const size_t size = model_families[family].size, head = len < size ? len : size;
    const bool is_short = len < size && len > 0 && len <= 4 && type % 4 == 2;
    if (len < size && !is_short) {
        *error = (struct nlp_route_error){ NLP_HEADER_SHORT, 0, 0, 0, size, len };
        return NLP_HEADER_SHORT;
    }
    const uint32_t result = len < size ? NLP_OK : block_error(family, 0, payload + size, len - size, size, NESTS, error);
    if (result == NLP_OK)
        *view = (struct nlp_view){ type, 0, size - head, { 0, head }, { head, len - head } };
    return result;
}

/* Finds the first attribute of a kind in a view: its row, and where its value is. */
static inline uint32_t model_first(const uint8_t *payload, size_t len, const struct nlp_view *view, uint16_t kind,
                                   struct model_row *row, struct nlp_part *value)
{
    const struct nlp_part *block = &view->attributes;
    struct nlp_attr item;
    if (block->offset > len || block->size > len - block->offset || block->size == 0
        || !first_of(payload + block->offset, block->size, kind, &item))
        return NLP_NO_PLACE;
    *row = row_in(family_of(view->message_type), view->policy, payload + block->offset, block->size, kind);
    *value = (struct nlp_part){ block->offset + item.offset, item.size };
    return has_form(row, payload + value->offset, item.size) ? NLP_OK : NLP_WRONG_SHAPE;
}

/* Returns the attributes of a view, or NULL if they are not inside the payload. A block without bytes is not read. */
static inline const uint8_t *view_block(const uint8_t *payload, size_t len, const struct nlp_view *view)
{
    static const uint8_t nothing;
    const struct nlp_part *block = &view->attributes;
    if (block->offset > len || block->size > len - block->offset)
        return NULL;
    return block->size == 0 ? &nothing : payload + block->offset;
}

/* Returns the shape of a row. kinds.txt has strings whose zero may be missing, as the tables do. */
static inline struct nlp_shape shape_by(const struct model_row *row)
{
    static const uint8_t shapes[] = {
        NLP_SHAPE_U8, NLP_SHAPE_U16, NLP_SHAPE_U32, NLP_SHAPE_U64, NLP_SHAPE_I32, NLP_SHAPE_I64, NLP_SHAPE_BE16, NLP_SHAPE_BE32,
        NLP_SHAPE_BE64, NLP_SHAPE_FLAG, NLP_SHAPE_STR, NLP_SHAPE_IP, NLP_SHAPE_BYTES, NLP_SHAPE_EXACT_LEN, NLP_SHAPE_MIN_LEN,
        NLP_SHAPE_ELEMENTS, NLP_SHAPE_NESTED, NLP_SHAPE_HEADER_NESTED
    };
    return (struct nlp_shape){ shapes[row->form], row->size, row->inner };
}

/* The shape of a kind in a view. */
static inline uint32_t model_shape(const uint8_t *payload, size_t len, const struct nlp_view *view, uint16_t kind,
                                   struct nlp_shape *shape)
{
    const uint8_t *block = view_block(payload, len, view);
    if (block == NULL)
        return NLP_NO_PLACE;
    const struct model_row row = row_in(family_of(view->message_type), view->policy, block, view->attributes.size, kind);
    *shape = shape_by(&row);
    return NLP_OK;
}

/* The attribute at an offset of a view, and where the next one is. */
static inline uint32_t model_next(const uint8_t *payload, size_t len, const struct nlp_view *view, size_t *at, struct nlp_item *item)
{
    const uint8_t *block = view_block(payload, len, view);
    const size_t start = view->attributes.offset, size = view->attributes.size;
    struct nlp_fault ignored;
    struct nlp_attr one;
    size_t next = *at;
    if (block == NULL)
        return NLP_NO_PLACE;
    const uint32_t result = step(block, size, &next, &one, &ignored);
    if (result != NLP_OK)
        return result == NLP_END ? NLP_END : NLP_WRONG_SHAPE;
    const struct model_row row = row_in(family_of(view->message_type), view->policy, block, size, one.kind);
    if (!has_form(&row, block + one.offset, one.size))
        return NLP_WRONG_SHAPE;
    const struct nlp_part value = { start + one.offset, one.size };
    *item = (struct nlp_item){ one.kind, shape_by(&row), value, { view->message_type, 0, 0, { value.offset, 0 }, { value.offset, 0 } } };
    if (row.form >= FORM_NEST)
        item->nest = (struct nlp_view){ view->message_type, row.inner, 0, { value.offset, row.size },
                                        { value.offset + row.size, value.size - row.size } };
    *at = next;
    return NLP_OK;
}

/* What is wrong with a value that is to be put at the end of a view. */
static inline uint32_t model_check(const uint8_t *payload, size_t len, const struct nlp_view *view, uint16_t shape, uint16_t kind,
                                   const uint8_t *value, size_t size, struct nlp_route_error *error)
{
    const uint8_t *block = view_block(payload, len, view);
    const int family = family_of(view->message_type);
    const size_t end = view->attributes.offset + view->attributes.size;
    if (block == NULL)
        return NLP_NO_PLACE;
    const struct model_row row = row_in(family, view->policy, block, view->attributes.size, kind);
    const uint16_t own = shape_by(&row).shape;
    if (shape != NLP_SHAPE_ANY && shape != own)
        *error = (struct nlp_route_error){ NLP_WRONG_SHAPE, kind, view->policy, end, own, shape };
    else if (size > 65531)
        *error = (struct nlp_route_error){ NLP_TOO_LONG, 0, 0, 0, 0, 0 };
    else
        return value_error(&row, family, view->policy, kind, value, size, end, NESTS, error);
    return error->reason;
}

/* What the getter of a field returns. */
static inline uint32_t model_field(size_t len, const struct nlp_view *view, uint32_t field, uint32_t shape, size_t size)
{
    const size_t at = field / 256, end = at + size;
    const bool inside = view->header.offset <= len && view->header.size <= len - view->header.offset;
    return inside && field % 256 == shape && (view->missing >= end || view->header.size >= end - view->missing) ? NLP_OK : NLP_NO_PLACE;
}

/* Returns a number of a header, whose missing bytes are 0. */
static inline uint64_t model_number(const uint8_t *payload, const struct nlp_part *header, size_t at, size_t size)
{
    uint8_t bytes[8] = { 0 };
    for (size_t i = 0; i < size && at + i < header->size; i++)
        bytes[i] = payload[header->offset + at + i];
    return number(bytes, size, false);
}

/* Writes the text of an error, and returns its size, or 0 if its reason is none. */
static inline size_t model_error_text(const struct nlp_route_error *e, char *text, size_t capacity)
{
    const unsigned long kind = e->kind, expected = e->expected, received = e->received;
    int size = 0;
    switch (e->reason) {
    case NLP_UNKNOWN_TYPE: return (size_t)snprintf(text, capacity, "message type %lu is not known", kind);
    case NLP_HEADER_SHORT: return (size_t)snprintf(text, capacity, "the payload has %lu bytes, fewer than its header of %lu", received, expected);
    case NLP_TOO_LONG: return (size_t)snprintf(text, capacity, "the attributes are too long");
    case NLP_NO_MEMORY: return (size_t)snprintf(text, capacity, "out of memory");
    }
    size = snprintf(text, capacity, "at byte %lu, in policy %lu: ", (unsigned long)e->offset, (unsigned long)e->policy);
    char *rest = text + size;
    capacity -= (size_t)size;
    switch (e->reason) {
    case NLP_ATTR_SHORT: size += snprintf(rest, capacity, "%lu bytes are too few for an attribute", received); break;
    case NLP_ATTR_CUT: size += snprintf(rest, capacity, "an attribute of %lu bytes is truncated to %lu", expected, received); break;
    case NLP_ATTR_LENGTH: size += snprintf(rest, capacity, "an attribute has length %lu, less than 4", received); break;
    case NLP_VALUE_SIZE: size += snprintf(rest, capacity, "attribute %lu has a value of %lu bytes instead of %lu", kind, received, expected); break;
    case NLP_NOT_TERMINATED: size += snprintf(rest, capacity, "attribute %lu is not a string whose only NUL is its last byte", kind); break;
    case NLP_INTERIOR_NUL: size += snprintf(rest, capacity, "attribute %lu is a string with a NUL before its last byte", kind); break;
    case NLP_VALUE_SHORT: size += snprintf(rest, capacity, "attribute %lu has a value of %lu bytes instead of %lu or more", kind, received, expected); break;
    case NLP_NO_MULTIPLE: size += snprintf(rest, capacity, "attribute %lu has a value of %lu bytes, no multiple of %lu", kind, received, expected); break;
    case NLP_ADDRESS_SIZE: size += snprintf(rest, capacity, "attribute %lu has an address of %lu bytes instead of 4 or 16", kind, received); break;
    case NLP_TOO_DEEP: size += snprintf(rest, capacity, "attribute %lu is nested too deeply", kind); break;
    case NLP_LATE_CHOICE: size += snprintf(rest, capacity, "attribute %lu comes after an attribute whose shape it chooses", kind); break;
    default: return 0;
    }
    return (size_t)size;
}

#endif
