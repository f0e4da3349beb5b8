/* SPDX-License-Identifier: MIT
 *
 * netlink_packet_route_write.h: requests of route netlink and of generic netlink's controller, written by tables.
 * netlink_packet_route.h includes this header.
 *
 *     struct nlp_writer writer = nlp_writer_begin(buffer, sizeof buffer);
 *     const struct nlp_frame_mark frame = nlp_route_request(&writer, NLP_RTM_NEWLINK, NLM_F_CREATE | NLM_F_EXCL);
 *     struct nlp_route_block link = nlp_route_attrs(&writer, NLP_RTM_NEWLINK);
 *     nlp_route_put_str(&writer, &link, NLP_IFLA_IFNAME, "v5");
 *     struct nlp_route_block info = nlp_route_nest(&writer, &link, NLP_IFLA_LINKINFO);
 *     nlp_route_put_str(&writer, &info, NLP_IFLA_INFO_KIND, "vlan");
 *     struct nlp_route_block data = nlp_route_nest(&writer, &info, NLP_IFLA_INFO_DATA);
 *     nlp_route_put_u16(&writer, &data, NLP_IFLA_VLAN_ID, 5);
 *     nlp_route_nest_end(&writer, &info, &data);
 *     nlp_route_nest_end(&writer, &link, &info);
 *     nlp_writer_frame_end(&writer, frame);
 *     if (writer.failed != NLP_OK && nlp_route_block_text(&link, text, sizeof text, &size) == NLP_OK)
 *         fprintf(stderr, "%.*s\n", (int)size, (const char *)text);
 *
 * All functions here are plain C over the proved ones, and only tested. Once a call fails, those after it do nothing.
 *
 * Put an attribute that chooses a shape before the one whose shape it chooses. In the other order, the value is checked as
 * bytes. In a nest, nlp_route_nest_end then rejects a value that the later attribute makes malformed. Nothing does so among
 * the attributes of the message itself, such as NLP_RTA_ENCAP_TYPE after NLP_RTA_ENCAP.
 */
#ifndef NETLINK_PACKET_ROUTE_WRITE_H
#define NETLINK_PACKET_ROUTE_WRITE_H

#include "netlink_packet_route.h"

#include <stdio.h>

#ifdef __cplusplus
extern "C" {
#endif

/* Begins a frame of a message type, whose fixed header is zeros, as nlp_writer_frame does. The writer fails with
 * NLP_UNKNOWN_TYPE if no table has the message type. */
NLP_NONNULL(1)
static inline NLP_RESULT struct nlp_frame_mark nlp_route_request(struct nlp_writer *writer, uint16_t message_type,
                                                                 uint16_t flags)
{
    static const uint8_t zeros[16] = { 0 };
    const struct nlp_header header = { 0, message_type, flags, 0, 0 };
    size_t size = 0;
    if (writer->failed == NLP_OK)
        writer->failed = nlp_route_header_size(message_type, &size);
    return nlp_writer_frame(writer, &header, zeros, size <= sizeof zeros ? size : 0);
}

/* Writes a field of the fixed header of a frame, such as NLP_IFA_INDEX. The writer fails with NLP_NO_PLACE if what was
 * written after the mark ends before the field. */
NLP_NONNULL(1)
static inline void nlp_route_set(struct nlp_writer *writer, struct nlp_frame_mark mark, uint32_t field, uint32_t value)
{
    const uint32_t shape = field % 256;
    const size_t at = mark.start + 16 + field / 256, size = shape > 2 ? 4 : shape;
    if (writer->failed == NLP_OK && (at < mark.start || at + size > writer->at))
        writer->failed = NLP_NO_PLACE;
    for (size_t i = 0; writer->failed == NLP_OK && i < size; i++)
        writer->buffer[at + i] = (uint8_t)(value >> 8 * i);
}

/* A block of attributes that is being written: those of a message, or of a nest. */
struct nlp_route_block {
    struct nlp_view view;         /* what is written of it, as a part of the writer's buffer */
    size_t start;                 /* where the attribute of the nest begins */
    uint16_t kind;                /* the kind of the nest */
    struct nlp_route_error error; /* of the first attribute that the table rejects; reason NLP_OK if there is none */
};

/* Begins the attributes of a message, after its fixed header. The message type is 0 for generic netlink's controller. */
NLP_NONNULL(1)
static inline NLP_RESULT struct nlp_route_block nlp_route_attrs(const struct nlp_writer *writer, uint16_t message_type)
{
    const struct nlp_part part = { writer->at, 0 };
    const struct nlp_route_block block = { { message_type, 0, 0, part, part }, writer->at, 0, { 0, 0, 0, 0, 0, 0 } };
    return block;
}

/* Returns the shape of a kind in a block. The writer fails with NLP_NO_PLACE if it has taken back where the block begins. */
NLP_NONNULL(1, 2)
static inline NLP_RESULT struct nlp_shape nlp_route_shape(struct nlp_writer *writer, struct nlp_route_block *block,
                                                          uint16_t kind)
{
    struct nlp_shape shape = { 0, 0, 0 };
    block->view.attributes.size = writer->at - block->view.attributes.offset;
    if (writer->failed == NLP_OK)
        writer->failed = nlp_view_shape(writer->buffer, writer->at, &block->view, kind, &shape);
    return shape;
}

/* Returns the second of two shapes if the table gives it to the kind, and else the first. */
NLP_NONNULL(1, 2)
static inline uint16_t nlp_route_either(struct nlp_writer *writer, struct nlp_route_block *block, uint16_t kind,
                                        uint16_t first, uint16_t second)
{
    return nlp_route_shape(writer, block, kind).shape == second ? second : first;
}

/* Checks a value as nlp_view_check does, before it is put. The writer fails with its result. */
NLP_NONNULL(1, 2)
static inline void nlp_route_check(struct nlp_writer *writer, struct nlp_route_block *block, uint16_t shape,
                                   uint16_t kind, const void *value, size_t len)
{
    block->view.attributes.size = writer->at - block->view.attributes.offset;
    if (writer->failed == NLP_OK)
        writer->failed = nlp_view_check(writer->buffer, writer->at, &block->view, shape, kind, (const uint8_t *)value,
                                        len, &block->error);
}

/* Puts an attribute whose kind has this shape, or any with NLP_SHAPE_ANY. The writer fails if the table rejects it: the
 * numbers are in `error`, whose offset is that of the attribute in the writer's buffer. */
NLP_NONNULL(1, 2)
static inline void nlp_route_put(struct nlp_writer *writer, struct nlp_route_block *block, uint16_t shape, uint16_t kind,
                                 const void *value, size_t len)
{
    nlp_route_check(writer, block, shape, kind, value, len);
    nlp_writer_put(writer, kind, value, len);
}

/* Each of these puts an attribute whose kind has the shape of its name: an integer, */
#define NLP_ROUTE_PUT(name, number, type) \
    NLP_NONNULL(1, 2) \
    static inline void name(struct nlp_writer *writer, struct nlp_route_block *block, uint16_t kind, type value) \
    { \
        uint8_t bytes[sizeof value]; \
        for (size_t i = 0; i < sizeof value; i++) \
            bytes[number < NLP_SHAPE_BE16 ? i : sizeof value - 1 - i] = (uint8_t)((uint64_t)value >> 8 * i); \
        nlp_route_put(writer, block, number, kind, bytes, sizeof value); \
    }
NLP_ROUTE_PUT(nlp_route_put_u8, NLP_SHAPE_U8, uint8_t)
NLP_ROUTE_PUT(nlp_route_put_u16, NLP_SHAPE_U16, uint16_t)
NLP_ROUTE_PUT(nlp_route_put_u32, NLP_SHAPE_U32, uint32_t)
NLP_ROUTE_PUT(nlp_route_put_u64, NLP_SHAPE_U64, uint64_t)
NLP_ROUTE_PUT(nlp_route_put_i32, NLP_SHAPE_I32, int32_t)
NLP_ROUTE_PUT(nlp_route_put_i64, NLP_SHAPE_I64, int64_t)
NLP_ROUTE_PUT(nlp_route_put_be16, NLP_SHAPE_BE16, uint16_t)
NLP_ROUTE_PUT(nlp_route_put_be32, NLP_SHAPE_BE32, uint32_t)
NLP_ROUTE_PUT(nlp_route_put_be64, NLP_SHAPE_BE64, uint64_t)
#undef NLP_ROUTE_PUT

/* a flag, */
NLP_NONNULL(1, 2)
static inline void nlp_route_put_flag(struct nlp_writer *writer, struct nlp_route_block *block, uint16_t kind)
{
    nlp_route_put(writer, block, NLP_SHAPE_FLAG, kind, NULL, 0);
}

/* a C string, with its zero, for both shapes of strings, */
NLP_NONNULL(1, 2, 4)
static inline void nlp_route_put_str(struct nlp_writer *writer, struct nlp_route_block *block, uint16_t kind,
                                     const char *text)
{
    const uint16_t shape = nlp_route_either(writer, block, kind, NLP_SHAPE_STR, NLP_SHAPE_NUL_STR);
    nlp_route_put(writer, block, shape, kind, text, strlen(text) + 1);
}

/* an IP address of 4 or 16 bytes, */
NLP_NONNULL(1, 2)
static inline void nlp_route_put_ip(struct nlp_writer *writer, struct nlp_route_block *block, uint16_t kind,
                                    const void *address, size_t len)
{
    nlp_route_put(writer, block, NLP_SHAPE_IP, kind, address, len);
}

/* bytes of the size that the table states, */
NLP_NONNULL(1, 2)
static inline void nlp_route_put_exact(struct nlp_writer *writer, struct nlp_route_block *block, uint16_t kind,
                                       const void *value, size_t len)
{
    nlp_route_put(writer, block, NLP_SHAPE_EXACT_LEN, kind, value, len);
}

/* and any bytes, or at least as many as the table states. A kind without a row takes any bytes. */
NLP_NONNULL(1, 2)
static inline void nlp_route_put_bytes(struct nlp_writer *writer, struct nlp_route_block *block, uint16_t kind,
                                       const void *value, size_t len)
{
    const uint16_t shape = nlp_route_either(writer, block, kind, NLP_SHAPE_BYTES, NLP_SHAPE_MIN_LEN);
    nlp_route_put(writer, block, shape, kind, value, len);
}

/* Returns the block of a nest that is put next, after a header of `len` bytes. The writer fails if the table gives the kind
 * another shape, or the header another size. */
NLP_NONNULL(1, 2)
static inline NLP_RESULT struct nlp_route_block nlp_route_inside(struct nlp_writer *writer,
                                                                 struct nlp_route_block *outer, uint16_t shape,
                                                                 uint16_t kind, const void *header, size_t len)
{
    const struct nlp_shape own = nlp_route_shape(writer, outer, kind);
    const size_t at = writer->at;
    const struct nlp_view view = { outer->view.message_type, own.policy, 0, { at + 4, len }, { at + 4 + len, 0 } };
    const struct nlp_route_block inner = { view, at, kind, { 0, 0, 0, 0, 0, 0 } };
    const struct nlp_route_error size_error = { NLP_VALUE_SIZE, kind, outer->view.policy, at, own.size, len };
    if (writer->failed == NLP_OK && own.shape == shape && own.size != len) {
        writer->failed = NLP_VALUE_SIZE;
        outer->error = size_error;
    }
    nlp_route_check(writer, outer, shape, kind, header, len);
    return inner;
}

/* Begins a nest, as nlp_nest_begin does, and returns its block. The writer fails with NLP_WRONG_SHAPE, and the error of the
 * outer block has the shape of the table, if the kind is no nest, or a nest after a header. */
NLP_NONNULL(1, 2)
static inline NLP_RESULT struct nlp_route_block nlp_route_nest(struct nlp_writer *writer, struct nlp_route_block *outer,
                                                               uint16_t kind)
{
    struct nlp_route_block inner = nlp_route_inside(writer, outer, NLP_SHAPE_NESTED, kind, NULL, 0);
    inner.start = nlp_writer_nest(writer, kind).start;
    return inner;
}

/* The same for a nest after a header, whose size must be that of the table, such as a hop of RTA_MULTIPATH: its kind is
 * rtnh_flags | rtnh_hops << 8, and its header rtnh_ifindex. The kind is written as it is. */
NLP_NONNULL(1, 2)
static inline NLP_RESULT struct nlp_route_block nlp_route_nest_header(struct nlp_writer *writer,
                                                                      struct nlp_route_block *outer, uint16_t kind,
                                                                      const void *header, size_t len)
{
    const struct nlp_route_block inner = nlp_route_inside(writer, outer, NLP_SHAPE_HEADER_NESTED, kind, header, len);
    nlp_writer_put(writer, kind, header, len);
    return inner;
}

/* Ends a nest, as nlp_nest_end does. The outer block takes over its error. At the end of a nest of a message, all of it is
 * checked again: a kind may have been put after an attribute whose shape it chooses. */
NLP_NONNULL(1, 2, 3)
static inline void nlp_route_nest_end(struct nlp_writer *writer, struct nlp_route_block *outer,
                                      const struct nlp_route_block *inner)
{
    const struct nlp_nest_mark mark = { inner->start };
    const size_t at = inner->start + 4;
    if (outer->error.reason == NLP_OK)
        outer->error = inner->error;
    nlp_writer_nest_end(writer, mark);
    if (writer->failed == NLP_OK && outer->view.policy == 0)
        writer->failed = nlp_view_check(writer->buffer, writer->at, &outer->view, NLP_SHAPE_ANY, inner->kind,
                                        writer->buffer + at, writer->at - at, &outer->error);
}

/* Writes why the table rejected an attribute of a block, as nlp_route_error_text does, also for NLP_WRONG_SHAPE: `at byte 32,
 * in policy 0: attribute 4 has the shape be32 instead of u32`. NLP_NO_PLACE if it rejected none, such as if there was no
 * room. Bytes are counted from the start of the writer's buffer. */
NLP_NONNULL(1, 4)
static inline NLP_RESULT uint32_t nlp_route_block_text(const struct nlp_route_block *block, uint8_t *text, size_t capacity,
                                                       size_t *size)
{
    const struct nlp_route_error *error = &block->error;
    char line[128];
    if (error->reason != NLP_WRONG_SHAPE)
        return nlp_route_error_text(error, text, capacity, size);
    *size = (size_t)snprintf(line, sizeof line, "at byte %zu, in policy %u: attribute %u has the shape %s instead of %s",
                             error->offset, (unsigned)error->policy, (unsigned)error->kind,
                             nlp_shape_name((uint16_t)error->received), nlp_shape_name((uint16_t)error->expected));
    if (*size > capacity)
        return NLP_NO_ROOM;
    memcpy(text, line, *size);
    return NLP_OK;
}

#ifdef __cplusplus
}
#endif

#endif
