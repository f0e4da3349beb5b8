/* SPDX-License-Identifier: MIT
 *
 * netlink_packet_route.h: messages of route netlink and of generic netlink's controller, read by tables.
 *
 * A table states, for each message type, the fixed header and the shape of each kind of attribute, as the kernel's
 * headers and policies do: links, addresses, neighbours, routes, rules, neighbour tables, ids of network
 * namespaces, next hops, settings of links, announced prefixes, traffic control and its actions, multicast groups of
 * bridges, statistics of links, VLANs of bridges, and VNIs that VXLAN links filter by; and families of generic
 * netlink. A kind without a row may have any value. This header has the functions, netlink_packet_tables.h the
 * constants (NLP_IFLA_MTU is the kind IFLA_MTU), and netlink_packet_route_write.h, which this header includes, the
 * functions that write requests.
 *
 *     struct nlp_view view, info;
 *     struct nlp_route_error error;
 *     if (nlp_route_view(NLP_RTM_NEWLINK, payload, len, &view, &error) != NLP_OK)
 *         return;
 *     nlp_view_header_i32(payload, len, &view, NLP_IFI_INDEX, &index);
 *     nlp_view_u32(payload, len, &view, NLP_IFLA_MTU, &mtu);
 *     if (nlp_view_nest(payload, len, &view, NLP_IFLA_LINKINFO, &info) == NLP_OK)
 *         nlp_view_str(payload, len, &info, NLP_IFLA_INFO_KIND, &kind);
 *
 * What netlink_packet.h states of its functions holds for these too: they are compiled from code that is proved,
 * and meet their contracts for every input. A view has offsets and numbers alone, so a getter takes the payload too,
 * and checks what it reads. It never reads outside of the payload, whatever the view has.
 *
 * The getters find the first attribute of a kind, as views do in the Rattle library. nlp_attrs_find and
 * nlp_attrs_table of netlink_packet.h find the last one, as the kernel does. The kernel sends each kind once.
 */
#ifndef NETLINK_PACKET_ROUTE_H
#define NETLINK_PACKET_ROUTE_H

#include "netlink_packet.h"
#include "netlink_packet_tables.h"

#ifdef __cplusplus
extern "C" {
#endif

/* ---- views ----------------------------------------------------------------------------------- */

/* What nlp_route_view and nlp_generic_view return for a payload that the table rejects, and what the error then holds;
 * a number that the right column does not name is 0. NLP_ATTR_SHORT, NLP_ATTR_CUT and NLP_ATTR_LENGTH also hold the
 * policy and the offset: `received` is what is left, and `expected` the length field (of NLP_ATTR_LENGTH, `received`
 * is the length field). NLP_TOO_LONG: the attributes do not fit in a message. */
enum {
    NLP_UNKNOWN_TYPE = 40,   /* no table has the message type               kind: the message type */
    NLP_HEADER_SHORT = 41,   /* the payload is shorter than its header      expected: the header; received */
    NLP_VALUE_SIZE = 42,     /* a value has another size than its kind      kind, policy, offset, expected, received */
    NLP_NOT_TERMINATED = 43, /* a string has no zero at its end, or another kind, policy, offset */
    NLP_INTERIOR_NUL = 44,   /* a string has a zero before its end          kind, policy, offset */
    NLP_VALUE_SHORT = 45,    /* a value is shorter than its kind allows     kind, policy, offset, expected, received */
    NLP_ADDRESS_SIZE = 46,   /* an address has neither 4 nor 16 bytes       kind, policy, offset, received */
    NLP_TOO_DEEP = 47,       /* a nest inside eight others                  kind, policy, offset */
    NLP_LATE_CHOICE = 48,    /* of no payload; only nlp_route_error_text knows it */
    NLP_NO_MULTIPLE = 49     /* a size is no multiple of an element's       kind, policy, offset, expected, received */
};

/* A view of a message or of a nest: parts of the payload. Only these functions need its fields. */
struct nlp_view {
    uint16_t message_type;      /* 0 for the controller of generic netlink */
    uint16_t policy;            /* the set of rows that the attributes have; 0 for those of a message */
    size_t missing;             /* the number of bytes of the header that a short payload lacks */
    struct nlp_part header;     /* the fixed header of the message, or of the nest if it has one */
    struct nlp_part attributes; /* the attributes, a block for nlp_attrs_next */
};

/* The numbers of an error. */
struct nlp_route_error {
    uint32_t reason; /* what the function returned */
    uint16_t kind;   /* the attribute, or the message type of NLP_UNKNOWN_TYPE */
    uint16_t policy; /* 0 for an attribute of the message, else the policy of the innermost nest */
    size_t offset;   /* the offset of the attribute's header, from the start of the payload */
    size_t expected; /* a size in bytes */
    size_t received;
};

/* Checks the payload of a message of route netlink by the table of its type, and writes a view of it: NLP_OK, or the
 * reason of the payload's first error. It checks the size of the header and of each value that has a row, also in
 * nests, strings for zeros, and the walks. A request for a dump may have 1 to 4 bytes in place of the header, which then
 * reads as zeros. Allocates nothing.
 * Proved: NLP_OK if and only if the payload has no error by the table, and the view is then that of the payload.
 * Otherwise the view is unchanged, and the error is the first one in reading order. */
uint32_t nlp_route_view(uint16_t message_type, const uint8_t *payload, size_t len, struct nlp_view *view,
                        struct nlp_route_error *error) NLP_CHECKED(4, 5);

/* The same for a message of generic netlink's controller (GENL_ID_CTRL): its table has the families, their
 * operations, multicast groups and policies.
 * Proved: the same. */
uint32_t nlp_generic_view(const uint8_t *payload, size_t len, struct nlp_view *view,
                          struct nlp_route_error *error) NLP_CHECKED(3, 4);

/* Writes the text of an error, such as `at byte 16, in policy 0: attribute 4 has a value of 2 bytes instead of 4`,
 * without a zero at its end: NLP_OK, and it is the first `*size` bytes of the buffer; NLP_NO_ROOM, and `*size` is the
 * size needed; NLP_NO_PLACE if `reason` is none of an error; or NLP_NO_MEMORY. Allocates for the text.
 * Proved: the text is the library's text of that error; only NLP_OK changes the buffer. */
uint32_t nlp_route_error_text(const struct nlp_route_error *error, uint8_t *buffer, size_t capacity, size_t *size)
    NLP_CHECKED(1, 4);

/* ---- getters --------------------------------------------------------------------------------- */

/* Each of these reads the first attribute of a kind, without flag bits, if the table gives the kind the function's shape.
 * NLP_OK; NLP_NO_PLACE if there is no such attribute, the table gives the kind another shape, or the view is not inside
 * the payload; or NLP_WRONG_SHAPE if the value does not have its shape, so that the view is not of this payload. Any
 * result but NLP_OK changes nothing, so you may set an output to a default value and ignore the result.
 * Offsets are from the start of the payload.
 *
 *   _u8 .. _u64, _i32, _i64   an integer in native byte order
 *   _be16, _be32, _be64       an integer in big-endian byte order
 *   _str                      a string, without its zero
 *   _ip                       an IP address, 4 or 16 bytes
 *   _mac                      6 bytes of any bytes; NLP_NO_PLACE for another size
 *   _exact                    bytes of the size that the table states
 *   _bytes                    any bytes, or at least as many as the table states, such as a struct
 *   _first                    the value of any shape, also of a flag
 *   _nest                     a nest: a view of its attributes, and of its header if it has one
 *
 * Proved of each: which result, and what is written; and that NLP_WRONG_SHAPE is never returned for a view that
 * nlp_route_view, nlp_generic_view or nlp_view_nest wrote for this payload. */
uint32_t nlp_view_u8(const uint8_t *payload, size_t len, const struct nlp_view *view, uint16_t kind, uint8_t *number)
    NLP_NONNULL(3, 5);
uint32_t nlp_view_u16(const uint8_t *payload, size_t len, const struct nlp_view *view, uint16_t kind, uint16_t *number)
    NLP_NONNULL(3, 5);
uint32_t nlp_view_u32(const uint8_t *payload, size_t len, const struct nlp_view *view, uint16_t kind, uint32_t *number)
    NLP_NONNULL(3, 5);
uint32_t nlp_view_u64(const uint8_t *payload, size_t len, const struct nlp_view *view, uint16_t kind, uint64_t *number)
    NLP_NONNULL(3, 5);
uint32_t nlp_view_i32(const uint8_t *payload, size_t len, const struct nlp_view *view, uint16_t kind, int32_t *number)
    NLP_NONNULL(3, 5);
uint32_t nlp_view_i64(const uint8_t *payload, size_t len, const struct nlp_view *view, uint16_t kind, int64_t *number)
    NLP_NONNULL(3, 5);
uint32_t nlp_view_be16(const uint8_t *payload, size_t len, const struct nlp_view *view, uint16_t kind, uint16_t *number)
    NLP_NONNULL(3, 5);
uint32_t nlp_view_be32(const uint8_t *payload, size_t len, const struct nlp_view *view, uint16_t kind, uint32_t *number)
    NLP_NONNULL(3, 5);
uint32_t nlp_view_be64(const uint8_t *payload, size_t len, const struct nlp_view *view, uint16_t kind, uint64_t *number)
    NLP_NONNULL(3, 5);
uint32_t nlp_view_str(const uint8_t *payload, size_t len, const struct nlp_view *view, uint16_t kind,
                      struct nlp_part *text) NLP_NONNULL(3, 5);
uint32_t nlp_view_ip(const uint8_t *payload, size_t len, const struct nlp_view *view, uint16_t kind,
                     struct nlp_part *value) NLP_NONNULL(3, 5);
uint32_t nlp_view_mac(const uint8_t *payload, size_t len, const struct nlp_view *view, uint16_t kind,
                      uint8_t (*address)[6]) NLP_NONNULL(3, 5);
uint32_t nlp_view_exact(const uint8_t *payload, size_t len, const struct nlp_view *view, uint16_t kind,
                        struct nlp_part *value) NLP_NONNULL(3, 5);
uint32_t nlp_view_bytes(const uint8_t *payload, size_t len, const struct nlp_view *view, uint16_t kind,
                        struct nlp_part *value) NLP_NONNULL(3, 5);
uint32_t nlp_view_first(const uint8_t *payload, size_t len, const struct nlp_view *view, uint16_t kind,
                        struct nlp_part *value) NLP_NONNULL(3, 5);
uint32_t nlp_view_nest(const uint8_t *payload, size_t len, const struct nlp_view *view, uint16_t kind,
                       struct nlp_view *inner) NLP_NONNULL(3, 5);

/* Each of these reads a field of the fixed header, such as NLP_IFI_FLAGS: NLP_OK; or NLP_NO_PLACE if the field has
 * another shape or is not inside the header, or the header not inside the payload. A field is not bound to a message
 * type: NLP_IFI_INDEX reads the same bytes of any header. What a short payload lacks reads as 0.
 * Proved of each: which result, and what is written. */
uint32_t nlp_view_header_u8(const uint8_t *payload, size_t len, const struct nlp_view *view, uint32_t field,
                            uint8_t *number) NLP_NONNULL(3, 5);
uint32_t nlp_view_header_u16(const uint8_t *payload, size_t len, const struct nlp_view *view, uint32_t field,
                             uint16_t *number) NLP_NONNULL(3, 5);
uint32_t nlp_view_header_u32(const uint8_t *payload, size_t len, const struct nlp_view *view, uint32_t field,
                             uint32_t *number) NLP_NONNULL(3, 5);
uint32_t nlp_view_header_i32(const uint8_t *payload, size_t len, const struct nlp_view *view, uint32_t field,
                             int32_t *number) NLP_NONNULL(3, 5);

/* ---- shapes and walks ------------------------------------------------------------------------ */

/* The shapes of values. That of a field of a fixed header is the lowest byte of its number. */
enum {
    NLP_SHAPE_BYTES = 0,          /* any bytes; also the shape of a kind without a row */
    NLP_SHAPE_U8 = 1,             /* this and the next five: an integer in native byte order */
    NLP_SHAPE_U16 = 2,
    NLP_SHAPE_U32 = 3,
    NLP_SHAPE_I32 = 4,
    NLP_SHAPE_U64 = 5,
    NLP_SHAPE_I64 = 6,
    NLP_SHAPE_BE16 = 7,           /* this and the next two: an integer in big-endian byte order */
    NLP_SHAPE_BE32 = 8,
    NLP_SHAPE_BE64 = 9,
    NLP_SHAPE_FLAG = 10,          /* no bytes */
    NLP_SHAPE_IP = 11,            /* an IP address, 4 or 16 bytes */
    NLP_SHAPE_NUL_STR = 12,       /* a string whose last byte is its only zero */
    NLP_SHAPE_STR = 13,           /* the same, or a string without a zero */
    NLP_SHAPE_EXACT_LEN = 14,     /* `size` bytes */
    NLP_SHAPE_MIN_LEN = 15,       /* at least `size` bytes */
    NLP_SHAPE_NESTED = 16,        /* a nest, whose attributes have the shapes of `policy` */
    NLP_SHAPE_HEADER_NESTED = 17, /* the same, after a header of `size` bytes */
    NLP_SHAPE_CHOSEN = 18,        /* of the table alone: the functions write the shape that was chosen instead */
    NLP_SHAPE_BE_I32 = 19,        /* a signed integer of 4 bytes in big-endian byte order */
    NLP_SHAPE_ELEMENTS = 20,      /* elements of `size` bytes, one after another */
    NLP_SHAPE_CHOSEN_BY_NUMBER = 21, /* like NLP_SHAPE_CHOSEN */
    NLP_SHAPE_ANY = 0xffff        /* of nlp_view_check: any shape */
};

/* The shape that the table gives a kind. */
struct nlp_shape {
    uint16_t shape;
    uint16_t size;   /* 0 if the shape does not use it */
    uint16_t policy; /* the same */
};

/* Writes the shape of a kind among the attributes of a view; flag bits are ignored. The first IFLA_INFO_KIND chooses the
 * shape of IFLA_INFO_DATA, and the first RTA_ENCAP_TYPE that of RTA_ENCAP. NLP_OK; or NLP_NO_PLACE if the view is not inside
 * the payload.
 * Proved: which of the two, and the shape; NLP_NO_PLACE leaves it unchanged. */
uint32_t nlp_view_shape(const uint8_t *payload, size_t len, const struct nlp_view *view, uint16_t kind,
                        struct nlp_shape *shape) NLP_NONNULL(3, 5);

/* A shape that an attribute chose: by a string if `kept` is 1, by a number if it is 2. Any other value means that no shape is
 * kept. */
struct nlp_kept_shape {
    uint16_t kept;
    uint16_t by;
    uint16_t policy;
    struct nlp_shape shape;
};

/* A walk over the attributes of a view. All zeros begin one. */
struct nlp_view_walk {
    size_t at; /* the offset of the next attribute, from the first one */
    struct nlp_kept_shape last;
    struct nlp_kept_shape before;
};

/* An attribute of a view. */
struct nlp_item {
    uint16_t kind; /* with its two flag bits: compare kind & NLP_KIND_MASK */
    struct nlp_shape shape;
    struct nlp_part value;
    struct nlp_view nest; /* a view of the nest; one without attributes if the value is no nest */
};

/* Reads the next attribute of a view, with its shape:
 *
 *     struct nlp_view_walk walk = { 0 };
 *     struct nlp_item item;
 *     while (nlp_view_next(payload, len, &view, &walk, &item) == NLP_OK)
 *         use(payload + item.value.offset, item.value.size, &item.shape);
 *
 * NLP_OK; NLP_END; NLP_NO_PLACE if the view is not inside the payload; or NLP_WRONG_SHAPE if there is no attribute, or its
 * value does not have the shape of its kind, so that the view or the walk is not of this payload. In RTA_MULTIPATH, the
 * kind of an item is rtnh_flags | rtnh_hops << 8, and the header of its nest is rtnh_ifindex. The walk keeps chosen shapes,
 * so a whole walk takes time in proportion to the block.
 * Proved: which result, the attribute, its shape and where the next one is; and, of a walk that zeros began and only this
 * function moved, over a view that a function of this library wrote for this payload: NLP_WRONG_SHAPE is never returned,
 * and the nest is such a view too. Any result but NLP_OK changes nothing. */
uint32_t nlp_view_next(const uint8_t *payload, size_t len, const struct nlp_view *view, struct nlp_view_walk *walk,
                       struct nlp_item *item) NLP_CHECKED(3, 4, 5);

/* Checks a value before it is appended to the attributes of a view: whether the table gives its kind this shape, and
 * whether the value has it, in a nest all of its attributes. NLP_OK; NLP_NO_PLACE if the view is not inside the payload;
 * NLP_WRONG_SHAPE if the table gives the kind another shape, which is then `expected`, and `shape` is `received`;
 * NLP_TOO_LONG if the value is longer than 65,531 bytes; or the reason of its error, as of nlp_route_view. The offset is
 * that of the attribute, at the end of the view; offsets are from the start of the payload. nlp_route_error_text has no
 * text for NLP_WRONG_SHAPE; nlp_route_block_text has.
 * Proved: which result, and the numbers; NLP_OK and NLP_NO_PLACE leave the error unchanged. */
uint32_t nlp_view_check(const uint8_t *payload, size_t len, const struct nlp_view *view, uint16_t shape, uint16_t kind,
                        const uint8_t *value, size_t size, struct nlp_route_error *error) NLP_CHECKED(3, 8);

/* ---- text ------------------------------------------------------------------------------------ */

/* Writes the payload of a message as text, without a zero at its end: its type, one line per field of its header, and one
 * line per attribute with its name and its value, those of nests indented. NLP_OK, and it is the first `*size` bytes
 * of the buffer; NLP_NO_ROOM, and `*size` is the size needed; the reason of the payload's error; or NLP_NO_MEMORY.
 * Allocates for the text.
 * Proved: the text is that of `show` of the Rattle library; only NLP_OK changes the buffer. */
uint32_t nlp_route_show(uint16_t message_type, const uint8_t *payload, size_t len, uint8_t *buffer, size_t capacity,
                        size_t *size, struct nlp_route_error *error) NLP_CHECKED(6, 7);
uint32_t nlp_generic_show(const uint8_t *payload, size_t len, uint8_t *buffer, size_t capacity, size_t *size,
                          struct nlp_route_error *error) NLP_CHECKED(5, 6);

/* ---- requests -------------------------------------------------------------------------------- */

/* Writes the size of the fixed header of a message type: NLP_OK; or NLP_UNKNOWN_TYPE if no table has it.
 * Proved: which of the two, and the size; NLP_UNKNOWN_TYPE leaves `*size` unchanged. */
uint32_t nlp_route_header_size(uint16_t message_type, size_t *size) NLP_CHECKED(2);

/* ---- plain C --------------------------------------------------------------------------------- */

/* The functions from here on are plain C over those above and those of netlink_packet.h: they are only tested. */

/* Views the payload of a message of a datagram that nlp_messages_next or nlp_message_read read, as nlp_route_view does. The
 * payload, for the getters, is `bytes + message->payload.offset` and `message->payload.size`. */
NLP_NONNULL(2, 3, 4)
static inline NLP_RESULT uint32_t nlp_message_view(const uint8_t *bytes, const struct nlp_message *message,
                                                   struct nlp_view *view, struct nlp_route_error *error)
{
    return nlp_route_view(message->header.message_type, bytes + message->payload.offset, message->payload.size, view,
                          error);
}

/* Returns the name of a shape, such as `u32`; `any` for a number that is none of the table's. */
static inline const char *nlp_shape_name(uint16_t shape)
{
    static const char *const names[] = { "bytes", "u8", "u16", "u32", "i32", "u64", "i64", "be16", "be32", "be64",
                                         "flag", "ip", "nul_str", "str", "exact", "min", "nest", "header nest",
                                         "chosen", "be_i32", "elements", "chosen by number" };
    return shape < sizeof names / sizeof names[0] ? names[shape] : "any";
}

#ifdef __cplusplus
}
#endif

#include "netlink_packet_route_write.h"

#endif
