/* SPDX-License-Identifier: MIT
 *
 * netlink_packet.h: netlink messages, read and written in place.
 *
 * The functions up to "plain C" are compiled from code that is proved: each meets its contract for every
 * input, reads and writes only the bytes that it is passed, never overflows, and returns. "Proved:" states
 * a function's contract in plain words. Nothing checks the C caller, which must guarantee:
 *
 *  - A pointer and a length are bytes that the function may read (const) or write, and no other thread
 *    writes them meanwhile. If the length is 0, the pointer may be NULL. The same holds for the elements
 *    of a table, of a policy, and of the kinds of a path.
 *  - Pointers to cursors and structs are not NULL. The memory passed to one call does not overlap,
 *    except for bytes that are only read.
 *
 * Sizes, offsets, cursors and lengths are in bytes. Bytes need no alignment. All numbers on the wire are in
 * native byte order, except those that a function's name calls _be. No function keeps a pointer or owns
 * memory after it returns. Only the four functions that say so allocate. The library has no other state, so
 * threads may call it at once.
 *
 * What a call returns, and what it then changes:
 *
 *  - NLP_OK: the outputs are written. The fault is unchanged.
 *  - NLP_END: nothing is left to walk. Nothing is changed, except that nlp_replies_next may have moved past
 *    noops.
 *  - The number of an error (5 to 16, except 8): a function with a fault writes the fault, with the numbers
 *    that the enum below lists for this error.
 *  - NLP_NO_ROOM, NLP_TOO_LONG, NLP_NO_PLACE, NLP_WRONG_SIZE and NLP_WRONG_SHAPE leave the fault unchanged;
 *    of NLP_NO_ROOM only the contracts of nlp_describe and nlp_describe_attrs state that.
 *
 * Proved of each function: unless it returns NLP_OK, it changes nothing but the fault, the cursor of a walk,
 * the state of an answer, `*size` at NLP_NO_ROOM, the offset of nlp_attrs_validate, and the outputs of
 * nlp_ext_ack_path, nlp_attrs_find and nlp_attrs_table. So you may set an output to a default value, and
 * ignore the result of nlp_get_*, nlp_ext_ack_*, nlp_reply_message, nlp_attrs_find and nlp_attrs_table. The
 * compiler warns if you ignore any other result.
 *
 * docs/C.md is the manual. It has a table for those who know libmnl, and a whole program.
 */
#ifndef NETLINK_PACKET_H
#define NETLINK_PACKET_H

#include <stdbool.h>
#include <stddef.h>
#include <stdint.h>
#include <string.h>

#if !defined(__x86_64__) || defined(__ILP32__) || !defined(__linux__)
#error "the netlink_packet library is built for Linux on x86-64, with 64-bit pointers"
#endif

/* The compiler warns if a call ignores the result (NLP_RESULT, NLP_CHECKED), or passes NULL for one of these
 * arguments (NLP_NONNULL, NLP_CHECKED). */
#if defined(__GNUC__)
#define NLP_RESULT __attribute__((warn_unused_result))
#define NLP_NONNULL(...) __attribute__((nonnull(__VA_ARGS__)))
#else
#define NLP_RESULT
#define NLP_NONNULL(...)
#endif
#define NLP_CHECKED(...) NLP_RESULT NLP_NONNULL(__VA_ARGS__)

/* The version of the library. A program can test the numbers in an #if. */
#define NLP_VERSION_MAJOR 0
#define NLP_VERSION_MINOR 3
#define NLP_VERSION_PATCH 0
#define NLP_VERSION "0.3.0"

#ifdef __cplusplus
extern "C" {
#endif

/* ---- results --------------------------------------------------------------------------------- */

/* The right column has the numbers that the fault then holds; a number that it does not name is 0. */
enum {
    NLP_OK = 0,
    NLP_ATTR_SHORT = 5,      /* fewer than 4 bytes are left               size: what is left; wanted: 4 */
    NLP_ATTR_CUT = 6,        /* an attribute's length is above what       size: what is left; */
                             /* is left                                   wanted: the length field */
    NLP_ATTR_LENGTH = 7,     /* an attribute's length is below 4          size: 4; wanted: the length field */
    NLP_NO_ROOM = 8,         /* the output does not fit in the buffer; only `*size` changes */
    NLP_FRAME_SHORT = 9,     /* fewer than 16 bytes                       size: what is left */
    NLP_FRAME_CUT = 10,      /* a frame's length is above what is left    size: what is left; */
                             /*                                           wanted: the length field */
    NLP_FRAME_LENGTH = 11,   /* a frame's length is below 16              wanted: the length field */
    NLP_DONE_SHORT = 12,     /* a done body has 1 to 3 bytes              size: that of the body */
    NLP_ERROR_SHORT = 13,    /* an error body is below 4 bytes            size: that of the body */
    NLP_REFUSED = 14,        /* a message type is 0, or 5 to 15 */
    NLP_FRAME_TOO_LONG = 15, /* a message's length does not fit in 32 bits */
    NLP_NO_MEMORY = 16,      /* malloc returned NULL */
    NLP_END = 32,            /* a walk is at its end */
    NLP_TOO_LONG = 33,       /* a value above 65531 bytes, a nest above 65535, or a frame of 2^32 or more */
    NLP_NO_PLACE = 34,       /* there is no such location or attribute */
    NLP_WRONG_SIZE = 35,     /* a value has another size, or a payload is shorter than its fixed header */
    NLP_WRONG_SHAPE = 36     /* a value does not have the shape that a policy states */
};

/* What a frame means to a request. `code` is 0 and the other parts have size 0 where the last column
 * does not name them. */
enum {
    NLP_MESSAGE = 1,        /* a message of the answer                                             */
    NLP_DONE = 2,           /* the end of a multipart answer                 code, attributes      */
    NLP_ACKNOWLEDGED = 3,   /* an error message with code 0                  attributes            */
    NLP_REJECTED = 4,       /* an error message with another code            code, request, attributes */
    NLP_OVERRUN = 5,        /* data was lost; the kernel has never sent one                        */
    NLP_OTHER = 6           /* no part of the answer: it has other numbers, or follows the end     */
};

/* The shapes of a policy, as the kernel's NLA_* have them. Any other number: any value. */
enum {
    NLP_EXACTLY = 1,        /* `size` bytes                                 NLA_EXACT_LEN */
    NLP_AT_LEAST = 2,       /* at least `size` bytes                        NLA_MIN_LEN */
    NLP_AT_MOST = 3,        /* at most `size` bytes; any number if it is 0  NLA_BINARY */
    NLP_U8 = 4,             /* 1 byte                                       NLA_U8 */
    NLP_U16 = 5,            /* 2 bytes                                      NLA_U16 */
    NLP_U32 = 6,            /* 4 bytes                                      NLA_U32 */
    NLP_U64 = 7,            /* 8 bytes                                      NLA_U64 */
    NLP_FLAG = 8,           /* no bytes                                     NLA_FLAG */
    NLP_STRING = 9,         /* at least 1 byte, and at most `size` without  NLA_STRING */
                            /* a zero at the end; any number if that is 0 */
    NLP_NUL_STRING = 10,    /* the same, and one of the bytes is zero       NLA_NUL_STRING */
    NLP_NESTED = 11         /* no bytes, or at least 4                      NLA_NESTED */
};

/* The flag bits of an attribute's kind (linux/netlink.h: NLA_F_NESTED and so on). */
#define NLP_KIND_NESTED 0x8000u
#define NLP_KIND_NET_BYTEORDER 0x4000u
#define NLP_KIND_MASK 0x3fffu

/* The numbers of an error. */
struct nlp_fault {
    uint32_t cause;  /* its number */
    uint32_t inside; /* 1 for the errors 9 to 13 of nlp_frame_normalize and 12 and 13 of nlp_replies_next, else 0 */
    size_t size;     /* the bytes available, or as the results above list it */
    size_t wanted;   /* the value of a length field or the size needed, or 0 */
};

/* A part of the bytes that were passed to the call. */
struct nlp_part {
    size_t offset; /* from the start of those bytes */
    size_t size;
};

/* A header: the fields of struct nlmsghdr, in its layout. */
struct nlp_header {
    uint32_t length; /* the size of the message, this header included */
    uint16_t message_type;
    uint16_t flags;
    uint32_t sequence_number;
    uint32_t port_number;
};

/* An attribute of a block. */
struct nlp_attr {
    uint16_t kind; /* with its flag bits */
    size_t offset; /* where its value starts, from the start of the block (not from the cursor) */
    size_t size;   /* the size of its value */
};

/* A row of a policy: the shape that the values of a kind have. */
struct nlp_policy {
    uint16_t kind;  /* without flag bits */
    uint16_t shape; /* NLP_EXACTLY to NLP_NESTED */
    size_t size;    /* for the shapes that name it */
};

/* A message of a datagram. */
struct nlp_message {
    struct nlp_header header;
    struct nlp_part payload; /* from the start of the datagram, without padding */
};

/* The most messages that nlp_messages_fill reads in one call, and attributes that nlp_attrs_fill reads. */
#define NLP_BATCH 16

/* Several messages of a datagram, and where the next one starts. */
struct nlp_message_batch {
    size_t cursor; /* the offset of the next message; set it to 0 before the first call */
    size_t count;  /* how many entries of `item` are messages that were read */
    struct nlp_message item[NLP_BATCH];
};

/* Several attributes of a block, and where the next one starts. */
struct nlp_attr_batch {
    size_t cursor; /* the offset of the next attribute; set it to 0 before the first call */
    size_t count;  /* how many entries of `item` are attributes that were read */
    struct nlp_attr item[NLP_BATCH];
};

/* The body of an error message. */
struct nlp_error {
    int32_t code;               /* 0 for an acknowledgement, else a negative errno */
    struct nlp_part request;    /* the header of the request, and what is present of its payload */
    struct nlp_part attributes; /* the attributes of the extended acknowledgement; size 0 if none */
};

/* What identifies the answer to a request, and what ends it. Nonzero means true. */
struct nlp_request {
    uint32_t sequence_number;
    uint32_t port_number; /* the one that the answer has, or 0 to accept every port number */
    uint32_t is_dump;
    uint32_t wants_ack;   /* the request has the flag NLM_F_ACK */
};

/* The state of the answer to a request. Nonzero means true; the library writes 1 and 0. */
struct nlp_replies {
    struct nlp_request request;
    uint32_t ended;       /* the answer is complete */
    uint32_t interrupted; /* a frame of the answer had the flag NLM_F_DUMP_INTR: request the dump again */
};

/* What a frame means to a request: parts of the datagram. */
struct nlp_reply {
    uint32_t what;              /* NLP_MESSAGE to NLP_OTHER */
    int32_t code;               /* 0, or a negative errno */
    struct nlp_part frame;      /* the frame, without its padding */
    struct nlp_part request;    /* the request that was rejected, as far as the kernel returned it */
    struct nlp_part attributes; /* the attributes of the extended acknowledgement */
};

/* ---- iterate --------------------------------------------------------------------------------- */

/* Walks a datagram of route netlink: its messages, and the attributes after a struct ifinfomsg:
 *
 *     struct nlp_messages walk;
 *     nlp_messages_begin(&walk, bytes, len);
 *     while ((message = nlp_messages_next(&walk)) != NULL)
 *         if (message->header.message_type == RTM_NEWLINK
 *             && nlp_message_attrs(message, sizeof(struct ifinfomsg), &part) == NLP_OK) {
 *             const uint8_t *block = bytes + part.offset;
 *             nlp_attrs_table(block, part.size, table, IFLA_MTU + 1, &fault);
 *             if (nlp_get_u32(block, part.size, &table[IFLA_MTU], &mtu) == NLP_OK)
 *                 use(mtu);
 *         }
 *
 * c/examples/rtnl-link-dump.c and addresses.c are complete programs of this kind. nlp_messages_next is at the
 * end of this header: it is plain C over nlp_messages_fill, which is proved. */

/* Reads the message at `*cursor`; set it to 0 before the first call. Returns NLP_OK, with the header and the
 * payload in `*item`, and the cursor moved past the message and its padding; NLP_END; or NLP_FRAME_SHORT,
 * _CUT or _LENGTH, once, with the cursor moved to the end.
 * Proved: the bytes at the old cursor are a frame with this header and this payload, its padding, and then the
 * bytes at the new cursor. NLP_END if and only if the cursor is at or past the end. An error is that of the
 * bytes starting at the cursor. */
uint32_t nlp_message_read(const uint8_t *bytes, size_t len, size_t *cursor, struct nlp_message *item,
                          struct nlp_fault *fault) NLP_CHECKED(3, 4, 5);

/* Reads the messages at `batch->cursor` and after it; set it to 0 before the first call. Returns NLP_OK, with
 * `batch->count` messages in `batch->item`, as many as there are, up to 16, and the cursor moved past the last
 * of them and its padding; NLP_END; or NLP_FRAME_SHORT, _CUT or _LENGTH, once, with the cursor moved to the
 * end. So an error after some messages is returned by the call after the one that returns these messages.
 * nlp_messages_next returns the messages one by one, with one call of this function for 16.
 * Proved: the messages are those that nlp_message_read would read, in their order, at least one of them, and
 * fewer than 16 only if no complete frame is at the new cursor. The entries after them are unchanged. NLP_END
 * if and only if the cursor is at or past the end. An error is that of the bytes starting at the cursor. */
uint32_t nlp_messages_fill(const uint8_t *bytes, size_t len, struct nlp_message_batch *batch,
                           struct nlp_fault *fault) NLP_CHECKED(3, 4);

/* Locates the attributes of a message: what is after a fixed header of `fixed_len` bytes and its padding
 * (struct ifinfomsg, genlmsghdr). NLP_OK; NLP_WRONG_SIZE if the payload has fewer than `fixed_len` bytes; or
 * NLP_NO_PLACE if payload.offset + payload.size does not fit in a size_t, which nlp_message_read never
 * writes. The offset is from the start of the datagram.
 * Proved: which result, and that the part is the rest of the payload, or is empty if the payload ends
 * within the padding. */
uint32_t nlp_message_attrs(const struct nlp_message *message, size_t fixed_len, struct nlp_part *attributes)
    NLP_CHECKED(1, 3);

/* Reads the attribute at `*cursor`; set it to 0 before the first call. Returns NLP_OK, with the attribute
 * in `*item` and the cursor moved past its padding; NLP_END; or NLP_ATTR_SHORT, _CUT or _LENGTH, once,
 * with the cursor moved to the end. To walk a nest, call this function on its value. If the block must
 * be well formed, check the result that ended the loop: it is NLP_END or an error.
 *
 * Proved: the bytes at the old cursor are that attribute, its padding, and then the bytes at the new
 * cursor. NLP_END if and only if the cursor is at or past the end. An error is that of the bytes
 * starting at the cursor. */
uint32_t nlp_attrs_next(const uint8_t *bytes, size_t len, size_t *cursor, struct nlp_attr *item,
                        struct nlp_fault *fault) NLP_CHECKED(3, 4, 5);

/* Reads the attributes at `batch->cursor` and after it, as nlp_messages_fill reads messages: NLP_OK, with
 * `batch->count` of them, up to 16; NLP_END; or NLP_ATTR_SHORT, _CUT or _LENGTH, once. So an error after some
 * attributes is returned by the call after the one that returns these attributes. nlp_attrs_read returns the
 * attributes one by one, with one call of this function for 16.
 * Proved: the attributes are those that nlp_attrs_next would read, in their order, at least one of them, and
 * fewer than 16 only if no complete attribute is at the new cursor. The entries after them are unchanged. NLP_END
 * if and only if the cursor is at or past the end. An error is that of the bytes starting at the cursor. */
uint32_t nlp_attrs_fill(const uint8_t *bytes, size_t len, struct nlp_attr_batch *batch,
                        struct nlp_fault *fault) NLP_CHECKED(3, 4);

/* Reads the frame at `*cursor`, as nlp_message_read reads a message; `*item` is the frame, without its padding.
 * Proved: the same. */
uint32_t nlp_frames_next(const uint8_t *bytes, size_t len, size_t *cursor, struct nlp_part *item,
                         struct nlp_fault *fault) NLP_CHECKED(3, 4, 5);

/* ---- attributes by kind ---------------------------------------------------------------------- */

/* Finds the last attribute of a kind in one pass: NLP_OK, or NLP_NO_PLACE if there is none. If the walk of
 * the block ends in an error, returns that error, and `*item` is the last attribute of the kind before it.
 * Compares kinds without their flag bits, so a `kind` above NLP_KIND_MASK is never found. `*item` is
 * unchanged if and only if no attribute has the kind, even before an error.
 * The kernel takes the last one too (nla_parse). nla_find of the Rattle library takes the first.
 * Proved: which attribute it is, and which result. */
uint32_t nlp_attrs_find(const uint8_t *block, size_t len, uint16_t kind, struct nlp_attr *item,
                        struct nlp_fault *fault) NLP_NONNULL(4, 5);

/* Fills a table by kind in one pass: table[k] becomes the last attribute of kind k, for each k below
 * `count`, comparing kinds without their flag bits. If there is none, its kind, offset and size become 0; a
 * value never starts at offset 0. NLP_OK, or the error that ends the walk; the table then has the attributes
 * before it. Write a table's size as the highest kind that you read plus 1.
 * Proved: each entry, and which result. */
uint32_t nlp_attrs_table(const uint8_t *block, size_t len, struct nlp_attr *table, size_t count,
                         struct nlp_fault *fault) NLP_NONNULL(5);

/* Checks a block against a policy of `count` rows: each attribute must have the shape that each row of its
 * kind states, and an attribute without a row may have any value. Two rows of a kind state a range. Compares
 * kinds without the attribute's flag bits: unlike the kernel's strict validation, it does not ask that a nest has
 * NLA_F_NESTED, nor that every kind has a row. NLP_OK if the walk of the block ends without an error and each
 * attribute has its shapes. Otherwise what comes first, and `*offset` is where its header is: NLP_WRONG_SHAPE,
 * for an attribute; or the error that ends the walk. To read the attribute, call nlp_attrs_next with a cursor
 * of `*offset`. After NLP_OK, nlp_get_u32 never returns NLP_WRONG_SIZE for a kind with a row NLP_U32, and so on.
 * Proved: which result, and which offset. */
uint32_t nlp_attrs_validate(const uint8_t *block, size_t len, const struct nlp_policy *policy, size_t count,
                            size_t *offset, struct nlp_fault *fault) NLP_CHECKED(5, 6);

/* Each of these reads the value of an attribute of the block: an entry of nlp_attrs_table, or what
 * nlp_attrs_find or nlp_attrs_next wrote. NLP_OK; NLP_NO_PLACE if its offset is 0, or if it ends after the
 * block; or NLP_WRONG_SIZE if the value does not have 1, 2, 4, 8 or, for nlp_get_bytes, `size` bytes.
 * _u16, _u32 and _u64 are in native byte order, and _be16, _be32 and _be64 in big-endian order. The
 * byte-order bit of the kind does not matter.
 * Proved of each: which of the three, and what is written; any result but NLP_OK changes nothing. */
uint32_t nlp_get_u8(const uint8_t *block, size_t len, const struct nlp_attr *item, uint8_t *value)
    NLP_NONNULL(3, 4);
uint32_t nlp_get_u16(const uint8_t *block, size_t len, const struct nlp_attr *item, uint16_t *value)
    NLP_NONNULL(3, 4);
uint32_t nlp_get_u32(const uint8_t *block, size_t len, const struct nlp_attr *item, uint32_t *value)
    NLP_NONNULL(3, 4);
uint32_t nlp_get_u64(const uint8_t *block, size_t len, const struct nlp_attr *item, uint64_t *value)
    NLP_NONNULL(3, 4);
uint32_t nlp_get_be16(const uint8_t *block, size_t len, const struct nlp_attr *item, uint16_t *value)
    NLP_NONNULL(3, 4);
uint32_t nlp_get_be32(const uint8_t *block, size_t len, const struct nlp_attr *item, uint32_t *value)
    NLP_NONNULL(3, 4);
uint32_t nlp_get_be64(const uint8_t *block, size_t len, const struct nlp_attr *item, uint64_t *value)
    NLP_NONNULL(3, 4);
uint32_t nlp_get_bytes(const uint8_t *block, size_t len, const struct nlp_attr *item, uint8_t *bytes,
                       size_t size) NLP_NONNULL(3);

/* Locates the C string in the value of an attribute: the bytes before the first zero, or the whole value
 * if it has no zero. NLP_OK; or NLP_NO_PLACE if its offset is 0, or if it ends after the block. The offset
 * is from the start of the block. Print it with printf("%.*s", (int)text.size, (const char *)block + text.offset).
 * Proved: the part has no zero, and is followed by a zero or by the end of the value. */
uint32_t nlp_get_str(const uint8_t *block, size_t len, const struct nlp_attr *item, struct nlp_part *text)
    NLP_NONNULL(3, 4);

/* ---- one frame ------------------------------------------------------------------------------- */

/* Checks that the bytes begin with a complete frame: NLP_OK, NLP_FRAME_SHORT, _CUT or _LENGTH.
 * Proved: NLP_OK if and only if len >= 16 and 16 <= length field <= len; else the one error, with its
 * numbers. */
uint32_t nlp_frame_check(const uint8_t *bytes, size_t len, struct nlp_fault *fault) NLP_CHECKED(3);

/* Reads the five fields of the header: NLP_OK or NLP_FRAME_SHORT. The length field may hold any value.
 * Proved: `header` holds the value of each field; an error leaves it unchanged. */
uint32_t nlp_frame_header(const uint8_t *bytes, size_t len, struct nlp_header *header,
                          struct nlp_fault *fault) NLP_CHECKED(3, 4);

/* Locates the payload of a complete frame: NLP_OK, or the error of nlp_frame_check.
 * Proved: the part is from offset 16 up to the length field; an error leaves `payload` unchanged. */
uint32_t nlp_frame_payload(const uint8_t *bytes, size_t len, struct nlp_part *payload,
                           struct nlp_fault *fault) NLP_CHECKED(3, 4);

/* Reads the body of an error message (type 2, NLMSG_ERROR): NLP_OK or NLP_ERROR_SHORT. `bytes` are the
 * message's payload, and `flags` those of its header: NLM_F_ACK_TLVS (0x200) means that attributes
 * follow the request, and NLM_F_CAPPED (0x100) that only the header of the request is present.
 * Proved: the code is the first 4 bytes, signed. The request is the bytes after it, as many as its length
 * says, or as there are; a length below 16 counts as 16, and with NLM_F_CAPPED it is 16. With NLM_F_ACK_TLVS,
 * the attributes are the bytes after the padding of the request, and otherwise a part of size 0 at the end.
 * nlp_replies_next has the same parts. An error leaves `*body` unchanged. */
uint32_t nlp_error_body(const uint8_t *bytes, size_t len, uint16_t flags, struct nlp_error *body,
                        struct nlp_fault *fault) NLP_CHECKED(4, 5);

/* Reads the body of a done message (type 3, NLMSG_DONE): NLP_OK, or NLP_DONE_SHORT if it has 1 to 3 bytes.
 * Proved: the code is the first 4 bytes, signed, and the rest is all others. An empty body has the code 0,
 * as for nlp_replies_next, and a rest at offset 0. An error changes neither. */
uint32_t nlp_done_body(const uint8_t *bytes, size_t len, int32_t *code, struct nlp_part *rest,
                       struct nlp_fault *fault) NLP_CHECKED(3, 4, 5);

/* ---- answers --------------------------------------------------------------------------------- */

/* Reads the answer to a dump:
 *
 *     nlp_replies_begin(&header, 1, &replies);            // the header of the request that is sent
 *     while (!replies.ended) {
 *         if ((size = recv(fd, bytes, sizeof bytes, 0)) <= 0) {
 *             perror("the answer");
 *             return 1;
 *         }
 *         at = 0;
 *         while ((result = nlp_replies_next(bytes, (size_t)size, &at, &replies, &reply, &fault)) == NLP_OK) {
 *             if (reply.what == NLP_MESSAGE)
 *                 use(bytes + reply.frame.offset, reply.frame.size);
 *             if (reply.what != NLP_OTHER && reply.code != 0) {
 *                 fprintf(stderr, "error %d: %s\n", (int)reply.code, strerror(-reply.code));
 *                 return 1;
 *             }
 *         }
 *         if (result != NLP_END) {
 *             fprintf(stderr, "the answer is malformed: result %u\n", (unsigned)result);
 *             return 1;
 *         }
 *     }
 *     if (replies.interrupted) {
 *         fprintf(stderr, "something changed during the dump: request it again\n");
 *         return 1;
 *     }
 *     return 0;
 *
 * The answer to a rejected request ends with NLP_REJECTED and a code, and that of a dump that fails later
 * with NLP_DONE and a code. Two requests can share a socket: each has its own state, which reads every
 * datagram. c/examples/rtnl-link-dump.c and answer.c are complete programs. */

/* Sets `*replies` to the state in which the answer is open and nothing was read. Takes the sequence
 * number, the port number and NLM_F_ACK from the header of the request that is sent. `is_dump` is not 0 if
 * the request is a dump; its flags do not show that: NLM_F_DUMP also means NLM_F_REPLACE | NLM_F_EXCL.
 * Proved: the state has these values, and neither `ended` nor `interrupted`. */
void nlp_replies_begin(const struct nlp_header *header, uint32_t is_dump, struct nlp_replies *replies)
    NLP_NONNULL(1, 3);

/* Reads frames at `*cursor` until one is not a noop, and moves the cursor past it; set the cursor to 0
 * before the first call for a datagram. Updates `*replies`. Returns NLP_OK, with what the frame means in
 * `*reply`; NLP_END if nothing is left in the datagram; NLP_FRAME_SHORT, _CUT or _LENGTH, with the cursor
 * moved to the end; or NLP_DONE_SHORT or NLP_ERROR_SHORT if a done or error message of the answer is too
 * short, with the cursor moved past it. After an error the answer is still open. A noop can set `interrupted`,
 * so NLP_END can change the cursor and `*replies`.
 *
 * Proved: which frames belong to the answer, what each means, which one ends it, and what `interrupted`
 * says. The parts are those of the frame. Its padding ends at the new cursor. Only noops are skipped.
 * It does not matter which datagram holds a frame. Frames with other numbers change nothing. */
uint32_t nlp_replies_next(const uint8_t *bytes, size_t len, size_t *cursor, struct nlp_replies *replies,
                          struct nlp_reply *reply, struct nlp_fault *fault) NLP_CHECKED(3, 4, 5, 6);

/* Each of these reads the first attribute of its kind in the attributes of an extended acknowledgement,
 * counting those before an error: NLP_OK, or NLP_NO_PLACE if there is none. For an integer, NLP_NO_PLACE
 * also if the value does not have 4 bytes. Offsets of parts are from the start of the attributes.
 * Proved of each: the part or the integer is that value; an error changes nothing.
 *
 *   _text           the error text, without the zero byte at its end
 *   _offset         the offset, in the request, of the attribute that caused the error
 *   _cookie         a value that the sub-protocol added
 *   _policy         attributes that describe which values the kernel accepts
 *   _missing_type   the kind of the attribute that the request lacks
 *   _missing_nest   the offset, in the request, of the nest that lacks it; NLP_NO_PLACE: the top level
 */
uint32_t nlp_ext_ack_text(const uint8_t *attributes, size_t len, struct nlp_part *text) NLP_NONNULL(3);
uint32_t nlp_ext_ack_offset(const uint8_t *attributes, size_t len, uint32_t *offset) NLP_NONNULL(3);
uint32_t nlp_ext_ack_cookie(const uint8_t *attributes, size_t len, struct nlp_part *cookie) NLP_NONNULL(3);
uint32_t nlp_ext_ack_policy(const uint8_t *attributes, size_t len, struct nlp_part *policy) NLP_NONNULL(3);
uint32_t nlp_ext_ack_missing_type(const uint8_t *attributes, size_t len, uint32_t *kind) NLP_NONNULL(3);
uint32_t nlp_ext_ack_missing_nest(const uint8_t *attributes, size_t len, uint32_t *offset) NLP_NONNULL(3);

/* Writes the kinds of the attributes that contain the offset of the error, without their flag bits: that
 * of the outermost, then that of the one in its value, and so on. `request` is the request that was sent,
 * from its header to its end, and `fixed_len` the size of its fixed header with padding (16 for struct
 * ifinfomsg). `*count` is the number of kinds; 0 if there is no offset, or if no attribute contains it.
 * Returns NLP_OK, or NLP_NO_ROOM if there are more than `capacity` kinds; the first are then written.
 * Proved: these are the kinds, as far as there is room; nothing after them in the array is changed. */
uint32_t nlp_ext_ack_path(const uint8_t *attributes, size_t len, const uint8_t *request,
                          size_t request_len, size_t fixed_len, uint16_t *kinds, size_t capacity,
                          size_t *count) NLP_NONNULL(8);

/* ---- put ------------------------------------------------------------------------------------- */

/* Each of these writes at `*cursor` into a buffer of `capacity` bytes, pads with zeros, and moves the
 * cursor past that; or it returns NLP_TOO_LONG or NLP_NO_ROOM and changes nothing. A struct nlp_writer calls
 * them without a check of each. Proved of each:
 *
 *  - which of the three it returns;
 *  - the bytes at the old cursor encode what was put, and no others are changed;
 *  - nlp_attrs_next or nlp_frames_next at the old cursor yields what was put, and moves to the new one;
 *  - after an attribute, a canonical block that ended at the cursor is one attribute longer. */

/* Begins a frame: puts its header, with a length that counts what is put here, and then `fixed`, the
 * sub-protocol's struct before the attributes (struct ifinfomsg, genlmsghdr). Ignores `header->length`.
 * Keep the old cursor: it is the `start` of nlp_frame_end. */
uint32_t nlp_frame_put(uint8_t *buffer, size_t capacity, size_t *cursor,
                       const struct nlp_header *header, const uint8_t *fixed, size_t fixed_len)
    NLP_CHECKED(3, 4);

/* Puts an attribute, its kind unchanged. NLP_TOO_LONG if the value has more than 65531 bytes. */
uint32_t nlp_attr_put(uint8_t *buffer, size_t capacity, size_t *cursor, uint16_t kind,
                      const uint8_t *value, size_t len) NLP_CHECKED(3);

/* Puts an attribute whose value is an integer, in native byte order. */
uint32_t nlp_attr_put_u8(uint8_t *buffer, size_t capacity, size_t *cursor, uint16_t kind, uint8_t value)
    NLP_CHECKED(3);
uint32_t nlp_attr_put_u16(uint8_t *buffer, size_t capacity, size_t *cursor, uint16_t kind, uint16_t value)
    NLP_CHECKED(3);
uint32_t nlp_attr_put_u32(uint8_t *buffer, size_t capacity, size_t *cursor, uint16_t kind, uint32_t value)
    NLP_CHECKED(3);
uint32_t nlp_attr_put_u64(uint8_t *buffer, size_t capacity, size_t *cursor, uint16_t kind, uint64_t value)
    NLP_CHECKED(3);

/* Puts an attribute whose value is an integer, in big-endian byte order. The kind is unchanged: add
 * NLP_KIND_NET_BYTEORDER to it if the sub-protocol wants that. */
uint32_t nlp_attr_put_be16(uint8_t *buffer, size_t capacity, size_t *cursor, uint16_t kind, uint16_t value)
    NLP_CHECKED(3);
uint32_t nlp_attr_put_be32(uint8_t *buffer, size_t capacity, size_t *cursor, uint16_t kind, uint32_t value)
    NLP_CHECKED(3);
uint32_t nlp_attr_put_be64(uint8_t *buffer, size_t capacity, size_t *cursor, uint16_t kind, uint64_t value)
    NLP_CHECKED(3);

/* Puts an attribute without a value, whose presence is a flag. */
uint32_t nlp_attr_put_flag(uint8_t *buffer, size_t capacity, size_t *cursor, uint16_t kind) NLP_CHECKED(3);

/* Puts an attribute whose value is a C string: the `len` bytes and one zero. */
uint32_t nlp_attr_put_str(uint8_t *buffer, size_t capacity, size_t *cursor, uint16_t kind,
                          const uint8_t *text, size_t len) NLP_CHECKED(3);

/* Begins a nest: puts an attribute with no value yet, whose kind has the nested bit set and the
 * byte-order bit clear. Keep the old cursor: it is the `start` of nlp_nest_end. */
uint32_t nlp_nest_begin(uint8_t *buffer, size_t capacity, size_t *cursor, uint16_t kind) NLP_CHECKED(3);

/* End a nest and a frame: set the length field at `start` to cursor - start. Return NLP_OK; NLP_NO_PLACE
 * unless cursor <= capacity and cursor - start is a multiple of 4 and at least 4 (16 for a frame); or
 * NLP_TOO_LONG if cursor - start is above 65535 (2^32 - 1 for a frame). Change no byte outside the length field.
 * Proved: the bytes at `start` are then an attribute whose value is the bytes from start + 4 to the
 * cursor, or a frame that is the bytes from start to the cursor. */
uint32_t nlp_nest_end(uint8_t *buffer, size_t capacity, size_t cursor, size_t start) NLP_RESULT;
uint32_t nlp_frame_end(uint8_t *buffer, size_t capacity, size_t cursor, size_t start) NLP_RESULT;

/* ---- in place, and canonical forms ----------------------------------------------------------- */

/* Overwrites the value of the attribute at `index`, which counts from 0: NLP_OK or NLP_NO_PLACE.
 * Proved: NLP_OK if and only if there is such an attribute with a value of this size. Only the bytes of
 * that value are then changed, and otherwise none. */
uint32_t nlp_attr_write(uint8_t *block, size_t block_len, size_t index, const uint8_t *value, size_t len)
    NLP_RESULT;

/* Returns whether the bytes are a canonical block: attributes, each with all of its padding, as zeros.
 * Proved: true if and only if they are. */
bool nlp_attrs_is_canonical(const uint8_t *bytes, size_t len) NLP_RESULT;

/* Writes the canonical block of the bytes: NLP_OK, and it is the first `*size` bytes of the buffer;
 * NLP_NO_ROOM, and `*size` is the size needed; the error that ends the walk; or NLP_NO_MEMORY. Allocates
 * at most once, for the size of the block.
 * Proved: the block encodes the attributes that the walk yields; only NLP_OK changes the buffer. */
uint32_t nlp_attrs_normalize(const uint8_t *bytes, size_t len, uint8_t *buffer, size_t capacity,
                             size_t *size, struct nlp_fault *fault) NLP_CHECKED(5, 6);

/* Sets `*canonical` to 1 if the bytes are a canonical frame, else to 0: NLP_OK or NLP_NO_MEMORY. If the
 * type is 16 or greater, the payload may be any bytes, and a copy of it may be allocated.
 * Proved: 1 if and only if nlp_frame_normalize leaves the bytes unchanged. */
uint32_t nlp_frame_is_canonical(const uint8_t *bytes, size_t len, uint32_t *canonical,
                                struct nlp_fault *fault) NLP_CHECKED(3, 4);

/* Writes the canonical frame of the message at the start of the bytes: NLP_OK, and it is the first `*size`
 * bytes of the buffer; NLP_NO_ROOM, and `*size` is the size needed; the error if the message is rejected;
 * or NLP_NO_MEMORY. Allocates for the payload and for the frame. The frame has the header of the message, with
 * the length of the frame, and by its type:
 *
 *  - 1, noop: no payload, whatever the message has;
 *  - 2, error: the payload. It is rejected if it has fewer than 4 bytes;
 *  - 3, done: the payload, or 4 zeros if it has no bytes. It is rejected if it has 1 to 3 bytes;
 *  - 4, overrun, or 16 and greater: the payload;
 *  - 0, or 5 to 15: it is rejected (NLP_REFUSED).
 *
 * Proved: the frame is the one canonical frame of that message; only NLP_OK changes the buffer. */
uint32_t nlp_frame_normalize(const uint8_t *bytes, size_t len, uint8_t *buffer, size_t capacity,
                             size_t *size, struct nlp_fault *fault) NLP_CHECKED(5, 6);

/* ---- text ------------------------------------------------------------------------------------ */

/* Writes the text of the error that the numbers identify, without a zero at its end: NLP_OK, and it is
 * the first `*size` bytes of the buffer; NLP_NO_ROOM, and `*size` is the size needed; NLP_NO_PLACE if the
 * numbers identify no error, or one that holds a string (1, 14); or NLP_NO_MEMORY. Allocates for the text.
 * Proved: the text is the library's text of that error; NLP_NO_PLACE for all other numbers; only NLP_OK
 * changes the buffer. */
uint32_t nlp_fault_text(const struct nlp_fault *fault, uint8_t *buffer, size_t capacity, size_t *size)
    NLP_CHECKED(1, 4);

/* Writes the frame that the bytes begin with as text, without a zero at its end, for a log or a debugger. These
 * are the six lines of a frame with the payload 00 01 02 03:
 *
 *     length 20
 *     type 18
 *     flags 0
 *     sequence 0
 *     port 0
 *     payload 00010203
 *
 * The integers are in decimal. The payload is two hexadecimal digits per byte, in lower case, or `-` if it has
 * no bytes. Each line ends with a line feed. The text has at most 2 * len + 55 bytes. Returns NLP_OK, and the
 * text is the first `*size` bytes of the buffer; NLP_NO_ROOM, and `*size` is the size needed, so that a call
 * without a buffer yields it; or NLP_FRAME_SHORT, _CUT or _LENGTH. Does not allocate.
 * Proved: if there is a complete frame, its text, each byte of it, and the fault unchanged; else the error. Only
 * NLP_OK changes the buffer. */
uint32_t nlp_describe(const uint8_t *bytes, size_t len, uint8_t *buffer, size_t capacity, size_t *size,
                      struct nlp_fault *fault) NLP_CHECKED(5, 6);

/* Writes that text, but shows the attributes, which begin after a fixed header of `fixed_len` bytes and its
 * padding, as for nlp_message_attrs. In place of the line `payload` there is a line with the bytes of that header,
 * and one for each attribute, with its kind, its flag bits, its length field and its value:
 *
 *     header 00000000
 *     attribute 3 -- 7 6c6f00
 *     attribute 18 N- 4 -
 *
 * `N` is NLP_KIND_NESTED and `B` is NLP_KIND_NET_BYTEORDER; `-` is a bit that is not set. Nests are not entered.
 * If the walk of the attributes ends in an error, the last line is `rest`, with the bytes from there on. If the
 * payload has fewer than `fixed_len` bytes, the line `header` has all of them. The text has at most 8 * len bytes.
 * Returns what nlp_describe returns. Does not allocate.
 * Proved: if there is a complete frame, its text, each byte of it, and the fault unchanged; else the error. Only
 * NLP_OK changes the buffer. */
uint32_t nlp_describe_attrs(const uint8_t *bytes, size_t len, size_t fixed_len, uint8_t *buffer, size_t capacity,
                            size_t *size, struct nlp_fault *fault) NLP_CHECKED(6, 7);

/* ---- plain C, not proved ----------------------------------------------------------------------- */

/* The functions from here to the end are compiled into your program, and nothing is proved of them. They call
 * the functions above. c/test tests them, under sanitizers too. */

/* ---- integers in values */

/* The integer in the 2, 4 or 8 bytes of a value, in native byte order. Check attr.size first; these
 * functions do not. */
NLP_NONNULL(1)
static inline uint16_t nlp_u16(const uint8_t *value)
{
    return (uint16_t)(value[0] | value[1] << 8);
}

NLP_NONNULL(1)
static inline uint32_t nlp_u32(const uint8_t *value)
{
    return nlp_u16(value) | (uint32_t)nlp_u16(value + 2) << 16;
}

NLP_NONNULL(1)
static inline uint64_t nlp_u64(const uint8_t *value)
{
    return nlp_u32(value) | (uint64_t)nlp_u32(value + 4) << 32;
}

/* ---- a fault that may be NULL */

/* NAME_opt does what NAME does. Its fault may be NULL. */
NLP_NONNULL(3, 4)
static inline NLP_RESULT uint32_t nlp_message_read_opt(const uint8_t *bytes, size_t len, size_t *cursor,
                                                       struct nlp_message *item, struct nlp_fault *fault)
{
    struct nlp_fault own;
    return nlp_message_read(bytes, len, cursor, item, fault == NULL ? &own : fault);
}

NLP_NONNULL(3)
static inline NLP_RESULT uint32_t nlp_messages_fill_opt(const uint8_t *bytes, size_t len,
                                                        struct nlp_message_batch *batch, struct nlp_fault *fault)
{
    struct nlp_fault own;
    return nlp_messages_fill(bytes, len, batch, fault == NULL ? &own : fault);
}

NLP_NONNULL(3, 4)
static inline NLP_RESULT uint32_t nlp_attrs_next_opt(const uint8_t *bytes, size_t len, size_t *cursor,
                                                     struct nlp_attr *item, struct nlp_fault *fault)
{
    struct nlp_fault own;
    return nlp_attrs_next(bytes, len, cursor, item, fault == NULL ? &own : fault);
}

NLP_NONNULL(3)
static inline NLP_RESULT uint32_t nlp_attrs_fill_opt(const uint8_t *bytes, size_t len,
                                                     struct nlp_attr_batch *batch, struct nlp_fault *fault)
{
    struct nlp_fault own;
    return nlp_attrs_fill(bytes, len, batch, fault == NULL ? &own : fault);
}

NLP_NONNULL(3, 4)
static inline NLP_RESULT uint32_t nlp_frames_next_opt(const uint8_t *bytes, size_t len, size_t *cursor,
                                                      struct nlp_part *item, struct nlp_fault *fault)
{
    struct nlp_fault own;
    return nlp_frames_next(bytes, len, cursor, item, fault == NULL ? &own : fault);
}

NLP_NONNULL(3, 4, 5)
static inline NLP_RESULT uint32_t nlp_replies_next_opt(const uint8_t *bytes, size_t len, size_t *cursor,
                                                       struct nlp_replies *replies, struct nlp_reply *reply,
                                                       struct nlp_fault *fault)
{
    struct nlp_fault own;
    return nlp_replies_next(bytes, len, cursor, replies, reply, fault == NULL ? &own : fault);
}

NLP_NONNULL(4)
static inline uint32_t nlp_attrs_find_opt(const uint8_t *block, size_t len, uint16_t kind,
                                          struct nlp_attr *item, struct nlp_fault *fault)
{
    struct nlp_fault own;
    return nlp_attrs_find(block, len, kind, item, fault == NULL ? &own : fault);
}

static inline uint32_t nlp_attrs_table_opt(const uint8_t *block, size_t len, struct nlp_attr *table,
                                           size_t count, struct nlp_fault *fault)
{
    struct nlp_fault own;
    return nlp_attrs_table(block, len, table, count, fault == NULL ? &own : fault);
}

NLP_NONNULL(5)
static inline NLP_RESULT uint32_t nlp_attrs_validate_opt(const uint8_t *block, size_t len,
                                                         const struct nlp_policy *policy, size_t count,
                                                         size_t *offset, struct nlp_fault *fault)
{
    struct nlp_fault own;
    return nlp_attrs_validate(block, len, policy, count, offset, fault == NULL ? &own : fault);
}

static inline NLP_RESULT uint32_t nlp_frame_check_opt(const uint8_t *bytes, size_t len,
                                                      struct nlp_fault *fault)
{
    struct nlp_fault own;
    return nlp_frame_check(bytes, len, fault == NULL ? &own : fault);
}

NLP_NONNULL(3)
static inline NLP_RESULT uint32_t nlp_frame_header_opt(const uint8_t *bytes, size_t len,
                                                       struct nlp_header *header, struct nlp_fault *fault)
{
    struct nlp_fault own;
    return nlp_frame_header(bytes, len, header, fault == NULL ? &own : fault);
}

NLP_NONNULL(3)
static inline NLP_RESULT uint32_t nlp_frame_payload_opt(const uint8_t *bytes, size_t len,
                                                        struct nlp_part *payload, struct nlp_fault *fault)
{
    struct nlp_fault own;
    return nlp_frame_payload(bytes, len, payload, fault == NULL ? &own : fault);
}

NLP_NONNULL(4)
static inline NLP_RESULT uint32_t nlp_error_body_opt(const uint8_t *bytes, size_t len, uint16_t flags,
                                                     struct nlp_error *body, struct nlp_fault *fault)
{
    struct nlp_fault own;
    return nlp_error_body(bytes, len, flags, body, fault == NULL ? &own : fault);
}

NLP_NONNULL(3, 4)
static inline NLP_RESULT uint32_t nlp_done_body_opt(const uint8_t *bytes, size_t len, int32_t *code,
                                                    struct nlp_part *rest, struct nlp_fault *fault)
{
    struct nlp_fault own;
    return nlp_done_body(bytes, len, code, rest, fault == NULL ? &own : fault);
}

NLP_NONNULL(5)
static inline NLP_RESULT uint32_t nlp_attrs_normalize_opt(const uint8_t *bytes, size_t len, uint8_t *buffer,
                                                          size_t capacity, size_t *size,
                                                          struct nlp_fault *fault)
{
    struct nlp_fault own;
    return nlp_attrs_normalize(bytes, len, buffer, capacity, size, fault == NULL ? &own : fault);
}

NLP_NONNULL(3)
static inline NLP_RESULT uint32_t nlp_frame_is_canonical_opt(const uint8_t *bytes, size_t len,
                                                             uint32_t *canonical, struct nlp_fault *fault)
{
    struct nlp_fault own;
    return nlp_frame_is_canonical(bytes, len, canonical, fault == NULL ? &own : fault);
}

NLP_NONNULL(5)
static inline NLP_RESULT uint32_t nlp_frame_normalize_opt(const uint8_t *bytes, size_t len, uint8_t *buffer,
                                                          size_t capacity, size_t *size,
                                                          struct nlp_fault *fault)
{
    struct nlp_fault own;
    return nlp_frame_normalize(bytes, len, buffer, capacity, size, fault == NULL ? &own : fault);
}

NLP_NONNULL(5)
static inline NLP_RESULT uint32_t nlp_describe_opt(const uint8_t *bytes, size_t len, uint8_t *buffer,
                                                   size_t capacity, size_t *size, struct nlp_fault *fault)
{
    struct nlp_fault own;
    return nlp_describe(bytes, len, buffer, capacity, size, fault == NULL ? &own : fault);
}

NLP_NONNULL(6)
static inline NLP_RESULT uint32_t nlp_describe_attrs_opt(const uint8_t *bytes, size_t len, size_t fixed_len,
                                                         uint8_t *buffer, size_t capacity, size_t *size,
                                                         struct nlp_fault *fault)
{
    struct nlp_fault own;
    return nlp_describe_attrs(bytes, len, fixed_len, buffer, capacity, size, fault == NULL ? &own : fault);
}

/* ---- the index of an attribute */

/* Finds the index of the last attribute of a kind, which nlp_attr_write takes: NLP_OK, or NLP_NO_PLACE if there
 * is none. Compares kinds as nlp_attrs_find does. An error ends the walk, and the attributes before it count. */
NLP_NONNULL(4)
static inline uint32_t nlp_attrs_index(const uint8_t *block, size_t len, uint16_t kind, size_t *index)
{
    size_t at = 0;
    struct nlp_attr item;
    uint32_t result = NLP_NO_PLACE;
    for (size_t count = 0; nlp_attrs_next_opt(block, len, &at, &item, NULL) == NLP_OK; count++)
        if ((item.kind & NLP_KIND_MASK) == kind) {
            *index = count;
            result = NLP_OK;
        }
    return result;
}

/* ---- the messages of a datagram, one by one */

/* A walk over the messages of a datagram, with one call of nlp_messages_fill for 16 of them:
 *
 *     struct nlp_messages walk;
 *     const struct nlp_message *message;
 *     nlp_messages_begin(&walk, bytes, len);
 *     while ((message = nlp_messages_next(&walk)) != NULL)
 *         use(message);
 *     if (walk.result != NLP_END)
 *         the bytes after the last message are malformed: walk.fault */
struct nlp_messages {
    const uint8_t *bytes;
    size_t len;
    struct nlp_message_batch batch;
    size_t next;            /* the entry of batch.item that is returned next */
    uint32_t result;        /* after NULL: NLP_END, or NLP_FRAME_SHORT, _CUT or _LENGTH; else NLP_OK */
    struct nlp_fault fault; /* the numbers of that error */
};

/* Begins the walk at the first message. */
NLP_NONNULL(1)
static inline void nlp_messages_begin(struct nlp_messages *walk, const uint8_t *bytes, size_t len)
{
    walk->bytes = bytes;
    walk->len = len;
    walk->batch.cursor = 0;
    walk->batch.count = 0;
    walk->next = 0;
    walk->result = NLP_OK;
}

/* Returns the next message, or NULL at the end and at an error, which are those of nlp_message_read. The message
 * is valid until the next call for this walk. This function is plain C over nlp_messages_fill: nlp_messages_fill is
 * proved, and this function is only tested. */
NLP_NONNULL(1)
static inline NLP_RESULT const struct nlp_message *nlp_messages_next(struct nlp_messages *walk)
{
    if (walk->next == walk->batch.count) {
        if (walk->batch.cursor >= walk->len)
            walk->result = NLP_END;
        else
            walk->result = nlp_messages_fill(walk->bytes, walk->len, &walk->batch, &walk->fault);
        if (walk->result != NLP_OK)
            return NULL;
        walk->next = 0;
    }
    return &walk->batch.item[walk->next++];
}

/* ---- the attributes of a block, one by one */

/* A walk over the attributes of a block, with one call of nlp_attrs_fill for 16 of them:
 *
 *     struct nlp_attrs walk;
 *     const struct nlp_attr *attr;
 *     nlp_attrs_begin(&walk, block, len);
 *     while ((attr = nlp_attrs_read(&walk)) != NULL)
 *         use(block + attr->offset, attr->size);
 *     if (walk.result != NLP_END)
 *         the bytes after the last attribute are malformed: walk.fault */
struct nlp_attrs {
    const uint8_t *block;
    size_t len;
    struct nlp_attr_batch batch;
    size_t next;            /* the entry of batch.item that is returned next */
    uint32_t result;        /* after NULL: NLP_END, or NLP_ATTR_SHORT, _CUT or _LENGTH; else NLP_OK */
    struct nlp_fault fault; /* the numbers of that error */
};

/* Begins the walk at the first attribute. */
NLP_NONNULL(1)
static inline void nlp_attrs_begin(struct nlp_attrs *walk, const uint8_t *block, size_t len)
{
    walk->block = block;
    walk->len = len;
    walk->batch.cursor = 0;
    walk->batch.count = 0;
    walk->next = 0;
    walk->result = NLP_OK;
}

/* Returns the next attribute, or NULL at the end and at an error, which are those of nlp_attrs_next. The attribute
 * is valid until the next call for this walk. This function is plain C over nlp_attrs_fill: nlp_attrs_fill is
 * proved, and this function is only tested. */
NLP_NONNULL(1)
static inline NLP_RESULT const struct nlp_attr *nlp_attrs_read(struct nlp_attrs *walk)
{
    if (walk->next == walk->batch.count) {
        if (walk->batch.cursor >= walk->len)
            walk->result = NLP_END;
        else
            walk->result = nlp_attrs_fill(walk->block, walk->len, &walk->batch, &walk->fault);
        if (walk->result != NLP_OK)
            return NULL;
        walk->next = 0;
    }
    return &walk->batch.item[walk->next++];
}

/* ---- messages of an answer */

/* Reads the header and locates the payload of what nlp_replies_next wrote for the same bytes, as
 * nlp_message_read does for a frame: NLP_OK, because that frame is complete. */
NLP_NONNULL(2, 3)
static inline uint32_t nlp_reply_message(const uint8_t *bytes, const struct nlp_reply *reply,
                                         struct nlp_message *message)
{
    size_t at = reply->frame.offset;
    return nlp_message_read_opt(bytes, at + reply->frame.size, &at, message, NULL);
}

/* ---- a writer, which remembers a failure */

/* Writes messages without a check of each call:
 *
 *     struct nlp_writer writer = nlp_writer_begin(buffer, sizeof buffer);
 *     const struct nlp_frame_mark frame = nlp_writer_frame(&writer, &header, &link, sizeof link);
 *     nlp_writer_put_str(&writer, IFLA_IFNAME, "veth-b");
 *     const struct nlp_nest_mark nest = nlp_writer_nest(&writer, IFLA_LINKINFO);
 *     nlp_writer_put_str(&writer, IFLA_INFO_KIND, "veth");
 *     nlp_writer_nest_end(&writer, nest);
 *     nlp_writer_frame_end(&writer, frame);
 *     if (writer.failed == NLP_OK)
 *         send(fd, buffer, writer.at, 0);
 *
 * Once a call fails, the calls after it do nothing. */
struct nlp_writer {
    uint8_t *buffer;
    size_t capacity;
    size_t at;       /* how many bytes are written */
    uint32_t failed; /* NLP_OK, or the result of the call that failed: NLP_TOO_LONG, NLP_NO_ROOM, NLP_NO_PLACE */
};

/* Where a frame begins, and where a nest begins. They are two types, so that the compiler rejects a call that
 * ends one by the other. */
struct nlp_frame_mark {
    size_t start;
};

struct nlp_nest_mark {
    size_t start;
};

/* Begins to write into a buffer. */
static inline NLP_RESULT struct nlp_writer nlp_writer_begin(uint8_t *buffer, size_t capacity)
{
    const struct nlp_writer writer = { buffer, capacity, 0, NLP_OK };
    return writer;
}

/* Begins a frame, as nlp_frame_put does. */
NLP_NONNULL(1, 2)
static inline NLP_RESULT struct nlp_frame_mark nlp_writer_frame(struct nlp_writer *writer,
                                                                const struct nlp_header *header,
                                                                const void *fixed, size_t fixed_len)
{
    const struct nlp_frame_mark mark = { writer->at };
    if (writer->failed == NLP_OK)
        writer->failed = nlp_frame_put(writer->buffer, writer->capacity, &writer->at, header,
                                       (const uint8_t *)fixed, fixed_len);
    return mark;
}

/* Ends a frame, as nlp_frame_end does. */
NLP_NONNULL(1)
static inline void nlp_writer_frame_end(struct nlp_writer *writer, struct nlp_frame_mark mark)
{
    if (writer->failed == NLP_OK)
        writer->failed = nlp_frame_end(writer->buffer, writer->capacity, writer->at, mark.start);
}

/* Writes two bytes of the header of a frame. NLP_NO_PLACE if no header was written at the mark. */
NLP_NONNULL(1)
static inline void nlp_writer_set(struct nlp_writer *writer, struct nlp_frame_mark mark, size_t offset,
                                  uint16_t value)
{
    if (writer->failed == NLP_OK && (mark.start > writer->at || writer->at - mark.start < 16))
        writer->failed = NLP_NO_PLACE;
    if (writer->failed == NLP_OK) {
        writer->buffer[mark.start + offset] = (uint8_t)value;
        writer->buffer[mark.start + offset + 1] = (uint8_t)(value >> 8);
    }
}

/* Sets the type of a message after its header was written. */
NLP_NONNULL(1)
static inline void nlp_writer_set_type(struct nlp_writer *writer, struct nlp_frame_mark mark, uint16_t type)
{
    nlp_writer_set(writer, mark, 4, type);
}

/* Sets the flags of a message after its header was written. */
NLP_NONNULL(1)
static inline void nlp_writer_set_flags(struct nlp_writer *writer, struct nlp_frame_mark mark, uint16_t flags)
{
    nlp_writer_set(writer, mark, 6, flags);
}

/* Begins a nest, as nlp_nest_begin does. */
NLP_NONNULL(1)
static inline NLP_RESULT struct nlp_nest_mark nlp_writer_nest(struct nlp_writer *writer, uint16_t kind)
{
    const struct nlp_nest_mark mark = { writer->at };
    if (writer->failed == NLP_OK)
        writer->failed = nlp_nest_begin(writer->buffer, writer->capacity, &writer->at, kind);
    return mark;
}

/* Ends a nest, as nlp_nest_end does. */
NLP_NONNULL(1)
static inline void nlp_writer_nest_end(struct nlp_writer *writer, struct nlp_nest_mark mark)
{
    if (writer->failed == NLP_OK)
        writer->failed = nlp_nest_end(writer->buffer, writer->capacity, writer->at, mark.start);
}

/* Takes back what was put from an offset on. */
NLP_NONNULL(1)
static inline void nlp_writer_back(struct nlp_writer *writer, size_t start)
{
    if (writer->failed == NLP_OK && start > writer->at)
        writer->failed = NLP_NO_PLACE;
    if (writer->failed == NLP_OK)
        writer->at = start;
}

/* Takes back a nest that is not ended, and what was put into it. */
NLP_NONNULL(1)
static inline void nlp_writer_nest_cancel(struct nlp_writer *writer, struct nlp_nest_mark mark)
{
    nlp_writer_back(writer, mark.start);
}

/* Takes back a frame that is not ended, and what was put into it. */
NLP_NONNULL(1)
static inline void nlp_writer_frame_cancel(struct nlp_writer *writer, struct nlp_frame_mark mark)
{
    nlp_writer_back(writer, mark.start);
}

/* Puts an attribute, as nlp_attr_put does. */
NLP_NONNULL(1)
static inline void nlp_writer_put(struct nlp_writer *writer, uint16_t kind, const void *value, size_t len)
{
    if (writer->failed == NLP_OK)
        writer->failed = nlp_attr_put(writer->buffer, writer->capacity, &writer->at, kind,
                                      (const uint8_t *)value, len);
}

/* Each of these puts an attribute, as nlp_attr_put_u8 and so on do. */
NLP_NONNULL(1)
static inline void nlp_writer_put_u8(struct nlp_writer *writer, uint16_t kind, uint8_t value)
{
    if (writer->failed == NLP_OK)
        writer->failed = nlp_attr_put_u8(writer->buffer, writer->capacity, &writer->at, kind, value);
}

NLP_NONNULL(1)
static inline void nlp_writer_put_u16(struct nlp_writer *writer, uint16_t kind, uint16_t value)
{
    if (writer->failed == NLP_OK)
        writer->failed = nlp_attr_put_u16(writer->buffer, writer->capacity, &writer->at, kind, value);
}

NLP_NONNULL(1)
static inline void nlp_writer_put_u32(struct nlp_writer *writer, uint16_t kind, uint32_t value)
{
    if (writer->failed == NLP_OK)
        writer->failed = nlp_attr_put_u32(writer->buffer, writer->capacity, &writer->at, kind, value);
}

NLP_NONNULL(1)
static inline void nlp_writer_put_u64(struct nlp_writer *writer, uint16_t kind, uint64_t value)
{
    if (writer->failed == NLP_OK)
        writer->failed = nlp_attr_put_u64(writer->buffer, writer->capacity, &writer->at, kind, value);
}

NLP_NONNULL(1)
static inline void nlp_writer_put_be16(struct nlp_writer *writer, uint16_t kind, uint16_t value)
{
    if (writer->failed == NLP_OK)
        writer->failed = nlp_attr_put_be16(writer->buffer, writer->capacity, &writer->at, kind, value);
}

NLP_NONNULL(1)
static inline void nlp_writer_put_be32(struct nlp_writer *writer, uint16_t kind, uint32_t value)
{
    if (writer->failed == NLP_OK)
        writer->failed = nlp_attr_put_be32(writer->buffer, writer->capacity, &writer->at, kind, value);
}

NLP_NONNULL(1)
static inline void nlp_writer_put_be64(struct nlp_writer *writer, uint16_t kind, uint64_t value)
{
    if (writer->failed == NLP_OK)
        writer->failed = nlp_attr_put_be64(writer->buffer, writer->capacity, &writer->at, kind, value);
}

NLP_NONNULL(1)
static inline void nlp_writer_put_flag(struct nlp_writer *writer, uint16_t kind)
{
    if (writer->failed == NLP_OK)
        writer->failed = nlp_attr_put_flag(writer->buffer, writer->capacity, &writer->at, kind);
}

/* Puts an attribute whose value is a C string, with its zero. */
NLP_NONNULL(1, 3)
static inline void nlp_writer_put_str(struct nlp_writer *writer, uint16_t kind, const char *text)
{
    if (writer->failed == NLP_OK)
        writer->failed = nlp_attr_put_str(writer->buffer, writer->capacity, &writer->at, kind,
                                          (const uint8_t *)text, strlen(text));
}

#ifdef __cplusplus
}
#endif

#endif
