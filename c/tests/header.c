/* Tests the header itself: its constants, with the values of linux/netlink.h and of the library's contracts; the
 * layouts of its structs; the types of its functions; and its inline functions. */
#include "netlink_packet.h"

#include <stdio.h>

static int passed, failed;

static void expect(const char *what, bool holds)
{
    if (holds) {
        passed++;
    } else {
        failed++;
        fprintf(stderr, "failed: %s\n", what);
    }
}

static void constants(void)
{
    static const struct {
        const char *name;
        uint32_t value, wanted;
    } rows[] = {
        { "NLP_OK", NLP_OK, 0 }, { "NLP_ATTR_SHORT", NLP_ATTR_SHORT, 5 }, { "NLP_ATTR_CUT", NLP_ATTR_CUT, 6 },
        { "NLP_ATTR_LENGTH", NLP_ATTR_LENGTH, 7 }, { "NLP_NO_ROOM", NLP_NO_ROOM, 8 }, { "NLP_FRAME_SHORT", NLP_FRAME_SHORT, 9 },
        { "NLP_FRAME_CUT", NLP_FRAME_CUT, 10 }, { "NLP_FRAME_LENGTH", NLP_FRAME_LENGTH, 11 }, { "NLP_DONE_SHORT", NLP_DONE_SHORT, 12 },
        { "NLP_ERROR_SHORT", NLP_ERROR_SHORT, 13 }, { "NLP_REFUSED", NLP_REFUSED, 14 }, { "NLP_FRAME_TOO_LONG", NLP_FRAME_TOO_LONG, 15 },
        { "NLP_NO_MEMORY", NLP_NO_MEMORY, 16 }, { "NLP_END", NLP_END, 32 }, { "NLP_TOO_LONG", NLP_TOO_LONG, 33 },
        { "NLP_NO_PLACE", NLP_NO_PLACE, 34 }, { "NLP_WRONG_SIZE", NLP_WRONG_SIZE, 35 },
        { "NLP_WRONG_SHAPE", NLP_WRONG_SHAPE, 36 }, { "NLP_MESSAGE", NLP_MESSAGE, 1 }, { "NLP_DONE", NLP_DONE, 2 },
        { "NLP_ACKNOWLEDGED", NLP_ACKNOWLEDGED, 3 }, { "NLP_REJECTED", NLP_REJECTED, 4 }, { "NLP_OVERRUN", NLP_OVERRUN, 5 },
        { "NLP_OTHER", NLP_OTHER, 6 }, { "NLP_EXACTLY", NLP_EXACTLY, 1 }, { "NLP_AT_LEAST", NLP_AT_LEAST, 2 },
        { "NLP_AT_MOST", NLP_AT_MOST, 3 }, { "NLP_U8", NLP_U8, 4 }, { "NLP_U16", NLP_U16, 5 }, { "NLP_U32", NLP_U32, 6 },
        { "NLP_U64", NLP_U64, 7 }, { "NLP_FLAG", NLP_FLAG, 8 }, { "NLP_STRING", NLP_STRING, 9 },
        { "NLP_NUL_STRING", NLP_NUL_STRING, 10 }, { "NLP_NESTED", NLP_NESTED, 11 }, { "NLA_F_NESTED", NLP_KIND_NESTED, 1 << 15 },
        { "NLA_F_NET_BYTEORDER", NLP_KIND_NET_BYTEORDER, 1 << 14 }, { "NLA_TYPE_MASK", NLP_KIND_MASK, 0x3fff }, { "NLP_BATCH", NLP_BATCH, 16 },
    };
    for (size_t at = 0; at < sizeof rows / sizeof rows[0]; at++)
        expect(rows[at].name, rows[at].value == rows[at].wanted);
}

/* NLP_VERSION has the three numbers. c/test compares it with c/VERSION. */
#define TEXT(number) #number
#define DOTTED(major, minor, patch) TEXT(major) "." TEXT(minor) "." TEXT(patch)

static void version(void)
{
    expect("NLP_VERSION", strcmp(NLP_VERSION, DOTTED(NLP_VERSION_MAJOR, NLP_VERSION_MINOR, NLP_VERSION_PATCH)) == 0);
}

/* The offset and the type of each field. */
#define AT(type, offset, field_type, field) \
    _Static_assert(offsetof(struct type, field) == (offset) && _Generic(((struct type *)NULL)->field, field_type: 1, default: 0), #type " " #field)

AT(nlp_fault, 0, uint32_t, cause);
AT(nlp_fault, 4, uint32_t, inside);
AT(nlp_fault, 8, size_t, size);
AT(nlp_fault, 16, size_t, wanted);
AT(nlp_part, 0, size_t, offset);
AT(nlp_part, 8, size_t, size);
AT(nlp_header, 0, uint32_t, length);
AT(nlp_header, 4, uint16_t, message_type);
AT(nlp_header, 6, uint16_t, flags);
AT(nlp_header, 8, uint32_t, sequence_number);
AT(nlp_header, 12, uint32_t, port_number);
AT(nlp_attr, 0, uint16_t, kind);
AT(nlp_attr, 8, size_t, offset);
AT(nlp_attr, 16, size_t, size);
AT(nlp_policy, 0, uint16_t, kind);
AT(nlp_policy, 2, uint16_t, shape);
AT(nlp_policy, 8, size_t, size);
AT(nlp_message, 0, struct nlp_header, header);
AT(nlp_message, 16, struct nlp_part, payload);
AT(nlp_message_batch, 0, size_t, cursor);
AT(nlp_message_batch, 8, size_t, count);
AT(nlp_message_batch, 16, struct nlp_message, item[0]);
_Static_assert(sizeof(struct nlp_message_batch) == 16 + 16 * 32, "nlp_message_batch");
AT(nlp_attr_batch, 0, size_t, cursor);
AT(nlp_attr_batch, 8, size_t, count);
AT(nlp_attr_batch, 16, struct nlp_attr, item[0]);
_Static_assert(sizeof(struct nlp_attr_batch) == 16 + 16 * 24, "nlp_attr_batch");
AT(nlp_error, 0, int32_t, code);
AT(nlp_error, 8, struct nlp_part, request);
AT(nlp_error, 24, struct nlp_part, attributes);
AT(nlp_request, 0, uint32_t, sequence_number);
AT(nlp_request, 4, uint32_t, port_number);
AT(nlp_request, 8, uint32_t, is_dump);
AT(nlp_request, 12, uint32_t, wants_ack);
AT(nlp_replies, 0, struct nlp_request, request);
AT(nlp_replies, 16, uint32_t, ended);
AT(nlp_replies, 20, uint32_t, interrupted);
AT(nlp_reply, 0, uint32_t, what);
AT(nlp_reply, 4, int32_t, code);
AT(nlp_reply, 8, struct nlp_part, frame);
AT(nlp_reply, 24, struct nlp_part, request);
AT(nlp_reply, 40, struct nlp_part, attributes);
AT(nlp_messages, 0, const uint8_t *, bytes);
AT(nlp_messages, 8, size_t, len);
AT(nlp_messages, 16, struct nlp_message_batch, batch);
AT(nlp_messages, 544, size_t, next);
AT(nlp_messages, 552, uint32_t, result);
AT(nlp_messages, 560, struct nlp_fault, fault);
AT(nlp_attrs, 0, const uint8_t *, block);
AT(nlp_attrs, 8, size_t, len);
AT(nlp_attrs, 16, struct nlp_attr_batch, batch);
AT(nlp_attrs, 416, size_t, next);
AT(nlp_attrs, 424, uint32_t, result);
AT(nlp_attrs, 432, struct nlp_fault, fault);
AT(nlp_writer, 0, uint8_t *, buffer);
AT(nlp_writer, 8, size_t, capacity);
AT(nlp_writer, 16, size_t, at);
AT(nlp_writer, 24, uint32_t, failed);
AT(nlp_frame_mark, 0, size_t, start);
AT(nlp_nest_mark, 0, size_t, start);

typedef const uint8_t *in;
typedef uint8_t *out;
typedef size_t *place;
typedef struct nlp_fault *fault;
typedef struct nlp_part *part;
typedef const struct nlp_attr *attr;
typedef const struct nlp_policy *policy;
typedef struct nlp_writer *writer;
typedef struct nlp_messages *messages;

/* Each function has exactly this type. */
#define IS(name, result, ...) _Static_assert(_Generic(&name, result (*)(__VA_ARGS__): 1, default: 0), #name)
#define IS_CALL(name, ...) IS(name, uint32_t, __VA_ARGS__)

IS_CALL(nlp_frame_check, in, size_t, fault);
IS_CALL(nlp_frame_header, in, size_t, struct nlp_header *, fault);
IS_CALL(nlp_frame_payload, in, size_t, part, fault);
IS_CALL(nlp_error_body, in, size_t, uint16_t, struct nlp_error *, fault);
IS_CALL(nlp_done_body, in, size_t, int32_t *, part, fault);
IS_CALL(nlp_frames_next, in, size_t, place, part, fault);
IS_CALL(nlp_attrs_next, in, size_t, place, struct nlp_attr *, fault);
IS_CALL(nlp_attrs_fill, in, size_t, struct nlp_attr_batch *, fault);
IS_CALL(nlp_message_read, in, size_t, place, struct nlp_message *, fault);
IS_CALL(nlp_messages_fill, in, size_t, struct nlp_message_batch *, fault);
IS_CALL(nlp_message_attrs, const struct nlp_message *, size_t, part);
IS_CALL(nlp_attrs_find, in, size_t, uint16_t, struct nlp_attr *, fault);
IS_CALL(nlp_attrs_table, in, size_t, struct nlp_attr *, size_t, fault);
IS_CALL(nlp_attrs_validate, in, size_t, policy, size_t, place, fault);
IS_CALL(nlp_get_u8, in, size_t, attr, uint8_t *);
IS_CALL(nlp_get_u16, in, size_t, attr, uint16_t *);
IS_CALL(nlp_get_u32, in, size_t, attr, uint32_t *);
IS_CALL(nlp_get_u64, in, size_t, attr, uint64_t *);
IS_CALL(nlp_get_be16, in, size_t, attr, uint16_t *);
IS_CALL(nlp_get_be32, in, size_t, attr, uint32_t *);
IS_CALL(nlp_get_be64, in, size_t, attr, uint64_t *);
IS_CALL(nlp_get_bytes, in, size_t, attr, out, size_t);
IS_CALL(nlp_get_str, in, size_t, attr, part);
IS(nlp_replies_begin, void, const struct nlp_header *, uint32_t, struct nlp_replies *);
IS_CALL(nlp_replies_next, in, size_t, place, struct nlp_replies *, struct nlp_reply *, fault);
IS_CALL(nlp_ext_ack_text, in, size_t, part);
IS_CALL(nlp_ext_ack_offset, in, size_t, uint32_t *);
IS_CALL(nlp_ext_ack_cookie, in, size_t, part);
IS_CALL(nlp_ext_ack_policy, in, size_t, part);
IS_CALL(nlp_ext_ack_missing_type, in, size_t, uint32_t *);
IS_CALL(nlp_ext_ack_missing_nest, in, size_t, uint32_t *);
IS_CALL(nlp_ext_ack_path, in, size_t, in, size_t, size_t, uint16_t *, size_t, place);
IS_CALL(nlp_frame_put, out, size_t, place, const struct nlp_header *, in, size_t);
IS_CALL(nlp_attr_put, out, size_t, place, uint16_t, in, size_t);
IS_CALL(nlp_attr_put_u8, out, size_t, place, uint16_t, uint8_t);
IS_CALL(nlp_attr_put_u16, out, size_t, place, uint16_t, uint16_t);
IS_CALL(nlp_attr_put_u32, out, size_t, place, uint16_t, uint32_t);
IS_CALL(nlp_attr_put_u64, out, size_t, place, uint16_t, uint64_t);
IS_CALL(nlp_attr_put_be16, out, size_t, place, uint16_t, uint16_t);
IS_CALL(nlp_attr_put_be32, out, size_t, place, uint16_t, uint32_t);
IS_CALL(nlp_attr_put_be64, out, size_t, place, uint16_t, uint64_t);
IS_CALL(nlp_attr_put_flag, out, size_t, place, uint16_t);
IS_CALL(nlp_attr_put_str, out, size_t, place, uint16_t, in, size_t);
IS_CALL(nlp_nest_begin, out, size_t, place, uint16_t);
IS_CALL(nlp_nest_end, out, size_t, size_t, size_t);
IS_CALL(nlp_frame_end, out, size_t, size_t, size_t);
IS_CALL(nlp_attr_write, out, size_t, size_t, in, size_t);
IS(nlp_attrs_is_canonical, bool, in, size_t);
IS_CALL(nlp_attrs_normalize, in, size_t, out, size_t, place, fault);
IS_CALL(nlp_frame_is_canonical, in, size_t, uint32_t *, fault);
IS_CALL(nlp_frame_normalize, in, size_t, out, size_t, place, fault);
IS_CALL(nlp_fault_text, const struct nlp_fault *, out, size_t, place);
IS_CALL(nlp_describe, in, size_t, out, size_t, place, fault);
IS_CALL(nlp_describe_attrs, in, size_t, size_t, out, size_t, place, fault);
IS(nlp_u16, uint16_t, in);
IS(nlp_u32, uint32_t, in);
IS(nlp_u64, uint64_t, in);
IS_CALL(nlp_message_read_opt, in, size_t, place, struct nlp_message *, fault);
IS_CALL(nlp_messages_fill_opt, in, size_t, struct nlp_message_batch *, fault);
IS_CALL(nlp_attrs_next_opt, in, size_t, place, struct nlp_attr *, fault);
IS_CALL(nlp_attrs_fill_opt, in, size_t, struct nlp_attr_batch *, fault);
IS_CALL(nlp_frames_next_opt, in, size_t, place, part, fault);
IS_CALL(nlp_replies_next_opt, in, size_t, place, struct nlp_replies *, struct nlp_reply *, fault);
IS_CALL(nlp_attrs_find_opt, in, size_t, uint16_t, struct nlp_attr *, fault);
IS_CALL(nlp_attrs_index, in, size_t, uint16_t, size_t *);
IS_CALL(nlp_attrs_table_opt, in, size_t, struct nlp_attr *, size_t, fault);
IS_CALL(nlp_attrs_validate_opt, in, size_t, policy, size_t, place, fault);
IS_CALL(nlp_frame_check_opt, in, size_t, fault);
IS_CALL(nlp_frame_header_opt, in, size_t, struct nlp_header *, fault);
IS_CALL(nlp_frame_payload_opt, in, size_t, part, fault);
IS_CALL(nlp_error_body_opt, in, size_t, uint16_t, struct nlp_error *, fault);
IS_CALL(nlp_done_body_opt, in, size_t, int32_t *, part, fault);
IS_CALL(nlp_attrs_normalize_opt, in, size_t, out, size_t, place, fault);
IS_CALL(nlp_frame_is_canonical_opt, in, size_t, uint32_t *, fault);
IS_CALL(nlp_frame_normalize_opt, in, size_t, out, size_t, place, fault);
IS_CALL(nlp_describe_opt, in, size_t, out, size_t, place, fault);
IS_CALL(nlp_describe_attrs_opt, in, size_t, size_t, out, size_t, place, fault);
IS(nlp_messages_begin, void, messages, in, size_t);
IS(nlp_messages_next, const struct nlp_message *, messages);
IS(nlp_attrs_begin, void, struct nlp_attrs *, in, size_t);
IS(nlp_attrs_read, const struct nlp_attr *, struct nlp_attrs *);
IS_CALL(nlp_reply_message, in, const struct nlp_reply *, struct nlp_message *);
IS(nlp_writer_begin, struct nlp_writer, out, size_t);
IS(nlp_writer_frame, struct nlp_frame_mark, writer, const struct nlp_header *, const void *, size_t);
IS(nlp_writer_frame_end, void, writer, struct nlp_frame_mark);
IS(nlp_writer_set_type, void, writer, struct nlp_frame_mark, uint16_t);
IS(nlp_writer_set_flags, void, writer, struct nlp_frame_mark, uint16_t);
IS(nlp_writer_nest, struct nlp_nest_mark, writer, uint16_t);
IS(nlp_writer_nest_end, void, writer, struct nlp_nest_mark);
IS(nlp_writer_nest_cancel, void, writer, struct nlp_nest_mark);
IS(nlp_writer_frame_cancel, void, writer, struct nlp_frame_mark);
IS(nlp_writer_put, void, writer, uint16_t, const void *, size_t);
IS(nlp_writer_put_u8, void, writer, uint16_t, uint8_t);
IS(nlp_writer_put_u16, void, writer, uint16_t, uint16_t);
IS(nlp_writer_put_u32, void, writer, uint16_t, uint32_t);
IS(nlp_writer_put_u64, void, writer, uint16_t, uint64_t);
IS(nlp_writer_put_be16, void, writer, uint16_t, uint16_t);
IS(nlp_writer_put_be32, void, writer, uint16_t, uint32_t);
IS(nlp_writer_put_be64, void, writer, uint16_t, uint64_t);
IS(nlp_writer_put_flag, void, writer, uint16_t);
IS(nlp_writer_put_str, void, writer, uint16_t, const char *);

static void integers(void)
{
    static const uint8_t low[8] = { 0x01, 0x02, 0x03, 0x04, 0x05, 0x06, 0x07, 0x08 };
    static const uint8_t high[9] = { 0, 0x81, 0x92, 0xa3, 0xb4, 0xc5, 0xd6, 0xe7, 0xf8 };
    expect("the lowest byte is the first of 2", nlp_u16(low) == 0x0201 && nlp_u16(high + 1) == 0x9281);
    expect("the lowest byte is the first of 4", nlp_u32(low) == 0x04030201u && nlp_u32(high + 1) == 0xb4a39281u);
    expect("the lowest byte is the first of 8", nlp_u64(low) == 0x0807060504030201u && nlp_u64(high + 1) == 0xf8e7d6c5b4a39281u);
}

int main(void)
{
    constants();
    version();
    integers();
    printf("%d passed, %d failed\n", passed, failed);
    return failed != 0;
}
