/* Tests the inline functions of the header: those with a fault that may be NULL, the messages of an answer, and the
 * writer. */
#include "netlink_packet.h"

#include <stdio.h>
#include <string.h>

static int passed, failed;

static void expect(const char *what, bool holds)
{
    if (holds) {
        passed++;
    } else {
        failed++;
        fprintf(stderr, "failed: %s\n", what);
    }
}

/* A message of type 18 with the attribute (1, aa) and its padding, and 4 bytes that are no message. */
static const uint8_t bytes[28] = { 24, 0, 0, 0, 18, 0, 1, 3, 7, 0, 0, 0, 9, 0, 0, 0, 5, 0, 1, 0, 0xaa, 0, 0, 0, 1, 2, 3, 4 };
/* The same attribute, and one that is truncated. */
static const uint8_t block[14] = { 5, 0, 1, 0, 0xaa, 0, 0, 0, 9, 0, 2, 0, 1, 2 };

static bool is_fault(const struct nlp_fault *f, uint32_t cause, size_t size, size_t wanted)
{
    return f->cause == cause && f->size == size && f->wanted == wanted;
}

/* Each walk, without a fault and with one. */
static void walks(void)
{
    struct nlp_fault fault = { 0, 0, 0, 0 };
    struct nlp_message message = { { 0, 0, 0, 0, 0 }, { 0, 0 } };
    struct nlp_part part = { 0, 0 };
    struct nlp_attr attr = { 0, 0, 0 };
    for (int with = 0; with < 2; with++) {
        struct nlp_fault *to = with ? &fault : NULL;
        size_t at = 0;
        expect("a message", nlp_message_read_opt(bytes, sizeof bytes, &at, &message, to) == NLP_OK && at == 24 && message.header.message_type == 18);
        expect("no message", nlp_message_read_opt(bytes, sizeof bytes, &at, &message, to) == NLP_FRAME_SHORT && at == 28);
        expect("its fault", is_fault(&fault, with ? 9 : 0, with ? 4 : 0, 0));
        at = 0;
        expect("a frame", nlp_frames_next_opt(bytes, sizeof bytes, &at, &part, to) == NLP_OK && at == 24 && part.offset == 0 && part.size == 24);
        expect("the end of frames", nlp_frames_next_opt(bytes, 24, &at, &part, to) == NLP_END && at == 24);
        expect("no frame", nlp_frames_next_opt(bytes, sizeof bytes, &at, &part, to) == NLP_FRAME_SHORT && is_fault(&fault, with ? 9 : 0, with ? 4 : 0, 0));
        fault.cause = 0;
        fault.size = 0;
        at = 0;
        expect("an attribute", nlp_attrs_next_opt(block, sizeof block, &at, &attr, to) == NLP_OK && at == 8 && attr.kind == 1 && attr.offset == 4);
        expect("no attribute", nlp_attrs_next_opt(block, sizeof block, &at, &attr, to) == NLP_ATTR_CUT && at == 14);
        expect("the fault of no attribute", is_fault(&fault, with ? 6 : 0, with ? 6 : 0, with ? 9 : 0));
        fault = (struct nlp_fault){ 0, 0, 0, 0 };
    }
}

/* The messages of a datagram one by one, and a batch without a fault and with one. */
static void reads(void)
{
    uint8_t many[40 * 20];
    struct nlp_fault fault = { 0, 0, 0, 0 };
    struct nlp_message_batch batch;
    struct nlp_messages walk;
    const struct nlp_message *message;
    for (int with = 0; with < 2; with++) {
        batch.cursor = 0;
        expect("a batch", nlp_messages_fill_opt(bytes, sizeof bytes, &batch, with ? &fault : NULL) == NLP_OK && batch.count == 1 && batch.item[0].payload.size == 8);
        expect("no batch", nlp_messages_fill_opt(bytes, sizeof bytes, &batch, with ? &fault : NULL) == NLP_FRAME_SHORT && is_fault(&fault, with ? 9 : 0, with ? 4 : 0, 0));
    }
    memset(&walk, 0xee, sizeof walk);
    nlp_messages_begin(&walk, bytes, sizeof bytes);
    expect("a walk that begins", walk.bytes == bytes && walk.len == sizeof bytes && walk.batch.cursor == 0 && walk.batch.count == 0 && walk.next == 0
        && walk.result == NLP_OK);
    message = nlp_messages_next(&walk);
    expect("a message of a walk", message == walk.batch.item && message->payload.offset == 16 && message->header.message_type == 18 && walk.result == NLP_OK);
    expect("the error of a walk", nlp_messages_next(&walk) == NULL && walk.result == NLP_FRAME_SHORT && is_fault(&walk.fault, 9, 4, 0));
    expect("the end of a walk", nlp_messages_next(&walk) == NULL && walk.result == NLP_END && nlp_messages_next(&walk) == NULL && walk.result == NLP_END);
    nlp_messages_begin(&walk, NULL, 0);
    expect("a walk over no bytes", nlp_messages_next(&walk) == NULL && walk.result == NLP_END);
    memset(many, 0, sizeof many);
    for (size_t i = 0; i < 40; i++)
        many[20 * i] = 20;
    bool holds = true;
    for (size_t count = 1; count <= 40; count++) {
        size_t seen = 0;
        nlp_messages_begin(&walk, many, 20 * count);
        while ((message = nlp_messages_next(&walk)) != NULL)
            seen += message->payload.offset == 20 * seen + 16;
        holds = holds && seen == count && walk.result == NLP_END;
    }
    expect("each message of a walk", holds);
}

static void kinds(void)
{
    const struct nlp_policy policy = { 1, NLP_EXACTLY, 1 };
    struct nlp_fault fault = { 0, 0, 0, 0 };
    struct nlp_attr attr = { 0, 0, 0 }, table[2];
    for (int with = 0; with < 2; with++) {
        struct nlp_fault *to = with ? &fault : NULL;
        size_t offset = 0;
        expect("a kind", nlp_attrs_find_opt(block, 8, 1, &attr, to) == NLP_OK && attr.offset == 4 && attr.size == 1);
        expect("a kind before an error", nlp_attrs_find_opt(block, sizeof block, 1, &attr, to) == NLP_ATTR_CUT && is_fault(&fault, with ? 6 : 0, with ? 6 : 0, with ? 9 : 0));
        fault = (struct nlp_fault){ 0, 0, 0, 0 };
        expect("a table", nlp_attrs_table_opt(block, 8, table, 2, to) == NLP_OK && table[0].offset == 0 && table[1].offset == 4);
        expect("a table before an error", nlp_attrs_table_opt(block, sizeof block, table, 1, to) == NLP_ATTR_CUT && table[1].offset == 4
            && is_fault(&fault, with ? 6 : 0, with ? 6 : 0, with ? 9 : 0));
        fault = (struct nlp_fault){ 0, 0, 0, 0 };
        expect("a policy", nlp_attrs_validate_opt(block, 8, &policy, 1, &offset, to) == NLP_OK && offset == 0);
        expect("a policy of no rows", nlp_attrs_validate_opt(block, sizeof block, &policy, 0, &offset, to) == NLP_ATTR_CUT && offset == 8
            && is_fault(&fault, with ? 6 : 0, with ? 6 : 0, with ? 9 : 0));
        fault = (struct nlp_fault){ 0, 0, 0, 0 };
    }
}

static void frames(void)
{
    static const uint8_t body[24] = { 0xfe, 0xff, 0xff, 0xff, 16, 0, 0, 0, 18 };
    struct nlp_fault fault = { 0, 0, 0, 0 };
    for (int with = 0; with < 2; with++) {
        struct nlp_fault *to = with ? &fault : NULL;
        struct nlp_header header = { 0, 0, 0, 0, 0 };
        struct nlp_part part = { 0, 0 };
        struct nlp_error error = { 0, { 0, 0 }, { 0, 0 } };
        int32_t code = 0;
        expect("a frame is complete", nlp_frame_check_opt(bytes, 24, to) == NLP_OK && nlp_frame_check_opt(bytes, 23, to) == NLP_FRAME_CUT);
        expect("the fault of a frame", is_fault(&fault, with ? 10 : 0, with ? 23 : 0, with ? 24 : 0));
        expect("a header", nlp_frame_header_opt(bytes, 16, &header, to) == NLP_OK && header.flags == 0x301 && nlp_frame_header_opt(bytes, 15, &header, to) == NLP_FRAME_SHORT);
        expect("the fault of a header", is_fault(&fault, with ? 9 : 0, with ? 15 : 0, 0));
        expect("a payload", nlp_frame_payload_opt(bytes, 24, &part, to) == NLP_OK && part.size == 8 && nlp_frame_payload_opt(bytes, 14, &part, to) == NLP_FRAME_SHORT);
        expect("the fault of a payload", is_fault(&fault, with ? 9 : 0, with ? 14 : 0, 0));
        expect("an error", nlp_error_body_opt(body, 20, 0, &error, to) == NLP_OK && error.code == -2 && error.request.size == 16
            && nlp_error_body_opt(body, 24, 0x200, &error, to) == NLP_OK && error.request.size == 16 && error.attributes.offset == 20
            && nlp_error_body_opt(body, 3, 0, &error, to) == NLP_ERROR_SHORT);
        expect("the fault of an error", is_fault(&fault, with ? 13 : 0, with ? 3 : 0, 0));
        expect("a done body", nlp_done_body_opt(body, 5, &code, &part, to) == NLP_OK && code == -2 && part.size == 1 && nlp_done_body_opt(body, 2, &code, &part, to) == NLP_DONE_SHORT);
        expect("the fault of a done body", is_fault(&fault, with ? 12 : 0, with ? 2 : 0, 0));
        fault = (struct nlp_fault){ 0, 0, 0, 0 };
    }
}

static void canonical(void)
{
    uint8_t to_bytes[24];
    struct nlp_fault fault = { 0, 0, 0, 0 };
    for (int with = 0; with < 2; with++) {
        struct nlp_fault *to = with ? &fault : NULL;
        size_t size = 0;
        uint32_t yes = 0;
        expect("a block", nlp_attrs_normalize_opt(block, 5, to_bytes, sizeof to_bytes, &size, to) == NLP_OK && size == 8 && memcmp(to_bytes, block, 8) == 0);
        expect("no block", nlp_attrs_normalize_opt(block, sizeof block, to_bytes, sizeof to_bytes, &size, to) == NLP_ATTR_CUT && is_fault(&fault, with ? 6 : 0, with ? 6 : 0, with ? 9 : 0));
        fault = (struct nlp_fault){ 0, 0, 0, 0 };
        expect("a frame is canonical", nlp_frame_is_canonical_opt(bytes, 24, &yes, to) == NLP_OK && yes == 1);
        expect("a canonical frame", nlp_frame_normalize_opt(bytes, sizeof bytes, to_bytes, sizeof to_bytes, &size, to) == NLP_OK && size == 24 && memcmp(to_bytes, bytes, 24) == 0);
        expect("no frame", nlp_frame_normalize_opt(bytes, 15, to_bytes, sizeof to_bytes, &size, to) == NLP_FRAME_SHORT && is_fault(&fault, with ? 9 : 0, with ? 15 : 0, 0));
        fault = (struct nlp_fault){ 0, 0, 0, 0 };
        expect("the size of a text", nlp_describe_opt(bytes, sizeof bytes, to_bytes, sizeof to_bytes, &size, to) == NLP_NO_ROOM && size == 71);
        expect("no text", nlp_describe_opt(bytes, 15, to_bytes, sizeof to_bytes, &size, to) == NLP_FRAME_SHORT && is_fault(&fault, with ? 9 : 0, with ? 15 : 0, 0));
        fault = (struct nlp_fault){ 0, 0, 0, 0 };
        expect("the size of a text with attributes", nlp_describe_attrs_opt(bytes, sizeof bytes, 0, to_bytes, sizeof to_bytes, &size, to) == NLP_NO_ROOM && size == 75);
        expect("no text with attributes", nlp_describe_attrs_opt(bytes, 15, 0, to_bytes, sizeof to_bytes, &size, to) == NLP_FRAME_SHORT && is_fault(&fault, with ? 9 : 0, with ? 15 : 0, 0));
        fault = (struct nlp_fault){ 0, 0, 0, 0 };
    }
}

/* What the header states for noop, done, error and overrun, and for a type that is reserved. */
static void normalized(void)
{
    for (uint8_t type = 0; type <= 16; type++) {
        for (size_t len = 0; len <= 5; len++) {
            uint8_t in[24] = { (uint8_t)(16 + len), 0, 0, 0, type, 0, 3, 0, 1, 0, 0, 0, 2, 0, 0, 0, 1, 2, 3, 4, 5 }, out[24];
            size_t wanted = type == 1 ? 0 : type == 3 && len == 0 ? 4 : len, size = 99;
            bool is_short = (type == 2 && len < 4) || (type == 3 && len > 0 && len < 4), is_reserved = type == 0 || (type >= 5 && type < 16);
            uint32_t result = is_short ? (type == 2 ? NLP_ERROR_SHORT : NLP_DONE_SHORT) : is_reserved ? NLP_REFUSED : NLP_OK;
            struct nlp_fault fault = { 0, 0, 0, 0 };
            bool holds = nlp_frame_normalize_opt(in, 16 + len, out, sizeof out, &size, &fault) == result;
            if (result != NLP_OK) {
                holds = holds && size == 99 && is_fault(&fault, result, is_short ? len : 0, 0) && fault.inside == is_short;
            } else {
                in[0] = (uint8_t)(16 + wanted);
                if (type == 3 && len == 0)
                    memset(in + 16, 0, 4);
                holds = holds && size == 16 + wanted && memcmp(in, out, size) == 0;
            }
            expect("a normalized frame", holds);
        }
    }
}

static void answers(void)
{
    /* A noop, a message and 4 bytes that are no message. */
    uint8_t stream[48] = { 17, 0, 0, 0, 1 };
    const struct nlp_header header = { 0, 18, 5, 7, 0 };
    struct nlp_fault fault = { 0, 0, 0, 0 };
    struct nlp_message message;
    struct nlp_reply reply;
    struct nlp_replies replies;
    memcpy(stream + 20, bytes, sizeof bytes);
    for (int with = 0; with < 2; with++) {
        struct nlp_fault *to = with ? &fault : NULL;
        size_t at = 0;
        nlp_replies_begin(&header, 0, &replies);
        expect("a reply", nlp_replies_next_opt(stream, sizeof stream, &at, &replies, &reply, to) == NLP_OK && at == 44 && reply.what == NLP_MESSAGE);
        expect("its message", nlp_reply_message(stream, &reply, &message) == NLP_OK && message.payload.offset == 36 && message.payload.size == 8
            && message.header.length == 24 && message.header.sequence_number == 7);
        expect("no reply", nlp_replies_next_opt(stream, sizeof stream, &at, &replies, &reply, to) == NLP_FRAME_SHORT && at == 48 && is_fault(&fault, with ? 9 : 0, with ? 4 : 0, 0));
    }
}

/* A frame with each kind of attribute, by hand. */
static const uint8_t wanted[128] = { 128, 0, 0, 0, 20, 0, 6, 2, 7, 0, 0, 0, 9, 0, 0, 0, 1, 2, 3, 4,
    5, 0, 1, 0, 0x11, 0, 0, 0, 6, 0, 2, 0, 0x22, 0x11, 0, 0, 8, 0, 3, 0, 0x44, 0x33, 0x22, 0x11,
    12, 0, 4, 0, 0x88, 0x77, 0x66, 0x55, 0x44, 0x33, 0x22, 0x11, 6, 0, 5, 0x40, 0x11, 0x22, 0, 0, 8, 0, 6, 0, 0x11, 0x22, 0x33, 0x44,
    12, 0, 7, 0, 0x11, 0x22, 0x33, 0x44, 0x55, 0x66, 0x77, 0x88, 4, 0, 8, 0, 7, 0, 9, 0, 'l', 'o', 0, 0, 7, 0, 10, 0, 1, 2, 3, 0,
    24, 0, 11, 0x80, 5, 0, 1, 0, 5, 0, 0, 0, 12, 0, 12, 0x80, 8, 0, 3, 0, 6, 0, 0, 0 };

/* Writes that frame, and in the middle a nest that is taken back. */
static void write_all(struct nlp_writer *writer)
{
    static const uint8_t fixed[4] = { 1, 2, 3, 4 };
    const struct nlp_header header = { 0, 18, 1, 7, 9 };
    const struct nlp_frame_mark frame = nlp_writer_frame(writer, &header, fixed, sizeof fixed);
    nlp_writer_put_u8(writer, 1, 0x11);
    nlp_writer_put_u16(writer, 2, 0x1122);
    nlp_writer_put_u32(writer, 3, 0x11223344);
    nlp_writer_put_u64(writer, 4, 0x1122334455667788);
    const struct nlp_nest_mark none = nlp_writer_nest(writer, 3);
    nlp_writer_put_flag(writer, 1);
    nlp_writer_nest_cancel(writer, none);
    nlp_writer_put_be16(writer, 0x4005, 0x1122);
    nlp_writer_put_be32(writer, 6, 0x11223344);
    nlp_writer_put_be64(writer, 7, 0x1122334455667788);
    nlp_writer_put_flag(writer, 8);
    nlp_writer_put_str(writer, 9, "lo");
    nlp_writer_put(writer, 10, fixed, 3);
    const struct nlp_nest_mark outer = nlp_writer_nest(writer, 0x400b);
    nlp_writer_put_u8(writer, 1, 5);
    const struct nlp_nest_mark inner = nlp_writer_nest(writer, 12);
    nlp_writer_put_u32(writer, 3, 6);
    nlp_writer_nest_end(writer, inner);
    nlp_writer_nest_end(writer, outer);
    nlp_writer_set_type(writer, frame, 20);
    nlp_writer_set_flags(writer, frame, 0x206);
    nlp_writer_frame_end(writer, frame);
}

static void writes(void)
{
    uint8_t buffer[160];
    memset(buffer, 0xff, sizeof buffer);
    struct nlp_writer writer = nlp_writer_begin(buffer, sizeof buffer);
    expect("a new writer", writer.buffer == buffer && writer.capacity == sizeof buffer && writer.at == 0 && writer.failed == NLP_OK);
    write_all(&writer);
    expect("what is written", writer.failed == NLP_OK && writer.at == sizeof wanted && memcmp(buffer, wanted, sizeof wanted) == 0 && buffer[128] == 0xff);
    writer = nlp_writer_begin(buffer, sizeof wanted);
    write_all(&writer);
    expect("a buffer of exactly that size", writer.failed == NLP_OK && writer.at == sizeof wanted);
    const struct nlp_header header = { 0, 18, 0, 0, 0 };
    writer = nlp_writer_begin(buffer, 40);
    const struct nlp_frame_mark first = nlp_writer_frame(&writer, &header, NULL, 0);
    nlp_writer_frame_end(&writer, first);
    const struct nlp_frame_mark second = nlp_writer_frame(&writer, &header, "x", 1);
    nlp_writer_set_type(&writer, second, 0x1234);
    nlp_writer_frame_end(&writer, second);
    expect("two frames", writer.failed == NLP_OK && writer.at == 36 && first.start == 0 && second.start == 16 && buffer[0] == 16 && buffer[16] == 20
        && buffer[4] == 18 && buffer[20] == 0x34 && buffer[21] == 0x12 && buffer[22] == 0);
}

/* A frame that is taken back, and one that is written in its place. */
static void takes_back(void)
{
    const struct nlp_header header = { 0, 18, 0, 0, 0 };
    uint8_t buffer[40];
    struct nlp_writer writer = nlp_writer_begin(buffer, sizeof buffer);
    const struct nlp_frame_mark first = nlp_writer_frame(&writer, &header, NULL, 0);
    nlp_writer_frame_end(&writer, first);
    const struct nlp_frame_mark none = nlp_writer_frame(&writer, &header, "x", 1);
    nlp_writer_put_flag(&writer, 1);
    nlp_writer_frame_cancel(&writer, none);
    expect("a frame is taken back", writer.failed == NLP_OK && writer.at == 16 && buffer[0] == 16);
    const struct nlp_frame_mark second = nlp_writer_frame(&writer, &header, NULL, 0);
    nlp_writer_frame_end(&writer, second);
    expect("another frame in its place", writer.failed == NLP_OK && writer.at == 32 && second.start == 16 && buffer[16] == 16);
}

/* A buffer that is too small: the writer fails once, and writes nothing after that. */
static void fails(void)
{
    bool stays = true, same = true;
    for (size_t capacity = 0; capacity < sizeof wanted; capacity++) {
        uint8_t buffer[sizeof wanted + 4];
        memset(buffer, 0xff, sizeof buffer);
        struct nlp_writer writer = nlp_writer_begin(buffer, capacity);
        write_all(&writer);
        stays = stays && writer.failed == NLP_NO_ROOM && writer.at <= capacity && writer.capacity == capacity;
        for (size_t i = capacity; i < sizeof buffer; i++)
            same = same && buffer[i] == 0xff;
        const size_t at = writer.at;
        nlp_writer_put_flag(&writer, 1);
        nlp_writer_nest_end(&writer, (struct nlp_nest_mark){ SIZE_MAX });
        nlp_writer_frame_cancel(&writer, (struct nlp_frame_mark){ 0 });
        stays = stays && writer.at == at && writer.failed == NLP_NO_ROOM;
    }
    expect("a failure stays", stays);
    expect("nothing past the capacity", same);
}

/* Marks that are none of this writer, and values that are too long. */
static void misuses(void)
{
    static const size_t starts[4] = { 1, 17, SIZE_MAX - 6, SIZE_MAX };
    static const uint8_t value[65532];
    const struct nlp_header header = { 0, 18, 1, 0, 0 };
    uint8_t buffer[16];
    bool frames_end = true, nests_end = true, set = true, cancels = true;
    for (size_t i = 0; i < 4; i++) {
        struct nlp_writer writer = nlp_writer_begin(buffer, sizeof buffer);
        const struct nlp_frame_mark frame = nlp_writer_frame(&writer, &header, NULL, 0);
        struct nlp_writer other = writer;
        nlp_writer_frame_end(&other, (struct nlp_frame_mark){ starts[i] });
        frames_end = frames_end && other.failed == NLP_NO_PLACE && other.at == 16;
        other = writer;
        nlp_writer_nest_end(&other, (struct nlp_nest_mark){ starts[i] });
        nests_end = nests_end && other.failed == NLP_NO_PLACE && other.at == 16;
        other = writer;
        nlp_writer_set_flags(&other, (struct nlp_frame_mark){ starts[i] }, 0x1122);
        nlp_writer_set_type(&other, frame, 0x1122);
        set = set && other.failed == NLP_NO_PLACE && buffer[4] == 18 && buffer[6] == 1;
        other = writer;
        nlp_writer_nest_cancel(&other, (struct nlp_nest_mark){ starts[i] });
        cancels = cancels && other.at == (i == 0 ? 1u : 16u) && other.failed == (i == 0 ? NLP_OK : NLP_NO_PLACE);
        other = writer;
        nlp_writer_frame_cancel(&other, (struct nlp_frame_mark){ starts[i] });
        cancels = cancels && other.at == (i == 0 ? 1u : 16u) && other.failed == (i == 0 ? NLP_OK : NLP_NO_PLACE);
    }
    expect("the end of no frame", frames_end);
    expect("the end of no nest", nests_end);
    expect("the flags of no frame", set);
    expect("no nest and no frame is taken back", cancels);
    struct nlp_writer writer = nlp_writer_begin(buffer, sizeof buffer);
    nlp_writer_put(&writer, 1, value, sizeof value);
    expect("a value that is too long", writer.failed == NLP_TOO_LONG && writer.at == 0);
    writer = nlp_writer_begin(NULL, 0);
    nlp_writer_put_flag(&writer, 1);
    expect("no buffer", writer.failed == NLP_NO_ROOM && writer.at == 0);
}

int main(void)
{
    walks();
    reads();
    kinds();
    frames();
    canonical();
    normalized();
    answers();
    writes();
    takes_back();
    fails();
    misuses();
    printf("%d passed, %d failed\n", passed, failed);
    return failed != 0;
}
