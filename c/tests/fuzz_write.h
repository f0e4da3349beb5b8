/* The calls that write attributes and frames, and the struct nlp_writer, compared with the model. */
#ifndef FUZZ_WRITE_H
#define FUZZ_WRITE_H

#include "fuzz_answers.h"

enum { VALUE_MAX = 65531, CAPACITY = 512, MARKS = 4 };

/* The model of a writer. */
struct draft {
    uint8_t bytes[CAPACITY];
    size_t capacity, at;
    uint32_t failed;
};

/* Begins a model and its buffer, whose bytes are neither zeros nor a length. */
static uint8_t *begin_draft(struct draft *draft, size_t capacity)
{
    uint8_t *buffer = place(BUFFER, capacity);
    memset(buffer, 0xee, capacity);
    memset(draft->bytes, 0xee, capacity);
    draft->capacity = capacity;
    draft->at = 0;
    draft->failed = NLP_OK;
    return buffer;
}

/* Writes a header, a value and padding at the cursor, if there is room. Returns what a put returns. */
static uint32_t model_write(struct draft *draft, const uint8_t *header, size_t header_len, const void *value,
                            size_t len)
{
    const size_t whole = aligned(header_len + len);
    if (draft->at > draft->capacity || whole > draft->capacity - draft->at)
        return NLP_NO_ROOM;
    memset(draft->bytes + draft->at, 0, whole);
    memcpy(draft->bytes + draft->at, header, header_len);
    if (len != 0)
        memcpy(draft->bytes + draft->at + header_len, value, len);
    draft->at += whole;
    return NLP_OK;
}

static uint32_t model_put(struct draft *draft, uint16_t kind, const void *value, size_t len)
{
    uint8_t header[4];
    write_number(header, 2, false, 4 + len);
    write_number(header + 2, 2, false, kind);
    return len > VALUE_MAX ? NLP_TOO_LONG : model_write(draft, header, 4, value, len);
}

static uint32_t model_put_number(struct draft *draft, uint16_t kind, size_t size, bool is_big, uint64_t sum)
{
    uint8_t value[8];
    write_number(value, size, is_big, sum);
    return model_put(draft, kind, value, size);
}

static uint32_t model_put_frame(struct draft *draft, const struct nlp_header *header, const void *fixed, size_t len)
{
    uint8_t bytes[16];
    write_number(bytes, 4, false, 16 + len);
    write_number(bytes + 4, 2, false, header->message_type);
    write_number(bytes + 6, 2, false, header->flags);
    write_number(bytes + 8, 4, false, header->sequence_number);
    write_number(bytes + 12, 4, false, header->port_number);
    return len > UINT32_MAX - 16 ? NLP_TOO_LONG : model_write(draft, bytes, 16, fixed, len);
}

static uint16_t nested_kind(uint16_t kind)
{
    return (uint16_t)((kind & NLP_KIND_MASK) | NLP_KIND_NESTED);
}

/* What nlp_nest_end and nlp_frame_end return: `least` is the size of the header, and `most` what the length can be. */
static uint32_t end_result(size_t capacity, size_t cursor, size_t start, size_t least, size_t most)
{
    if (cursor > capacity || start > cursor || cursor - start < least || (cursor - start) % 4 != 0)
        return NLP_NO_PLACE;
    return cursor - start > most ? NLP_TOO_LONG : NLP_OK;
}

static uint32_t model_end(struct draft *draft, size_t start, bool is_frame)
{
    const uint32_t result =
        end_result(draft->capacity, draft->at, start, is_frame ? 16 : 4, is_frame ? UINT32_MAX : UINT16_MAX);
    if (result == NLP_OK)
        write_number(draft->bytes + start, is_frame ? 4 : 2, false, draft->at - start);
    return result;
}

static struct nlp_header header_from(const struct input *in)
{
    const uint8_t *args = in->args;
    return (struct nlp_header){ args[3] * 0x01010101u, (uint16_t)(args[4] << 8 | args[5]),
        (uint16_t)(args[5] << 8 | args[6]), args[6] * 0x01020304u, args[7] * 0x04030201u };
}

/* One put, whose value is a part of the bytes. */
static void put_one(const struct input *in)
{
    static struct draft draft;
    const uint16_t kind = (uint16_t)(in->args[1] << 8 | in->args[2]);
    const uint32_t which = in->args[0] % 13;
    const uint64_t sum = number(&in->args[3], 8, false);
    const size_t len = in->len < in->args[4] ? in->len : in->args[4], whole = aligned(5 + (which > 10 ? len + 16 : 4));
    const size_t capacity = capacity_near(in->args[8], whole + in->args[9] % 32);
    uint8_t *buffer = begin_draft(&draft, capacity > CAPACITY ? CAPACITY : capacity);
    size_t *at = place(CURSOR, sizeof *at);
    struct nlp_header *header = place(OUT, sizeof *header), one = *header = header_from(in);
    *at = draft.at = in->args[9] < 128 ? in->args[9] % 32u : near(in->args[9], draft.capacity);
#define PUT(name, value, model) RESULT(name(buffer, draft.capacity, at, kind, value), model); break
    switch (which) {
    case 0: PUT(nlp_attr_put_u8, (uint8_t)sum, model_put_number(&draft, kind, 1, false, sum));
    case 1: PUT(nlp_attr_put_u16, (uint16_t)sum, model_put_number(&draft, kind, 2, false, sum));
    case 2: PUT(nlp_attr_put_u32, (uint32_t)sum, model_put_number(&draft, kind, 4, false, sum));
    case 3: PUT(nlp_attr_put_u64, sum, model_put_number(&draft, kind, 8, false, sum));
    case 4: PUT(nlp_attr_put_be16, (uint16_t)sum, model_put_number(&draft, kind, 2, true, sum));
    case 5: PUT(nlp_attr_put_be32, (uint32_t)sum, model_put_number(&draft, kind, 4, true, sum));
    case 6: PUT(nlp_attr_put_be64, sum, model_put_number(&draft, kind, 8, true, sum));
    case 7:
        RESULT(nlp_attr_put_flag(buffer, draft.capacity, at, kind), model_put(&draft, kind, NULL, 0));
        break;
    case 8:
        RESULT(nlp_nest_begin(buffer, draft.capacity, at, kind), model_put(&draft, nested_kind(kind), NULL, 0));
        break;
    case 9: {
        static uint8_t text[MAX_LEN + 1];
        if (len != 0)
            memcpy(text, in->bytes, len);
        text[len] = 0;
        RESULT(nlp_attr_put_str(buffer, draft.capacity, at, kind, in->bytes, len),
               model_put(&draft, kind, text, len + 1));
        break;
    }
    case 10:
        RESULT(nlp_attr_put(buffer, draft.capacity, at, kind, in->bytes, len), model_put(&draft, kind, in->bytes, len));
        break;
    default:
        RESULT(nlp_frame_put(buffer, draft.capacity, at, header, in->bytes, len),
               model_put_frame(&draft, header, in->bytes, len));
    }
#undef PUT
    CHECK(same_header(header, &one));
    CHECK(*at == draft.at);
    CHECK(memcmp(buffer, draft.bytes, draft.capacity) == 0);
}

/* Values and frames that are too long, or the longest. What does not fit must not be read. */
static void put_long(const struct input *in)
{
    static struct draft draft;
    static const uint8_t header[4] = { 0xff, 0xff, 0x34, 0x12 };
    const size_t sizes[4] = { VALUE_MAX + 1 + in->args[1], 65536 + in->args[1], UINT32_MAX, UINT32_MAX + (size_t)1 };
    const size_t len = sizes[in->args[0] % 4], fixed = (size_t)UINT32_MAX - 32 + in->args[1] % 64;
    const struct nlp_header one = header_from(in);
    uint8_t *buffer = begin_draft(&draft, 40);
    size_t *at = place(CURSOR, sizeof *at);
    *at = 0;
    RESULT(nlp_attr_put(buffer, 40, at, 1, far_bytes, len), NLP_TOO_LONG);
    RESULT(nlp_attr_put_str(buffer, 40, at, 1, far_bytes, len - 1), NLP_TOO_LONG);
    RESULT(nlp_attr_put_str(buffer, 40, at, 1, far_bytes, VALUE_MAX - 1), NLP_NO_ROOM);
    RESULT(nlp_frame_put(buffer, 40, at, &one, far_bytes, fixed),
           fixed > UINT32_MAX - 16u ? NLP_TOO_LONG : NLP_NO_ROOM);
    CHECK(*at == 0 && memcmp(buffer, draft.bytes, 40) == 0);
    if (in->args[2] != 0)
        return;
    const size_t room = VALUE_MAX + 5 + in->args[1] % 4;
    uint8_t *value = place(EXTRA, VALUE_MAX), *large = place(BUFFER, room);
    memset(value, in->args[3], VALUE_MAX);
    memset(large, 0xee, room);
    RESULT(nlp_attr_put(large, room, at, 0x1234, value, VALUE_MAX), NLP_OK);
    CHECK(*at == VALUE_MAX + 5 && memcmp(large, header, 4) == 0 && memcmp(large + 4, value, VALUE_MAX) == 0);
    CHECK(large[VALUE_MAX + 4] == 0 && (room == VALUE_MAX + 5 || large[VALUE_MAX + 5] == 0xee));
}

/* Ends a nest or a frame in a buffer that may be longer than a length counts. Only its first page can be used. */
static void end_one(const struct input *in)
{
    static struct draft draft;
    static const size_t spans[16] = { 0, 4, 8, 12, 16, 20, 24, 15, 17, 65532, 65536, 65535, 0xfffffff8, 0xfffffffc,
        0x100000000, 0x100000004 };
    const bool is_frame = in->args[0] % 2 != 0, is_far = in->args[0] % 4 >= 2;
    const size_t few = in->args[5] % 64, start = in->args[1] < 192 ? in->args[1] % 64 : near(in->args[1], few);
    const size_t cursor = start + spans[in->args[2] % 16] + (in->args[3] < 224 ? 0 : in->args[3] % 4u);
    const size_t capacity = in->args[4] < 128 ? cursor - in->args[4] / 126 : cursor + in->args[4] % 32;
    const size_t shown = is_far ? 128 : few, room = !is_far ? few : capacity > far_size ? far_size : capacity;
    uint8_t *buffer = begin_draft(&draft, shown);
    const uint32_t result = end_result(room, cursor, start, is_frame ? 16 : 4, is_frame ? UINT32_MAX : UINT16_MAX);
    if (is_far)
        buffer = far_bytes;
    memset(buffer, 0xee, shown);
    if (result == NLP_OK)
        write_number(draft.bytes + start, is_frame ? 4 : 2, false, cursor - start);
    if (is_frame)
        RESULT(nlp_frame_end(buffer, room, cursor, start), result);
    else
        RESULT(nlp_nest_end(buffer, room, cursor, start), result);
    CHECK(memcmp(buffer, draft.bytes, shown) == 0);
}

/* One call of a writer, and the same of the model. `bytes` choose it, and are what it puts. */
static void write_one(struct nlp_writer *writer, struct draft *draft, const struct input *in, const uint8_t bytes[16],
                      struct nlp_frame_mark *frame, struct nlp_nest_mark *nest)
{
    const uint32_t which = bytes[0] % 20;
    const uint16_t kind = (uint16_t)(bytes[2] << 8 | bytes[3]);
    const uint64_t sum = number(bytes + 4, 8, false);
    const size_t at = draft->at, len = bytes[4] % 12u;
    const struct nlp_header header = header_from(in);
    uint32_t result = NLP_OK;
    if (bytes[1] >= 240)
        frame->start = nest->start = near(bytes[12], at);
    const bool is_set = frame->start <= at && at - frame->start >= 16;
#define DO(call, model) call; if (draft->failed == NLP_OK) result = (model); break
    switch (which) {
    case 0: DO(nlp_writer_put_u8(writer, kind, (uint8_t)sum), model_put_number(draft, kind, 1, false, sum));
    case 1: DO(nlp_writer_put_u16(writer, kind, (uint16_t)sum), model_put_number(draft, kind, 2, false, sum));
    case 2: DO(nlp_writer_put_u32(writer, kind, (uint32_t)sum), model_put_number(draft, kind, 4, false, sum));
    case 3: DO(nlp_writer_put_u64(writer, kind, sum), model_put_number(draft, kind, 8, false, sum));
    case 4: DO(nlp_writer_put_be16(writer, kind, (uint16_t)sum), model_put_number(draft, kind, 2, true, sum));
    case 5: DO(nlp_writer_put_be32(writer, kind, (uint32_t)sum), model_put_number(draft, kind, 4, true, sum));
    case 6: DO(nlp_writer_put_be64(writer, kind, sum), model_put_number(draft, kind, 8, true, sum));
    case 7: DO(nlp_writer_put_flag(writer, kind), model_put(draft, kind, NULL, 0));
    case 8: DO(nlp_writer_put(writer, kind, bytes + 4, len), model_put(draft, kind, bytes + 4, len));
    case 9: {
        char *text = place(EXTRA, len + 1);
        memset(text, 'a' + bytes[5] % 26, len);
        text[len] = 0;
        DO(nlp_writer_put_str(writer, kind, text), model_put(draft, kind, text, len + 1));
    }
    case 10: case 11:
        DO(*frame = nlp_writer_frame(writer, &header, bytes + 4, len); CHECK(frame->start == at),
           model_put_frame(draft, &header, bytes + 4, len));
    case 12: case 13:
        DO(*nest = nlp_writer_nest(writer, kind); CHECK(nest->start == at),
           model_put(draft, nested_kind(kind), NULL, 0));
    case 14: case 15: DO(nlp_writer_nest_end(writer, *nest), model_end(draft, nest->start, false));
    case 16: DO(nlp_writer_frame_end(writer, *frame), model_end(draft, frame->start, true));
    case 17: {
        const size_t offset = bytes[4] % 3 == 0 ? 4 : bytes[4] % 3 == 1 ? 6 : bytes[5] % 15u;
        if (bytes[4] % 3 == 0)
            nlp_writer_set_type(writer, *frame, kind);
        else if (bytes[4] % 3 == 1)
            nlp_writer_set_flags(writer, *frame, kind);
        else
            nlp_writer_set(writer, *frame, offset, kind);
        result = draft->failed != NLP_OK || is_set ? NLP_OK : NLP_NO_PLACE;
        if (draft->failed == NLP_OK && is_set)
            write_number(draft->bytes + frame->start + offset, 2, false, kind);
        break;
    }
    default:
        nlp_writer_nest_cancel(writer, *nest);
        result = draft->failed != NLP_OK || nest->start <= at ? NLP_OK : NLP_NO_PLACE;
        if (draft->failed == NLP_OK && result == NLP_OK)
            draft->at = nest->start;
    }
#undef DO
    if (draft->failed == NLP_OK)
        draft->failed = result;
}

/* A sequence of calls of a writer: 16 bytes choose each. */
static void write_all(const struct input *in)
{
    static struct draft draft;
    const size_t capacity = in->args[0] * 2 % (CAPACITY + 1);
    uint8_t *buffer = begin_draft(&draft, capacity);
    struct nlp_writer writer = nlp_writer_begin(buffer, capacity);
    struct nlp_frame_mark frames[MARKS] = { { 0 }, { 0 }, { 0 }, { 0 } };
    struct nlp_nest_mark nests[MARKS] = { { 0 }, { 0 }, { 0 }, { 0 } };
    CHECK(writer.failed == NLP_OK && writer.at == 0 && writer.buffer == buffer && writer.capacity == capacity);
    for (size_t i = 0; i + 16 <= in->len; i += 16) {
        const uint8_t *bytes = in->bytes + i;
        write_one(&writer, &draft, in, bytes, &frames[bytes[1] % MARKS], &nests[bytes[1] / 4 % MARKS]);
        CHECK(writer.at == draft.at);
        RESULT(writer.failed, draft.failed);
    }
    CHECK(writer.buffer == buffer && writer.capacity == capacity);
    CHECK(memcmp(buffer, draft.bytes, capacity) == 0);
}

#endif
