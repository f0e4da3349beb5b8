/* The calls that read frames, answers and extended acknowledgements, compared with the model. */
#ifndef FUZZ_ANSWERS_H
#define FUZZ_ANSWERS_H

#include "fuzz_read.h"

enum { CAPPED = 0x100, ACK_TLVS = 0x200, MULTI = 2, WANTS_ACK = 4, DUMP_INTR = 0x10 };

static const struct nlp_message no_message = { { 1, 2, 3, 4, 5 }, { 6, 7 } };

static bool same_header(const struct nlp_header *a, const struct nlp_header *b)
{
    return a->length == b->length && a->message_type == b->message_type && a->flags == b->flags
        && a->sequence_number == b->sequence_number && a->port_number == b->port_number;
}

static void walk_frames(const struct input *in)
{
    struct nlp_message *item = place(OUT, sizeof *item);
    struct nlp_part *frame = place(EXTRA, sizeof *frame);
    size_t *at = place(CURSOR, sizeof *at), start = in->args[0] < 192 ? 0 : near(in->args[1], in->len), next = start;
    uint32_t result;
    do {
        struct nlp_fault wanted = begin_fault();
        struct nlp_message expected = *item = no_message;
        *at = start;
        result = message_step(in->bytes, in->len, &next, &expected, &wanted);
        RESULT(OPT(nlp_message_read, in->bytes, in->len, at, item), result);
        CHECK(*at == next);
        CHECK(same_header(&item->header, &expected.header));
        CHECK(same_part(&item->payload, &expected.payload));
        check_fault(&wanted);
        const struct nlp_part part = { expected.payload.offset - 16, expected.payload.size + 16 };
        *frame = no_part;
        *at = start;
        begin_fault();
        CHECK(OPT(nlp_frames_next, in->bytes, in->len, at, frame) == result);
        CHECK(*at == next);
        CHECK(same_part(frame, result == NLP_OK ? &part : &no_part));
        check_fault(&wanted);
        start = next;
    } while (result != NLP_END);
}

/* The same messages, up to 16 in a call. */
static void walk_batches(const struct input *in)
{
    struct nlp_message_batch *batch = place(EXTRA, sizeof *batch), expected;
    uint32_t result;
    memset(batch, 0xee, sizeof *batch);
    batch->cursor = in->args[0] < 192 ? 0 : near(in->args[1], in->len);
    do {
        struct nlp_fault wanted = begin_fault();
        expected = *batch;
        result = model_fill(in->bytes, in->len, &expected, &wanted);
        RESULT(OPT(nlp_messages_fill, in->bytes, in->len, batch), result);
        CHECK(memcmp(batch, &expected, sizeof expected) == 0);
        check_fault(&wanted);
    } while (result != NLP_END);
}

/* And one by one. */
static void read_messages(const struct input *in)
{
    struct nlp_messages *walk = place(EXTRA, sizeof *walk);
    size_t at = 0;
    uint32_t result;
    memset(walk, 0xee, sizeof *walk);
    nlp_messages_begin(walk, in->bytes, in->len);
    do {
        struct nlp_fault wanted = walk->fault = no_fault;
        struct nlp_message expected = no_message;
        result = message_step(in->bytes, in->len, &at, &expected, &wanted);
        const struct nlp_message *item = nlp_messages_next(walk);
        CHECK((item != NULL) == (result == NLP_OK));
        RESULT(walk->result, result);
        CHECK(item == NULL || same_header(&item->header, &expected.header));
        CHECK(item == NULL || same_part(&item->payload, &expected.payload));
        CHECK(same_fault(&walk->fault, &wanted));
    } while (result != NLP_END);
}

static void find_attrs(const struct input *in)
{
    struct nlp_message *message = place(CURSOR, sizeof *message), one = no_message;
    struct nlp_part *part = place(OUT, sizeof *part), expected = *part = no_part;
    struct nlp_fault ignored;
    const size_t fixed = near(in->args[2], in->len);
    size_t at = 0;
    uint32_t result = NLP_OK;
    if (in->args[3] >= 192 || message_step(in->bytes, in->len, &at, &one, &ignored) != NLP_OK)
        one.payload = (struct nlp_part){ near(in->args[0], in->len), near(in->args[1], in->len) };
    *message = one;
    if (one.payload.size > SIZE_MAX - one.payload.offset) {
        result = NLP_NO_PLACE;
    } else if (fixed > one.payload.size) {
        result = NLP_WRONG_SIZE;
    } else {
        const size_t before = past(0, fixed, one.payload.size);
        expected = (struct nlp_part){ one.payload.offset + before, one.payload.size - before };
    }
    RESULT(nlp_message_attrs(message, fixed, part), result);
    CHECK(same_part(part, &expected));
    CHECK(same_header(&message->header, &one.header) && same_part(&message->payload, &one.payload));
}

/* The frame at the start of the bytes: nlp_frame_check, _header and _payload. */
static void read_frame(const struct input *in)
{
    struct nlp_header *header = place(OUT, sizeof *header), before = *header = no_message.header;
    struct nlp_part *payload = place(CURSOR, sizeof *payload), expected = *payload = no_part;
    struct nlp_message message = no_message;
    struct nlp_fault none = no_fault, found = no_fault;
    size_t at = 0;
    uint32_t result = message_step(in->bytes, in->len, &at, &message, &found);
    if (result == NLP_END) {
        result = NLP_FRAME_SHORT;
        found = (struct nlp_fault){ NLP_FRAME_SHORT, 0, 0, 0 };
    }
    begin_fault();
    RESULT(OPT(nlp_frame_check, in->bytes, in->len), result);
    check_fault(&found);
    begin_fault();
    if (result == NLP_OK)
        expected = (struct nlp_part){ 16, message.payload.size };
    CHECK(OPT(nlp_frame_payload, in->bytes, in->len, payload) == result);
    CHECK(same_part(payload, &expected));
    check_fault(&found);
    begin_fault();
    if (result == NLP_FRAME_CUT || result == NLP_FRAME_LENGTH)
        before = (struct nlp_header){ (uint32_t)number(in->bytes, 4, false), (uint16_t)number(in->bytes + 4, 2, false),
            (uint16_t)number(in->bytes + 6, 2, false), (uint32_t)number(in->bytes + 8, 4, false),
            (uint32_t)number(in->bytes + 12, 4, false) };
    else
        before = result == NLP_OK ? message.header : before;
    CHECK(OPT(nlp_frame_header, in->bytes, in->len, header) == (in->len < 16 ? NLP_FRAME_SHORT : NLP_OK));
    CHECK(same_header(header, &before));
    check_fault(in->len < 16 ? &found : &none);
}

/* The size of the request after the code of an error message, before it is cut. */
static size_t request_size(const uint8_t *body, size_t left, uint16_t flags)
{
    const size_t said = flags & CAPPED || left < 16 ? 16 : (size_t)number(body, 4, false);
    return said < 16 ? 16 : said;
}

static void read_error(const struct input *in)
{
    const uint16_t flags = (uint16_t)((in->args[0] & 3u) << 8 | (in->args[0] >= 192 ? in->args[1] : 0));
    struct nlp_error *body = place(OUT, sizeof *body), expected = { 90, { 89, 88 }, { 87, 86 } };
    struct nlp_fault wanted = begin_fault();
    uint32_t result = NLP_OK;
    *body = expected;
    if (in->len < 4) {
        result = NLP_ERROR_SHORT;
        wanted = (struct nlp_fault){ NLP_ERROR_SHORT, 0, in->len, 0 };
    } else {
        const size_t left = in->len - 4, said = request_size(in->bytes + 4, left, flags);
        const size_t after = flags & ACK_TLVS && aligned(said) < left ? left - aligned(said) : 0;
        expected.code = (int32_t)number(in->bytes, 4, false);
        expected.request = (struct nlp_part){ 4, said < left ? said : left };
        expected.attributes = (struct nlp_part){ in->len - after, after };
    }
    RESULT(OPT(nlp_error_body, in->bytes, in->len, flags, body), result);
    CHECK(body->code == expected.code);
    CHECK(same_part(&body->request, &expected.request));
    CHECK(same_part(&body->attributes, &expected.attributes));
    check_fault(&wanted);
}

static void read_done(const struct input *in)
{
    int32_t *code = place(OUT, sizeof *code), expected = *code = 90;
    struct nlp_part *rest = place(CURSOR, sizeof *rest), part = *rest = no_part;
    struct nlp_fault wanted = begin_fault();
    const uint32_t result = in->len > 0 && in->len < 4 ? NLP_DONE_SHORT : NLP_OK;
    if (in->len == 0) {
        expected = 0;
        part = (struct nlp_part){ 0, 0 };
    } else if (result == NLP_OK) {
        expected = (int32_t)number(in->bytes, 4, false);
        part = (struct nlp_part){ 4, in->len - 4 };
    } else {
        wanted = (struct nlp_fault){ NLP_DONE_SHORT, 0, in->len, 0 };
    }
    RESULT(OPT(nlp_done_body, in->bytes, in->len, code, rest), result);
    CHECK(*code == expected);
    CHECK(same_part(rest, &part));
    check_fault(&wanted);
}

/* What a frame of an open answer means. */
static uint32_t meaning(const uint8_t *bytes, const struct nlp_message *message, struct nlp_replies *replies,
                        struct nlp_reply *reply, struct nlp_fault *wanted)
{
    const struct nlp_request *request = &replies->request;
    const uint16_t type = message->header.message_type, flags = message->header.flags;
    const size_t at = message->payload.offset, size = message->payload.size;
    size_t said = 0;
    if ((type == 2 && size < 4) || (type == 3 && size > 0 && size < 4)) {
        *wanted = (struct nlp_fault){ type == 2 ? NLP_ERROR_SHORT : NLP_DONE_SHORT, 1, size, 0 };
        return wanted->cause;
    }
    reply->what = type == 3 ? NLP_DONE : type == 4 ? NLP_OVERRUN : NLP_MESSAGE;
    if ((type == 2 || type == 3) && size > 0) {
        const size_t left = size - 4;
        reply->code = (int32_t)number(bytes + at, 4, false);
        if (type == 2) {
            said = request_size(bytes + at + 4, left, flags);
            reply->what = reply->code == 0 ? NLP_ACKNOWLEDGED : NLP_REJECTED;
        }
        if (reply->what == NLP_REJECTED)
            reply->request = (struct nlp_part){ at + 4, said < left ? said : left };
        if (flags & ACK_TLVS && aligned(said) < left)
            reply->attributes = (struct nlp_part){ at + 4 + aligned(said), left - aligned(said) };
    }
    replies->ended = reply->what == NLP_DONE || reply->what == NLP_REJECTED
        || (reply->what == NLP_ACKNOWLEDGED && !request->is_dump)
        || (reply->what == NLP_MESSAGE && !request->is_dump && !request->wants_ack && !(flags & MULTI));
    return NLP_OK;
}

/* What nlp_replies_next does. */
static uint32_t model_replies(const uint8_t *bytes, size_t len, size_t *at, struct nlp_replies *replies,
                              struct nlp_reply *reply, struct nlp_fault *wanted)
{
    struct nlp_request *request = &replies->request;
    struct nlp_message message;
    uint32_t result;
    request->is_dump = request->is_dump != 0;
    request->wants_ack = request->wants_ack != 0;
    replies->ended = replies->ended != 0;
    replies->interrupted = replies->interrupted != 0;
    while ((result = message_step(bytes, len, at, &message, wanted)) == NLP_OK) {
        const struct nlp_header *header = &message.header;
        struct nlp_reply made = { NLP_OTHER, 0, { message.payload.offset - 16, header->length }, { 0, 0 }, { 0, 0 } };
        const bool is_own = !replies->ended && header->sequence_number == request->sequence_number
            && (request->port_number == 0 || header->port_number == request->port_number);
        replies->interrupted |= is_own && header->flags & DUMP_INTR;
        if (header->message_type == 1)
            continue;
        if (is_own)
            result = meaning(bytes, &message, replies, &made, wanted);
        if (result == NLP_OK)
            *reply = made;
        return result;
    }
    return result;
}

/* Whether two parts are the same, or both are empty, and then the second is inside. */
static bool alike(const struct nlp_part *a, const struct nlp_part *b, size_t len)
{
    return same_part(a, b) || (a->size == 0 && b->size == 0 && b->offset <= len);
}

static void read_replies(const struct input *in)
{
    struct nlp_replies *replies = place(EXTRA, sizeof *replies), state;
    struct nlp_reply *reply = place(OUT, sizeof *reply);
    size_t *at = place(CURSOR, sizeof *at), next = *at = in->args[0] < 224 ? 0 : near(in->args[1], in->len);
    const struct nlp_header header = { 1, 2, in->args[4], in->args[5] % 4, in->args[6] % 3 };
    uint32_t result;
    memset(replies, 0xee, sizeof *replies);
    nlp_replies_begin(&header, in->args[2] % 4, replies);
    state = (struct nlp_replies){ { header.sequence_number, header.port_number, in->args[2] % 4 != 0,
                                    (header.flags & WANTS_ACK) != 0 }, 0, 0 };
    CHECK(memcmp(replies, &state, sizeof state) == 0);
    if (in->args[3] >= 192)
        *replies = state = (struct nlp_replies){ { header.sequence_number, header.port_number, in->args[2] % 4,
                                                   in->args[3] % 3 }, in->args[3] / 3 % 3, in->args[3] / 9 % 3 };
    do {
        struct nlp_reply expected = { 90, 89, { 88, 87 }, { 86, 85 }, { 84, 83 } };
        struct nlp_fault wanted = begin_fault();
        *reply = expected;
        result = model_replies(in->bytes, in->len, &next, &state, &expected, &wanted);
        RESULT(OPT(nlp_replies_next, in->bytes, in->len, at, replies, reply), result);
        CHECK(*at == next);
        CHECK(memcmp(replies, &state, sizeof state) == 0);
        CHECK(reply->what == expected.what && reply->code == expected.code);
        CHECK(same_part(&reply->frame, &expected.frame));
        CHECK(alike(&expected.request, &reply->request, in->len));
        CHECK(alike(&expected.attributes, &reply->attributes, in->len));
        check_fault(&wanted);
        if (result == NLP_OK) {
            struct nlp_message *message = place(FAULT, sizeof *message), read = no_message;
            size_t from = reply->frame.offset;
            *message = read;
            CHECK(nlp_reply_message(in->bytes, reply, message) == NLP_OK);
            CHECK(message_step(in->bytes, in->len, &from, &read, &wanted) == NLP_OK);
            CHECK(same_header(&message->header, &read.header) && same_part(&message->payload, &read.payload));
        }
    } while (result != NLP_END);
}

/* The value of the first attribute of a kind, counting those before an error. */
static bool first_value(const uint8_t *block, size_t len, uint16_t kind, struct nlp_part *value)
{
    struct nlp_attr one;
    struct nlp_fault ignored;
    size_t at = 0;
    while (step(block, len, &at, &one, &ignored) == NLP_OK)
        if ((one.kind & NLP_KIND_MASK) == kind) {
            *value = (struct nlp_part){ one.offset, one.size };
            return true;
        }
    return false;
}

static void read_ack(const struct input *in)
{
    const uint16_t kind = in->args[0] % 6 + 1;
    struct nlp_part *part = place(OUT, sizeof *part), value = *part = no_part;
    uint32_t *sum = place(CURSOR, sizeof *sum), wanted = *sum = 90, result;
    bool is_found = first_value(in->bytes, in->len, kind, &value);
    if (kind == 1 || kind == 3 || kind == 4) {
        if (kind == 1 && is_found && value.size > 0 && in->bytes[value.offset + value.size - 1] == 0)
            value.size--;
        result = kind == 1 ? nlp_ext_ack_text(in->bytes, in->len, part)
            : kind == 3 ? nlp_ext_ack_cookie(in->bytes, in->len, part) : nlp_ext_ack_policy(in->bytes, in->len, part);
    } else {
        is_found = is_found && value.size == 4;
        wanted = is_found ? (uint32_t)number(in->bytes + value.offset, 4, false) : wanted;
        value = no_part;
        result = kind == 2 ? nlp_ext_ack_offset(in->bytes, in->len, sum)
            : kind == 5 ? nlp_ext_ack_missing_type(in->bytes, in->len, sum)
            : nlp_ext_ack_missing_nest(in->bytes, in->len, sum);
    }
    RESULT(result, is_found ? NLP_OK : NLP_NO_PLACE);
    CHECK(same_part(part, &value));
    CHECK(*sum == wanted);
}

/* Whether bytes are only attributes. Finds the one that contains an offset. */
static bool is_block(const uint8_t *block, size_t len, size_t offset, struct nlp_attr *found)
{
    struct nlp_attr one;
    struct nlp_fault ignored;
    size_t at = 0;
    uint32_t result;
    found->offset = 0;
    while ((result = step(block, len, &at, &one, &ignored)) == NLP_OK)
        if (offset >= one.offset - 4 && offset < one.offset + one.size)
            *found = one;
    return result == NLP_END;
}

/* The kinds on the path to an offset of a request. Returns how many there are. */
static size_t model_path(const uint8_t *request, size_t len, size_t fixed, size_t offset, uint16_t kinds[MAX_LEN])
{
    struct nlp_attr found;
    size_t count = 0;
    if (offset < 16 || offset - 16 < fixed || fixed + 16 > len)
        return 0;
    request += 16 + fixed;
    len -= 16 + fixed;
    offset -= 16 + fixed;
    while (is_block(request, len, offset, &found) && found.offset != 0) {
        kinds[count++] = found.kind & NLP_KIND_MASK;
        if (offset < found.offset)
            break;
        offset -= found.offset;
        request += found.offset;
        len = found.size;
    }
    return count;
}

/* The first bytes are the attributes, and the others the request. */
static void find_path(const struct input *in)
{
    static uint16_t expected[MAX_LEN];
    const size_t split = in->args[0] < in->len ? in->args[0] : in->len, len = in->len - split;
    const size_t fixed = in->args[1] < 240 ? in->args[1] % 5 * 4 : near(in->args[1], len), capacity = in->args[2] % 8;
    uint8_t *request = place(EXTRA, len);
    uint16_t *kinds = place(BUFFER, capacity * sizeof *kinds);
    size_t *count = place(CURSOR, sizeof *count), all = 0;
    struct nlp_part value;
    if (len != 0)
        memcpy(request, in->bytes + split, len);
    memset(kinds, 0xee, capacity * sizeof *kinds);
    *count = 90;
    if (first_value(in->bytes, split, 2, &value) && value.size == 4)
        all = model_path(request, len, fixed, (size_t)number(in->bytes + value.offset, 4, false), expected);
    RESULT(nlp_ext_ack_path(in->bytes, split, request, len, fixed, kinds, capacity, count),
           all <= capacity ? NLP_OK : NLP_NO_ROOM);
    CHECK(*count == all);
    for (size_t i = 0; i < capacity; i++)
        CHECK(kinds[i] == (i < all ? expected[i] : 0xeeee));
}

#endif
