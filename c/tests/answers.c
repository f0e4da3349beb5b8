/* Tests the functions about answers and extended acknowledgements, as exports.c tests the others. The bytes
 * are written by hand from linux/netlink.h, or are those of the captured datagrams that are named. */
#include "netlink_packet.h"

#include <stdio.h>
#include <string.h>

static int passed, failed;

static void expect(const char *what, bool holds)
{
    if (holds) {
        passed++;
    } else {
        failed++;
        fprintf(stderr, "failed: %s\n", what);
    }
}

static bool is_fault(const struct nlp_fault *f, uint32_t cause, uint32_t inside, size_t size, size_t wanted)
{
    return f->cause == cause && f->inside == inside && f->size == size && f->wanted == wanted;
}

static bool is_part(struct nlp_part part, size_t offset, size_t size)
{
    return part.offset == offset && part.size == size;
}

/* The state of a request with sequence number 7, and no port number. */
static struct nlp_replies waiting(uint32_t is_dump, uint32_t wants_ack)
{
    const struct nlp_replies replies = { { 7, 0, is_dump, wants_ack }, 0, 0 };
    return replies;
}

static const struct nlp_reply unset = { 99, 99, { 99, 99 }, { 99, 99 }, { 99, 99 } };

static bool is_unset(const struct nlp_reply *reply)
{
    return reply->what == 99 && reply->code == 99 && is_part(reply->frame, 99, 99) && is_part(reply->request, 99, 99)
        && is_part(reply->attributes, 99, 99);
}

static void begins(void)
{
    const struct nlp_header header = { 40, 18, 0x305, 7, 9 }, plain = { 40, 18, 0x301, 8, 0 };
    struct nlp_replies replies;
    memset(&replies, 0xff, sizeof replies);
    nlp_replies_begin(&header, 0, &replies);
    expect("a request", replies.request.sequence_number == 7 && replies.request.port_number == 9 && replies.request.is_dump == 0
        && replies.request.wants_ack == 1 && replies.ended == 0 && replies.interrupted == 0);
    memset(&replies, 0xff, sizeof replies);
    nlp_replies_begin(&plain, 5, &replies);
    expect("a dump", replies.request.sequence_number == 8 && replies.request.port_number == 0 && replies.request.is_dump == 1
        && replies.request.wants_ack == 0 && replies.ended == 0 && replies.interrupted == 0);
}

/* A noop, a message, a message with sequence number 6, a message with NLM_F_DUMP_INTR and 1 byte of payload,
 * a done message with code 0, and a message. All have NLM_F_MULTI and port number 9. */
static const uint8_t dump[] = {
    16, 0, 0, 0, 1, 0, 2, 0, 7, 0, 0, 0, 9, 0, 0, 0,
    20, 0, 0, 0, 16, 0, 2, 0, 7, 0, 0, 0, 9, 0, 0, 0, 1, 2, 3, 4,
    16, 0, 0, 0, 16, 0, 2, 0, 6, 0, 0, 0, 9, 0, 0, 0,
    17, 0, 0, 0, 16, 0, 0x12, 0, 7, 0, 0, 0, 9, 0, 0, 0, 1, 0, 0, 0,
    20, 0, 0, 0, 3, 0, 2, 0, 7, 0, 0, 0, 9, 0, 0, 0, 0, 0, 0, 0,
    16, 0, 0, 0, 16, 0, 2, 0, 7, 0, 0, 0, 9, 0, 0, 0,
};

static void reads_a_dump(void)
{
    struct nlp_replies replies = waiting(5, 0);
    struct nlp_reply reply = unset;
    struct nlp_fault fault = { 0, 0, 0, 0 };
    size_t at = 0;
    expect("the first message follows the noop", nlp_replies_next(dump, sizeof dump, &at, &replies, &reply, &fault) == NLP_OK && at == 36
        && reply.what == NLP_MESSAGE && reply.code == 0 && is_part(reply.frame, 16, 20) && reply.request.size == 0 && reply.attributes.size == 0);
    expect("true becomes 1", replies.request.is_dump == 1 && replies.ended == 0 && replies.interrupted == 0);
    expect("a message with another number", nlp_replies_next(dump, sizeof dump, &at, &replies, &reply, &fault) == NLP_OK && at == 52
        && reply.what == NLP_OTHER && reply.code == 0 && is_part(reply.frame, 36, 16) && replies.interrupted == 0);
    expect("a message and its padding", nlp_replies_next(dump, sizeof dump, &at, &replies, &reply, &fault) == NLP_OK && at == 72
        && reply.what == NLP_MESSAGE && is_part(reply.frame, 52, 17) && replies.interrupted == 1 && replies.ended == 0);
    expect("the end of the dump", nlp_replies_next(dump, sizeof dump, &at, &replies, &reply, &fault) == NLP_OK && at == 92
        && reply.what == NLP_DONE && reply.code == 0 && is_part(reply.frame, 72, 20) && reply.attributes.size == 0 && replies.ended == 1
        && replies.interrupted == 1);
    expect("a message after the end", nlp_replies_next(dump, sizeof dump, &at, &replies, &reply, &fault) == NLP_OK && at == 108
        && reply.what == NLP_OTHER && is_part(reply.frame, 92, 16) && replies.ended == 1);
    reply = unset;
    expect("the end of the datagram", nlp_replies_next(dump, sizeof dump, &at, &replies, &reply, &fault) == NLP_END && at == 108
        && is_unset(&reply) && fault.cause == 0);
    at = SIZE_MAX;
    expect("a cursor past the end", nlp_replies_next(dump, sizeof dump, &at, &replies, &reply, &fault) == NLP_END && at == SIZE_MAX);
    at = 0;
    replies = waiting(1, 0);
    expect("no bytes", nlp_replies_next(NULL, 0, &at, &replies, &reply, &fault) == NLP_END && at == 0 && replies.ended == 0);
    expect("only a noop", nlp_replies_next(dump, 16, &at, &replies, &reply, &fault) == NLP_END && at == 16 && is_unset(&reply));
    at = 52;
    expect("padding that is missing", nlp_replies_next(dump, 69, &at, &replies, &reply, &fault) == NLP_OK && at == 69 && is_part(reply.frame, 52, 17));
}

static void compares_numbers(void)
{
    struct nlp_replies replies = waiting(0, 0);
    struct nlp_reply reply;
    struct nlp_fault fault;
    size_t at = 16;
    replies.request.port_number = 8;
    expect("another port number", nlp_replies_next(dump, sizeof dump, &at, &replies, &reply, &fault) == NLP_OK && reply.what == NLP_OTHER);
    replies.request.port_number = 9;
    at = 16;
    expect("the port number", nlp_replies_next(dump, sizeof dump, &at, &replies, &reply, &fault) == NLP_OK && reply.what == NLP_MESSAGE
        && replies.ended == 0);
    replies.ended = 9;
    at = 16;
    expect("an answer that has ended", nlp_replies_next(dump, sizeof dump, &at, &replies, &reply, &fault) == NLP_OK && reply.what == NLP_OTHER
        && replies.ended == 1);
}

/* An acknowledgement; an error with its whole request and the attribute (1, "no"); a reply without NLM_F_MULTI;
 * and an overrun. */
static const uint8_t ack[] = { 36, 0, 0, 0, 2, 0, 0, 1, 7, 0, 0, 0, 9, 0, 0, 0, 0, 0, 0, 0, 20, 0, 0, 0, 16, 0, 5, 0, 7, 0, 0, 0, 0, 0, 0, 0 };
static const uint8_t rejected[] = { 49, 0, 0, 0, 2, 0, 0, 2, 7, 0, 0, 0, 9, 0, 0, 0, 0xea, 0xff, 0xff, 0xff, 18, 0, 0, 0, 16, 0, 5, 0,
    7, 0, 0, 0, 0, 0, 0, 0, 1, 2, 0, 0, 7, 0, 1, 0, 'n', 'o', 0, 0, 5, 0, 0, 0 };
static const uint8_t single[] = { 16, 0, 0, 0, 16, 0, 0, 0, 7, 0, 0, 0, 9, 0, 0, 0 };
static const uint8_t overrun[] = { 16, 0, 0, 0, 4, 0, 0, 0, 7, 0, 0, 0, 9, 0, 0, 0 };

static void reads_single_answers(void)
{
    struct nlp_replies replies = waiting(0, 1);
    struct nlp_reply reply;
    struct nlp_fault fault;
    size_t at = 0;
    expect("an acknowledgement", nlp_replies_next(ack, sizeof ack, &at, &replies, &reply, &fault) == NLP_OK && at == 36
        && reply.what == NLP_ACKNOWLEDGED && reply.code == 0 && is_part(reply.frame, 0, 36) && reply.request.size == 0
        && is_part(reply.attributes, 36, 0) && replies.ended == 1);
    replies = waiting(1, 1);
    at = 0;
    expect("an acknowledgement does not end a dump", nlp_replies_next(ack, sizeof ack, &at, &replies, &reply, &fault) == NLP_OK
        && reply.what == NLP_ACKNOWLEDGED && replies.ended == 0);
    at = 0;
    expect("an error ends a dump", nlp_replies_next(rejected, sizeof rejected, &at, &replies, &reply, &fault) == NLP_OK && at == 52
        && reply.what == NLP_REJECTED && reply.code == -22 && is_part(reply.frame, 0, 49) && is_part(reply.request, 20, 18)
        && is_part(reply.attributes, 40, 9) && replies.ended == 1);
    replies = waiting(0, 0);
    at = 0;
    expect("one reply", nlp_replies_next(single, sizeof single, &at, &replies, &reply, &fault) == NLP_OK && reply.what == NLP_MESSAGE && replies.ended == 1);
    replies = waiting(0, 1);
    at = 0;
    expect("a reply before the acknowledgement", nlp_replies_next(single, sizeof single, &at, &replies, &reply, &fault) == NLP_OK
        && reply.what == NLP_MESSAGE && replies.ended == 0);
    at = 0;
    expect("an overrun", nlp_replies_next(overrun, sizeof overrun, &at, &replies, &reply, &fault) == NLP_OK && reply.what == NLP_OVERRUN
        && reply.code == 0 && is_part(reply.frame, 0, 16) && reply.request.size == 0 && reply.attributes.size == 0 && replies.ended == 0);
}

static void rejects_malformed_answers(void)
{
    struct nlp_replies replies = waiting(0, 1);
    struct nlp_reply reply = unset;
    struct nlp_fault fault;
    uint8_t bytes[40];
    size_t at = 0;
    memcpy(bytes, ack, sizeof ack);
    bytes[0] = 19;
    expect("an error message that is too short", nlp_replies_next(bytes, 36, &at, &replies, &reply, &fault) == NLP_ERROR_SHORT
        && is_fault(&fault, 13, 1, 3, 0) && at == 20 && is_unset(&reply) && replies.ended == 0);
    bytes[4] = 3;
    at = 0;
    expect("a done message that is too short", nlp_replies_next(bytes, 36, &at, &replies, &reply, &fault) == NLP_DONE_SHORT
        && is_fault(&fault, 12, 1, 3, 0) && at == 20 && is_unset(&reply) && replies.ended == 0);
    bytes[8] = 8;
    at = 0;
    expect("not of this answer", nlp_replies_next(bytes, 36, &at, &replies, &reply, &fault) == NLP_OK && reply.what == NLP_OTHER && at == 20);
    reply = unset;
    expect("a frame that is too short", nlp_replies_next(bytes, 35, &at, &replies, &reply, &fault) == NLP_FRAME_SHORT
        && is_fault(&fault, 9, 0, 15, 0) && at == 35 && is_unset(&reply));
    at = 0;
    bytes[0] = 15;
    expect("a length below a header's", nlp_replies_next(bytes, 36, &at, &replies, &reply, &fault) == NLP_FRAME_LENGTH
        && is_fault(&fault, 11, 0, 0, 15) && at == 36);
    at = 0;
    bytes[0] = 37;
    expect("a frame that is cut", nlp_replies_next(bytes, 36, &at, &replies, &reply, &fault) == NLP_FRAME_CUT
        && is_fault(&fault, 10, 0, 36, 37) && at == 36 && is_unset(&reply) && replies.ended == 0);
}

/* A text, an offset of 68, a cookie of 2 bytes, a policy with the nested flag, a missing kind, the offset of a
 * nest, a second text, and 2 bytes that are no attribute. */
static const uint8_t attributes[] = { 7, 0, 1, 0, 'n', 'o', 0, 0, 8, 0, 2, 0, 68, 0, 0, 0, 6, 0, 3, 0, 0xaa, 0xbb, 0, 0, 8, 0, 4, 0x80, 4, 0, 1, 0,
    8, 0, 5, 0, 0x12, 0x34, 0, 0, 8, 0, 6, 0, 48, 0, 0, 0, 5, 0, 1, 0, 'x', 0, 0, 0, 1, 2 };

static void reads_acknowledgements(void)
{
    static const uint8_t bare[] = { 6, 0, 1, 0, 'n', 'o', 0, 0, 7, 0, 2, 0, 1, 2, 3, 0, 9, 0, 5, 0, 1, 2, 3, 4, 5, 0, 0, 0, 4, 0, 3, 0, 3, 0, 6, 0, 1, 2, 3, 4 };
    struct nlp_part part = { 9, 9 };
    uint32_t number = 9;
    expect("no attributes", nlp_ext_ack_text(NULL, 0, &part) == NLP_NO_PLACE && nlp_ext_ack_cookie(NULL, 0, &part) == NLP_NO_PLACE
        && nlp_ext_ack_policy(NULL, 0, &part) == NLP_NO_PLACE && is_part(part, 9, 9));
    expect("no integers", nlp_ext_ack_offset(NULL, 0, &number) == NLP_NO_PLACE && nlp_ext_ack_missing_type(NULL, 0, &number) == NLP_NO_PLACE
        && nlp_ext_ack_missing_nest(NULL, 0, &number) == NLP_NO_PLACE && number == 9);
    expect("the first text", nlp_ext_ack_text(attributes, sizeof attributes, &part) == NLP_OK && is_part(part, 4, 2));
    expect("the cookie", nlp_ext_ack_cookie(attributes, sizeof attributes, &part) == NLP_OK && is_part(part, 20, 2));
    expect("the policy", nlp_ext_ack_policy(attributes, sizeof attributes, &part) == NLP_OK && is_part(part, 28, 4));
    expect("the offset", nlp_ext_ack_offset(attributes, sizeof attributes, &number) == NLP_OK && number == 68);
    expect("the missing kind", nlp_ext_ack_missing_type(attributes, sizeof attributes, &number) == NLP_OK && number == 0x3412);
    expect("the nest", nlp_ext_ack_missing_nest(attributes, sizeof attributes, &number) == NLP_OK && number == 48);
    expect("a text without a zero", nlp_ext_ack_text(bare, sizeof bare, &part) == NLP_OK && is_part(part, 4, 2));
    expect("an empty cookie", nlp_ext_ack_cookie(bare, sizeof bare, &part) == NLP_OK && is_part(part, 32, 0));
    number = 9;
    expect("integers of 3 and of 5 bytes", nlp_ext_ack_offset(bare, sizeof bare, &number) == NLP_NO_PLACE
        && nlp_ext_ack_missing_type(bare, sizeof bare, &number) == NLP_NO_PLACE && number == 9);
    expect("after an error", nlp_ext_ack_missing_nest(bare, sizeof bare, &number) == NLP_NO_PLACE && number == 9);
}

/* link-new-bridge-request: a name (3), and the kind (1) and data (2) of a link (18), with the state of STP (5). */
static const uint8_t bridge[76] = { 76, 0, 0, 0, 16, 0, 5, 6, 1, 0, 0, 0, 0, 0, 0, 0, 0, 0, 0, 0, 0, 0, 0, 0, 0, 0, 0, 0, 0, 0, 0, 0,
    13, 0, 3, 0, 'b', 'r', 'i', 'd', 'g', 'e', '-', '1', 0, 0, 0, 0, 28, 0, 18, 0x80, 11, 0, 1, 0, 'b', 'r', 'i', 'd', 'g', 'e', 0, 0,
    12, 0, 2, 0x80, 8, 0, 5, 0, 1, 0, 0, 0 };

static void reads_paths(void)
{
    static const uint8_t name[] = { 8, 0, 2, 0, 32, 0, 0, 0 }, header[] = { 8, 0, 2, 0, 31, 0, 0, 0 };
    uint16_t kinds[5] = { 9, 9, 9, 9, 9 };
    size_t count = 9;
    expect("three kinds", nlp_ext_ack_path(attributes, sizeof attributes, bridge, sizeof bridge, 16, kinds, 5, &count) == NLP_OK && count == 3
        && kinds[0] == 18 && kinds[1] == 2 && kinds[2] == 5 && kinds[3] == 9 && kinds[4] == 9);
    kinds[2] = 9;
    expect("room for two", nlp_ext_ack_path(attributes, sizeof attributes, bridge, sizeof bridge, 16, kinds, 2, &count) == NLP_NO_ROOM && count == 3
        && kinds[0] == 18 && kinds[1] == 2 && kinds[2] == 9);
    expect("room for all", nlp_ext_ack_path(attributes, sizeof attributes, bridge, sizeof bridge, 16, kinds, 3, &count) == NLP_OK && count == 3 && kinds[2] == 5);
    expect("no room", nlp_ext_ack_path(attributes, sizeof attributes, bridge, sizeof bridge, 16, NULL, 0, &count) == NLP_NO_ROOM && count == 3);
    expect("one kind", nlp_ext_ack_path(name, sizeof name, bridge, sizeof bridge, 16, kinds, 5, &count) == NLP_OK && count == 1 && kinds[0] == 3);
    expect("an offset in the header", nlp_ext_ack_path(header, sizeof header, bridge, sizeof bridge, 16, kinds, 5, &count) == NLP_OK && count == 0 && kinds[0] == 3);
    count = 9;
    expect("no offset", nlp_ext_ack_path(NULL, 0, bridge, sizeof bridge, 16, kinds, 5, &count) == NLP_OK && count == 0);
    count = 9;
    expect("no request", nlp_ext_ack_path(name, sizeof name, NULL, 0, 16, NULL, 0, &count) == NLP_OK && count == 0);
    expect("a fixed header that is too long", nlp_ext_ack_path(name, sizeof name, bridge, sizeof bridge, SIZE_MAX, kinds, 5, &count) == NLP_OK && count == 0);
}

int main(void)
{
    begins();
    reads_a_dump();
    compares_numbers();
    reads_single_answers();
    rejects_malformed_answers();
    reads_acknowledgements();
    reads_paths();
    printf("%d passed, %d failed\n", passed, failed);
    return failed != 0;
}
