/* Tests each function on valid, truncated and malformed bytes, and on a null pointer with a length of 0. */
#include "netlink_packet.h"

#include <stdio.h>
#include <string.h>

static int passed, failed;

static void expect(const char *what, bool holds)
{
    if (holds) {
        passed++;
    } else {
        failed++;
        fprintf(stderr, "failed: %s\n", what);
    }
}

/* A frame of type 18 with one attribute (1, aa): its payload is 8 bytes, and 4 bytes follow it. */
static const uint8_t frame[28] = { 24, 0, 0, 0, 18, 0, 1, 3, 7, 0, 0, 0, 9, 0, 0, 0, 5, 0, 1, 0, 0xaa, 0, 0, 0, 1, 2, 3, 4 };

/* Two attributes, (1, aa) and (2 with the nested flag, 01020304), and a third that is truncated. */
static const uint8_t block[22] = { 5, 0, 1, 0, 0xaa, 0, 0, 0, 8, 0, 2, 0x80, 1, 2, 3, 4, 9, 0, 3, 0, 1, 2 };

static bool is_fault(const struct nlp_fault *f, uint32_t cause, uint32_t inside, size_t size, size_t wanted)
{
    return f->cause == cause && f->inside == inside && f->size == size && f->wanted == wanted;
}

static void reads(void)
{
    struct nlp_fault fault = { 0, 0, 0, 0 };
    struct nlp_header header = { 1, 1, 1, 1, 1 };
    struct nlp_part part = { 1, 1 };
    uint8_t bad[28];
    expect("a whole frame", nlp_frame_check(frame, sizeof frame, &fault) == NLP_OK && fault.cause == 0);
    expect("no frame in no bytes", nlp_frame_check(NULL, 0, &fault) == NLP_FRAME_SHORT && is_fault(&fault, 9, 0, 0, 0));
    expect("a frame that is cut", nlp_frame_check(frame, 23, &fault) == NLP_FRAME_CUT && is_fault(&fault, 10, 0, 23, 24));
    memcpy(bad, frame, sizeof bad);
    bad[0] = 15;
    expect("a length below a header's", nlp_frame_check(bad, sizeof bad, &fault) == NLP_FRAME_LENGTH && is_fault(&fault, 11, 0, 0, 15));
    expect("no header in no bytes", nlp_frame_header(NULL, 0, &header, &fault) == NLP_FRAME_SHORT && header.length == 1);
    expect("no header in 15 bytes", nlp_frame_header(frame, 15, &header, &fault) == NLP_FRAME_SHORT && is_fault(&fault, 9, 0, 15, 0));
    expect("a header", nlp_frame_header(frame, 16, &header, &fault) == NLP_OK && header.length == 24 && header.message_type == 18
        && header.flags == 0x301 && header.sequence_number == 7 && header.port_number == 9);
    expect("no payload in no bytes", nlp_frame_payload(NULL, 0, &part, &fault) == NLP_FRAME_SHORT && part.offset == 1);
    expect("a payload", nlp_frame_payload(frame, sizeof frame, &part, &fault) == NLP_OK && part.offset == 16 && part.size == 8);
}

static void bodies(void)
{
    /* EINVAL, a request of 20 bytes with type 18, and an attribute (1, "no"). */
    static const uint8_t error[36] = { 0xea, 0xff, 0xff, 0xff, 20, 0, 0, 0, 18, 0, 5, 0, 1, 0, 0, 0, 0, 0, 0, 0, 1, 2, 3, 4,
        7, 0, 1, 0, 'n', 'o', 0, 0, 4, 0, 2, 0 };
    /* EPERM, a request whose length is 18 and one whose length is 12, each followed by the attribute (1). */
    static const uint8_t padded[28] = { 0xff, 0xff, 0xff, 0xff, 18, 0, 0, 0, 18, 0, 5, 0, 1, 0, 0, 0, 0, 0, 0, 0, 1, 2, 0, 0, 4, 0, 1, 0 };
    static const uint8_t below[24] = { 0xff, 0xff, 0xff, 0xff, 12, 0, 0, 0, 18, 0, 5, 0, 1, 0, 0, 0, 0, 0, 0, 0, 4, 0, 1, 0 };
    struct nlp_fault fault;
    struct nlp_error body = { 1, { 1, 1 }, { 1, 1 } };
    struct nlp_part rest = { 1, 1 };
    int32_t code = 1;
    expect("no error in no bytes", nlp_error_body(NULL, 0, 0, &body, &fault) == NLP_ERROR_SHORT && is_fault(&fault, 13, 0, 0, 0) && body.code == 1);
    expect("an error of a code alone", nlp_error_body(error, 4, 0x300, &body, &fault) == NLP_OK && body.code == -22
        && body.request.offset == 4 && body.request.size == 0 && body.attributes.size == 0);
    expect("an error with no attributes", nlp_error_body(error, 36, 0, &body, &fault) == NLP_OK && body.request.size == 20
        && body.attributes.offset == 36 && body.attributes.size == 0);
    expect("an error with attributes", nlp_error_body(error, 36, 0x200, &body, &fault) == NLP_OK && body.request.size == 20
        && body.attributes.offset == 24 && body.attributes.size == 12);
    expect("an error that is capped", nlp_error_body(error, 36, 0x300, &body, &fault) == NLP_OK && body.request.size == 16
        && body.attributes.offset == 20 && body.attributes.size == 16);
    expect("a request that is cut", nlp_error_body(error, 22, 0x200, &body, &fault) == NLP_OK && body.request.size == 18 && body.attributes.size == 0);
    expect("an error that is capped, without attributes", nlp_error_body(error, 36, 0x100, &body, &fault) == NLP_OK && body.request.size == 16
        && body.attributes.size == 0);
    expect("a request with padding", nlp_error_body(padded, 28, 0x200, &body, &fault) == NLP_OK && body.request.size == 18
        && body.attributes.offset == 24 && body.attributes.size == 4);
    expect("a request whose length is below 16", nlp_error_body(below, 24, 0x200, &body, &fault) == NLP_OK && body.request.size == 16
        && body.attributes.offset == 20 && body.attributes.size == 4);
    expect("a done message of 1 byte", nlp_done_body(error, 1, &code, &rest, &fault) == NLP_DONE_SHORT && is_fault(&fault, 12, 0, 1, 0) && code == 1
        && rest.size == 1);
    expect("a done message of no bytes", nlp_done_body(NULL, 0, &code, &rest, &fault) == NLP_OK && code == 0 && rest.offset == 0 && rest.size == 0);
    expect("a done message", nlp_done_body(error, 36, &code, &rest, &fault) == NLP_OK && code == -22 && rest.offset == 4 && rest.size == 32);
}

static void walks(void)
{
    struct nlp_fault fault;
    struct nlp_part part;
    struct nlp_attr attr = { 1, 1, 1 };
    size_t at = 0;
    expect("no frame is left", nlp_frames_next(NULL, 0, &at, &part, &fault) == NLP_END && at == 0);
    expect("the first frame", nlp_frames_next(frame, sizeof frame, &at, &part, &fault) == NLP_OK && part.offset == 0 && part.size == 24 && at == 24);
    expect("no second frame", nlp_frames_next(frame, sizeof frame, &at, &part, &fault) == NLP_FRAME_SHORT && is_fault(&fault, 9, 0, 4, 0) && at == 28);
    expect("the end of the frames", nlp_frames_next(frame, sizeof frame, &at, &part, &fault) == NLP_END && at == 28);
    at = SIZE_MAX;
    expect("frames past the end", nlp_frames_next(frame, sizeof frame, &at, &part, &fault) == NLP_END && at == SIZE_MAX);
    at = 0;
    expect("no attribute is left", nlp_attrs_next(NULL, 0, &at, &attr, &fault) == NLP_END && at == 0 && attr.kind == 1);
    expect("the first attribute", nlp_attrs_next(block, sizeof block, &at, &attr, &fault) == NLP_OK && attr.kind == 1 && attr.offset == 4 && attr.size == 1 && at == 8);
    expect("the second attribute", nlp_attrs_next(block, sizeof block, &at, &attr, &fault) == NLP_OK && attr.kind == 0x8002 && attr.offset == 12 && attr.size == 4 && at == 16);
    expect("the third is cut", nlp_attrs_next(block, sizeof block, &at, &attr, &fault) == NLP_ATTR_CUT && is_fault(&fault, 6, 0, 6, 9) && at == 22);
    expect("the end of the attributes", nlp_attrs_next(block, sizeof block, &at, &attr, &fault) == NLP_END && at == 22);
    at = SIZE_MAX;
    expect("attributes past the end", nlp_attrs_next(block, sizeof block, &at, &attr, &fault) == NLP_END && at == SIZE_MAX);
    at = 19;
    expect("fewer than 4 bytes", nlp_attrs_next(block, sizeof block, &at, &attr, &fault) == NLP_ATTR_SHORT && is_fault(&fault, 5, 0, 3, 4));
    at = 5;
    expect("a length of 0", nlp_attrs_next(block, 12, &at, &attr, &fault) == NLP_ATTR_LENGTH && is_fault(&fault, 7, 0, 4, 0) && at == 12);
}

static void puts_attributes(void)
{
    static const uint8_t wanted[48] = { 5, 0, 1, 0, 0x12, 0, 0, 0, 6, 0, 2, 0, 0x34, 0x12, 0, 0, 8, 0, 3, 0, 0x78, 0x56, 0x34, 0x12,
        12, 0, 4, 0, 8, 7, 6, 5, 4, 3, 2, 1, 7, 0, 5, 0, 'l', 'o', 0, 0, 4, 0, 6, 0x40 };
    uint8_t buffer[48], before[48];
    size_t at = 0;
    memset(buffer, 0xff, sizeof buffer);
    expect("a number of 1 byte", nlp_attr_put_u8(buffer, sizeof buffer, &at, 1, 0x12) == NLP_OK && at == 8);
    expect("a number of 2 bytes", nlp_attr_put_u16(buffer, sizeof buffer, &at, 2, 0x1234) == NLP_OK && at == 16);
    expect("a number of 4 bytes", nlp_attr_put_u32(buffer, sizeof buffer, &at, 3, 0x12345678) == NLP_OK && at == 24);
    expect("a number of 8 bytes", nlp_attr_put_u64(buffer, sizeof buffer, &at, 4, 0x0102030405060708) == NLP_OK && at == 36);
    expect("a text", nlp_attr_put_str(buffer, sizeof buffer, &at, 5, (const uint8_t *)"lo", 2) == NLP_OK && at == 44);
    expect("no value", nlp_attr_put(buffer, sizeof buffer, &at, 0x4006, NULL, 0) == NLP_OK && at == 48);
    expect("the bytes of what was put", memcmp(buffer, wanted, sizeof wanted) == 0);
    memcpy(before, buffer, sizeof before);
    expect("no room is left", nlp_attr_put(buffer, sizeof buffer, &at, 1, NULL, 0) == NLP_NO_ROOM && nlp_attr_put_u8(buffer, sizeof buffer, &at, 1, 1) == NLP_NO_ROOM
        && nlp_attr_put_u16(buffer, sizeof buffer, &at, 1, 1) == NLP_NO_ROOM && nlp_attr_put_u32(buffer, sizeof buffer, &at, 1, 1) == NLP_NO_ROOM
        && nlp_attr_put_u64(buffer, sizeof buffer, &at, 1, 1) == NLP_NO_ROOM && nlp_attr_put_str(buffer, sizeof buffer, &at, 1, NULL, 0) == NLP_NO_ROOM
        && nlp_nest_begin(buffer, sizeof buffer, &at, 1) == NLP_NO_ROOM && at == 48);
    at = SIZE_MAX;
    expect("no room past the end", nlp_attr_put_u32(buffer, sizeof buffer, &at, 1, 1) == NLP_NO_ROOM && at == SIZE_MAX);
    at = 41;
    expect("no room for the padding", nlp_attr_put_u8(buffer, sizeof buffer, &at, 1, 1) == NLP_NO_ROOM && at == 41);
    at = 0;
    expect("no room in no bytes", nlp_attr_put(NULL, 0, &at, 1, NULL, 0) == NLP_NO_ROOM && at == 0);
    expect("nothing was changed", memcmp(buffer, before, sizeof before) == 0);
    static uint8_t large[65540], value[65532];
    expect("a value that is too long", nlp_attr_put(large, sizeof large, &at, 1, value, 65532) == NLP_TOO_LONG && at == 0);
    expect("the longest value", nlp_attr_put(large, sizeof large, &at, 1, value, 65531) == NLP_OK && at == 65536 && large[0] == 0xff && large[1] == 0xff);
}

static void puts_frames(void)
{
    /* The frame, with its attribute inside a nest (7). */
    static const uint8_t wanted[32] = { 32, 0, 0, 0, 18, 0, 1, 3, 7, 0, 0, 0, 9, 0, 0, 0, 0xbb, 0, 0, 0, 12, 0, 7, 0x80, 5, 0, 1, 0, 0xaa, 0, 0, 0 };
    const struct nlp_header header = { 99, 18, 0x301, 7, 9 };
    uint8_t buffer[32];
    size_t at = 0;
    expect("no room for a frame", nlp_frame_put(buffer, 16, &at, &header, (const uint8_t *)"\xbb", 1) == NLP_NO_ROOM && at == 0);
    expect("no frame in no bytes", nlp_frame_put(NULL, 0, &at, &header, NULL, 0) == NLP_NO_ROOM && at == 0);
    memset(buffer, 0xff, sizeof buffer);
    expect("a frame is begun", nlp_frame_put(buffer, sizeof buffer, &at, &header, (const uint8_t *)"\xbb", 1) == NLP_OK && at == 20 && buffer[0] == 17);
    size_t nest = at;
    expect("a nest is begun", nlp_nest_begin(buffer, sizeof buffer, &at, 0x4007) == NLP_OK && at == 24 && buffer[20] == 4);
    expect("an attribute in it", nlp_attr_put(buffer, sizeof buffer, &at, 1, (const uint8_t *)"\xaa", 1) == NLP_OK && at == 32);
    expect("a nest ends in its buffer", nlp_nest_end(buffer, sizeof buffer, 36, nest) == NLP_NO_PLACE);
    expect("a nest ends behind its header", nlp_nest_end(buffer, sizeof buffer, nest, nest) == NLP_NO_PLACE);
    expect("a nest ends at a multiple of 4", nlp_nest_end(buffer, sizeof buffer, 31, nest) == NLP_NO_PLACE);
    expect("a nest does not end in front", nlp_nest_end(buffer, sizeof buffer, 32, SIZE_MAX - 3) == NLP_NO_PLACE);
    expect("no nest in no bytes", nlp_nest_end(NULL, 0, 0, 0) == NLP_NO_PLACE);
    expect("the nest is ended", nlp_nest_end(buffer, sizeof buffer, at, nest) == NLP_OK);
    expect("a frame has a header", nlp_frame_end(buffer, sizeof buffer, 12, 0) == NLP_NO_PLACE);
    expect("no frame in no bytes", nlp_frame_end(NULL, 0, 0, 0) == NLP_NO_PLACE);
    expect("the frame is ended", nlp_frame_end(buffer, sizeof buffer, at, 0) == NLP_OK);
    expect("the bytes of the frame", memcmp(buffer, wanted, sizeof wanted) == 0);
    static uint8_t large[65540];
    expect("a nest that is too long", nlp_nest_end(large, sizeof large, 65536, 0) == NLP_TOO_LONG && large[0] == 0);
    expect("the longest nest", nlp_nest_end(large, sizeof large, 65532, 0) == NLP_OK && large[0] == 0xfc && large[1] == 0xff);
}

static void normal_forms(void)
{
    static const uint8_t loose[9] = { 5, 0, 1, 0, 0xaa, 1, 2, 3, 4 };
    static const uint8_t tight[8] = { 5, 0, 1, 0, 0xaa, 0, 0, 0 };
    uint8_t copy[22], buffer[32];
    struct nlp_fault fault;
    size_t size = 1;
    uint32_t canonical = 7;
    memcpy(copy, block, sizeof copy);
    expect("a value is written over", nlp_attr_write(copy, sizeof copy, 1, (const uint8_t *)"\4\3\2\1", 4) == NLP_OK && memcmp(copy + 12, "\4\3\2\1\11", 5) == 0);
    expect("a value of another size", nlp_attr_write(copy, sizeof copy, 1, (const uint8_t *)"\4\3\2\1", 3) == NLP_NO_PLACE);
    expect("no such attribute", nlp_attr_write(copy, sizeof copy, 2, NULL, 0) == NLP_NO_PLACE && nlp_attr_write(NULL, 0, 0, NULL, 0) == NLP_NO_PLACE);
    expect("a canonical block", nlp_attrs_is_canonical(tight, 8) && nlp_attrs_is_canonical(NULL, 0));
    expect("blocks that are not", !nlp_attrs_is_canonical(loose, 8) && !nlp_attrs_is_canonical(tight, 5) && !nlp_attrs_is_canonical(block, 22));
    memset(buffer, 0xff, sizeof buffer);
    expect("a block is normalised", nlp_attrs_normalize(loose, 8, buffer, 8, &size, &fault) == NLP_OK && size == 8 && memcmp(buffer, tight, 8) == 0 && buffer[8] == 0xff);
    expect("a block of no bytes", nlp_attrs_normalize(NULL, 0, NULL, 0, &size, &fault) == NLP_OK && size == 0);
    expect("no room for a block", nlp_attrs_normalize(loose, 8, NULL, 0, &size, &fault) == NLP_NO_ROOM && size == 8);
    expect("a damaged block", nlp_attrs_normalize(block, 22, buffer, 8, &size, &fault) == NLP_ATTR_CUT && is_fault(&fault, 6, 0, 6, 9));
    expect("a canonical frame", nlp_frame_is_canonical(frame, 24, &canonical, &fault) == NLP_OK && canonical == 1);
    expect("a frame with a rest", nlp_frame_is_canonical(frame, 28, &canonical, &fault) == NLP_OK && canonical == 0);
    expect("no canonical frame", nlp_frame_is_canonical(NULL, 0, &canonical, &fault) == NLP_OK && canonical == 0);
    expect("a frame is normalised", nlp_frame_normalize(frame, 28, buffer, 32, &size, &fault) == NLP_OK && size == 24 && memcmp(buffer, frame, 24) == 0);
    expect("no room for a frame", nlp_frame_normalize(frame, 28, buffer, 23, &size, &fault) == NLP_NO_ROOM && size == 24);
    expect("no frame to normalise", nlp_frame_normalize(NULL, 0, buffer, 32, &size, &fault) == NLP_FRAME_SHORT && is_fault(&fault, 9, 1, 0, 0));
    memcpy(buffer, frame, 28);
    buffer[4] = 15;
    expect("a type below 16 is refused", nlp_frame_normalize(buffer, 28, copy, sizeof copy, &size, &fault) == NLP_REFUSED && fault.cause == 14);
}

static bool has_text(uint32_t cause, uint32_t inside, size_t size, size_t wanted, const char *text)
{
    const struct nlp_fault fault = { cause, inside, size, wanted };
    uint8_t buffer[200];
    size_t len = 0;
    return nlp_fault_text(&fault, buffer, sizeof buffer, &len) == NLP_OK && len == strlen(text) && memcmp(buffer, text, len) == 0
        && nlp_fault_text(&fault, buffer, len - 1, &len) == NLP_NO_ROOM && len == strlen(text);
}

static void texts(void)
{
    const struct nlp_fault none = { 0, 0, 0, 0 }, words = { 14, 0, 0, 0 }, long_length = { 10, 0, 1, SIZE_MAX };
    size_t size = 1;
    expect("the text of 5", has_text(5, 0, 3, 4, "buffer has length 3, but an NLA header is 4 bytes"));
    expect("the text of 6", has_text(6, 0, 15, 4733, "buffer has length: 15, but the NLA is 4733 bytes"));
    expect("the text of 7", has_text(7, 0, 4, 1, "NLA has invalid length: 1 (should be at least 4 bytes)"));
    expect("the text of 15", has_text(15, 0, 0, 0, "message does not fit a 32-bit length"));
    expect("the text of 16", has_text(16, 0, 0, 0, "out of memory"));
    expect("numbers of no cause", nlp_fault_text(&none, NULL, 0, &size) == NLP_NO_PLACE && nlp_fault_text(&words, NULL, 0, &size) == NLP_NO_PLACE
        && nlp_fault_text(&long_length, NULL, 0, &size) == NLP_NO_PLACE);
}

/* The text of a frame: with its payload, or with its attributes after a fixed header of this size. */
static uint32_t describe(const uint8_t *bytes, size_t len, const size_t *fixed, uint8_t *buffer, size_t capacity, size_t *size, struct nlp_fault *fault)
{
    return fixed == NULL ? nlp_describe(bytes, len, buffer, capacity, size, fault)
        : nlp_describe_attrs(bytes, len, *fixed, buffer, capacity, size, fault);
}

/* Whether the bytes have this text: with enough room, with exactly enough, with one byte less, and without a buffer. */
static bool is_described(const uint8_t *bytes, size_t len, const size_t *fixed, const char *text)
{
    struct nlp_fault fault = { 1, 2, 3, 4 };
    uint8_t buffer[300], untouched[300];
    const size_t wanted = strlen(text);
    size_t size = 0;
    memset(buffer, 0xee, sizeof buffer);
    memset(untouched, 0xee, sizeof untouched);
    bool holds = describe(bytes, len, fixed, NULL, 0, &size, &fault) == NLP_NO_ROOM && size == wanted;
    size = 0;
    holds = holds && describe(bytes, len, fixed, buffer, wanted - 1, &size, &fault) == NLP_NO_ROOM && size == wanted
        && memcmp(buffer, untouched, sizeof buffer) == 0;
    size = 0;
    holds = holds && describe(bytes, len, fixed, buffer, wanted, &size, &fault) == NLP_OK && size == wanted
        && memcmp(buffer, text, wanted) == 0 && memcmp(buffer + wanted, untouched, sizeof buffer - wanted) == 0;
    memset(buffer, 0xee, sizeof buffer);
    return holds && describe(bytes, len, fixed, buffer, sizeof buffer, &size, &fault) == NLP_OK && size == wanted
        && memcmp(buffer, text, wanted) == 0 && memcmp(buffer + wanted, untouched, sizeof buffer - wanted) == 0
        && is_fault(&fault, 1, 2, 3, 4);
}

/* Frames of up to 20 bytes with length fields from 14 to 21: a text or the error, and nothing else changes. */
static bool are_refused(const size_t *fixed)
{
    uint8_t bytes[20], buffer[100], untouched[100];
    bool holds = true;
    memset(buffer, 0xee, sizeof buffer);
    memset(untouched, 0xee, sizeof untouched);
    memcpy(bytes, frame, sizeof bytes);
    for (size_t len = 0; len <= 20; len++) {
        for (uint8_t said = 14; said <= 21; said++) {
            struct nlp_fault fault = { 1, 2, 3, 4 };
            size_t size = 99;
            bytes[0] = said;
            const uint32_t result = describe(len == 0 ? NULL : bytes, len, fixed, buffer, sizeof buffer, &size, &fault);
            holds = holds && (len < 16 ? result == NLP_FRAME_SHORT && is_fault(&fault, 9, 0, len, 0)
                : said > len ? result == NLP_FRAME_CUT && is_fault(&fault, 10, 0, len, said)
                : said < 16 ? result == NLP_FRAME_LENGTH && is_fault(&fault, 11, 0, 0, said)
                : result == NLP_OK && is_fault(&fault, 1, 2, 3, 4));
            holds = holds && (result == NLP_OK || (size == 99 && memcmp(buffer, untouched, sizeof buffer) == 0));
            memset(buffer, 0xee, sizeof buffer);
        }
    }
    return holds;
}

static void descriptions(void)
{
    static const uint8_t largest[17] = { 17, 0, 0, 0, 0xff, 0xff, 0xff, 0xff, 0xff, 0xff, 0xff, 0xff, 0xff, 0xff, 0xff, 0xff, 0xff };
    static const uint8_t empty[16] = { 16, 0, 0, 0, 10, 0, 0, 0, 0, 202, 154, 59 };
    expect("the text of a frame", is_described(frame, sizeof frame, NULL, "length 24\ntype 18\nflags 769\nsequence 7\nport 9\npayload 05000100aa000000\n"));
    expect("the text of the largest numbers", is_described(largest, 17, NULL, "length 17\ntype 65535\nflags 65535\nsequence 4294967295\nport 4294967295\npayload ff\n"));
    expect("the text of a header", is_described(empty, 16, NULL, "length 16\ntype 10\nflags 0\nsequence 1000000000\nport 0\npayload -\n"));
    expect("the text of bad bytes", are_refused(NULL));
}

/* The text of a frame with its attributes. The frame has a fixed header of 3 bytes, its padding, an attribute for each of
 * the flag bits, and what `end` says. */
static void attribute_descriptions(void)
{
    static const uint8_t header[16] = { 52, 0, 0, 0, 16, 0, 2, 0, 7, 0, 0, 0, 9, 0, 0, 0 };
    static const uint8_t attributes[36] = { 1, 2, 3, 99, 7, 0, 3, 0, 'l', 'o', 0, 0, 4, 0, 18, 0x80, 5, 0, 255, 0x7f, 0xab, 0, 0, 0,
        8, 0, 255, 0xff, 1, 2, 3, 4, 4, 0, 0, 0 };
    static const char begin[] = "length 52\ntype 16\nflags 2\nsequence 7\nport 9\nheader 01020363\nattribute 3 -- 7 6c6f00\nattribute 18 N- 4 -\n"
        "attribute 16383 -B 5 ab\nattribute 16383 NB 8 01020304\n";
    static const size_t sizes[6] = { 0, 3, 4, 36, 37, SIZE_MAX };
    uint8_t bytes[52];
    char text[300];
    memcpy(bytes, header, 16);
    memcpy(bytes + 16, attributes, 36);
    snprintf(text, sizeof text, "%sattribute 0 -- 4 -\n", begin);
    expect("the text of attributes", is_described(bytes, 52, &sizes[1], text) && is_described(bytes, 52, &sizes[2], text));
    bytes[48] = 3;
    snprintf(text, sizeof text, "%srest 03000000\n", begin);
    expect("the text of an attribute that is too short", is_described(bytes, 52, &sizes[1], text));
    bytes[48] = 5;
    snprintf(text, sizeof text, "%srest 05000000\n", begin);
    expect("the text of an attribute that is cut", is_described(bytes, 52, &sizes[1], text));
    bytes[0] = 50;
    memcpy(text, "length 50", 9);
    memcpy(text + strlen(text) - 5, "\n", 2);
    expect("the text of a rest of two bytes", is_described(bytes, 52, &sizes[1], text));
    bytes[0] = 45;
    snprintf(text, sizeof text, "length 45%s", begin + 9);
    memcpy(strstr(text, "NB"), "NB 5 01\n", 9);
    bytes[40] = 5;
    expect("the text without the last padding", is_described(bytes, 52, &sizes[1], text));
    bytes[0] = 19;
    expect("the text of a fixed header without its padding", is_described(bytes, 52, &sizes[1], "length 19\ntype 16\nflags 2\nsequence 7\nport 9\nheader 010203\n"));
    expect("the text without a fixed header", is_described(bytes, 52, &sizes[0], "length 19\ntype 16\nflags 2\nsequence 7\nport 9\nheader -\nrest 010203\n"));
    bytes[0] = 52;
    for (int i = 3; i < 6; i++)
        expect("the text of a fixed header alone", is_described(bytes, 52, &sizes[i], "length 52\ntype 16\nflags 2\nsequence 7\nport 9\nheader 01020363"
            "070003006c6f0000040012800500ff7fab0000000500ffff0102030405000000\n"));
    bytes[0] = 16;
    expect("the text without a payload", is_described(bytes, 16, &sizes[1], "length 16\ntype 16\nflags 2\nsequence 7\nport 9\nheader -\n"));
    for (int i = 0; i < 6; i++)
        expect("the text of bad bytes", are_refused(&sizes[i]));
}

int main(void)
{
    reads();
    bodies();
    walks();
    puts_attributes();
    puts_frames();
    normal_forms();
    texts();
    descriptions();
    attribute_descriptions();
    printf("%d passed, %d failed\n", passed, failed);
    return failed != 0;
}
