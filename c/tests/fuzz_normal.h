/* The canonical forms and the texts of errors, compared with the model. */
#ifndef FUZZ_NORMAL_H
#define FUZZ_NORMAL_H

#include "fuzz_write.h"

/* What is written out, which may be longer than the input. */
struct made {
    uint8_t bytes[8 * MAX_LEN + 95];
    size_t size;
};

/* Compares a buffer of a capacity near the size that is needed. `result` is that of the model without a buffer. */
#define WRITES_OUT(call, made, result, argument) do { \
        const size_t capacity = capacity_near(argument, (made)->size); \
        uint8_t *buffer = place(BUFFER, capacity); \
        size_t *size = place(CURSOR, sizeof *size); \
        const bool fits_in = (made)->size <= capacity; \
        const uint32_t outcome = (result) != NLP_OK ? (result) : fits_in ? NLP_OK : NLP_NO_ROOM; \
        memset(buffer, 0xee, capacity); \
        if (outcome != NLP_OK) \
            memset((made)->bytes, 0xee, sizeof (made)->bytes); \
        else if (capacity > (made)->size) \
            memset((made)->bytes + (made)->size, 0xee, capacity - (made)->size); \
        *size = 90; \
        RESULT(call, outcome); \
        CHECK(*size == ((result) == NLP_OK ? (made)->size : 90)); \
        CHECK(memcmp(buffer, (made)->bytes, capacity < sizeof (made)->bytes ? capacity : sizeof (made)->bytes) == 0); \
    } while (0)

/* Writes the canonical block. */
static uint32_t model_block(const uint8_t *bytes, size_t len, struct made *made, struct nlp_fault *wanted)
{
    struct nlp_attr one;
    uint32_t result;
    size_t at = 0;
    made->size = 0;
    while ((result = step(bytes, len, &at, &one, wanted)) == NLP_OK) {
        memcpy(made->bytes + made->size, bytes + one.offset - 4, one.size + 4);
        memset(made->bytes + made->size + one.size + 4, 0, aligned(one.size) - one.size);
        made->size += 4 + aligned(one.size);
    }
    return result == NLP_END ? NLP_OK : result;
}

static void normalize_attrs(const struct input *in)
{
    static struct made made;
    struct nlp_fault wanted = begin_fault();
    const uint32_t result = model_block(in->bytes, in->len, &made, &wanted);
    const bool is_same = result == NLP_OK && made.size == in->len
        && (in->len == 0 || memcmp(made.bytes, in->bytes, in->len) == 0);
    CHECK(nlp_attrs_is_canonical(in->bytes, in->len) == is_same);
    WRITES_OUT(OPT(nlp_attrs_normalize, in->bytes, in->len, buffer, capacity, size), &made, result, in->args[0]);
    check_fault(&wanted);
}

/* Writes the canonical frame. */
static uint32_t model_frame(const uint8_t *bytes, size_t len, struct made *made, struct nlp_fault *wanted)
{
    static const uint8_t zeros[4];
    struct nlp_message message;
    size_t at = 0;
    uint32_t result = message_step(bytes, len, &at, &message, wanted);
    if (result != NLP_OK) {
        if (result == NLP_END)
            *wanted = (struct nlp_fault){ NLP_FRAME_SHORT, 1, 0, 0 };
        wanted->inside = 1;
        return wanted->cause;
    }
    const uint16_t type = message.header.message_type;
    size_t size = message.payload.size;
    const uint8_t *payload = bytes + 16;
    if (type == 0 || (type >= 5 && type < 16)) {
        *wanted = (struct nlp_fault){ NLP_REFUSED, 0, 0, 0 };
        return NLP_REFUSED;
    }
    if ((type == 2 && size < 4) || (type == 3 && size > 0 && size < 4)) {
        *wanted = (struct nlp_fault){ type == 2 ? NLP_ERROR_SHORT : NLP_DONE_SHORT, 1, size, 0 };
        return wanted->cause;
    }
    if (type == 1)
        size = 0;
    if (type == 3 && size == 0) {
        payload = zeros;
        size = 4;
    }
    made->size = 16 + size;
    memcpy(made->bytes, bytes, 16);
    memcpy(made->bytes + 16, payload, size);
    write_number(made->bytes, 4, false, made->size);
    return NLP_OK;
}

static void normalize_frame(const struct input *in)
{
    static struct made made;
    uint32_t *canonical = place(OUT, sizeof *canonical);
    struct nlp_fault wanted = begin_fault();
    const uint32_t result = model_frame(in->bytes, in->len, &made, &wanted);
    const bool is_same = result == NLP_OK && made.size == in->len && memcmp(made.bytes, in->bytes, in->len) == 0;
    *canonical = 90;
    CHECK(OPT(nlp_frame_is_canonical, in->bytes, in->len, canonical) == NLP_OK);
    CHECK(*canonical == is_same);
    check_fault(&no_fault);
    WRITES_OUT(OPT(nlp_frame_normalize, in->bytes, in->len, buffer, capacity, size), &made, result, in->args[0]);
    check_fault(&wanted);
}

/* The texts of the errors by number: %s is the size, and %w the other number. */
static const char *const texts[17] = {
    [2] = "Invalid MAC address. Expected 6 bytes, received %s bytes",
    [3] = "Invalid IP address. Expected 4 or 16 bytes, received %s bytes",
    [4] = "Invalid number. Expected %w bytes, received %s bytes",
    [5] = "buffer has length %s, but an NLA header is %w bytes",
    [6] = "buffer has length: %s, but the NLA is %w bytes",
    [7] = "NLA has invalid length: %w (should be at least %s bytes)",
    [8] = "Buffer too small: %s (should be at least %w bytes",
    [9] = "invalid netlink buffer length caused by invalid netlink buffer: "
          "length is %s but netlink packets are at least 16 bytes",
    [10] = "invalid netlink buffer length caused by invalid netlink buffer: "
           "length field says %w the buffer is %s bytes long",
    [11] = "invalid netlink buffer length caused by invalid netlink buffer: "
           "length field says %w but netlink packets are at least 16 bytes",
    [12] = "invalid DoneBuffer length caused by invalid DoneBuffer: "
           "length is %s but DoneBuffer are at least 4 bytes",
    [13] = "invalid ErrorBuffer length caused by invalid ErrorBuffer: "
           "length is %s but ErrorBuffer are at least 4 bytes",
    [15] = "message does not fit a 32-bit length",
    [16] = "out of memory",
};

static void append_number(struct made *made, size_t sum)
{
    uint8_t digits[20];
    size_t count = 0;
    do {
        digits[count++] = (uint8_t)('0' + sum % 10);
        sum /= 10;
    } while (sum != 0);
    while (count > 0)
        made->bytes[made->size++] = digits[--count];
}

static void append_text(struct made *made, const char *text, size_t size, size_t wanted)
{
    for (; *text != 0; text++)
        if (*text == '%')
            append_number(made, *++text == 's' ? size : wanted);
        else
            made->bytes[made->size++] = (uint8_t)*text;
}

static void text_of_fault(const struct input *in)
{
    static struct made made;
    const uint32_t cause = in->args[1] < 224 ? in->args[1] % 18 : in->args[1] * 0x01010101u, inside = in->args[2] % 3;
    const size_t shift = in->args[4] % 8 * 8;
    struct nlp_fault *numbers = place(FAULT, sizeof *numbers);
    const size_t wanted = in->args[7] < 64 ? UINT32_MAX - (size_t)1 + in->args[7] % 4 : (size_t)in->args[5] << shift;
    *numbers = (struct nlp_fault){ cause, inside, (size_t)in->args[3] << shift, wanted };
    const struct nlp_fault before = *numbers;
    const bool is_text = cause < 17 && texts[cause] != NULL
        && ((cause != 10 && cause != 11) || numbers->wanted <= UINT32_MAX);
    made.size = 0;
    if (is_text) {
        if (inside != 0 && cause >= 9 && cause <= 13)
            append_text(&made, cause == 12 ? "failed to parse NLMSG_DONE caused by "
                        : cause == 13 ? "failed parsing NLMSG_ERROR caused by "
                        : "failed deserializing NetlinkMessage caused by ", 0, 0);
        append_text(&made, texts[cause], numbers->size, numbers->wanted);
    }
    const uint32_t result = is_text ? NLP_OK : NLP_NO_PLACE;
    WRITES_OUT(nlp_fault_text(numbers, buffer, capacity, size), &made, result, in->args[0]);
    CHECK(same_fault(numbers, &before));
}

/* Adds bytes in hexadecimal, or `-` if there are none, and a line feed. */
static void append_bytes(struct made *made, const uint8_t *bytes, size_t size)
{
    for (size_t i = 0; i < size; i++) {
        made->bytes[made->size++] = (uint8_t)"0123456789abcdef"[bytes[i] >> 4];
        made->bytes[made->size++] = (uint8_t)"0123456789abcdef"[bytes[i] & 15];
    }
    append_text(made, size == 0 ? "-\n" : "\n", 0, 0);
}

/* Reads the frame that the bytes begin with, and adds the lines of its header. */
static uint32_t append_header(struct made *made, const struct input *in, struct nlp_message *message, struct nlp_fault *wanted)
{
    size_t at = 0;
    const uint32_t result = message_step(in->bytes, in->len, &at, message, wanted);
    made->size = 0;
    if (result == NLP_END) {
        *wanted = (struct nlp_fault){ NLP_FRAME_SHORT, 0, 0, 0 };
        return NLP_FRAME_SHORT;
    }
    if (result == NLP_OK) {
        append_text(made, "length %s\ntype %w\n", message->header.length, message->header.message_type);
        append_text(made, "flags %s\nsequence %w\n", message->header.flags, message->header.sequence_number);
        append_text(made, "port %s\n", message->header.port_number, 0);
    }
    return result;
}

static void text_of_frame(const struct input *in)
{
    static struct made made;
    struct nlp_message message;
    struct nlp_fault wanted = begin_fault();
    const uint32_t result = append_header(&made, in, &message, &wanted);
    if (result == NLP_OK) {
        append_text(&made, "payload ", 0, 0);
        append_bytes(&made, in->bytes + 16, message.header.length - 16);
    }
    WRITES_OUT(OPT(nlp_describe, in->bytes, in->len, buffer, capacity, size), &made, result, in->args[0]);
    check_fault(&wanted);
}

/* Adds the lines of the attributes of a block, and of what is left if their walk ends in an error. */
static void append_attrs(struct made *made, const uint8_t *block, size_t len)
{
    struct nlp_fault ignored;
    struct nlp_attr one;
    size_t at = 0, start = 0;
    uint32_t result;
    while ((result = step(block, len, &at, &one, &ignored)) == NLP_OK) {
        append_text(made, "attribute %s ", one.kind & 0x3fff, 0);
        append_text(made, one.kind & 0x8000 ? "N" : "-", 0, 0);
        append_text(made, one.kind & 0x4000 ? "B" : "-", 0, 0);
        append_text(made, " %s ", one.size + 4, 0);
        append_bytes(made, block + one.offset, one.size);
        start = at;
    }
    if (result != NLP_END) {
        append_text(made, "rest ", 0, 0);
        append_bytes(made, block + start, len - start);
    }
}

static void text_of_attrs(const struct input *in)
{
    static struct made made;
    struct nlp_message message;
    struct nlp_fault wanted = begin_fault();
    const uint32_t result = append_header(&made, in, &message, &wanted);
    size_t fixed = in->args[1] % 3 * 4;
    if (result == NLP_OK) {
        const size_t size = message.header.length - 16;
        if (in->args[2] < 128)
            fixed = near(in->args[1], size);
        const size_t before = fixed >= size || aligned(fixed) > size ? size : aligned(fixed);
        append_text(&made, "header ", 0, 0);
        append_bytes(&made, in->bytes + 16, before);
        append_attrs(&made, in->bytes + 16 + before, size - before);
    }
    WRITES_OUT(OPT(nlp_describe_attrs, in->bytes, in->len, fixed, buffer, capacity, size), &made, result, in->args[0]);
    check_fault(&wanted);
}

#endif
