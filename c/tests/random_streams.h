/* Random requests and datagrams: frames of few types, flags and numbers, and captured datagrams that are changed.
 * The same streams in each run. */
#ifndef RANDOM_STREAMS_H
#define RANDOM_STREAMS_H

#include "streams.h"

/* One of these constants, each as often as it is listed. */
#define PICK(...) \
    ((const uint32_t[]){ __VA_ARGS__ }[below(sizeof(const uint32_t[]){ __VA_ARGS__ } / sizeof(uint32_t))])

/* The captured streams that are changed. */
struct corpus {
    struct stream streams[64];
    size_t count;
};

/* A datagram while it is made. */
struct draft {
    uint8_t bytes[1 << 16];
    size_t len;
};

/* Returns a number below n, by xorshift. */
static inline uint32_t below(size_t n)
{
    static uint64_t state = 88172645463325252u;
    state ^= state << 13;
    state ^= state >> 7;
    state ^= state << 17;
    return (uint32_t)((state >> 16) % n);
}

static inline void put_u16(uint8_t *at, uint32_t value)
{
    at[0] = (uint8_t)value;
    at[1] = (uint8_t)(value >> 8);
}

static inline void put_u32(uint8_t *at, uint32_t value)
{
    put_u16(at, value);
    put_u16(at + 2, value >> 16);
}

/* Appends the first frame of a captured datagram. */
static inline void append_captured(struct draft *draft, const struct corpus *corpus)
{
    const struct stream *stream = &corpus->streams[below(corpus->count)];
    const struct bytes *datagram = &stream->datagrams[below(stream->count)];
    size_t size = nlp_u32(datagram->at);
    memcpy(draft->bytes + draft->len, datagram->at, size);
    draft->len += size;
}

/* Appends a frame with a body of any bytes, whose first four are often the code 0. */
static inline void append_made(struct draft *draft)
{
    uint8_t *frame = draft->bytes + draft->len;
    size_t size = HEADER + PICK(0, 0, 1, 2, 3, 4, 4, 4, 5, 8, 16, 19, 20, 20, 20, 21, 24, 36, 40);
    for (size_t i = HEADER; i < size; i++)
        frame[i] = (uint8_t)below(256);
    if (size >= HEADER + 4 && below(8) != 0)
        put_u32(frame + HEADER, PICK(0, 0, 0, 0, (uint32_t)-22, (uint32_t)-1, 5, 0x80000000));
    put_u32(frame, (uint32_t)size);
    put_u16(frame + 4, PICK(16, 16, 16, 16, 17, 20, 24, 65535, 1, 2, 2, 3, 4, 0, 5, 15));
    uint32_t flags = PICK(0, 0, 2, 2, 2, 2);
    flags |= PICK(0, 0x100, 0x200, 0x300);
    put_u16(frame + 6, below(30) == 0 ? flags | 0x10 : flags);
    draft->len += size;
}

/* Makes a datagram of frames. Each has the numbers of the request, except one in `noise`. */
static inline void make_datagram(struct draft *draft, const struct corpus *corpus, const struct nlp_request *request,
                                 size_t noise)
{
    draft->len = 0;
    for (size_t left = 1 + below(6); left > 0; left--) {
        uint8_t *frame = draft->bytes + draft->len;
        if (below(8) == 0)
            append_captured(draft, corpus);
        else
            append_made(draft);
        put_u32(frame + 8, below(noise) == 0 ? PICK(0, 1, 2) : request->sequence_number);
        put_u32(frame + 12, below(noise) == 0 || request->port_number == 0 ? PICK(0, 7, 8) : request->port_number);
        if (below(40) == 0)
            put_u32(frame, PICK(0, 15, 16, 17, 19, 20, 36, 37, 100, 0x7fffffff));
        while (draft->len % 4 != 0 && (left > 1 || below(2) == 0))
            draft->bytes[draft->len++] = (uint8_t)below(256);
    }
}

/* Changes some bytes, most of them in the first two headers, and removes some at the end. */
static inline void change(struct draft *draft)
{
    for (size_t left = below(3); left > 0; left--) {
        size_t at = below(draft->len < 36 || below(3) == 0 ? draft->len : 36);
        draft->bytes[at] = (uint8_t)(below(8) == 0 ? below(256) : PICK(0, 1, 2, 3, 4, 15, 16, 17, 255));
    }
    if (below(4) == 0)
        draft->len = 1 + below(draft->len);
}

/* Makes the length field at which the walk ends less than 2^31. libmnl 1.0.4 takes it for negative otherwise, and
 * reads outside of the datagram. */
static inline void bound_length(struct draft *draft)
{
    size_t at = 0;
    while (at + HEADER <= draft->len) {
        uint8_t *frame = draft->bytes + at;
        frame[3] &= 0x7f;
        if (nlp_u32(frame) < HEADER || nlp_u32(frame) > draft->len - at)
            return;
        at += (nlp_u32(frame) + 3u) & ~(size_t)3;
    }
}

static inline struct bytes copy_of(const uint8_t *at, size_t len)
{
    struct bytes bytes = { malloc(len), len };
    memcpy(bytes.at, at, len);
    return bytes;
}

/* Returns what identifies the answer to a captured request: its numbers, but this port number. */
static inline struct nlp_request request_of(const struct stream *stream, uint32_t port_number)
{
    const uint8_t *header = stream->request.at;
    struct nlp_request request = { nlp_u32(header + 8), port_number, stream->is_dump, nlp_u16(header + 6) & 4u };
    return request;
}

/* Returns the port number of the first frame of a captured stream. */
static inline uint32_t port_of(const struct stream *stream)
{
    return nlp_u32(stream->datagrams[0].at + 12);
}

/* Returns what identifies the answer to a request of any kind. */
static inline struct nlp_request any_request(void)
{
    struct nlp_request request;
    request.sequence_number = PICK(1, 1, 1, 1, 1, 2, 0);
    request.port_number = PICK(0, 7, 7);
    request.is_dump = below(2);
    request.wants_ack = below(2);
    return request;
}

/* Makes datagrams in `stream`, of whose request only the result is made. */
static inline struct nlp_request make_stream(struct stream *stream, const struct corpus *corpus)
{
    static struct draft draft;
    const struct stream *source = below(4) == 0 ? &corpus->streams[below(corpus->count)] : NULL;
    struct nlp_request request = any_request();
    if (source != NULL)
        request = request_of(source, below(2) == 0 ? 0 : port_of(source));
    size_t noise = PICK(4, 40, 400);
    stream->request = copy_of(draft.bytes, 0);
    stream->count = source != NULL ? source->count : 1 + below(3);
    for (size_t i = 0; i < stream->count; i++) {
        if (source != NULL) {
            draft.len = source->datagrams[i].len;
            memcpy(draft.bytes, source->datagrams[i].at, draft.len);
        } else {
            make_datagram(&draft, corpus, &request, noise);
        }
        if (source != NULL || below(4) == 0)
            change(&draft);
        bound_length(&draft);
        stream->datagrams[i] = copy_of(draft.bytes, draft.len);
    }
    return request;
}

#endif
