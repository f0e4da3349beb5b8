/* A request and the datagrams that a socket received after it was sent, read from standard input. */
#ifndef STREAMS_H
#define STREAMS_H

#include "netlink_packet.h"

#include <stdio.h>
#include <stdlib.h>
#include <string.h>

enum { DATAGRAMS = 32, HEADER = 16 };

/* Bytes in an allocation of this size, so that the sanitizers detect a read past their end. */
struct bytes {
    uint8_t *at;
    size_t len;
};

struct stream {
    uint32_t is_dump;
    size_t fixed_len; /* the size of the request's fixed header */
    struct bytes request;
    struct bytes datagrams[DATAGRAMS];
    size_t count;
};

static inline unsigned digit(char c)
{
    return c <= '9' ? (unsigned)(c - '0') : (unsigned)(c - 'a' + 10);
}

/* Reads bytes in hexadecimal up to a character that is none, and moves `*text` past that. */
static inline struct bytes read_bytes(const char **text)
{
    size_t len = 0;
    while ((*text)[len] > ' ')
        len++;
    struct bytes bytes = { malloc(len / 2), len / 2 };
    for (size_t i = 0; i < bytes.len; i++)
        bytes.at[i] = (uint8_t)(digit((*text)[2 * i]) << 4 | digit((*text)[2 * i + 1]));
    *text += len + 1;
    return bytes;
}

/* Reads a line: 1 if the request is a dump, else 0; the size of its fixed header; the request; and the
 * datagrams. Each is in hexadecimal, without spaces. Returns 0 if there is no line. */
static inline int read_stream(struct stream *stream)
{
    static char line[1 << 20];
    if (fgets(line, sizeof line, stdin) == NULL)
        return 0;
    const char *text = line;
    struct bytes numbers = read_bytes(&text);
    stream->is_dump = numbers.at[0];
    stream->fixed_len = numbers.at[1];
    free(numbers.at);
    stream->request = read_bytes(&text);
    for (stream->count = 0; text[-1] == ' ' && stream->count < DATAGRAMS; stream->count++)
        stream->datagrams[stream->count] = read_bytes(&text);
    return 1;
}

static inline void free_stream(struct stream *stream)
{
    free(stream->request.at);
    for (size_t i = 0; i < stream->count; i++)
        free(stream->datagrams[i].at);
}

#endif
