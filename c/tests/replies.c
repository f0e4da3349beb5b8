/* Reads requests and the datagrams that followed. Prints one line per item of the answer, and then whether
 * the answer has ended. */
#include "streams.h"

static void print_text(const uint8_t *attributes, size_t len)
{
    struct nlp_part text;
    if (nlp_ext_ack_text(attributes, len, &text) == NLP_OK)
        printf(" \"%.*s\"", (int)text.size, (const char *)attributes + text.offset);
}

/* Prints the offset of the attribute that caused the error, and the kinds of the attributes around it. */
static void print_path(const uint8_t *attributes, size_t len, const struct stream *stream)
{
    uint16_t kinds[8];
    size_t count;
    uint32_t offset;
    if (nlp_ext_ack_offset(attributes, len, &offset) != NLP_OK)
        return;
    printf(" offset %u path", (unsigned)offset);
    if (nlp_ext_ack_path(attributes, len, stream->request.at, stream->request.len, stream->fixed_len, kinds, 8,
                         &count) == NLP_OK) {
        for (size_t i = 0; i < count; i++)
            printf(" %u", (unsigned)kinds[i]);
    }
}

static void print_reply(const uint8_t *bytes, const struct nlp_reply *reply, const struct stream *stream)
{
    static const char *const names[] = { "", "message", "done", "acknowledged", "rejected", "overrun", "other" };
    const uint8_t *attributes = bytes + reply->attributes.offset;
    printf("%s", names[reply->what]);
    if (reply->what == NLP_MESSAGE || reply->what == NLP_OTHER)
        printf(" %u %zu", (unsigned)nlp_u16(bytes + reply->frame.offset + 4), reply->frame.size);
    if (reply->what == NLP_DONE || reply->what == NLP_REJECTED)
        printf(" %d", (int)reply->code);
    if (reply->what == NLP_REJECTED)
        printf(" request %zu", reply->request.size);
    print_text(attributes, reply->attributes.size);
    print_path(attributes, reply->attributes.size, stream);
    puts("");
}

static int print_stream(const struct stream *stream)
{
    struct nlp_header header;
    struct nlp_fault fault;
    struct nlp_replies replies;
    struct nlp_reply reply;
    if (nlp_frame_header(stream->request.at, stream->request.len, &header, &fault) != NLP_OK)
        return 1;
    nlp_replies_begin(&header, stream->is_dump, &replies);
    for (size_t i = 0; i < stream->count; i++) {
        const struct bytes *datagram = &stream->datagrams[i];
        size_t at = 0;
        uint32_t answer;
        while ((answer = nlp_replies_next(datagram->at, datagram->len, &at, &replies, &reply, &fault)) == NLP_OK)
            print_reply(datagram->at, &reply, stream);
        if (answer != NLP_END)
            return 1;
    }
    printf("%s%s\n", replies.ended ? "ended" : "open", replies.interrupted ? " interrupted" : "");
    return 0;
}

int main(void)
{
    static struct stream stream;
    while (read_stream(&stream)) {
        if (print_stream(&stream) != 0)
            return 1;
        free_stream(&stream);
    }
    return 0;
}
