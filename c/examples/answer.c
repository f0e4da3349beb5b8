/* Asks the kernel for the links of this machine, and then for statistics with a mask that it rejects. Prints
 * the index and the name of each link, and the error: its code, the kernel's text, and the kinds of the
 * attributes that contain the mask. With arguments, reads the answers from these files, without a socket. */
#include "netlink_packet.h"

#include <stdio.h>
#include <sys/socket.h>
#include <unistd.h>

enum { ROUTE = 0, NETLINK_LEVEL = 270, EXT_ACK = 11, REQUEST = 1, ACK = 4, DUMP = 0x300 };
enum { GET_LINK = 18, GET_STATS = 94, IFINFOMSG = 16, IFNAME = 3, IF_STATS_MSG = 12, GET_FILTERS = 1, OFFLOAD = 4 };

static uint8_t bytes[1 << 16];
static char **files;

/* Sends a request. Returns the socket, or -1 if it fails or if files are read. */
static int ask(const uint8_t *request, size_t size)
{
    const int on = 1;
    int fd = *files != NULL ? -1 : socket(AF_NETLINK, SOCK_RAW, ROUTE);
    if (fd >= 0 && (setsockopt(fd, NETLINK_LEVEL, EXT_ACK, &on, sizeof on) < 0 || send(fd, request, size, 0) < 0)) {
        close(fd);
        return -1;
    }
    return fd;
}

/* Receives a datagram, or reads the next file. Returns its size, or 0 if there is none. */
static size_t receive(int fd)
{
    FILE *file = fd < 0 && *files != NULL ? fopen(*files++, "rb") : NULL;
    long size = fd >= 0 ? recv(fd, bytes, sizeof bytes, 0) : 0;
    if (file != NULL) {
        size = (long)fread(bytes, 1, sizeof bytes, file);
        fclose(file);
    }
    return size > 0 ? (size_t)size : 0;
}

static void print_link(const uint8_t *frame, size_t size)
{
    const uint8_t *block = frame + 16 + IFINFOMSG;
    size_t at = 0, len = size - 16 - IFINFOMSG;
    struct nlp_attr attr;
    struct nlp_fault fault;
    while (nlp_attrs_next(block, len, &at, &attr, &fault) == NLP_OK)
        if ((attr.kind & NLP_KIND_MASK) == IFNAME && attr.size != 0)
            printf("%u %.*s\n", (unsigned)nlp_u32(frame + 20), (int)attr.size - 1, (const char *)block + attr.offset);
}

static void print_error(const struct nlp_reply *reply, const uint8_t *request, size_t size, size_t fixed)
{
    const uint8_t *attributes = bytes + reply->attributes.offset;
    struct nlp_part text = { 0, 0 };
    uint16_t kinds[16];
    size_t count = 0;
    nlp_ext_ack_text(attributes, reply->attributes.size, &text);
    nlp_ext_ack_path(attributes, reply->attributes.size, request, size, fixed, kinds, 16, &count);
    printf("error %d: %.*s\n", (int)reply->code, (int)text.size, (const char *)attributes + text.offset);
    for (size_t i = 0; i < count && i < 16; i++)
        printf("in an attribute of kind %u\n", (unsigned)kinds[i]);
}

/* Sends a request, and reads its answer to the end. Returns false if that fails. */
static bool exchange(const struct nlp_header *header, uint32_t is_dump, const uint8_t *request, size_t size, size_t fixed)
{
    struct nlp_replies replies;
    struct nlp_reply reply;
    struct nlp_fault fault;
    uint32_t result = NLP_END;
    size_t len, at;
    const int fd = ask(request, size);
    nlp_replies_begin(header, is_dump, &replies);
    while (!replies.ended && result == NLP_END && (len = receive(fd)) != 0)
        for (at = 0; (result = nlp_replies_next(bytes, len, &at, &replies, &reply, &fault)) == NLP_OK;)
            if (reply.what == NLP_MESSAGE && reply.frame.size >= 16 + IFINFOMSG)
                print_link(bytes + reply.frame.offset, reply.frame.size);
            else if (reply.what == NLP_REJECTED)
                print_error(&reply, request, size, fixed);
    if (fd >= 0)
        close(fd);
    return replies.ended && !replies.interrupted;
}

int main(int count, char **names)
{
    /* Each request has a socket of its own, so that both can have sequence number 1. */
    const struct nlp_header links = { 0, GET_LINK, REQUEST | DUMP, 1, 0 }, stats = { 0, GET_STATS, REQUEST | ACK, 1, 0 };
    static const uint8_t all[IFINFOMSG], loopback[IF_STATS_MSG] = { [4] = 1, [8] = 1 << (OFFLOAD - 1) };
    uint8_t list[32], bad[64];
    size_t len = 0, size = 0, nest = 16 + sizeof loopback;
    files = names + (count > 0);
    if (nlp_frame_put(list, sizeof list, &len, &links, all, sizeof all) != NLP_OK
        || nlp_frame_put(bad, sizeof bad, &size, &stats, loopback, sizeof loopback) != NLP_OK
        || nlp_nest_begin(bad, sizeof bad, &size, GET_FILTERS) != NLP_OK
        || nlp_attr_put_u32(bad, sizeof bad, &size, OFFLOAD, UINT32_MAX) != NLP_OK /* not a valid mask */
        || nlp_nest_end(bad, sizeof bad, size, nest) != NLP_OK || nlp_frame_end(bad, sizeof bad, size, 0) != NLP_OK)
        return 1;
    return exchange(&links, 1, list, len, sizeof all) && exchange(&stats, 0, bad, size, sizeof loopback) ? 0 : 1;
}
