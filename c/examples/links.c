/* Prints index, name, MTU and kind of each link in a dump. The arguments are the files to read. */
#include "netlink_packet.h"

#include <inttypes.h>
#include <stdio.h>
#include <stdlib.h>

enum { NEW_LINK = 16, IFINFOMSG = 16, IFLA_IFNAME = 3, IFLA_MTU = 4, IFLA_LINKINFO = 18, IFLA_INFO_KIND = 1 };

struct link {
    uint32_t index;
    const uint8_t *name;
    size_t name_len;
    uint32_t mtu;
    const uint8_t *kind;
    size_t kind_len;
};

/* The size of a string value, without its final zero. */
static size_t text_len(const uint8_t *value, size_t size)
{
    return size != 0 && value[size - 1] == 0 ? size - 1 : size;
}

static uint32_t read_kind(const uint8_t *nest, size_t len, struct link *link)
{
    size_t at = 0;
    struct nlp_attr attr;
    struct nlp_fault fault;
    uint32_t answer;
    while ((answer = nlp_attrs_next(nest, len, &at, &attr, &fault)) == NLP_OK) {
        if ((attr.kind & NLP_KIND_MASK) == IFLA_INFO_KIND) {
            link->kind = nest + attr.offset;
            link->kind_len = text_len(link->kind, attr.size);
        }
    }
    return answer;
}

static uint32_t read_link(const uint8_t *block, size_t len, struct link *link)
{
    size_t at = 0;
    struct nlp_attr attr;
    struct nlp_fault fault;
    uint32_t answer;
    while ((answer = nlp_attrs_next(block, len, &at, &attr, &fault)) == NLP_OK) {
        const uint8_t *value = block + attr.offset;
        switch (attr.kind & NLP_KIND_MASK) {
        case IFLA_IFNAME:
            link->name = value;
            link->name_len = text_len(value, attr.size);
            break;
        case IFLA_MTU:
            if (attr.size == 4)
                link->mtu = nlp_u32(value);
            break;
        case IFLA_LINKINFO:
            if ((answer = read_kind(value, attr.size, link)) != NLP_END)
                return answer;
            break;
        }
    }
    return answer;
}

static void print_link(const struct link *link)
{
    printf("%" PRIu32 " %.*s mtu %" PRIu32 " kind %.*s\n", link->index, (int)link->name_len,
           (const char *)link->name, link->mtu, (int)link->kind_len, (const char *)link->kind);
}

static int print_datagram(const uint8_t *bytes, size_t len)
{
    size_t at = 0;
    struct nlp_part frame, payload;
    struct nlp_header header;
    struct nlp_fault fault;
    while (nlp_frames_next(bytes, len, &at, &frame, &fault) == NLP_OK) {
        const uint8_t *start = bytes + frame.offset;
        if (nlp_frame_header(start, frame.size, &header, &fault) != NLP_OK
            || nlp_frame_payload(start, frame.size, &payload, &fault) != NLP_OK)
            return 1;
        if (header.message_type != NEW_LINK || payload.size < IFINFOMSG)
            continue;
        const uint8_t *body = start + payload.offset;
        static const uint8_t none[] = "-";
        struct link link = { nlp_u32(body + 4), none, 1, 0, none, 1 };
        if (read_link(body + IFINFOMSG, payload.size - IFINFOMSG, &link) != NLP_END)
            return 1;
        print_link(&link);
    }
    return at == len ? 0 : 1;
}

int main(int count, char **names)
{
    static uint8_t bytes[1 << 20];
    for (int i = 1; i < count; i++) {
        FILE *file = fopen(names[i], "rb");
        if (file == NULL) {
            perror(names[i]);
            return 1;
        }
        size_t len = fread(bytes, 1, sizeof bytes, file);
        fclose(file);
        if (print_datagram(bytes, len) != 0) {
            fprintf(stderr, "%s: no dump of links\n", names[i]);
            return 1;
        }
    }
    return 0;
}
