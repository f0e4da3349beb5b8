/* Prints interface, address and prefix length of each address in a dump, read from files, like libmnl's
 * rtnl-addr-dump. */
#include "netlink_packet.h"

#include <stdio.h>

enum { NLMSG_ERROR = 2, NLMSG_DONE = 3, RTM_NEWADDR = 20, IFADDRMSG = 8, IFA_ADDRESS = 1 };

/* Prints one message, like libmnl's callback with mnl_attr_for_each. */
static int print_address(const uint8_t *bytes, const struct nlp_message *message)
{
    const uint8_t *payload = bytes + message->payload.offset;
    size_t at = 0;
    struct nlp_part part;
    struct nlp_attr attr;
    struct nlp_fault fault;
    uint32_t answer;
    if (nlp_message_attrs(message, IFADDRMSG, &part) != NLP_OK)
        return -1;
    const uint8_t *block = bytes + part.offset;
    while ((answer = nlp_attrs_next(block, part.size, &at, &attr, &fault)) == NLP_OK) {
        if ((attr.kind & NLP_KIND_MASK) != IFA_ADDRESS)
            continue;
        printf("%u ", (unsigned)nlp_u32(payload + 4));
        for (size_t i = 0; i < attr.size; i++)
            printf("%02x", (unsigned)block[attr.offset + i]);
        printf("/%u\n", (unsigned)payload[1]);
    }
    return answer == NLP_END ? 0 : -1;
}

/* Walks the messages of a datagram, like mnl_cb_run. Returns 1 if more datagrams follow, 0 after the last
 * message, or -1. */
static int run(const uint8_t *bytes, size_t len)
{
    struct nlp_messages walk;
    const struct nlp_message *message;
    nlp_messages_begin(&walk, bytes, len);
    while ((message = nlp_messages_next(&walk)) != NULL) {
        if (message->header.message_type == NLMSG_DONE)
            return 0;
        if (message->header.message_type == NLMSG_ERROR)
            return -1;
        if (message->header.message_type == RTM_NEWADDR && print_address(bytes, message) != 0)
            return -1;
    }
    return walk.result == NLP_END ? 1 : -1;
}

int main(int count, char **names)
{
    static uint8_t bytes[1 << 16];
    int more = 1;
    for (int i = 1; i < count && more == 1; i++) {
        FILE *file = fopen(names[i], "rb");
        if (file == NULL)
            return 1;
        size_t len = fread(bytes, 1, sizeof bytes, file);
        fclose(file);
        more = run(bytes, len);
    }
    return more == 0 ? 0 : 1;
}
