/* Builds "set the MTU of the link veth-b to 1400" and writes its bytes to standard output. */
#include "netlink_packet.h"

#include <stdio.h>
#include <string.h>

enum { NEW_LINK = 16, IFINFOMSG = 16, IFLA_IFNAME = 3, IFLA_MTU = 4, NLM_F_REQUEST = 1, NLM_F_ACK = 4 };

/* Returns the size of the request, or 0 if it does not fit. */
static size_t set_mtu(uint8_t *buffer, size_t capacity, const char *name, uint32_t mtu)
{
    const struct nlp_header header = {
        .message_type = NEW_LINK,
        .flags = NLM_F_REQUEST | NLM_F_ACK,
        .sequence_number = 1,
    };
    const uint8_t any_link[IFINFOMSG] = { 0 };
    size_t at = 0;
    if (nlp_frame_put(buffer, capacity, &at, &header, any_link, sizeof any_link) != NLP_OK
        || nlp_attr_put_str(buffer, capacity, &at, IFLA_IFNAME, (const uint8_t *)name, strlen(name)) != NLP_OK
        || nlp_attr_put_u32(buffer, capacity, &at, IFLA_MTU, mtu) != NLP_OK
        || nlp_frame_end(buffer, capacity, at, 0) != NLP_OK)
        return 0;
    return at;
}

int main(void)
{
    uint8_t buffer[64];
    size_t size = set_mtu(buffer, sizeof buffer, "veth-b", 1400);
    if (size == 0 || fwrite(buffer, 1, size, stdout) != size)
        return 1;
    return 0;
}
