/* A link viewed by the library of c/, and five of its kinds read. */
#include "five.h"
#include <netlink_packet_route.h>

static bool read_five(const uint8_t *bytes, size_t len, struct five *five)
{
    struct nlp_part name = { 0, 0 }, address = { 0, 0 };
    struct nlp_message message;
    struct nlp_view link;
    struct nlp_route_error error;
    struct nlp_fault fault;
    size_t at = 0;
    if (nlp_message_read(bytes, len, &at, &message, &fault) != NLP_OK)
        return false;
    if (nlp_message_view(bytes, &message, &link, &error) != NLP_OK)
        return false;
    const uint8_t *payload = bytes + message.payload.offset;
    const size_t size = message.payload.size;
    nlp_view_str(payload, size, &link, NLP_IFLA_IFNAME, &name);
    nlp_view_u32(payload, size, &link, NLP_IFLA_MTU, &five->mtu);
    nlp_view_u8(payload, size, &link, NLP_IFLA_OPERSTATE, &five->state);
    nlp_view_u32(payload, size, &link, NLP_IFLA_TXQLEN, &five->queue);
    nlp_view_bytes(payload, size, &link, NLP_IFLA_ADDRESS, &address);
    five->name = payload + name.offset;
    five->name_size = name.size;
    five->address = payload + address.offset;
    five->address_size = address.size;
    return true;
}

size_t c_five(const uint8_t *bytes, size_t len)
{
    struct five five = { 0 };
    return read_five(bytes, len, &five) ? five_sum(&five) : 0;
}

size_t c_five_output(const uint8_t *bytes, size_t len, uint8_t *out, size_t room)
{
    struct five five = { 0 };
    return read_five(bytes, len, &five) ? five_bytes(&five, out, room) : 0;
}
