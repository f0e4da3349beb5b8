/* Prints index, name, MTU, state and kind of each link, and then the addresses by the index of their link. */
#include <arpa/inet.h>
#include <netlink_packet_route.h>
#include <netlink_packet_socket.h>
#include <stdio.h>

static void print_link(const uint8_t *payload, size_t len, const struct nlp_view *link)
{
    struct nlp_part name = { 0, 0 }, kind = { 0, 0 };
    struct nlp_view info;
    int32_t index = 0;
    uint32_t mtu = 0;
    uint8_t state = 0;
    nlp_view_header_i32(payload, len, link, NLP_IFI_INDEX, &index);
    nlp_view_str(payload, len, link, NLP_IFLA_IFNAME, &name);
    nlp_view_u32(payload, len, link, NLP_IFLA_MTU, &mtu);
    nlp_view_u8(payload, len, link, NLP_IFLA_OPERSTATE, &state);
    if (nlp_view_nest(payload, len, link, NLP_IFLA_LINKINFO, &info) == NLP_OK)
        nlp_view_str(payload, len, &info, NLP_IFLA_INFO_KIND, &kind);
    printf("%d %.*s mtu %u state %u kind %.*s\n", (int)index, (int)name.size, (const char *)payload + name.offset,
           (unsigned)mtu, (unsigned)state, (int)kind.size, (const char *)payload + kind.offset);
}

static void print_address(const uint8_t *payload, size_t len, const struct nlp_view *address)
{
    struct nlp_part value = { 0, 0 };
    char text[INET6_ADDRSTRLEN] = "";
    uint32_t index = 0;
    uint8_t prefix = 0;
    nlp_view_ip(payload, len, address, NLP_IFA_ADDRESS, &value);
    nlp_view_ip(payload, len, address, NLP_IFA_LOCAL, &value); /* the other one is that of the peer */
    nlp_view_header_u32(payload, len, address, NLP_IFA_INDEX, &index);
    nlp_view_header_u8(payload, len, address, NLP_IFA_PREFIXLEN, &prefix);
    inet_ntop(value.size == 4 ? AF_INET : AF_INET6, payload + value.offset, text, sizeof text);
    printf("%u %s/%u\n", (unsigned)index, text, (unsigned)prefix);
}

static int print(const uint8_t *bytes, const struct nlp_message *message, void *context)
{
    const uint8_t *payload = bytes + message->payload.offset;
    struct nlp_view view;
    struct nlp_route_error error;
    (void)context;
    if (nlp_message_view(bytes, message, &view, &error) != NLP_OK)
        return 1;
    if (view.message_type == NLP_RTM_NEWLINK)
        print_link(payload, message->payload.size, &view);
    else
        print_address(payload, message->payload.size, &view);
    return 0;
}

int main(void)
{
    uint8_t requests[64];
    static struct nlp_socket socket; /* the end of the program closes it */
    struct nlp_answer answer;
    struct nlp_writer writer = nlp_writer_begin(requests, sizeof requests);
    nlp_writer_frame_end(&writer, nlp_route_request(&writer, NLP_RTM_GETLINK, NLM_F_DUMP));
    nlp_writer_frame_end(&writer, nlp_route_request(&writer, NLP_RTM_GETADDR, NLM_F_DUMP));
    if (nlp_socket_open(&socket, NETLINK_ROUTE) != 0)
        return 1;
    return nlp_socket_request(&socket, &writer, print, NULL, &answer) != NLP_ANSWER_DONE;
}
