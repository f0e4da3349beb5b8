/* Writes requests by netlink_packet_route_write.h, and sends them to the kernel: makes a pair of links, sets them up, gives
 * each an address, and adds a route over both. c/typed.py compares what is there with `ip -j`. */
#include <linux/if.h>
#include <linux/rtnetlink.h>
#include <netlink_packet_route.h>
#include <netlink_packet_socket.h>
#include <stdio.h>

static struct nlp_socket kernel;
static uint8_t buffer[512];
static int failed;

/* Begins a request that makes something new. */
static struct nlp_frame_mark begin(struct nlp_writer *writer, uint16_t message_type)
{
    *writer = nlp_writer_begin(buffer, sizeof buffer);
    return nlp_route_request(writer, message_type, NLM_F_CREATE | NLM_F_EXCL);
}

/* Ends a request and sends it. */
static void send_request(struct nlp_writer *writer, struct nlp_frame_mark frame, const char *what)
{
    struct nlp_answer answer;
    nlp_writer_frame_end(writer, frame);
    if (nlp_socket_request(&kernel, writer, NULL, NULL, &answer) != NLP_ANSWER_DONE) {
        fprintf(stderr, "%s: %s, %u\n", what, nlp_answer_text(&answer), (unsigned)writer->failed);
        failed = 1;
    }
}

/* Makes the links `pair` and `other`, each the peer of the other one. */
static void make_links(void)
{
    const struct ifinfomsg header = { 0 };
    struct nlp_writer writer;
    const struct nlp_frame_mark frame = begin(&writer, NLP_RTM_NEWLINK);
    struct nlp_route_block link = nlp_route_attrs(&writer, NLP_RTM_NEWLINK);
    nlp_route_put_str(&writer, &link, NLP_IFLA_IFNAME, "pair");
    nlp_route_put_u32(&writer, &link, NLP_IFLA_MTU, 1300);
    nlp_route_put_bytes(&writer, &link, NLP_IFLA_ADDRESS, "\2\0\0\0\0\7", 6);
    struct nlp_route_block info = nlp_route_nest(&writer, &link, NLP_IFLA_LINKINFO);
    nlp_route_put_str(&writer, &info, NLP_IFLA_INFO_KIND, "veth");
    struct nlp_route_block data = nlp_route_nest(&writer, &info, NLP_IFLA_INFO_DATA);
    struct nlp_route_block peer = nlp_route_nest_header(&writer, &data, NLP_VETH_INFO_PEER, &header, sizeof header);
    nlp_route_put_str(&writer, &peer, NLP_IFLA_IFNAME, "other");
    nlp_route_nest_end(&writer, &data, &peer);
    nlp_route_nest_end(&writer, &info, &data);
    nlp_route_nest_end(&writer, &link, &info);
    send_request(&writer, frame, "a pair of links");
}

/* Sets a link up, and gives it an address of 24 bits. */
static void set_up(int32_t index, const uint8_t address[4])
{
    struct nlp_writer writer;
    struct nlp_frame_mark frame = begin(&writer, NLP_RTM_SETLINK);
    nlp_route_set(&writer, frame, NLP_IFI_INDEX, (uint32_t)index);
    nlp_route_set(&writer, frame, NLP_IFI_FLAGS, IFF_UP);
    nlp_route_set(&writer, frame, NLP_IFI_CHANGE, IFF_UP);
    send_request(&writer, frame, "a link");
    frame = begin(&writer, NLP_RTM_NEWADDR);
    nlp_route_set(&writer, frame, NLP_IFA_FAMILY, AF_INET);
    nlp_route_set(&writer, frame, NLP_IFA_PREFIXLEN, 24);
    nlp_route_set(&writer, frame, NLP_IFA_INDEX, (uint32_t)index);
    struct nlp_route_block attributes = nlp_route_attrs(&writer, NLP_RTM_NEWADDR);
    nlp_route_put_ip(&writer, &attributes, NLP_IFA_LOCAL, address, 4);
    nlp_route_put_ip(&writer, &attributes, NLP_IFA_ADDRESS, address, 4);
    send_request(&writer, frame, "an address");
}

/* Adds a hop to a route. */
static void put_hop(struct nlp_writer *writer, struct nlp_route_block *paths, uint16_t kind, int32_t index,
                    const uint8_t gateway[4])
{
    struct nlp_route_block hop = nlp_route_nest_header(writer, paths, kind, &index, sizeof index);
    nlp_route_put_ip(writer, &hop, NLP_RTA_GATEWAY, gateway, 4);
    nlp_route_nest_end(writer, paths, &hop);
}

/* Adds a route to 198.18.0.0/15 over two links, with 3 and with 200 hops, and the second one even if it has no link. */
static void add_route(const int32_t index[2], const uint8_t gateways[2][4])
{
    static const uint8_t to[4] = { 198, 18, 0, 0 };
    struct nlp_writer writer;
    const struct nlp_frame_mark frame = begin(&writer, NLP_RTM_NEWROUTE);
    nlp_route_set(&writer, frame, NLP_RTM_FAMILY, AF_INET);
    nlp_route_set(&writer, frame, NLP_RTM_DST_LEN, 15);
    nlp_route_set(&writer, frame, NLP_RTM_TABLE, RT_TABLE_MAIN);
    nlp_route_set(&writer, frame, NLP_RTM_PROTOCOL, RTPROT_BOOT);
    nlp_route_set(&writer, frame, NLP_RTM_TYPE, RTN_UNICAST);
    struct nlp_route_block route = nlp_route_attrs(&writer, NLP_RTM_NEWROUTE);
    nlp_route_put_ip(&writer, &route, NLP_RTA_DST, to, sizeof to);
    struct nlp_route_block metrics = nlp_route_nest(&writer, &route, NLP_RTA_METRICS);
    nlp_route_put_u32(&writer, &metrics, NLP_RTAX_MTU, 1200);
    nlp_route_nest_end(&writer, &route, &metrics);
    struct nlp_route_block paths = nlp_route_nest(&writer, &route, NLP_RTA_MULTIPATH);
    put_hop(&writer, &paths, 2 << 8, index[0], gateways[0]);
    put_hop(&writer, &paths, RTNH_F_ONLINK | 199 << 8, index[1], gateways[1]);
    nlp_route_nest_end(&writer, &route, &paths);
    send_request(&writer, frame, "a route");
}

/* Finds the index of a link in the answer to a request for it. */
static int find_index(const uint8_t *bytes, const struct nlp_message *message, void *index)
{
    struct nlp_view view;
    struct nlp_route_error error;
    if (nlp_message_view(bytes, message, &view, &error) == NLP_OK)
        nlp_view_header_i32(bytes + message->payload.offset, message->payload.size, &view, NLP_IFI_INDEX, index);
    return 0;
}

static int32_t index_of(const char *name)
{
    int32_t index = 0;
    struct nlp_answer answer;
    struct nlp_writer writer = nlp_writer_begin(buffer, sizeof buffer);
    const struct nlp_frame_mark frame = nlp_route_request(&writer, NLP_RTM_GETLINK, 0);
    struct nlp_route_block link = nlp_route_attrs(&writer, NLP_RTM_GETLINK);
    nlp_route_put_str(&writer, &link, NLP_IFLA_IFNAME, name);
    nlp_writer_frame_end(&writer, frame);
    if (nlp_socket_request(&kernel, &writer, find_index, &index, &answer) != NLP_ANSWER_DONE)
        failed = 1;
    return index;
}

int main(void)
{
    static const uint8_t own[2][4] = { { 10, 1, 0, 1 }, { 10, 2, 0, 1 } }, gateways[2][4] = { { 10, 1, 0, 9 }, { 10, 2, 0, 9 } };
    if (nlp_socket_open(&kernel, NETLINK_ROUTE) != 0)
        return 2;
    make_links();
    const int32_t index[2] = { index_of("pair"), index_of("other") };
    for (int i = 0; i < 2; i++)
        set_up(index[i], own[i]);
    add_route(index, gateways);
    nlp_socket_close(&kernel);
    return failed;
}
