/* Prints the links of this machine: rtnl-link-dump of libmnl's examples, over
 * netlink_packet_socket.h alone. Ends with status 1, and prints why, if the answer is an error,
 * malformed, incomplete, or torn by a change of the links. */
#include <linux/if.h>
#include <linux/if_link.h>
#include <linux/rtnetlink.h>
#include <netlink_packet_socket.h>
#include <stdio.h>

static int print_link(const uint8_t *bytes, const struct nlp_message *message, void *context)
{
    struct ifinfomsg link;
    struct nlp_attr table[IFLA_MTU + 1];
    struct nlp_part part;
    struct nlp_part name;
    uint32_t mtu;

    (void)context;
    if (nlp_message_attrs(message, sizeof link, &part) != NLP_OK)
        return 0;
    memcpy(&link, bytes + message->payload.offset, sizeof link);
    printf("index=%d type=%d flags=%d family=%d ", link.ifi_index, link.ifi_type,
           (int)link.ifi_flags, link.ifi_family);
    printf("%s ", (link.ifi_flags & IFF_RUNNING) != 0 ? "[RUNNING]" : "[NOT RUNNING]");

    const uint8_t *block = bytes + part.offset;
    nlp_attrs_table_opt(block, part.size, table, IFLA_MTU + 1, NULL);
    if (nlp_get_u32(block, part.size, &table[IFLA_MTU], &mtu) == NLP_OK)
        printf("mtu=%u ", mtu);
    if (nlp_get_str(block, part.size, &table[IFLA_IFNAME], &name) == NLP_OK)
        printf("name=%.*s ", (int)name.size, (const char *)block + name.offset);
    if (table[IFLA_ADDRESS].offset != 0)
        printf("hwaddr=");
    for (size_t i = 0; i < table[IFLA_ADDRESS].size; i++)
        printf("%s%.2x", i == 0 ? "" : ":", block[table[IFLA_ADDRESS].offset + i]);
    printf("\n");
    return 0;
}

int main(void)
{
    uint8_t request[64];
    const struct nlp_header header = { 0, RTM_GETLINK, NLM_F_DUMP, 0, 0 };
    const uint8_t fixed[sizeof(struct ifinfomsg)] = { AF_PACKET };
    struct nlp_socket socket;
    struct nlp_answer answer;
    struct nlp_writer writer = nlp_writer_begin(request, sizeof request);
    const struct nlp_frame_mark frame = nlp_writer_frame(&writer, &header, fixed, sizeof fixed);
    nlp_writer_frame_end(&writer, frame);

    const int error = nlp_socket_open(&socket, NETLINK_ROUTE);
    if (error != 0) {
        fprintf(stderr, "the socket: %s\n", strerror(error));
        return 1;
    }
    if (nlp_socket_request(&socket, &writer, print_link, NULL, &answer) != NLP_ANSWER_DONE)
        fprintf(stderr, "the answer: %s\n", nlp_answer_text(&answer));
    nlp_socket_close(&socket);
    return answer.what != NLP_ANSWER_DONE;
}
