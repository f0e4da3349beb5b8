/* Prints the id of a family of generic netlink, and the ids and names of its multicast groups: generic_family NAME. */
#include <netlink_packet_route.h>
#include <netlink_packet_socket.h>
#include <stdio.h>

static int print_family(const uint8_t *bytes, const struct nlp_message *message, void *name)
{
    const uint8_t *payload = bytes + message->payload.offset;
    const size_t len = message->payload.size;
    struct nlp_view family, groups, group;
    struct nlp_route_error error;
    struct nlp_part text = { 0, 0 };
    uint32_t number = 0;
    uint16_t id = 0;
    if (nlp_generic_view(payload, len, &family, &error) != NLP_OK)
        return 1;
    nlp_view_u16(payload, len, &family, NLP_CTRL_ATTR_FAMILY_ID, &id);
    printf("%s %u\n", (const char *)name, (unsigned)id);
    if (nlp_view_nest(payload, len, &family, NLP_CTRL_ATTR_MCAST_GROUPS, &groups) != NLP_OK)
        return 0;
    for (uint16_t kind = 1; nlp_view_nest(payload, len, &groups, kind, &group) == NLP_OK; kind++) {
        nlp_view_u32(payload, len, &group, NLP_CTRL_ATTR_MCAST_GRP_ID, &number);
        nlp_view_str(payload, len, &group, NLP_CTRL_ATTR_MCAST_GRP_NAME, &text);
        printf("group %u %.*s\n", (unsigned)number, (int)text.size, (const char *)payload + text.offset);
    }
    return 0;
}

int main(int count, char **words)
{
    char *name = count == 2 ? words[1] : "nlctrl";
    const struct nlp_header header = { 0, NLP_GENL_ID_CTRL, 0, 0, 0 };
    const uint8_t fixed[4] = { NLP_CTRL_CMD_GETFAMILY, 1, 0, 0 };
    uint8_t request[64];
    struct nlp_socket socket;
    struct nlp_answer answer;
    struct nlp_writer writer = nlp_writer_begin(request, sizeof request);
    const struct nlp_frame_mark frame = nlp_writer_frame(&writer, &header, fixed, sizeof fixed);
    nlp_writer_put_str(&writer, NLP_CTRL_ATTR_FAMILY_NAME, name);
    nlp_writer_frame_end(&writer, frame);
    if (nlp_socket_open(&socket, NETLINK_GENERIC) != 0)
        return 2;
    if (nlp_socket_request(&socket, &writer, print_family, name, &answer) != NLP_ANSWER_DONE)
        fprintf(stderr, "%s\n", nlp_answer_text(&answer));
    nlp_socket_close(&socket);
    return answer.what != NLP_ANSWER_DONE;
}
