/* Prints a family of generic netlink, or all of them: genl-family-get of libmnl's examples, over
 * netlink_packet_socket.h alone. Ends with status 1, and prints why, if the answer is an error,
 * malformed, incomplete, or torn by a change of the families. */
#include <linux/genetlink.h>
#include <netlink_packet_socket.h>
#include <stdio.h>

static void print_u32(const char *name, const uint8_t *block, size_t len,
                      const struct nlp_attr *attr)
{
    uint32_t value;

    if (nlp_get_u32(block, len, attr, &value) == NLP_OK)
        printf("%s=%u\t", name, value);
}

static void print_ops(const uint8_t *nest, size_t len)
{
    struct nlp_attr table[CTRL_ATTR_OP_FLAGS + 1];
    struct nlp_attr op;
    uint32_t id;
    size_t at = 0;

    printf("ops:\n");
    while (nlp_attrs_next_opt(nest, len, &at, &op, NULL) == NLP_OK) {
        const uint8_t *block = nest + op.offset;
        nlp_attrs_table_opt(block, op.size, table, CTRL_ATTR_OP_FLAGS + 1, NULL);
        if (nlp_get_u32(block, op.size, &table[CTRL_ATTR_OP_ID], &id) == NLP_OK)
            printf("id-0x%x ", id);
        if (table[CTRL_ATTR_OP_FLAGS].offset != 0)
            printf("flags ");
        printf("\n");
    }
}

static void print_groups(const uint8_t *nest, size_t len)
{
    struct nlp_attr table[CTRL_ATTR_MCAST_GRP_ID + 1];
    struct nlp_attr group;
    struct nlp_part name;
    uint32_t id;
    size_t at = 0;

    printf("grps:\n");
    while (nlp_attrs_next_opt(nest, len, &at, &group, NULL) == NLP_OK) {
        const uint8_t *block = nest + group.offset;
        nlp_attrs_table_opt(block, group.size, table, CTRL_ATTR_MCAST_GRP_ID + 1, NULL);
        if (nlp_get_u32(block, group.size, &table[CTRL_ATTR_MCAST_GRP_ID], &id) == NLP_OK)
            printf("id-0x%x ", id);
        if (nlp_get_str(block, group.size, &table[CTRL_ATTR_MCAST_GRP_NAME], &name) == NLP_OK)
            printf("name: %.*s ", (int)name.size, (const char *)block + name.offset);
        printf("\n");
    }
}

static int print_family(const uint8_t *bytes, const struct nlp_message *message, void *context)
{
    struct nlp_attr table[CTRL_ATTR_MCAST_GROUPS + 1];
    struct nlp_part part;
    struct nlp_part name;
    const struct nlp_attr *ops = &table[CTRL_ATTR_OPS];
    const struct nlp_attr *groups = &table[CTRL_ATTR_MCAST_GROUPS];
    uint16_t id;

    (void)context;
    if (nlp_message_attrs(message, GENL_HDRLEN, &part) != NLP_OK)
        return 0;
    const uint8_t *block = bytes + part.offset;
    nlp_attrs_table_opt(block, part.size, table, CTRL_ATTR_MCAST_GROUPS + 1, NULL);
    if (nlp_get_str(block, part.size, &table[CTRL_ATTR_FAMILY_NAME], &name) == NLP_OK)
        printf("name=%.*s\t", (int)name.size, (const char *)block + name.offset);
    if (nlp_get_u16(block, part.size, &table[CTRL_ATTR_FAMILY_ID], &id) == NLP_OK)
        printf("id=%u\t", id);
    print_u32("version", block, part.size, &table[CTRL_ATTR_VERSION]);
    print_u32("hdrsize", block, part.size, &table[CTRL_ATTR_HDRSIZE]);
    print_u32("maxattr", block, part.size, &table[CTRL_ATTR_MAXATTR]);
    printf("\n");
    if (ops->offset != 0)
        print_ops(block + ops->offset, ops->size);
    if (groups->offset != 0)
        print_groups(block + groups->offset, groups->size);
    printf("\n");
    return 0;
}

int main(int count, char **names)
{
    uint8_t request[256];
    const struct genlmsghdr command = { CTRL_CMD_GETFAMILY, 1, 0 };
    const uint16_t flags = count == 1 ? NLM_F_DUMP : 0;
    const struct nlp_header header = { 0, GENL_ID_CTRL, flags, 0, 0 };
    struct nlp_socket socket;
    struct nlp_answer answer;
    struct nlp_writer writer = nlp_writer_begin(request, sizeof request);
    const struct nlp_frame_mark frame = nlp_writer_frame(&writer, &header, &command, GENL_HDRLEN);
    nlp_writer_put_u16(&writer, CTRL_ATTR_FAMILY_ID, GENL_ID_CTRL);
    if (count > 1)
        nlp_writer_put_str(&writer, CTRL_ATTR_FAMILY_NAME, names[1]);
    nlp_writer_frame_end(&writer, frame);

    const int error = nlp_socket_open(&socket, NETLINK_GENERIC);
    if (error != 0) {
        fprintf(stderr, "the socket: %s\n", strerror(error));
        return 1;
    }
    if (nlp_socket_request(&socket, &writer, print_family, NULL, &answer) != NLP_ANSWER_DONE)
        fprintf(stderr, "the answer: %s\n", nlp_answer_text(&answer));
    nlp_socket_close(&socket);
    return answer.what != NLP_ANSWER_DONE;
}
