/* What rtnl-link-dump and genl-family-get of libmnl's examples print, by the same calls of libmnl: `dump_mnl links`,
 * `dump_mnl families` or `dump_mnl families NAME`. c/test compares it with the examples of the same names. */
#include <libmnl/libmnl.h>
#include <linux/genetlink.h>
#include <linux/if.h>
#include <linux/if_link.h>
#include <linux/rtnetlink.h>
#include <stdio.h>
#include <string.h>

#define MOST 64

/* Puts an attribute into a table of pointers by kind. */
static int enter(const struct nlattr *attribute, void *data)
{
    const struct nlattr **table = data;
    if (mnl_attr_type_valid(attribute, MOST) > 0)
        table[mnl_attr_get_type(attribute)] = attribute;
    return MNL_CB_OK;
}

static int print_link(const struct nlmsghdr *message, void *data)
{
    const struct nlattr *table[MOST + 1] = { NULL };
    const struct ifinfomsg *link = mnl_nlmsg_get_payload(message);
    (void)data;
    printf("index=%d type=%d flags=%d family=%d ", link->ifi_index, link->ifi_type, (int)link->ifi_flags, link->ifi_family);
    printf(link->ifi_flags & IFF_RUNNING ? "[RUNNING] " : "[NOT RUNNING] ");
    mnl_attr_parse(message, sizeof *link, enter, table);
    if (table[IFLA_MTU])
        printf("mtu=%d ", (int)mnl_attr_get_u32(table[IFLA_MTU]));
    if (table[IFLA_IFNAME])
        printf("name=%s ", mnl_attr_get_str(table[IFLA_IFNAME]));
    if (table[IFLA_ADDRESS]) {
        const uint8_t *address = mnl_attr_get_payload(table[IFLA_ADDRESS]);
        printf("hwaddr=");
        for (int i = 0; i < mnl_attr_get_payload_len(table[IFLA_ADDRESS]); i++) {
            printf("%.2x", address[i] & 0xff);
            if (i + 1 != mnl_attr_get_payload_len(table[IFLA_ADDRESS]))
                printf(":");
        }
    }
    printf("\n");
    return MNL_CB_OK;
}

static void print_ops(const struct nlattr *nest)
{
    const struct nlattr *at;
    mnl_attr_for_each_nested(at, nest) {
        const struct nlattr *table[MOST + 1] = { NULL };
        mnl_attr_parse_nested(at, enter, table);
        if (table[CTRL_ATTR_OP_ID])
            printf("id-0x%x ", mnl_attr_get_u32(table[CTRL_ATTR_OP_ID]));
        if (table[CTRL_ATTR_OP_MAX])
            printf("flags ");
        printf("\n");
    }
}

static void print_groups(const struct nlattr *nest)
{
    const struct nlattr *at;
    mnl_attr_for_each_nested(at, nest) {
        const struct nlattr *table[MOST + 1] = { NULL };
        mnl_attr_parse_nested(at, enter, table);
        if (table[CTRL_ATTR_MCAST_GRP_ID])
            printf("id-0x%x ", mnl_attr_get_u32(table[CTRL_ATTR_MCAST_GRP_ID]));
        if (table[CTRL_ATTR_MCAST_GRP_NAME])
            printf("name: %s ", mnl_attr_get_str(table[CTRL_ATTR_MCAST_GRP_NAME]));
        printf("\n");
    }
}

static int print_family(const struct nlmsghdr *message, void *data)
{
    const struct nlattr *table[MOST + 1] = { NULL };
    (void)data;
    mnl_attr_parse(message, sizeof(struct genlmsghdr), enter, table);
    if (table[CTRL_ATTR_FAMILY_NAME])
        printf("name=%s\t", mnl_attr_get_str(table[CTRL_ATTR_FAMILY_NAME]));
    if (table[CTRL_ATTR_FAMILY_ID])
        printf("id=%u\t", mnl_attr_get_u16(table[CTRL_ATTR_FAMILY_ID]));
    if (table[CTRL_ATTR_VERSION])
        printf("version=%u\t", mnl_attr_get_u32(table[CTRL_ATTR_VERSION]));
    if (table[CTRL_ATTR_HDRSIZE])
        printf("hdrsize=%u\t", mnl_attr_get_u32(table[CTRL_ATTR_HDRSIZE]));
    if (table[CTRL_ATTR_MAXATTR])
        printf("maxattr=%u\t", mnl_attr_get_u32(table[CTRL_ATTR_MAXATTR]));
    printf("\n");
    if (table[CTRL_ATTR_OPS]) {
        printf("ops:\n");
        print_ops(table[CTRL_ATTR_OPS]);
    }
    if (table[CTRL_ATTR_MCAST_GROUPS]) {
        printf("grps:\n");
        print_groups(table[CTRL_ATTR_MCAST_GROUPS]);
    }
    printf("\n");
    return MNL_CB_OK;
}

int main(int count, char **words)
{
    static char bytes[1 << 16];
    const int families = count > 1 && strcmp(words[1], "families") == 0;
    struct mnl_socket *socket = mnl_socket_open(families ? NETLINK_GENERIC : NETLINK_ROUTE);
    struct nlmsghdr *request = mnl_nlmsg_put_header(bytes);
    request->nlmsg_type = families ? GENL_ID_CTRL : RTM_GETLINK;
    request->nlmsg_flags = NLM_F_REQUEST | (families ? NLM_F_ACK : 0) | (count > 2 ? 0 : NLM_F_DUMP);
    request->nlmsg_seq = 1;
    if (families) {
        struct genlmsghdr *command = mnl_nlmsg_put_extra_header(request, sizeof *command);
        command->cmd = CTRL_CMD_GETFAMILY;
        command->version = 1;
        mnl_attr_put_u16(request, CTRL_ATTR_FAMILY_ID, GENL_ID_CTRL);
        if (count > 2)
            mnl_attr_put_strz(request, CTRL_ATTR_FAMILY_NAME, words[2]);
    } else {
        struct rtgenmsg *family = mnl_nlmsg_put_extra_header(request, sizeof *family);
        family->rtgen_family = AF_PACKET;
    }
    if (!socket || mnl_socket_bind(socket, 0, MNL_SOCKET_AUTOPID) < 0 || mnl_socket_sendto(socket, request, request->nlmsg_len) < 0)
        return 1;
    ssize_t size = mnl_socket_recvfrom(socket, bytes, sizeof bytes);
    while (size > 0) {
        size = mnl_cb_run(bytes, (size_t)size, 1, mnl_socket_get_portid(socket), families ? print_family : print_link, NULL);
        if (size > MNL_CB_STOP)
            size = mnl_socket_recvfrom(socket, bytes, sizeof bytes);
    }
    return size < 0;
}
