/* Prints what examples/generic_family.c prints, over libmnl. */
#include <errno.h>
#include <libmnl/libmnl.h>
#include <linux/genetlink.h>
#include <stdio.h>
#include <string.h>

static char text[128];

/* Keeps the errno and the kernel's text, which is an attribute after the error. */
static int read_error(const struct nlmsghdr *message, void *data)
{
    const struct nlmsgerr *error = mnl_nlmsg_get_payload(message);
    const int code = mnl_nlmsg_get_payload_len(message) < sizeof *error ? EBADMSG : -error->error;
    const struct nlattr *attr;
    (void)data;
    if ((message->nlmsg_flags & NLM_F_ACK_TLVS) != 0)
        mnl_attr_for_each(attr, message, sizeof *error)
            if (mnl_attr_get_type(attr) == NLMSGERR_ATTR_MSG && mnl_attr_validate(attr, MNL_TYPE_NUL_STRING) == 0)
                snprintf(text, sizeof text, "%s", mnl_attr_get_str(attr));
    errno = code;
    return code == 0 ? MNL_CB_STOP : MNL_CB_ERROR;
}

static void print_group(const struct nlattr *group)
{
    const struct nlattr *attr;
    const char *name = "";
    uint32_t id = 0;
    mnl_attr_for_each_nested(attr, group) {
        const uint16_t kind = mnl_attr_get_type(attr);
        if (kind == CTRL_ATTR_MCAST_GRP_ID && mnl_attr_validate(attr, MNL_TYPE_U32) == 0)
            id = mnl_attr_get_u32(attr);
        if (kind == CTRL_ATTR_MCAST_GRP_NAME && mnl_attr_validate(attr, MNL_TYPE_NUL_STRING) == 0)
            name = mnl_attr_get_str(attr);
    }
    printf("group %u %s\n", id, name);
}

static int print_family(const struct nlmsghdr *message, void *name)
{
    const struct nlattr *attr, *group, *groups = NULL;
    uint16_t id = 0;
    mnl_attr_for_each(attr, message, sizeof(struct genlmsghdr)) {
        const uint16_t kind = mnl_attr_get_type(attr);
        if (kind == CTRL_ATTR_FAMILY_ID && mnl_attr_validate(attr, MNL_TYPE_U16) == 0)
            id = mnl_attr_get_u16(attr);
        if (kind == CTRL_ATTR_MCAST_GROUPS && mnl_attr_validate(attr, MNL_TYPE_NESTED) == 0)
            groups = attr;
    }
    printf("%s %u\n", (const char *)name, id);
    if (groups != NULL)
        mnl_attr_for_each_nested(group, groups)
            print_group(group);
    return MNL_CB_OK;
}

int main(int count, char **words)
{
    char *name = count == 2 ? words[1] : "nlctrl";
    static char bytes[65536];
    static mnl_cb_t control[3] = { [NLMSG_ERROR] = read_error };
    struct nlmsghdr *request = mnl_nlmsg_put_header(bytes);
    struct genlmsghdr *header = mnl_nlmsg_put_extra_header(request, sizeof *header);
    struct mnl_socket *socket = mnl_socket_open(NETLINK_GENERIC);
    int on = 1, result = MNL_CB_ERROR;
    if (socket == NULL || mnl_socket_bind(socket, 0, MNL_SOCKET_AUTOPID) < 0)
        return 2;
    mnl_socket_setsockopt(socket, NETLINK_EXT_ACK, &on, sizeof on);
    mnl_socket_setsockopt(socket, NETLINK_CAP_ACK, &on, sizeof on);
    request->nlmsg_type = GENL_ID_CTRL;
    request->nlmsg_flags = NLM_F_REQUEST | NLM_F_ACK;
    request->nlmsg_seq = 1;
    header->cmd = CTRL_CMD_GETFAMILY;
    header->version = 1;
    if (!mnl_attr_put_strz_check(request, sizeof bytes, CTRL_ATTR_FAMILY_NAME, name))
        errno = EMSGSIZE;
    else if (mnl_socket_sendto(socket, request, request->nlmsg_len) >= 0)
        result = MNL_CB_OK;
    while (result == MNL_CB_OK) {
        const ssize_t size = mnl_socket_recvfrom(socket, bytes, sizeof bytes);
        if (size >= 0)
            result = mnl_cb_run2(bytes, (size_t)size, 1, mnl_socket_get_portid(socket), print_family, name, control, 3);
        else if (errno != EINTR)
            result = MNL_CB_ERROR;
    }
    if (result < 0)
        fprintf(stderr, "%s\n", text[0] != 0 ? text : strerror(errno));
    mnl_socket_close(socket);
    return result < 0;
}
