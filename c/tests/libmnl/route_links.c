/* Prints what examples/route_links.c prints, over libmnl. */
#include <arpa/inet.h>
#include <errno.h>
#include <libmnl/libmnl.h>
#include <linux/rtnetlink.h>
#include <stdio.h>

/* Returns the first attribute of a kind whose value has the type, or NULL. */
static const struct nlattr *find(const struct nlmsghdr *message, size_t header, uint16_t kind, int type)
{
    const struct nlattr *attr;
    mnl_attr_for_each(attr, message, header)
        if (mnl_attr_get_type(attr) == kind && mnl_attr_validate(attr, type) == 0)
            return attr;
    return NULL;
}

static int print_link(const struct nlmsghdr *message, void *data)
{
    const struct ifinfomsg *link = mnl_nlmsg_get_payload(message);
    const struct nlattr *name = find(message, sizeof *link, IFLA_IFNAME, MNL_TYPE_NUL_STRING);
    const struct nlattr *mtu = find(message, sizeof *link, IFLA_MTU, MNL_TYPE_U32);
    const struct nlattr *state = find(message, sizeof *link, IFLA_OPERSTATE, MNL_TYPE_U8);
    const struct nlattr *info = find(message, sizeof *link, IFLA_LINKINFO, MNL_TYPE_NESTED);
    const struct nlattr *attr;
    const char *kind = "";
    (void)data;
    if (mnl_nlmsg_get_payload_len(message) < sizeof *link)
        return MNL_CB_ERROR;
    if (info != NULL)
        mnl_attr_for_each_nested(attr, info)
            if (mnl_attr_get_type(attr) == IFLA_INFO_KIND && mnl_attr_validate(attr, MNL_TYPE_NUL_STRING) == 0)
                kind = mnl_attr_get_str(attr);
    printf("%d %s mtu %u state %u kind %s\n", link->ifi_index, name != NULL ? mnl_attr_get_str(name) : "",
           mtu != NULL ? mnl_attr_get_u32(mtu) : 0, state != NULL ? mnl_attr_get_u8(state) : 0, kind);
    return MNL_CB_OK;
}

static int print_address(const struct nlmsghdr *message, void *data)
{
    const struct ifaddrmsg *address = mnl_nlmsg_get_payload(message);
    const struct nlattr *local = find(message, sizeof *address, IFA_LOCAL, MNL_TYPE_BINARY);
    const struct nlattr *value = local != NULL ? local : find(message, sizeof *address, IFA_ADDRESS, MNL_TYPE_BINARY);
    char text[INET6_ADDRSTRLEN] = "";
    (void)data;
    if (mnl_nlmsg_get_payload_len(message) < sizeof *address)
        return MNL_CB_ERROR;
    if (value != NULL && mnl_attr_get_payload_len(value) == (address->ifa_family == AF_INET ? 4 : 16))
        inet_ntop(address->ifa_family, mnl_attr_get_payload(value), text, sizeof text);
    printf("%u %s/%u\n", address->ifa_index, text, address->ifa_prefixlen);
    return MNL_CB_OK;
}

static int dump(struct mnl_socket *socket, uint16_t type, size_t header, mnl_cb_t print)
{
    static char bytes[65536];
    struct nlmsghdr *request = mnl_nlmsg_put_header(bytes);
    request->nlmsg_type = type;
    request->nlmsg_flags = NLM_F_REQUEST | NLM_F_DUMP;
    request->nlmsg_seq = type;
    mnl_nlmsg_put_extra_header(request, header);
    int result = mnl_socket_sendto(socket, request, request->nlmsg_len) < 0 ? MNL_CB_ERROR : MNL_CB_OK;
    while (result == MNL_CB_OK) {
        const ssize_t size = mnl_socket_recvfrom(socket, bytes, sizeof bytes);
        if (size >= 0)
            result = mnl_cb_run(bytes, (size_t)size, type, mnl_socket_get_portid(socket), print, NULL);
        else if (errno != EINTR)
            result = MNL_CB_ERROR;
    }
    return result;
}

int main(void)
{
    struct mnl_socket *socket = mnl_socket_open(NETLINK_ROUTE);
    if (socket == NULL || mnl_socket_bind(socket, 0, MNL_SOCKET_AUTOPID) < 0)
        return 1;
    const bool is_failed = dump(socket, RTM_GETLINK, sizeof(struct ifinfomsg), print_link) < 0
                        || dump(socket, RTM_GETADDR, sizeof(struct ifaddrmsg), print_address) < 0;
    mnl_socket_close(socket);
    return is_failed;
}
