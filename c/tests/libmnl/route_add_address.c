/* Does what examples/route_add_address.c does, over libmnl. */
#include <arpa/inet.h>
#include <errno.h>
#include <libmnl/libmnl.h>
#include <linux/rtnetlink.h>
#include <net/if.h>
#include <stdio.h>
#include <stdlib.h>
#include <string.h>

/* Keeps the errno and the kernel's text, which is an attribute after the error. */
static int read_error(const struct nlmsghdr *message, void *text)
{
    const struct nlmsgerr *error = mnl_nlmsg_get_payload(message);
    const int code = mnl_nlmsg_get_payload_len(message) < sizeof *error ? EBADMSG : -error->error;
    const struct nlattr *attr;
    if ((message->nlmsg_flags & NLM_F_ACK_TLVS) != 0)
        mnl_attr_for_each(attr, message, sizeof *error)
            if (mnl_attr_get_type(attr) == NLMSGERR_ATTR_MSG && mnl_attr_validate(attr, MNL_TYPE_NUL_STRING) == 0)
                snprintf(text, 128, "%s", mnl_attr_get_str(attr));
    errno = code;
    return code == 0 ? MNL_CB_STOP : MNL_CB_ERROR;
}

/* Writes the request: the address twice, since it is not that of a peer. */
static bool write_request(struct nlmsghdr *request, const char *link, const char *address, unsigned prefix)
{
    const bool is_four = strchr(address, ':') == NULL;
    uint8_t bytes[16] = { 0 };
    struct ifaddrmsg *header = mnl_nlmsg_put_extra_header(request, sizeof *header);
    request->nlmsg_type = RTM_NEWADDR;
    request->nlmsg_flags = NLM_F_REQUEST | NLM_F_ACK | NLM_F_CREATE | NLM_F_EXCL;
    request->nlmsg_seq = 1;
    header->ifa_family = is_four ? AF_INET : AF_INET6;
    header->ifa_prefixlen = (uint8_t)prefix;
    header->ifa_index = if_nametoindex(link);
    const int result = inet_pton(header->ifa_family, address, bytes);
    mnl_attr_put(request, IFA_LOCAL, is_four ? 4 : 16, bytes);
    mnl_attr_put(request, IFA_ADDRESS, is_four ? 4 : 16, bytes);
    return result == 1;
}

int main(int count, char **words)
{
    char *slash = count == 3 ? strchr(words[2], '/') : NULL;
    static char bytes[8192], text[128];
    static mnl_cb_t control[3] = { [NLMSG_ERROR] = read_error };
    struct nlmsghdr *request = mnl_nlmsg_put_header(bytes);
    struct mnl_socket *socket = slash != NULL ? mnl_socket_open(NETLINK_ROUTE) : NULL;
    int on = 1, result = MNL_CB_ERROR;
    if (socket == NULL || mnl_socket_bind(socket, 0, MNL_SOCKET_AUTOPID) < 0)
        return 2;
    mnl_socket_setsockopt(socket, NETLINK_EXT_ACK, &on, sizeof on);
    mnl_socket_setsockopt(socket, NETLINK_CAP_ACK, &on, sizeof on);
    *slash = 0;
    if (!write_request(request, words[1], words[2], (unsigned)atoi(slash + 1)))
        errno = EINVAL;
    else if (mnl_socket_sendto(socket, request, request->nlmsg_len) >= 0)
        result = MNL_CB_OK;
    while (result == MNL_CB_OK) {
        const ssize_t size = mnl_socket_recvfrom(socket, bytes, sizeof bytes);
        if (size >= 0)
            result = mnl_cb_run2(bytes, (size_t)size, 1, mnl_socket_get_portid(socket), NULL, text, control, 3);
        else if (errno != EINTR)
            result = MNL_CB_ERROR;
    }
    if (result < 0)
        fprintf(stderr, "%s\n", text[0] != 0 ? text : strerror(errno));
    mnl_socket_close(socket);
    return result < 0;
}
