/* Prints each link and address that changes, over libmnl, until Ctrl-C: its name or the address itself.
 * examples/route_watch.c prints all attributes. */
#include <arpa/inet.h>
#include <errno.h>
#include <libmnl/libmnl.h>
#include <linux/rtnetlink.h>
#include <signal.h>
#include <stdio.h>
#include <sys/time.h>

static volatile sig_atomic_t stopped;

static void stop(int number)
{
    (void)number;
    stopped = 1;
}

/* Returns the first attribute of a kind whose value has the type, or NULL. */
static const struct nlattr *find(const struct nlmsghdr *message, size_t header, uint16_t kind, int type)
{
    const struct nlattr *attr;
    mnl_attr_for_each(attr, message, header)
        if (mnl_attr_get_type(attr) == kind && mnl_attr_validate(attr, type) == 0)
            return attr;
    return NULL;
}

static void print_link(const struct nlmsghdr *message)
{
    const struct nlattr *name = find(message, sizeof(struct ifinfomsg), IFLA_IFNAME, MNL_TYPE_NUL_STRING);
    const char *end = message->nlmsg_type == RTM_DELLINK ? " deleted" : "";
    printf("link %s%s\n", name != NULL ? mnl_attr_get_str(name) : "", end);
}

static void print_address(const struct nlmsghdr *message)
{
    const struct ifaddrmsg *address = mnl_nlmsg_get_payload(message);
    const struct nlattr *local = find(message, sizeof *address, IFA_LOCAL, MNL_TYPE_BINARY);
    const struct nlattr *value = local != NULL ? local : find(message, sizeof *address, IFA_ADDRESS, MNL_TYPE_BINARY);
    const char *end = message->nlmsg_type == RTM_DELADDR ? " deleted" : "";
    char text[INET6_ADDRSTRLEN] = "";
    if (value != NULL && mnl_attr_get_payload_len(value) == (address->ifa_family == AF_INET ? 4 : 16))
        inet_ntop(address->ifa_family, mnl_attr_get_payload(value), text, sizeof text);
    printf("address %s/%u%s\n", text, address->ifa_prefixlen, end);
}

static int print_event(const struct nlmsghdr *message, void *data)
{
    (void)data;
    if (message->nlmsg_type == RTM_NEWLINK || message->nlmsg_type == RTM_DELLINK)
        print_link(message);
    else if (mnl_nlmsg_get_payload_len(message) >= sizeof(struct ifaddrmsg))
        print_address(message);
    fflush(stdout);
    return MNL_CB_OK;
}

int main(void)
{
    static char bytes[65536];
    const struct timeval limit = { 0, 500000 }; /* after which it looks whether it was stopped */
    struct mnl_socket *socket = mnl_socket_open(NETLINK_ROUTE);
    signal(SIGINT, stop);
    if (socket == NULL || mnl_socket_bind(socket, RTMGRP_LINK | RTMGRP_IPV4_IFADDR | RTMGRP_IPV6_IFADDR, 0) < 0)
        return 1;
    setsockopt(mnl_socket_get_fd(socket), SOL_SOCKET, SO_RCVTIMEO, &limit, sizeof limit);
    int error = 0;
    while (!stopped && (error == 0 || error == EAGAIN || error == EINTR || error == ENOBUFS)) {
        const ssize_t size = mnl_socket_recvfrom(socket, bytes, sizeof bytes);
        error = size < 0 ? errno : 0;
        if (error == ENOBUFS)
            printf("events were lost\n");
        if (error == 0)
            mnl_cb_run(bytes, (size_t)size, 0, 0, print_event, NULL);
    }
    mnl_socket_close(socket);
    return !stopped;
}
