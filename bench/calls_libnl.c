/* Links and addresses read by libnl to its objects, and five kinds of a link read from its object. */
#include "five.h"
#include <netlink/addr.h>
#include <netlink/msg.h>
#include <netlink/netlink.h>
#include <netlink/object.h>
#include <netlink/route/link.h>
#include <stdbool.h>
#include <stdint.h>

static void count(struct nl_object *object, void *data)
{
    (void)object;
    ++*(size_t *)data;
}

/* Calls a function with the object of each message. Returns whether there is memory for them. */
static bool each(const uint8_t *bytes, size_t len, void (*function)(struct nl_object *, void *), void *data)
{
    struct nlmsghdr *header = (void *)bytes;
    int left = (int)len;
    for (; nlmsg_ok(header, left); header = nlmsg_next(header, &left)) {
        struct nl_msg *message = nlmsg_convert(header);
        if (!message)
            return false;
        nlmsg_set_proto(message, NETLINK_ROUTE);
        nl_msg_parse(message, function, data);
        nlmsg_free(message);
    }
    return true;
}

/* Returns the number of objects. */
size_t libnl_read(const uint8_t *bytes, size_t len)
{
    size_t objects = 0;
    return each(bytes, len, count, &objects) ? objects : 0;
}

/* Where the values of an object go, or only their sum if there is no `out`. */
struct reading {
    uint8_t *out;
    size_t room, result;
};

static void read_five(struct nl_object *object, void *data)
{
    struct reading *reading = data;
    struct rtnl_link *link = (void *)object;
    struct nl_addr *address = rtnl_link_get_addr(link);
    struct five five = { .name = rtnl_link_get_name(link) };
    five.mtu = rtnl_link_get_mtu(link);
    five.state = rtnl_link_get_operstate(link);
    five.queue = rtnl_link_get_txqlen(link);
    five.address = nl_addr_get_binary_addr(address);
    five.address_size = nl_addr_get_len(address);
    if (reading->out) {
        five.name_size = strlen(five.name);
        reading->result = five_bytes(&five, reading->out, reading->room);
    } else {
        reading->result = five_sum(&five);
    }
}

size_t libnl_five(const uint8_t *bytes, size_t len)
{
    struct reading reading = { NULL, 0, 0 };
    return each(bytes, len, read_five, &reading) ? reading.result : 0;
}

size_t libnl_five_output(const uint8_t *bytes, size_t len, uint8_t *out, size_t room)
{
    struct reading reading = { out, room, 0 };
    return each(bytes, len, read_five, &reading) ? reading.result : 0;
}
