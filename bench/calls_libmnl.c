/* Links, addresses and routes read by libmnl: attributes validated into a table of pointers by kind, then each read once,
 * or five of a link. */
#include "five.h"
#include <libmnl/libmnl.h>
#include <linux/if_addr.h>
#include <linux/if_link.h>
#include <linux/rtnetlink.h>
#include <stdint.h>
#include <stdlib.h>
#include <string.h>

/* The kinds to check and to read as a type; the others are bytes, of any size. */
static const uint8_t link_types[IFLA_MAX + 1] = {
    [IFLA_ADDRESS] = MNL_TYPE_BINARY, [IFLA_BROADCAST] = MNL_TYPE_BINARY, [IFLA_IFNAME] = MNL_TYPE_NUL_STRING,
    [IFLA_MTU] = MNL_TYPE_U32,        [IFLA_LINK] = MNL_TYPE_U32,         [IFLA_QDISC] = MNL_TYPE_NUL_STRING,
    [IFLA_MASTER] = MNL_TYPE_U32,     [IFLA_TXQLEN] = MNL_TYPE_U32,       [IFLA_OPERSTATE] = MNL_TYPE_U8,
    [IFLA_LINKINFO] = MNL_TYPE_NESTED, [IFLA_IFALIAS] = MNL_TYPE_NUL_STRING, [IFLA_GROUP] = MNL_TYPE_U32,
    [IFLA_EXT_MASK] = MNL_TYPE_U32,   [IFLA_CARRIER] = MNL_TYPE_U8,
};
static const uint8_t address_types[IFA_MAX + 1] = {
    [IFA_ADDRESS] = MNL_TYPE_BINARY,   [IFA_LOCAL] = MNL_TYPE_BINARY,     [IFA_LABEL] = MNL_TYPE_NUL_STRING,
    [IFA_BROADCAST] = MNL_TYPE_BINARY, [IFA_CACHEINFO] = MNL_TYPE_BINARY, [IFA_FLAGS] = MNL_TYPE_U32,
};
static const uint8_t route_types[RTA_MAX + 1] = {
    [RTA_DST] = MNL_TYPE_BINARY, [RTA_GATEWAY] = MNL_TYPE_BINARY, [RTA_PREFSRC] = MNL_TYPE_BINARY,
    [RTA_OIF] = MNL_TYPE_U32,    [RTA_PRIORITY] = MNL_TYPE_U32,   [RTA_TABLE] = MNL_TYPE_U32,
};

struct table {
    const struct nlattr **attributes;
    const uint8_t *types;
    uint16_t max;
};

static int enter(const struct nlattr *attribute, void *data)
{
    struct table *table = data;
    if (mnl_attr_type_valid(attribute, table->max) < 0)
        return MNL_CB_OK;
    uint16_t kind = mnl_attr_get_type(attribute);
    if (table->types[kind] && mnl_attr_validate(attribute, table->types[kind]) < 0)
        return MNL_CB_ERROR;
    table->attributes[kind] = attribute;
    return MNL_CB_OK;
}

static size_t number(const struct nlattr *attribute, uint8_t type)
{
    switch (type) {
    case MNL_TYPE_U8:
        return mnl_attr_get_u8(attribute);
    case MNL_TYPE_U32:
        return mnl_attr_get_u32(attribute);
    case MNL_TYPE_NUL_STRING:
        return strlen(mnl_attr_get_str(attribute));
    default:
        return mnl_attr_get_payload_len(attribute);
    }
}

static size_t sum_of(const struct nlmsghdr *message, size_t header, struct table table)
{
    size_t sum = 0;
    if (mnl_attr_parse(message, header, enter, &table) != MNL_CB_OK)
        return 0;
    for (uint16_t kind = 0; kind <= table.max; kind++)
        if (table.attributes[kind])
            sum += number(table.attributes[kind], table.types[kind]);
    return sum;
}

static size_t link_sum(const struct nlmsghdr *message)
{
    const struct nlattr *attributes[IFLA_MAX + 1] = { 0 };
    return sum_of(message, sizeof(struct ifinfomsg), (struct table){ attributes, link_types, IFLA_MAX });
}

static size_t address_sum(const struct nlmsghdr *message)
{
    const struct nlattr *attributes[IFA_MAX + 1] = { 0 };
    return sum_of(message, sizeof(struct ifaddrmsg), (struct table){ attributes, address_types, IFA_MAX });
}

static size_t route_sum(const struct nlmsghdr *message)
{
    const struct nlattr *attributes[RTA_MAX + 1] = { 0 };
    return sum_of(message, sizeof(struct rtmsg), (struct table){ attributes, route_types, RTA_MAX });
}

/* Returns the sum of the attributes: numbers, and the sizes of the others. */
size_t libmnl_look(const uint8_t *bytes, size_t len)
{
    const struct nlmsghdr *message = (const void *)bytes;
    int left = (int)len;
    size_t sum = 0;
    for (; mnl_nlmsg_ok(message, left); message = mnl_nlmsg_next(message, &left)) {
        if (message->nlmsg_type == RTM_NEWLINK)
            sum += link_sum(message);
        else if (message->nlmsg_type == RTM_NEWADDR)
            sum += address_sum(message);
        else if (message->nlmsg_type == RTM_NEWROUTE)
            sum += route_sum(message);
    }
    return sum;
}

static bool read_five(const uint8_t *bytes, size_t len, struct five *five)
{
    const struct nlmsghdr *message = (const void *)bytes;
    const struct nlattr *at[IFLA_MAX + 1] = { 0 };
    struct table table = { at, link_types, IFLA_MAX };
    if (!mnl_nlmsg_ok(message, (int)len))
        return false;
    if (mnl_attr_parse(message, sizeof(struct ifinfomsg), enter, &table) != MNL_CB_OK)
        return false;
    if (at[IFLA_IFNAME])
        five->name = mnl_attr_get_str(at[IFLA_IFNAME]);
    if (at[IFLA_MTU])
        five->mtu = mnl_attr_get_u32(at[IFLA_MTU]);
    if (at[IFLA_OPERSTATE])
        five->state = mnl_attr_get_u8(at[IFLA_OPERSTATE]);
    if (at[IFLA_TXQLEN])
        five->queue = mnl_attr_get_u32(at[IFLA_TXQLEN]);
    if (at[IFLA_ADDRESS]) {
        five->address = mnl_attr_get_payload(at[IFLA_ADDRESS]);
        five->address_size = mnl_attr_get_payload_len(at[IFLA_ADDRESS]);
    }
    return true;
}

size_t libmnl_five(const uint8_t *bytes, size_t len)
{
    struct five five = { .name = "", .address = "" };
    return read_five(bytes, len, &five) ? five_sum(&five) : 0;
}

size_t libmnl_five_output(const uint8_t *bytes, size_t len, uint8_t *out, size_t room)
{
    struct five five = { .name = "", .address = "" };
    if (!read_five(bytes, len, &five))
        return 0;
    five.name_size = strlen(five.name);
    return five_bytes(&five, out, room);
}

/* Walks a block of attributes. Returns the sum of the sizes of the values. */
size_t libmnl_walk(const uint8_t *bytes, size_t len)
{
    const struct nlattr *attr;
    size_t sum = 0;
    mnl_attr_for_each_payload((const void *)bytes, len)
        sum += mnl_attr_get_payload_len(attr);
    return sum;
}

/* Writes the length field, the kind and the value of each attribute of a block. Returns the size of what it writes. */
size_t libmnl_walk_output(const uint8_t *bytes, size_t len, uint8_t *out, size_t room)
{
    const struct nlattr *attr;
    size_t at = 0;
    mnl_attr_for_each_payload((const void *)bytes, len) {
        uint16_t fields[2] = { attr->nla_len, mnl_attr_get_type(attr) };
        size_t size = mnl_attr_get_payload_len(attr);
        if (room - at < sizeof fields + size)
            return 0;
        memcpy(out + at, fields, sizeof fields);
        memcpy(out + at + sizeof fields, mnl_attr_get_payload(attr), size);
        at += sizeof fields + size;
    }
    return at;
}

/* Appends each attribute of a block to a message in a buffer that grows. libmnl does not write padding, so the buffer
 * is zeros before. */
static struct nlmsghdr *appended(const uint8_t *bytes, size_t len)
{
    size_t room = 512;
    void *buffer = calloc(room, 1);
    if (!buffer)
        return NULL;
    struct nlmsghdr *message = mnl_nlmsg_put_header(buffer);
    const struct nlattr *attr;
    mnl_attr_for_each_payload((const void *)bytes, len) {
        uint16_t kind = attr->nla_type & NLA_TYPE_MASK;
        size_t size = attr->nla_len - MNL_ATTR_HDRLEN;
        const void *value = (const char *)attr + MNL_ATTR_HDRLEN;
        while (!mnl_attr_put_check(message, room, kind, size, value)) {
            void *larger = realloc(message, room *= 2);
            if (!larger) {
                free(message);
                return NULL;
            }
            memset((char *)larger + room / 2, 0, room / 2);
            message = larger;
        }
    }
    return message;
}

size_t libmnl_append(const uint8_t *bytes, size_t len)
{
    struct nlmsghdr *message = appended(bytes, len);
    size_t size = message ? mnl_nlmsg_get_payload_len(message) : 0;
    free(message);
    return size;
}

size_t libmnl_append_output(const uint8_t *bytes, size_t len, uint8_t *out, size_t room)
{
    struct nlmsghdr *message = appended(bytes, len);
    size_t size = message ? mnl_nlmsg_get_payload_len(message) : 0;
    if (size > room)
        return 0;
    memcpy(out, mnl_nlmsg_get_payload(message), size);
    free(message);
    return size;
}
