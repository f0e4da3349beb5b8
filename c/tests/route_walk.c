/* Tests the shapes and walks of netlink_packet_route.h, on messages that are written by hand after the kernel's
 * headers. */
#include "netlink_packet_route.h"

#include <stdio.h>
#include <string.h>

static int passed, failed;

static void expect(const char *what, bool holds)
{
    if (holds) {
        passed++;
    } else {
        failed++;
        fprintf(stderr, "failed: %s\n", what);
    }
}

/* The offset and the type of each field. */
#define AT(type, offset, field_type, field) \
    _Static_assert(offsetof(struct type, field) == (offset) && _Generic(((struct type *)NULL)->field, field_type: 1, default: 0), #type " " #field)

AT(nlp_shape, 0, uint16_t, shape);
AT(nlp_shape, 2, uint16_t, size);
AT(nlp_shape, 4, uint16_t, policy);
_Static_assert(sizeof(struct nlp_shape) == 6, "nlp_shape");
AT(nlp_kept_shape, 0, uint16_t, kept);
AT(nlp_kept_shape, 2, uint16_t, by);
AT(nlp_kept_shape, 4, uint16_t, policy);
AT(nlp_kept_shape, 6, struct nlp_shape, shape);
_Static_assert(sizeof(struct nlp_kept_shape) == 12, "nlp_kept_shape");
AT(nlp_view_walk, 0, size_t, at);
AT(nlp_view_walk, 8, struct nlp_kept_shape, last);
AT(nlp_view_walk, 20, struct nlp_kept_shape, before);
_Static_assert(sizeof(struct nlp_view_walk) == 32, "nlp_view_walk");
AT(nlp_item, 0, uint16_t, kind);
AT(nlp_item, 2, struct nlp_shape, shape);
AT(nlp_item, 8, struct nlp_part, value);
AT(nlp_item, 24, struct nlp_view, nest);
_Static_assert(sizeof(struct nlp_item) == 72, "nlp_item");

/* Each function has exactly this type. */
#define IS(name, result, ...) _Static_assert(_Generic(&name, result (*)(__VA_ARGS__): 1, default: 0), #name)

typedef const uint8_t *in;
typedef const struct nlp_view *view_in;

IS(nlp_view_shape, uint32_t, in, size_t, view_in, uint16_t, struct nlp_shape *);
IS(nlp_view_next, uint32_t, in, size_t, view_in, struct nlp_view_walk *, struct nlp_item *);
IS(nlp_shape_name, const char *, uint16_t);

static const struct nlp_item no_item = { 99, { 98, 97, 96 }, { 95, 94 }, { 93, 92, 91, { 90, 89 }, { 88, 87 } } };

static bool is_shape(const struct nlp_shape *shape, uint16_t number, uint16_t size, uint16_t policy)
{
    return shape->shape == number && shape->size == size && shape->policy == policy;
}

static bool is_part(const struct nlp_part *part, size_t offset, size_t size)
{
    return part->offset == offset && part->size == size;
}

/* A view of attributes without a header. */
static struct nlp_view block_at(uint16_t type, uint16_t policy, size_t offset, size_t size)
{
    const struct nlp_view view = { type, policy, 0, { offset, 0 }, { offset, size } };
    return view;
}

static void constants(void)
{
    static const struct {
        uint16_t value, wanted;
        const char *name;
    } rows[] = {
        { NLP_SHAPE_BYTES, 0, "bytes" }, { NLP_SHAPE_U8, 1, "u8" }, { NLP_SHAPE_U16, 2, "u16" }, { NLP_SHAPE_U32, 3, "u32" },
        { NLP_SHAPE_I32, 4, "i32" }, { NLP_SHAPE_U64, 5, "u64" }, { NLP_SHAPE_I64, 6, "i64" }, { NLP_SHAPE_BE16, 7, "be16" },
        { NLP_SHAPE_BE32, 8, "be32" }, { NLP_SHAPE_BE64, 9, "be64" }, { NLP_SHAPE_FLAG, 10, "flag" }, { NLP_SHAPE_IP, 11, "ip" },
        { NLP_SHAPE_NUL_STR, 12, "nul_str" }, { NLP_SHAPE_STR, 13, "str" }, { NLP_SHAPE_EXACT_LEN, 14, "exact" },
        { NLP_SHAPE_MIN_LEN, 15, "min" }, { NLP_SHAPE_NESTED, 16, "nest" }, { NLP_SHAPE_HEADER_NESTED, 17, "header nest" },
        { NLP_SHAPE_CHOSEN, 18, "chosen" }, { NLP_SHAPE_BE_I32, 19, "be_i32" }, { NLP_SHAPE_ELEMENTS, 20, "elements" },
        { NLP_SHAPE_CHOSEN_BY_NUMBER, 21, "chosen by number" }, { NLP_SHAPE_ANY, 65535, "any" },
    };
    for (size_t at = 0; at < sizeof rows / sizeof rows[0]; at++)
        expect(rows[at].name, rows[at].value == rows[at].wanted && strcmp(nlp_shape_name(rows[at].wanted), rows[at].name) == 0);
    expect("a number that is no shape", strcmp(nlp_shape_name(22), "any") == 0);
    expect("the shapes of fields", NLP_IFI_FAMILY % 256 == NLP_SHAPE_U8 && NLP_IFI_TYPE % 256 == NLP_SHAPE_U16
        && NLP_IFI_FLAGS % 256 == NLP_SHAPE_U32 && NLP_IFI_INDEX % 256 == NLP_SHAPE_I32);
}

/* The shapes of kinds: those of the kernel's policies, in views without attributes. */
static void shapes(void)
{
    static const struct {
        uint16_t type, policy, kind;
        struct nlp_shape shape;
        const char *name;
    } rows[] = {
        { NLP_RTM_NEWLINK, 0, NLP_IFLA_ADDRESS, { 0, 0, 0 }, "IFLA_ADDRESS" },
        { NLP_RTM_NEWLINK, 0, 1000, { 0, 0, 0 }, "a kind without a row" },
        { NLP_RTM_NEWLINK, 0, NLP_IFLA_OPERSTATE, { 1, 0, 0 }, "IFLA_OPERSTATE" },
        { NLP_RTM_NEWNEIGH, 0, NLP_NDA_VLAN, { 2, 0, 0 }, "NDA_VLAN" },
        { NLP_RTM_NEWLINK, 0, NLP_IFLA_MTU, { 3, 0, 0 }, "IFLA_MTU" },
        { NLP_RTM_NEWLINK, 0, NLP_IFLA_MTU | NLP_KIND_NESTED | NLP_KIND_NET_BYTEORDER, { 3, 0, 0 }, "flag bits" },
        { NLP_RTM_NEWLINK, 0, NLP_IFLA_LINK_NETNSID, { 4, 0, 0 }, "IFLA_LINK_NETNSID" },
        { NLP_RTM_NEWNEIGHTBL, 0, NLP_NDTA_GC_INTERVAL, { 5, 0, 0 }, "NDTA_GC_INTERVAL" },
        { NLP_RTM_NEWNEIGH, 0, NLP_NDA_PORT, { 7, 0, 0 }, "NDA_PORT" },
        { NLP_RTM_NEWLINK, 7, NLP_IFLA_GRE_IKEY, { 8, 0, 0 }, "IFLA_GRE_IKEY" },
        { NLP_RTM_NEWRULE, 0, NLP_FRA_TUN_ID, { 9, 0, 0 }, "FRA_TUN_ID" },
        { NLP_RTM_NEWLINK, 7, NLP_IFLA_GRE_COLLECT_METADATA, { 10, 0, 0 }, "IFLA_GRE_COLLECT_METADATA" },
        { NLP_RTM_NEWADDR, 0, NLP_IFA_LOCAL, { 11, 0, 0 }, "IFA_LOCAL" },
        { NLP_RTM_NEWLINK, 0, NLP_IFLA_IFNAME, { 13, 0, 0 }, "IFLA_IFNAME" },
        { NLP_RTM_NEWLINK, 7, NLP_IFLA_GRE_LOCAL, { 14, 4, 0 }, "IFLA_GRE_LOCAL" },
        { NLP_RTM_NEWROUTE, 0, NLP_RTA_CACHEINFO, { 15, 32, 0 }, "RTA_CACHEINFO" },
        { NLP_RTM_NEWROUTE, 0, NLP_RTA_METRICS, { 16, 0, 1 }, "RTA_METRICS" },
        { NLP_RTM_NEWROUTE, 2, 0x0104, { 17, 4, 0 }, "a hop" },
        { NLP_RTM_NEWLINK, 10, NLP_VETH_INFO_PEER, { 17, 16, 0 }, "VETH_INFO_PEER" },
        { NLP_RTM_NEWLINK, 1, NLP_IFLA_INFO_DATA, { 0, 0, 0 }, "IFLA_INFO_DATA without a kind" },
        { NLP_RTM_NEWNEXTHOP, 0, NLP_NHA_GROUP, { 20, 8, 0 }, "NHA_GROUP" },
        { NLP_RTM_NEWNEXTHOPBUCKET, 2, NLP_NHA_RES_BUCKET_IDLE_TIME, { 5, 0, 0 }, "NHA_RES_BUCKET_IDLE_TIME" },
        { NLP_RTM_NEWNETCONF, 0, NLP_NETCONFA_IFINDEX, { 4, 0, 0 }, "NETCONFA_IFINDEX" },
        { NLP_RTM_NEWPREFIX, 0, NLP_PREFIX_CACHEINFO, { 15, 8, 0 }, "PREFIX_CACHEINFO" },
        { NLP_RTM_NEWQDISC, 0, NLP_TCA_OPTIONS, { 0, 0, 0 }, "TCA_OPTIONS without a kind" },
        { NLP_RTM_NEWQDISC, 5, NLP_TCA_HTB_CEIL64, { 5, 0, 0 }, "TCA_HTB_CEIL64" },
        { NLP_RTM_NEWTCLASS, 1, NLP_TCA_STATS_QUEUE, { 15, 20, 0 }, "TCA_STATS_QUEUE" },
        { NLP_RTM_NEWTFILTER, 0, NLP_TCA_DUMP_FLAGS, { 14, 8, 0 }, "TCA_DUMP_FLAGS" },
        { NLP_RTM_NEWCHAIN, 0, NLP_TCA_CHAIN, { 3, 0, 0 }, "TCA_CHAIN" },
        { NLP_RTM_NEWACTION, 2, 32, { 16, 0, 3 }, "an action" },
        { NLP_RTM_NEWACTION, 3, NLP_TCA_ACT_STATS, { 16, 0, 1 }, "TCA_ACT_STATS" },
        { NLP_RTM_NEWMDB, 0, NLP_MDBA_MDB, { 0, 0, 0 }, "MDBA_MDB" },
        { NLP_RTM_NEWMDB, 2, NLP_MDBA_MDB_ENTRY_INFO, { 17, 28, 3 }, "MDBA_MDB_ENTRY_INFO" },
        { NLP_RTM_NEWMDB, 8, NLP_MDBE_ATTR_IFINDEX, { 4, 0, 0 }, "MDBE_ATTR_IFINDEX" },
        { NLP_RTM_NEWSTATS, 0, NLP_IFLA_STATS_LINK_XSTATS, { 16, 0, 1 }, "IFLA_STATS_LINK_XSTATS" },
        { NLP_RTM_NEWSTATS, 4, NLP_BOND_3AD_STAT_LACPDU_RX, { 5, 0, 0 }, "BOND_3AD_STAT_LACPDU_RX" },
        { NLP_RTM_GETSTATS, 10, NLP_IFLA_STATS_LINK_XSTATS, { 3, 0, 0 }, "IFLA_STATS_LINK_XSTATS of a request" },
        { NLP_RTM_SETSTATS, 0, NLP_IFLA_STATS_SET_OFFLOAD_XSTATS_L3_STATS, { 1, 0, 0 }, "L3_STATS of a request" },
        { NLP_RTM_NEWVLAN, 1, NLP_BRIDGE_VLANDB_ENTRY_INFO, { 15, 4, 0 }, "BRIDGE_VLANDB_ENTRY_INFO" },
        { NLP_RTM_DELVLAN, 0, NLP_BRIDGE_VLANDB_ENTRY, { 16, 0, 1 }, "BRIDGE_VLANDB_ENTRY" },
        { NLP_RTM_GETVLAN, 0, NLP_BRIDGE_VLANDB_DUMP_FLAGS, { 3, 0, 0 }, "BRIDGE_VLANDB_DUMP_FLAGS" },
        { NLP_RTM_NEWTUNNEL, 1, NLP_VXLAN_VNIFILTER_ENTRY_GROUP6, { 14, 16, 0 }, "VXLAN_VNIFILTER_ENTRY_GROUP6" },
    };
    for (size_t at = 0; at < sizeof rows / sizeof rows[0]; at++) {
        const struct nlp_view view = block_at(rows[at].type, rows[at].policy, 0, 0);
        const struct nlp_shape *wanted = &rows[at].shape;
        struct nlp_shape shape = { 99, 98, 97 };
        expect(rows[at].name, nlp_view_shape(NULL, 0, &view, rows[at].kind, &shape) == NLP_OK
            && is_shape(&shape, wanted->shape, wanted->size, wanted->policy));
    }
}

/* A link: struct ifinfomsg, and its attributes. */
static const uint8_t link_payload[] = {
    0, 0, 1, 0, 7, 0, 0, 0, 0, 0, 0, 0, 0, 0, 0, 0,
    8, 0, 4, 0, 0xdc, 5, 0, 0,                      /* IFLA_MTU, at 16 */
    56, 0, 18, 0x80,                                /* IFLA_LINKINFO with the nested bit, at 24 */
    28, 0, 2, 0, 24, 0, 1, 0,                       /* IFLA_INFO_DATA before its kind, at 28, and VETH_INFO_PEER, at 32 */
    0, 0, 1, 0, 9, 0, 0, 0, 0, 0, 0, 0, 0, 0, 0, 0, /* its struct ifinfomsg, at 36 */
    4, 0, 20, 0,                                    /* its IFLA_IFALIAS without bytes, at 52 */
    9, 0, 1, 0, 'v', 'e', 't', 'h', 0, 0, 0, 0,     /* IFLA_INFO_KIND, at 56 */
    4, 0, 2, 0,                                     /* another IFLA_INFO_DATA, at 68 */
    8, 0, 4, 0, 'b', 'o', 'n', 'd',                 /* IFLA_INFO_SLAVE_KIND, at 72 */
    5, 0, 16, 0, 6                                  /* IFLA_OPERSTATE without its padding, at 80 */
};

static void chosen_shapes(void)
{
    const size_t len = sizeof link_payload;
    const struct nlp_view info = block_at(NLP_RTM_NEWLINK, 1, 28, 52), data = block_at(NLP_RTM_NEWLINK, 1, 28, 28);
    struct nlp_view far = block_at(NLP_RTM_NEWLINK, 1, 28, 58);
    struct nlp_shape shape = { 99, 98, 97 };
    uint8_t bytes[sizeof link_payload];
    expect("a view that ends after the payload", nlp_view_shape(link_payload, len, &far, NLP_IFLA_INFO_KIND, &shape) == NLP_NO_PLACE
        && is_shape(&shape, 99, 98, 97));
    far.attributes = (struct nlp_part){ SIZE_MAX, 2 };
    expect("an offset that overflows", nlp_view_shape(link_payload, len, &far, NLP_IFLA_INFO_KIND, &shape) == NLP_NO_PLACE && shape.shape == 99);
    expect("the data of a veth", nlp_view_shape(link_payload, len, &info, NLP_IFLA_INFO_DATA, &shape) == NLP_OK && is_shape(&shape, 16, 0, 10));
    expect("data without a kind", nlp_view_shape(link_payload, len, &data, NLP_IFLA_INFO_DATA, &shape) == NLP_OK && is_shape(&shape, 0, 0, 0));
    memcpy(bytes, link_payload, len);
    memcpy(bytes + 60, "vlan", 4);
    expect("the data of a VLAN", nlp_view_shape(bytes, len, &info, NLP_IFLA_INFO_DATA, &shape) == NLP_OK && is_shape(&shape, 16, 0, 11));
    bytes[60] = 'x';
    expect("the data of an unknown kind", nlp_view_shape(bytes, len, &info, NLP_IFLA_INFO_DATA, &shape) == NLP_OK && is_shape(&shape, 0, 0, 0));
}

/* An attribute of a walk: its kind, its shape, its value, and its nest if the policy is not 99. */
struct wanted_item {
    uint16_t kind;
    struct nlp_shape shape;
    struct nlp_part value;
    struct nlp_part header, attributes;
};

static bool is_item(const struct nlp_item *item, uint16_t type, const struct wanted_item *wanted)
{
    const struct nlp_shape *shape = &wanted->shape;
    const struct nlp_view *nest = &item->nest;
    return item->kind == wanted->kind && is_shape(&item->shape, shape->shape, shape->size, shape->policy)
        && is_part(&item->value, wanted->value.offset, wanted->value.size) && nest->message_type == type
        && nest->policy == shape->policy && nest->missing == 0 && is_part(&nest->header, wanted->header.offset, wanted->header.size)
        && is_part(&nest->attributes, wanted->attributes.offset, wanted->attributes.size);
}

/* Whether an item has the fields of no_item. Its padding does not count. */
static bool is_no_item(const struct nlp_item *item)
{
    const struct nlp_view *nest = &item->nest, *other = &no_item.nest;
    return item->kind == no_item.kind && is_shape(&item->shape, no_item.shape.shape, no_item.shape.size, no_item.shape.policy)
        && is_part(&item->value, no_item.value.offset, no_item.value.size) && nest->message_type == other->message_type
        && nest->policy == other->policy && nest->missing == other->missing
        && is_part(&nest->header, other->header.offset, other->header.size)
        && is_part(&nest->attributes, other->attributes.offset, other->attributes.size);
}

/* Walks a view of a payload, whose attributes are these. Returns the nest of the last nest. */
static struct nlp_view walk_of(const char *what, const uint8_t *payload, size_t len, const struct nlp_view *view,
                               const struct wanted_item *wanted, size_t count)
{
    struct nlp_view_walk walk = { 0 };
    struct nlp_item item = no_item;
    struct nlp_view nest = *view;
    for (size_t at = 0; at < count; at++) {
        expect(what, nlp_view_next(payload, len, view, &walk, &item) == NLP_OK && is_item(&item, view->message_type, &wanted[at]));
        if (item.nest.attributes.size > 0)
            nest = item.nest;
    }
    const struct nlp_view_walk before = walk;
    item = no_item;
    for (int again = 0; again < 2; again++)
        expect(what, nlp_view_next(payload, len, view, &walk, &item) == NLP_END && walk.at == view->attributes.size
            && memcmp(&walk, &before, sizeof walk) == 0 && is_no_item(&item));
    return nest;
}

#define ITEMS(rows) rows, sizeof rows / sizeof rows[0]

static void walks(void)
{
    static const struct wanted_item link[] = {
        { NLP_IFLA_MTU, { 3, 0, 0 }, { 20, 4 }, { 20, 0 }, { 20, 0 } },
        { NLP_IFLA_LINKINFO | NLP_KIND_NESTED, { 16, 0, 1 }, { 28, 52 }, { 28, 0 }, { 28, 52 } },
        { NLP_IFLA_OPERSTATE, { 1, 0, 0 }, { 84, 1 }, { 84, 0 }, { 84, 0 } },
    }, info[] = {
        { NLP_IFLA_INFO_DATA, { 16, 0, 10 }, { 32, 24 }, { 32, 0 }, { 32, 24 } },
        { NLP_IFLA_INFO_KIND, { 13, 0, 0 }, { 60, 5 }, { 60, 0 }, { 60, 0 } },
        { NLP_IFLA_INFO_DATA, { 16, 0, 10 }, { 72, 0 }, { 72, 0 }, { 72, 0 } },
        { NLP_IFLA_INFO_SLAVE_KIND, { 13, 0, 0 }, { 76, 4 }, { 76, 0 }, { 76, 0 } },
    }, data[] = {
        { NLP_VETH_INFO_PEER, { 17, 16, 0 }, { 36, 20 }, { 36, 16 }, { 52, 4 } },
    }, peer[] = {
        { NLP_IFLA_IFALIAS, { 13, 0, 0 }, { 56, 0 }, { 56, 0 }, { 56, 0 } },
    };
    const size_t len = sizeof link_payload;
    struct nlp_view view = block_at(0, 0, 0, 0);
    struct nlp_route_error error;
    int32_t index = 0;
    expect("a link", nlp_route_view(NLP_RTM_NEWLINK, link_payload, len, &view, &error) == NLP_OK && view.attributes.size == 69);
    view = walk_of("the items of a link", link_payload, len, &view, ITEMS(link));
    view = walk_of("the items of its kind", link_payload, len, &view, ITEMS(info));
    view = walk_of("the items of its data", link_payload, len, &view, ITEMS(data));
    expect("the header of a peer", nlp_view_header_i32(link_payload, len, &view, NLP_IFI_INDEX, &index) == NLP_OK && index == 9);
    walk_of("the items of its peer", link_payload, len, &view, ITEMS(peer));
    view = block_at(NLP_RTM_NEWLINK, 0, len, 0);
    walk_of("no items", link_payload, len, &view, NULL, 0);
    view = block_at(NLP_RTM_NEWLINK, 0, 0, 0);
    walk_of("no payload", NULL, 0, &view, NULL, 0);
}

/* The view of the second message of a datagram. Its offsets are from the start of its payload. */
static void messages(void)
{
    static const uint8_t datagram[] = {
        16, 0, 0, 0, 3, 0, 0, 0, 0, 0, 0, 0, 0, 0, 0, 0,
        32, 0, 0, 0, 20, 0, 0, 0, 0, 0, 0, 0, 0, 0, 0, 0, 2, 24, 0, 0, 4, 0, 0, 0, 8, 0, 2, 0, 10, 0, 0, 1 /* IFA_LOCAL */
    };
    static const struct wanted_item local = { NLP_IFA_LOCAL, { 11, 0, 0 }, { 12, 4 }, { 12, 0 }, { 12, 0 } };
    const struct nlp_message message = { { 32, 20, 0, 0, 0 }, { 32, 16 } };
    struct nlp_view view = block_at(0, 0, 0, 0);
    struct nlp_route_error error;
    expect("a message", nlp_message_view(datagram, &message, &view, &error) == NLP_OK && view.message_type == NLP_RTM_NEWADDR
        && is_part(&view.attributes, 8, 8));
    walk_of("the items of a message", datagram + 32, 16, &view, &local, 1);
}

/* A route with two hops: struct rtnexthop has a length, flags and hops, which are the kind, and an index. */
static void hops(void)
{
    static const uint8_t payload[] = {
        2, 24, 0, 0, 254, 4, 0, 1, 0, 0, 0, 0,                            /* struct rtmsg */
        28, 0, 9, 0,                                                      /* RTA_MULTIPATH, at 12 */
        16, 0, 4, 1, 2, 0, 0, 0, 8, 0, 5, 0, 10, 0, 0, 1,                 /* RTNH_F_ONLINK, 1 more hop, index 2, RTA_GATEWAY */
        8, 0, 0, 0x80, 3, 0, 0, 0,                                        /* 128 more hops, index 3 */
    };
    static const struct wanted_item paths[] = {
        { NLP_RTA_MULTIPATH, { 16, 0, 2 }, { 16, 24 }, { 16, 0 }, { 16, 24 } },
    }, gateway[] = {
        { NLP_RTA_GATEWAY, { 11, 0, 0 }, { 28, 4 }, { 28, 0 }, { 28, 0 } },
    };
    static const struct wanted_item first = { 4 | 1 << 8, { 17, 4, 0 }, { 20, 12 }, { 20, 4 }, { 24, 8 } },
        second = { 0x8000, { 17, 4, 0 }, { 36, 4 }, { 36, 4 }, { 40, 0 } };
    const size_t len = sizeof payload;
    struct nlp_view view = block_at(0, 0, 0, 0);
    struct nlp_view_walk walk = { 0 };
    struct nlp_item item = no_item;
    struct nlp_route_error error;
    int32_t index = 0;
    expect("a route", nlp_route_view(NLP_RTM_NEWROUTE, payload, len, &view, &error) == NLP_OK);
    view = walk_of("the items of a route", payload, len, &view, ITEMS(paths));
    expect("the first hop", nlp_view_next(payload, len, &view, &walk, &item) == NLP_OK && is_item(&item, NLP_RTM_NEWROUTE, &first));
    expect("its index", nlp_view_header_i32(payload, len, &item.nest, NLP_RTNH_IFINDEX, &index) == NLP_OK && index == 2);
    walk_of("the items of a hop", payload, len, &item.nest, ITEMS(gateway));
    expect("the second hop", nlp_view_next(payload, len, &view, &walk, &item) == NLP_OK && is_item(&item, NLP_RTM_NEWROUTE, &second));
    expect("the end of the hops", nlp_view_next(payload, len, &view, &walk, &item) == NLP_END);
}

/* Walks that do not belong to the payload. */
static void stray_walks(void)
{
    static const struct {
        const char *what;
        uint8_t at, byte; /* what is changed in the payload */
        size_t walk_at;
        struct nlp_part block;
        uint32_t result;
    } rows[] = {
        { "a value of another size", 16, 7, 0, { 16, 69 }, NLP_WRONG_SHAPE },
        { "an attribute that is cut", 16, 70, 0, { 16, 69 }, NLP_WRONG_SHAPE },
        { "a length below 4", 16, 3, 0, { 16, 69 }, NLP_WRONG_SHAPE },
        { "too few bytes", 16, 8, 66, { 16, 69 }, NLP_WRONG_SHAPE },
        { "a walk inside an attribute", 16, 8, 4, { 16, 69 }, NLP_WRONG_SHAPE },
        { "a walk at the last attribute", 16, 8, 64, { 16, 69 }, NLP_OK },
        { "a walk at the end", 16, 8, 69, { 16, 69 }, NLP_END },
        { "a walk after the end", 16, 8, SIZE_MAX, { 16, 69 }, NLP_END },
        { "a payload that is shorter", 16, 8, 0, { 16, 70 }, NLP_NO_PLACE },
        { "no place comes before the end", 16, 8, 70, { 16, 70 }, NLP_NO_PLACE },
        { "an offset that overflows", 16, 8, 0, { SIZE_MAX, 69 }, NLP_NO_PLACE },
    };
    uint8_t bytes[sizeof link_payload];
    for (size_t at = 0; at < sizeof rows / sizeof rows[0]; at++) {
        const struct nlp_view view = { NLP_RTM_NEWLINK, 0, 0, { 0, 16 }, rows[at].block };
        struct nlp_view_walk walk = { 0 }, before;
        struct nlp_item item = no_item;
        memcpy(bytes, link_payload, sizeof bytes);
        bytes[rows[at].at] = rows[at].byte;
        walk.at = rows[at].walk_at;
        before = walk;
        expect(rows[at].what, nlp_view_next(bytes, sizeof bytes, &view, &walk, &item) == rows[at].result);
        expect("nothing is changed", rows[at].result == NLP_OK ? item.kind == NLP_IFLA_OPERSTATE && walk.at == 69
            : memcmp(&walk, &before, sizeof walk) == 0 && is_no_item(&item));
    }
}

int main(void)
{
    constants();
    shapes();
    chosen_shapes();
    walks();
    messages();
    hops();
    stray_walks();
    printf("%d passed, %d failed\n", passed, failed);
    return failed != 0;
}
