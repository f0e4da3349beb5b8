/* Tests netlink_packet_route_write.h: the types of its functions, the layout of its struct, and each function, by messages
 * and errors that are written by hand after the kernel's headers. */
#include "route_blocks.h"

/* The offset and the type of each field. */
#define AT(type, offset, field_type, field) \
    _Static_assert(offsetof(struct type, field) == (offset) && _Generic(((struct type *)NULL)->field, field_type: 1, default: 0), #type " " #field)

AT(nlp_route_block, 0, struct nlp_view, view);
AT(nlp_route_block, 48, size_t, start);
AT(nlp_route_block, 56, uint16_t, kind);
AT(nlp_route_block, 64, struct nlp_route_error, error);
_Static_assert(sizeof(struct nlp_route_block) == 96, "nlp_route_block");

typedef struct nlp_writer *writer_at;
typedef struct nlp_route_block *block_at;

/* Each function has exactly this type. */
#define IS(name, result, ...) _Static_assert(_Generic(&name, result (*)(__VA_ARGS__): 1, default: 0), #name)
#define IS_PUT(name, ...) IS(name, void, writer_at, block_at, uint16_t, __VA_ARGS__)

IS(nlp_route_request, struct nlp_frame_mark, writer_at, uint16_t, uint16_t);
IS(nlp_route_set, void, writer_at, struct nlp_frame_mark, uint32_t, uint32_t);
IS(nlp_route_attrs, struct nlp_route_block, const struct nlp_writer *, uint16_t);
IS(nlp_route_shape, struct nlp_shape, writer_at, block_at, uint16_t);
IS(nlp_route_either, uint16_t, writer_at, block_at, uint16_t, uint16_t, uint16_t);
IS(nlp_route_check, void, writer_at, block_at, uint16_t, uint16_t, const void *, size_t);
IS(nlp_route_put, void, writer_at, block_at, uint16_t, uint16_t, const void *, size_t);
IS_PUT(nlp_route_put_u8, uint8_t);
IS_PUT(nlp_route_put_u16, uint16_t);
IS_PUT(nlp_route_put_u32, uint32_t);
IS_PUT(nlp_route_put_u64, uint64_t);
IS_PUT(nlp_route_put_i32, int32_t);
IS_PUT(nlp_route_put_i64, int64_t);
IS_PUT(nlp_route_put_be16, uint16_t);
IS_PUT(nlp_route_put_be32, uint32_t);
IS_PUT(nlp_route_put_be64, uint64_t);
IS(nlp_route_put_flag, void, writer_at, block_at, uint16_t);
IS_PUT(nlp_route_put_str, const char *);
IS_PUT(nlp_route_put_ip, const void *, size_t);
IS_PUT(nlp_route_put_exact, const void *, size_t);
IS_PUT(nlp_route_put_bytes, const void *, size_t);
IS(nlp_route_inside, struct nlp_route_block, writer_at, block_at, uint16_t, uint16_t, const void *, size_t);
IS(nlp_route_nest, struct nlp_route_block, writer_at, block_at, uint16_t);
IS(nlp_route_nest_header, struct nlp_route_block, writer_at, block_at, uint16_t, const void *, size_t);
IS(nlp_route_nest_end, void, writer_at, block_at, const struct nlp_route_block *);
IS(nlp_route_block_text, uint32_t, const struct nlp_route_block *, uint8_t *, size_t, size_t *);

static bool are_written(const struct nlp_writer *writer, const uint8_t *wanted, size_t size)
{
    return writer->failed == NLP_OK && writer->at == size && memcmp(buffer, wanted, size) == 0 && buffer[size] == 0xee;
}

/* A request of two frames, whose fixed headers have their own sizes, and fields that are set. */
static void requests(void)
{
    static const uint8_t wanted[] = { 32, 0, 0, 0, 18, 0, 0, 3, 0, 0, 0, 0, 0, 0, 0, 0, 0, 0, 0, 0, 0, 0, 0, 0, 0, 0, 0, 0, 0, 0, 0, 0,
        32, 0, 0, 0, 20, 0, 0, 6, 0, 0, 0, 0, 0, 0, 0, 0, 2, 24, 0, 0, 4, 3, 2, 1, 8, 0, 2, 0, 10, 0, 0, 1 };
    static const uint8_t address[4] = { 10, 0, 0, 1 };
    uint8_t buffer[80];
    size_t size = 7, at = 0;
    struct nlp_message message;
    struct nlp_fault fault;
    struct nlp_view view;
    struct nlp_route_error error;
    struct nlp_writer writer = nlp_writer_begin(buffer, sizeof buffer);
    nlp_writer_frame_end(&writer, nlp_route_request(&writer, NLP_RTM_GETLINK, 0x300));
    const struct nlp_frame_mark frame = nlp_route_request(&writer, NLP_RTM_NEWADDR, 0x600);
    nlp_route_set(&writer, frame, NLP_IFA_FAMILY, 2);
    nlp_route_set(&writer, frame, NLP_IFA_PREFIXLEN, 24);
    nlp_route_set(&writer, frame, NLP_IFA_INDEX, 0x01020304);
    nlp_writer_put(&writer, NLP_IFA_LOCAL, address, sizeof address);
    nlp_writer_frame_end(&writer, frame);
    expect("two requests", writer.failed == NLP_OK && writer.at == sizeof wanted && memcmp(buffer, wanted, sizeof wanted) == 0);
    nlp_route_set(&writer, frame, NLP_IFI_TYPE, 0xabcd);
    expect("a field of 2 bytes", writer.failed == NLP_OK && buffer[50] == 0xcd && buffer[51] == 0xab && buffer[52] == 4);
    expect("the second message", nlp_message_read(buffer, writer.at, &at, &message, &fault) == NLP_OK
        && nlp_message_read(buffer, writer.at, &at, &message, &fault) == NLP_OK
        && nlp_message_view(buffer, &message, &view, &error) == NLP_OK && view.message_type == NLP_RTM_NEWADDR && view.attributes.size == 8);
    nlp_route_set(&writer, frame, 15 * 256 + 1, 7);
    expect("the last byte", writer.failed == NLP_OK && buffer[63] == 7);
    nlp_route_set(&writer, frame, 16 * 256 + 1, 7);
    expect("a field after the end", writer.failed == NLP_NO_PLACE);
    nlp_route_set(&writer, frame, NLP_IFA_FAMILY, 9);
    expect("nothing after a failure", buffer[48] == 2);
    writer = nlp_writer_begin(buffer, sizeof buffer);
    nlp_writer_frame_end(&writer, nlp_route_request(&writer, 99, 0));
    expect("no request of an unknown type", writer.failed == NLP_UNKNOWN_TYPE && writer.at == 0);
    expect("no header of an unknown type", nlp_route_header_size(0, &size) == NLP_UNKNOWN_TYPE && size == 7);
    expect("the header of a route", nlp_route_header_size(NLP_RTM_GETROUTE, &size) == NLP_OK && size == 12);
}

/* Integers of each size and byte order. */
static void numbers(void)
{
    static const uint8_t wanted[] = {
        5, 0, 16, 0, 6, 0, 0, 0,                        /* IFLA_OPERSTATE */
        6, 0, 5, 0, 0x34, 0x12, 0, 0,                   /* NDA_VLAN */
        8, 0, 4, 0, 4, 3, 2, 1,                         /* IFLA_MTU */
        8, 0, 37, 0, 0xfe, 0xff, 0xff, 0xff,            /* IFLA_LINK_NETNSID */
        12, 0, 8, 0, 8, 7, 6, 5, 4, 3, 2, 1,            /* NDTA_GC_INTERVAL */
        6, 0, 6, 0, 0x12, 0x34, 0, 0,                   /* NDA_PORT */
        8, 0, 4, 0, 1, 2, 3, 4,                         /* IFLA_GRE_IKEY */
        12, 0, 12, 0, 1, 2, 3, 4, 5, 6, 7, 8,           /* FRA_TUN_ID */
    };
    struct nlp_writer writer = begin();
    struct nlp_route_block block = block_of(&writer, NLP_RTM_NEWLINK, 0);
    nlp_route_put_u8(&writer, &block, NLP_IFLA_OPERSTATE, 6);
    block = block_of(&writer, NLP_RTM_NEWNEIGH, 0);
    nlp_route_put_u16(&writer, &block, NLP_NDA_VLAN, 0x1234);
    block = block_of(&writer, NLP_RTM_NEWLINK, 0);
    nlp_route_put_u32(&writer, &block, NLP_IFLA_MTU, 0x01020304);
    nlp_route_put_i32(&writer, &block, NLP_IFLA_LINK_NETNSID, -2);
    block = block_of(&writer, NLP_RTM_NEWNEIGHTBL, 0);
    nlp_route_put_u64(&writer, &block, NLP_NDTA_GC_INTERVAL, 0x0102030405060708);
    block = block_of(&writer, NLP_RTM_NEWNEIGH, 0);
    nlp_route_put_be16(&writer, &block, NLP_NDA_PORT, 0x1234);
    block = block_of(&writer, NLP_RTM_NEWLINK, 7);
    nlp_route_put_be32(&writer, &block, NLP_IFLA_GRE_IKEY, 0x01020304);
    block = block_of(&writer, NLP_RTM_NEWRULE, 0);
    nlp_route_put_be64(&writer, &block, NLP_FRA_TUN_ID, 0x0102030405060708);
    expect("integers", are_written(&writer, wanted, sizeof wanted) && block.error.reason == NLP_OK);
}

/* What is no integer. */
static void values(void)
{
    static const uint8_t bytes[16] = { 1, 2, 3, 4, 5, 6, 7, 8, 9, 10, 11, 12, 13, 14, 15, 16 };
    static const uint8_t wanted[] = {
        7, 0, 3, 0, 'v', '5', 0, 0,                                         /* IFLA_IFNAME */
        5, 0, 3, 0, 0, 0, 0, 0,                                             /* the same without a letter */
        10, 0, 1, 0, 1, 2, 3, 4, 5, 6, 0, 0,                                /* IFLA_ADDRESS */
        4, 0, 0xe8, 3,                                                      /* a kind without a row */
        8, 0, 4, 0, 1, 2, 3, 4,                                             /* IFLA_MTU, of any shape */
        4, 0, 18, 0,                                                        /* IFLA_GRE_COLLECT_METADATA */
        8, 0, 6, 0, 1, 2, 3, 4,                                             /* IFLA_GRE_LOCAL */
        8, 0, 2, 0, 1, 2, 3, 4,                                             /* IFA_LOCAL */
        20, 0, 2, 0, 1, 2, 3, 4, 5, 6, 7, 8, 9, 10, 11, 12, 13, 14, 15, 16, /* the same in IPv6 */
        9, 0, 18, 0, 1, 2, 3, 4, 5, 0, 0, 0,                                /* RTA_VIA, of 2 bytes or more */
    };
    struct nlp_writer writer = begin();
    struct nlp_route_block block = block_of(&writer, NLP_RTM_NEWLINK, 0);
    nlp_route_put_str(&writer, &block, NLP_IFLA_IFNAME, "v5");
    nlp_route_put_str(&writer, &block, NLP_IFLA_IFNAME, "");
    nlp_route_put_bytes(&writer, &block, NLP_IFLA_ADDRESS, bytes, 6);
    nlp_route_put_bytes(&writer, &block, 1000, NULL, 0);
    nlp_route_put(&writer, &block, NLP_SHAPE_ANY, NLP_IFLA_MTU, bytes, 4);
    block = block_of(&writer, NLP_RTM_NEWLINK, 7);
    nlp_route_put_flag(&writer, &block, NLP_IFLA_GRE_COLLECT_METADATA);
    nlp_route_put_exact(&writer, &block, NLP_IFLA_GRE_LOCAL, bytes, 4);
    block = block_of(&writer, NLP_RTM_NEWADDR, 0);
    nlp_route_put_ip(&writer, &block, NLP_IFA_LOCAL, bytes, 4);
    nlp_route_put_ip(&writer, &block, NLP_IFA_LOCAL, bytes, 16);
    block = block_of(&writer, NLP_RTM_NEWROUTE, 0);
    nlp_route_put_bytes(&writer, &block, NLP_RTA_VIA, bytes, 5);
    expect("values", are_written(&writer, wanted, sizeof wanted) && block.error.reason == NLP_OK);
}

/* The controller's table has integers of 8 bytes with a sign, in nests whose kinds have no names. */
static void controller(void)
{
    static const uint8_t wanted[] = { 24, 0, 8, 0x80, 20, 0, 1, 0x80, 16, 0, 1, 0x80, 12, 0, 2, 0, 0xfe, 0xff, 0xff, 0xff, 0xff, 0xff, 0xff, 0xff };
    struct nlp_writer writer = begin();
    struct nlp_route_block all = nlp_route_attrs(&writer, 0);
    struct nlp_route_block policy = nlp_route_nest(&writer, &all, NLP_CTRL_ATTR_POLICY);
    struct nlp_route_block row = nlp_route_nest(&writer, &policy, 1);
    struct nlp_route_block kind = nlp_route_nest(&writer, &row, 1);
    nlp_route_put_i64(&writer, &kind, NLP_NL_POLICY_TYPE_ATTR_MIN_VALUE_S, -2);
    nlp_route_nest_end(&writer, &row, &kind);
    nlp_route_nest_end(&writer, &policy, &row);
    nlp_route_nest_end(&writer, &all, &policy);
    expect("8 bytes with a sign", are_written(&writer, wanted, sizeof wanted) && all.error.reason == NLP_OK);
}

/* A VLAN: its IFLA_LINKINFO with IFLA_INFO_KIND and IFLA_INFO_DATA. */
static void nests(void)
{
    static const uint8_t wanted[] = {
        80, 0, 0, 0, 16, 0, 0, 6, 0, 0, 0, 0, 0, 0, 0, 0, 0, 0, 0, 0, 0, 0, 0, 0, 0, 0, 0, 0, 0, 0, 0, 0,
        7, 0, 3, 0, 'v', '5', 0, 0,                /* IFLA_IFNAME, at 32 */
        28, 0, 18, 0x80,                           /* IFLA_LINKINFO, at 40 */
        9, 0, 1, 0, 'v', 'l', 'a', 'n', 0, 0, 0, 0, /* IFLA_INFO_KIND, at 44 */
        12, 0, 2, 0x80, 6, 0, 1, 0, 5, 0, 0, 0,    /* IFLA_INFO_DATA, at 56, and IFLA_VLAN_ID */
        8, 0, 4, 0, 0xdc, 5, 0, 0,                 /* IFLA_MTU, at 68 */
        4, 0, 0xe8, 3                              /* a kind without a row, at 76 */
    };
    struct nlp_writer writer = begin();
    const struct nlp_frame_mark frame = nlp_route_request(&writer, NLP_RTM_NEWLINK, 0x600);
    struct nlp_route_block link = nlp_route_attrs(&writer, NLP_RTM_NEWLINK);
    expect("a block", link.view.message_type == 16 && link.view.policy == 0 && link.view.missing == 0 && link.start == 32
        && link.view.attributes.offset == 32 && link.view.header.offset == 32 && link.view.header.size == 0 && link.kind == 0
        && is_error(&link.error, 0, 0, 0, 0, 0, 0));
    nlp_route_put_str(&writer, &link, NLP_IFLA_IFNAME, "v5");
    struct nlp_route_block info = nlp_route_nest(&writer, &link, NLP_IFLA_LINKINFO);
    expect("a nest", info.view.message_type == 16 && info.view.policy == 1 && info.view.attributes.offset == 44 && info.start == 40
        && info.view.header.offset == 44 && info.view.header.size == 0 && info.view.missing == 0 && info.view.attributes.size == 0
        && info.kind == 18 && is_error(&info.error, 0, 0, 0, 0, 0, 0));
    nlp_route_put_str(&writer, &info, NLP_IFLA_INFO_KIND, "vlan");
    struct nlp_route_block data = nlp_route_nest(&writer, &info, NLP_IFLA_INFO_DATA);
    nlp_route_put_u16(&writer, &data, NLP_IFLA_VLAN_ID, 5);
    nlp_route_nest_end(&writer, &info, &data);
    nlp_route_nest_end(&writer, &link, &info);
    nlp_route_put_u32(&writer, &link, NLP_IFLA_MTU, 1500);
    nlp_route_put_bytes(&writer, &link, 1000, NULL, 0);
    nlp_writer_frame_end(&writer, frame);
    expect("a VLAN", are_written(&writer, wanted, sizeof wanted) && link.error.reason == NLP_OK);
}

/* A route with two hops: struct rtnexthop has a length, flags and hops, which are the kind, and an index. */
static void hops(void)
{
    static const uint8_t wanted[] = {
        28, 0, 9, 0x80,                                   /* RTA_MULTIPATH */
        16, 0, 4, 1, 2, 0, 0, 0, 8, 0, 5, 0, 10, 0, 0, 1, /* RTNH_F_ONLINK, 1 more hop, index 2, RTA_GATEWAY */
        8, 0, 0, 0x80, 3, 0, 0, 0,                        /* 128 more hops, index 3 */
    };
    static const uint8_t gateway[4] = { 10, 0, 0, 1 };
    uint32_t index = 2;
    struct nlp_writer writer = begin();
    struct nlp_route_block route = nlp_route_attrs(&writer, NLP_RTM_NEWROUTE);
    struct nlp_route_block paths = nlp_route_nest(&writer, &route, NLP_RTA_MULTIPATH);
    struct nlp_route_block hop = nlp_route_nest_header(&writer, &paths, 4 | 1 << 8, &index, sizeof index);
    expect("a hop", hop.view.policy == 0 && hop.view.header.offset == 8 && hop.view.header.size == 4
        && hop.view.attributes.offset == 12 && hop.start == 4 && hop.kind == 260);
    nlp_route_put_ip(&writer, &hop, NLP_RTA_GATEWAY, gateway, sizeof gateway);
    nlp_route_nest_end(&writer, &paths, &hop);
    index = 3;
    hop = nlp_route_nest_header(&writer, &paths, 0x8000, &index, sizeof index);
    nlp_route_nest_end(&writer, &paths, &hop);
    nlp_route_nest_end(&writer, &route, &paths);
    expect("hops", are_written(&writer, wanted, sizeof wanted) && route.error.reason == NLP_OK);
}

int main(void)
{
    requests();
    numbers();
    values();
    controller();
    nests();
    hops();
    printf("%d passed, %d failed\n", passed, failed);
    return failed != 0;
}
