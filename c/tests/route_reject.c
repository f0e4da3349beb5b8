/* Tests what netlink_packet_route_write.h rejects by the table, and calls that fail, by errors that are written by hand
 * after the kernel's headers. */
#include "route_blocks.h"

/* Puts into a block of links, of a policy, a kind for which the table has the shape `own`. */
#define REFUSES(policy, kind, own, number, call) do { \
        struct nlp_writer writer = begin(); \
        struct nlp_route_block block = block_of(&writer, NLP_RTM_NEWLINK, policy); \
        call; \
        expect(#call, writer.failed == NLP_WRONG_SHAPE && writer.at == 0 && buffer[0] == 0xee \
            && is_error(&block.error, NLP_WRONG_SHAPE, kind, policy, 0, own, number)); \
    } while (0)

static void wrong_shapes(void)
{
    static const uint8_t bytes[4] = { 0 };
    struct nlp_route_block inner;
    REFUSES(0, 4, 3, 1, nlp_route_put_u8(&writer, &block, NLP_IFLA_MTU, 1));
    REFUSES(0, 16, 1, 2, nlp_route_put_u16(&writer, &block, NLP_IFLA_OPERSTATE, 1));
    REFUSES(7, 4, 8, 3, nlp_route_put_u32(&writer, &block, NLP_IFLA_GRE_IKEY, 1));
    REFUSES(0, 4, 3, 4, nlp_route_put_i32(&writer, &block, NLP_IFLA_MTU, 1));
    REFUSES(0, 4, 3, 5, nlp_route_put_u64(&writer, &block, NLP_IFLA_MTU, 1));
    REFUSES(0, 4, 3, 6, nlp_route_put_i64(&writer, &block, NLP_IFLA_MTU, 1));
    REFUSES(11, 1, 2, 7, nlp_route_put_be16(&writer, &block, NLP_IFLA_VLAN_ID, 1));
    REFUSES(0, 4, 3, 8, nlp_route_put_be32(&writer, &block, NLP_IFLA_MTU, 1));
    REFUSES(0, 4, 3, 9, nlp_route_put_be64(&writer, &block, NLP_IFLA_MTU, 1));
    REFUSES(0, 3, 13, 10, nlp_route_put_flag(&writer, &block, NLP_IFLA_IFNAME));
    REFUSES(7, 6, 14, 11, nlp_route_put_ip(&writer, &block, NLP_IFLA_GRE_LOCAL, bytes, 4));
    REFUSES(0, 1, 0, 13, nlp_route_put_str(&writer, &block, NLP_IFLA_ADDRESS, "a"));
    REFUSES(0, 1, 0, 14, nlp_route_put_exact(&writer, &block, NLP_IFLA_ADDRESS, bytes, 4));
    REFUSES(0, 4, 3, 0, nlp_route_put_bytes(&writer, &block, NLP_IFLA_MTU, bytes, 4));
    REFUSES(0, 1000, 0, 3, nlp_route_put_u32(&writer, &block, 1000, 1));
    REFUSES(0, 4, 3, 16, inner = nlp_route_nest(&writer, &block, NLP_IFLA_MTU));
    REFUSES(10, 1, 17, 16, inner = nlp_route_nest(&writer, &block, NLP_VETH_INFO_PEER));
    REFUSES(1, 2, 0, 16, inner = nlp_route_nest(&writer, &block, NLP_IFLA_INFO_DATA));
    REFUSES(0, 18, 16, 17, inner = nlp_route_nest_header(&writer, &block, NLP_IFLA_LINKINFO, bytes, 4));
    REFUSES(0, 18, 16, 17, inner = nlp_route_nest_header(&writer, &block, NLP_IFLA_LINKINFO, NULL, 0));
    expect("a nest that is not begun", inner.error.reason == NLP_OK);
}

/* Puts after 8 bytes into a block of a policy what the table rejects. */
#define FAILS(type, policy, reason, kind, expected, received, call) do { \
        struct nlp_writer writer = begin(); \
        nlp_writer_put_u32(&writer, 9, 9); \
        struct nlp_route_block block = block_of(&writer, type, policy); \
        call; \
        expect(#call, writer.failed == reason && writer.at == 8 \
            && is_error(&block.error, reason, kind, policy, 8, expected, received)); \
    } while (0)

static void wrong_values(void)
{
    static const uint8_t bytes[65532] = { 0 };
    struct nlp_route_block inner;
    FAILS(NLP_RTM_NEWADDR, 0, NLP_ADDRESS_SIZE, 2, 0, 5, nlp_route_put_ip(&writer, &block, NLP_IFA_LOCAL, bytes, 5));
    FAILS(NLP_RTM_NEWLINK, 7, NLP_VALUE_SIZE, 6, 4, 3, nlp_route_put_exact(&writer, &block, NLP_IFLA_GRE_LOCAL, bytes, 3));
    FAILS(NLP_RTM_NEWLINK, 6, NLP_VALUE_SHORT, 10, 8, 7, nlp_route_put_bytes(&writer, &block, NLP_IFLA_BR_ROOT_ID, bytes, 7));
    FAILS(NLP_RTM_NEWLINK, 0, NLP_VALUE_SIZE, 4, 4, 3, nlp_route_put(&writer, &block, NLP_SHAPE_ANY, NLP_IFLA_MTU, bytes, 3));
    FAILS(NLP_RTM_NEWROUTE, 2, NLP_VALUE_SIZE, 1, 4, 2, inner = nlp_route_nest_header(&writer, &block, 1, bytes, 2));
    FAILS(NLP_RTM_NEWROUTE, 2, NLP_VALUE_SIZE, 1, 4, 8, inner = nlp_route_nest_header(&writer, &block, 1, bytes, 8));
    expect("a header of another size", inner.error.reason == NLP_OK);
    struct nlp_writer writer = begin();
    struct nlp_route_block block = block_of(&writer, NLP_RTM_NEWLINK, 0);
    nlp_route_put_bytes(&writer, &block, NLP_IFLA_ADDRESS, bytes, sizeof bytes);
    expect("a value that is too long", writer.failed == NLP_TOO_LONG && writer.at == 0 && is_error(&block.error, NLP_TOO_LONG, 0, 0, 0, 0, 0));
}

/* IFLA_INFO_DATA of any bytes, and then a kind that makes it a nest, which the bytes are or are not. */
static void late_choices(void)
{
    static const uint8_t data[2][8] = { { 8, 0, 1, 0, 5, 0, 0, 0 }, { 6, 0, 1, 0, 5, 0, 0, 0 } };
    for (int is_right = 0; is_right < 2; is_right++) {
        struct nlp_writer writer = begin();
        struct nlp_route_block link = nlp_route_attrs(&writer, NLP_RTM_NEWLINK);
        struct nlp_route_block info = nlp_route_nest(&writer, &link, NLP_IFLA_LINKINFO);
        nlp_route_put_bytes(&writer, &info, NLP_IFLA_INFO_DATA, data[is_right], 8);
        nlp_route_put_str(&writer, &info, NLP_IFLA_INFO_KIND, "vlan");
        expect("nothing is known before the end", writer.failed == NLP_OK && writer.at == 28);
        nlp_route_nest_end(&writer, &link, &info);
        expect("data that its kind makes a nest", is_right ? writer.failed == NLP_OK && link.error.reason == NLP_OK
            : writer.failed == NLP_VALUE_SIZE && is_error(&link.error, NLP_VALUE_SIZE, 1, 11, 8, 2, 4));
        expect("the end of the nest is written", buffer[0] == 28 && buffer[1] == 0);
    }
}

/* An error in a nest becomes that of the blocks around it, unless they have one. */
static void errors_in_nests(void)
{
    struct nlp_writer writer = begin();
    struct nlp_route_block link = nlp_route_attrs(&writer, NLP_RTM_NEWLINK);
    struct nlp_route_block info = nlp_route_nest(&writer, &link, NLP_IFLA_LINKINFO);
    nlp_route_put_str(&writer, &info, NLP_IFLA_INFO_KIND, "vlan");
    struct nlp_route_block data = nlp_route_nest(&writer, &info, NLP_IFLA_INFO_DATA);
    nlp_route_put_u16(&writer, &data, NLP_IFLA_VLAN_ID, 5);
    nlp_route_put_u16(&writer, &data, NLP_IFLA_VLAN_PROTOCOL, 0x88a8);
    const size_t at = writer.at;
    nlp_route_nest_end(&writer, &info, &data);
    nlp_route_nest_end(&writer, &link, &info);
    expect("the error of a nest", writer.failed == NLP_WRONG_SHAPE && writer.at == at && buffer[0] == 4 && buffer[16] == 4
        && is_error(&link.error, NLP_WRONG_SHAPE, 5, 11, 28, 7, 2) && is_error(&info.error, NLP_WRONG_SHAPE, 5, 11, 28, 7, 2));
    data.error.kind = 99;
    nlp_route_nest_end(&writer, &link, &data);
    expect("the first error stays", link.error.kind == 5);
}

/* Peers of peers, each of which is in three nests. */
static void deep_nests(void)
{
    static const uint8_t header[16] = { 0 };
    struct nlp_route_block blocks[10];
    struct nlp_writer writer = begin();
    blocks[0] = nlp_route_attrs(&writer, NLP_RTM_NEWLINK);
    for (int i = 0; i < 9; i += 3) {
        blocks[i + 1] = nlp_route_nest(&writer, &blocks[i], NLP_IFLA_LINKINFO);
        nlp_route_put_str(&writer, &blocks[i + 1], NLP_IFLA_INFO_KIND, "veth");
        blocks[i + 2] = nlp_route_nest(&writer, &blocks[i + 1], NLP_IFLA_INFO_DATA);
        blocks[i + 3] = nlp_route_nest_header(&writer, &blocks[i + 2], NLP_VETH_INFO_PEER, header, sizeof header);
    }
    expect("the header of a peer", blocks[3].view.policy == 0 && blocks[3].view.header.size == 16 && writer.at == 120);
    for (int i = 8; i > 0; i--)
        nlp_route_nest_end(&writer, &blocks[i], &blocks[i + 1]);
    expect("eight nests, one inside the other", writer.failed == NLP_OK);
    nlp_route_nest_end(&writer, &blocks[0], &blocks[1]);
    expect("nine nests", writer.failed == NLP_TOO_DEEP && is_error(&blocks[0].error, NLP_TOO_DEEP, 1, 10, 100, 0, 0));
}

/* Calls that fail because of the buffer or of what was taken back, and all calls after a failure. */
static void failures(void)
{
    static const uint8_t bytes[4] = { 1, 2, 3, 4 };
    struct nlp_writer writer = nlp_writer_begin(buffer, 7);
    struct nlp_route_block route = nlp_route_attrs(&writer, NLP_RTM_NEWROUTE), none = { 0 };
    nlp_route_put_u32(&writer, &route, NLP_RTA_OIF, 1);
    expect("no room for a number", writer.failed == NLP_NO_ROOM && writer.at == 0 && route.error.reason == NLP_OK);
    writer.failed = NLP_OK;
    struct nlp_route_block paths = nlp_route_nest(&writer, &route, NLP_RTA_MULTIPATH);
    struct nlp_route_block hop = nlp_route_nest_header(&writer, &paths, 1, bytes, 4);
    expect("no room for a header", writer.failed == NLP_NO_ROOM && writer.at == 4 && paths.error.reason == NLP_OK);
    writer.capacity = sizeof buffer;
    nlp_route_put_u32(&writer, &paths, NLP_RTA_OIF, 1);
    nlp_route_put_flag(&writer, &hop, NLP_RTA_OIF);
    hop = nlp_route_nest(&writer, &route, NLP_RTA_OIF);
    nlp_route_nest_end(&writer, &route, &paths);
    expect("nothing after a failure", writer.failed == NLP_NO_ROOM && writer.at == 4 && buffer[0] == 4 && route.error.reason == NLP_OK
        && paths.error.reason == NLP_OK && hop.error.reason == NLP_OK);
    writer.failed = NLP_OK;
    nlp_writer_back(&writer, 0);
    nlp_route_put_u32(&writer, &paths, NLP_RTA_OIF, 1);
    expect("a block that was taken back", writer.failed == NLP_NO_PLACE && writer.at == 0 && paths.error.reason == NLP_OK);
    writer.failed = NLP_OK;
    const struct nlp_shape shape = nlp_route_shape(&writer, &paths, NLP_RTA_OIF);
    expect("its shapes", shape.shape == 0 && shape.size == 0 && shape.policy == 0 && writer.failed == NLP_NO_PLACE);
    writer.failed = NLP_OK;
    nlp_route_nest_end(&writer, &route, &paths);
    expect("no nest to end", writer.failed == NLP_NO_PLACE && route.error.reason == NLP_OK);
    writer.failed = NLP_OK;
    nlp_route_nest_end(&writer, &none, &none);
    expect("no nest at all", writer.failed == NLP_NO_PLACE);
}

/* The text of the error of a block of links in which a value is put with a shape. */
static void expect_text(uint16_t shape, size_t len, const char *wanted)
{
    static const uint8_t bytes[8] = { 0 };
    struct nlp_writer writer = begin();
    nlp_writer_put_u32(&writer, 9, 9);
    struct nlp_route_block link = nlp_route_attrs(&writer, NLP_RTM_NEWLINK);
    uint8_t text[128];
    size_t size = 0;
    bool holds = true;
    nlp_route_put(&writer, &link, shape, NLP_IFLA_MTU, bytes, len);
    for (size_t capacity = 0; capacity <= strlen(wanted) + 1; capacity++) {
        const bool fits = capacity >= strlen(wanted);
        memset(text, 0xee, sizeof text);
        const uint32_t result = nlp_route_block_text(&link, text, capacity, &size);
        holds = holds && (fits ? result == NLP_OK : result == NLP_NO_ROOM) && size == strlen(wanted)
            && memcmp(text, wanted, fits ? size : 0) == 0 && text[fits ? size : 0] == 0xee;
    }
    expect(wanted, holds);
}

static void texts(void)
{
    const struct nlp_writer writer = begin();
    const struct nlp_route_block none = nlp_route_attrs(&writer, NLP_RTM_NEWLINK);
    uint8_t text[8];
    size_t size = 7;
    expect_text(NLP_SHAPE_BE32, 4, "at byte 8, in policy 0: attribute 4 has the shape be32 instead of u32");
    expect_text(NLP_SHAPE_ANY, 3, "at byte 8, in policy 0: attribute 4 has a value of 3 bytes instead of 4");
    expect("no text", nlp_route_block_text(&none, text, sizeof text, &size) == NLP_NO_PLACE && size == 7);
}

int main(void)
{
    wrong_shapes();
    wrong_values();
    late_choices();
    errors_in_nests();
    deep_nests();
    failures();
    texts();
    printf("%d passed, %d failed\n", passed, failed);
    return failed != 0;
}
