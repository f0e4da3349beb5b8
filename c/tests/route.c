/* Tests netlink_packet_route.h: its constants, the layouts of its structs, the types of its functions, and each function
 * on messages that are written by hand after the kernel's headers. */
#include "netlink_packet_route.h"

#include <stdio.h>
#include <string.h>

static int passed, failed;

static void expect(const char *what, bool holds)
{
    if (holds) {
        passed++;
    } else {
        failed++;
        fprintf(stderr, "failed: %s\n", what);
    }
}

/* The offset and the type of each field. */
#define AT(type, offset, field_type, field) \
    _Static_assert(offsetof(struct type, field) == (offset) && _Generic(((struct type *)NULL)->field, field_type: 1, default: 0), #type " " #field)

AT(nlp_view, 0, uint16_t, message_type);
AT(nlp_view, 2, uint16_t, policy);
AT(nlp_view, 8, size_t, missing);
AT(nlp_view, 16, struct nlp_part, header);
AT(nlp_view, 32, struct nlp_part, attributes);
_Static_assert(sizeof(struct nlp_view) == 48, "nlp_view");
AT(nlp_route_error, 0, uint32_t, reason);
AT(nlp_route_error, 4, uint16_t, kind);
AT(nlp_route_error, 6, uint16_t, policy);
AT(nlp_route_error, 8, size_t, offset);
AT(nlp_route_error, 16, size_t, expected);
AT(nlp_route_error, 24, size_t, received);
_Static_assert(sizeof(struct nlp_route_error) == 32, "nlp_route_error");

typedef const uint8_t *in;
typedef uint8_t *out;
typedef const struct nlp_view *view_in;
typedef struct nlp_route_error *error_out;

/* Each function has exactly this type. */
#define IS_CALL(name, ...) _Static_assert(_Generic(&name, uint32_t (*)(__VA_ARGS__): 1, default: 0), #name)
#define IS_GETTER(name, type) IS_CALL(name, in, size_t, view_in, uint16_t, type *)
#define IS_FIELD(name, type) IS_CALL(name, in, size_t, view_in, uint32_t, type *)

IS_CALL(nlp_route_view, uint16_t, in, size_t, struct nlp_view *, error_out);
IS_CALL(nlp_generic_view, in, size_t, struct nlp_view *, error_out);
IS_CALL(nlp_route_error_text, const struct nlp_route_error *, out, size_t, size_t *);
IS_GETTER(nlp_view_u8, uint8_t);
IS_GETTER(nlp_view_u16, uint16_t);
IS_GETTER(nlp_view_u32, uint32_t);
IS_GETTER(nlp_view_u64, uint64_t);
IS_GETTER(nlp_view_i32, int32_t);
IS_GETTER(nlp_view_i64, int64_t);
IS_GETTER(nlp_view_be16, uint16_t);
IS_GETTER(nlp_view_be32, uint32_t);
IS_GETTER(nlp_view_be64, uint64_t);
IS_GETTER(nlp_view_str, struct nlp_part);
IS_GETTER(nlp_view_ip, struct nlp_part);
IS_CALL(nlp_view_mac, in, size_t, view_in, uint16_t, uint8_t (*)[6]);
IS_GETTER(nlp_view_exact, struct nlp_part);
IS_GETTER(nlp_view_bytes, struct nlp_part);
IS_GETTER(nlp_view_first, struct nlp_part);
IS_GETTER(nlp_view_nest, struct nlp_view);
IS_FIELD(nlp_view_header_u8, uint8_t);
IS_FIELD(nlp_view_header_u16, uint16_t);
IS_FIELD(nlp_view_header_u32, uint32_t);
IS_FIELD(nlp_view_header_i32, int32_t);
IS_CALL(nlp_route_header_size, uint16_t, size_t *);
IS_CALL(nlp_view_check, in, size_t, view_in, uint16_t, uint16_t, in, size_t, error_out);
IS_CALL(nlp_message_view, in, const struct nlp_message *, struct nlp_view *, error_out);
IS_CALL(nlp_route_show, uint16_t, in, size_t, out, size_t, size_t *, error_out);
IS_CALL(nlp_generic_show, in, size_t, out, size_t, size_t *, error_out);

static void constants(void)
{
    static const struct {
        const char *name;
        uint32_t value, wanted;
    } rows[] = {
        { "NLP_UNKNOWN_TYPE", NLP_UNKNOWN_TYPE, 40 }, { "NLP_HEADER_SHORT", NLP_HEADER_SHORT, 41 },
        { "NLP_VALUE_SIZE", NLP_VALUE_SIZE, 42 }, { "NLP_NOT_TERMINATED", NLP_NOT_TERMINATED, 43 },
        { "NLP_INTERIOR_NUL", NLP_INTERIOR_NUL, 44 }, { "NLP_VALUE_SHORT", NLP_VALUE_SHORT, 45 },
        { "NLP_ADDRESS_SIZE", NLP_ADDRESS_SIZE, 46 }, { "NLP_TOO_DEEP", NLP_TOO_DEEP, 47 },
        { "NLP_LATE_CHOICE", NLP_LATE_CHOICE, 48 }, { "NLP_NO_MULTIPLE", NLP_NO_MULTIPLE, 49 },
    };
    for (size_t at = 0; at < sizeof rows / sizeof rows[0]; at++)
        expect(rows[at].name, rows[at].value == rows[at].wanted);
}

/* A link: struct ifinfomsg with index 7 and the flags 0x1003, and its attributes. */
static const uint8_t link_payload[] = {
    0, 0, 1, 0, 7, 0, 0, 0, 3, 16, 0, 0, 0, 0, 0, 0,
    10, 0, 3, 0, 'v', 'e', 't', 'h', '0', 0, 0, 0,      /* IFLA_IFNAME, at 16 */
    8, 0, 4, 0, 0xdc, 5, 0, 0,                          /* IFLA_MTU 1500, at 28 */
    8, 0, 4, 0, 1, 0, 0, 0,                             /* another, at 36 */
    10, 0, 1, 0, 2, 0, 0, 0, 0, 9, 0, 0,                /* IFLA_ADDRESS, at 44 */
    5, 0, 16, 0, 6, 0, 0, 0,                            /* IFLA_OPERSTATE, at 56 */
    8, 0, 37, 0, 0xfe, 0xff, 0xff, 0xff,                /* IFLA_LINK_NETNSID -2, at 64 */
    52, 0, 18, 0,                                       /* IFLA_LINKINFO, at 72 */
    8, 0, 1, 0, 'v', 'e', 't', 'h',                     /* IFLA_INFO_KIND, without a zero, at 76 */
    40, 0, 2, 0, 36, 0, 1, 0,                           /* IFLA_INFO_DATA, VETH_INFO_PEER, at 84 */
    0, 0, 1, 0, 9, 0, 0, 0, 1, 0, 0, 0, 2, 0, 0, 0,     /* its struct ifinfomsg, at 92 */
    6, 0, 3, 0, 'p', 0, 0, 0, 8, 0, 13, 0, 100, 0, 0, 0 /* its IFLA_IFNAME, at 108, and IFLA_TXQLEN */
};

static struct nlp_view view_of(uint16_t type, const uint8_t *payload, size_t len)
{
    struct nlp_view view = { 99, 98, 97, { 96, 95 }, { 94, 93 } };
    struct nlp_route_error error = { 1, 2, 3, 4, 5, 6 };
    expect("a payload without an error", nlp_route_view(type, payload, len, &view, &error) == NLP_OK && error.reason == 1);
    return view;
}

static bool is_part(const struct nlp_part *part, size_t offset, size_t size)
{
    return part->offset == offset && part->size == size;
}

static void links(void)
{
    const size_t len = sizeof link_payload;
    const struct nlp_view view = view_of(NLP_RTM_NEWLINK, link_payload, len);
    struct nlp_view info = view, data = view, peer = view;
    struct nlp_part part = { 1, 2 };
    uint8_t state = 0, mac[6] = { 0 };
    uint16_t type = 0;
    uint32_t mtu = 0, flags = 0;
    int32_t index = 0, id = 0;
    expect("the view of a link", view.message_type == 16 && view.policy == 0 && view.missing == 0
        && is_part(&view.header, 0, 16) && is_part(&view.attributes, 16, len - 16));
    expect("the index", nlp_view_header_i32(link_payload, len, &view, NLP_IFI_INDEX, &index) == NLP_OK && index == 7);
    expect("the flags", nlp_view_header_u32(link_payload, len, &view, NLP_IFI_FLAGS, &flags) == NLP_OK && flags == 0x1003);
    expect("the type", nlp_view_header_u16(link_payload, len, &view, NLP_IFI_TYPE, &type) == NLP_OK && type == 1);
    expect("a field of another shape", nlp_view_header_u32(link_payload, len, &view, NLP_IFI_INDEX, &flags) == NLP_NO_PLACE && flags == 0x1003);
    expect("the first MTU", nlp_view_u32(link_payload, len, &view, NLP_IFLA_MTU, &mtu) == NLP_OK && mtu == 1500);
    expect("a getter of another shape", nlp_view_u32(link_payload, len, &view, NLP_IFLA_OPERSTATE, &mtu) == NLP_NO_PLACE && mtu == 1500);
    expect("no such attribute", nlp_view_u32(link_payload, len, &view, NLP_IFLA_MASTER, &mtu) == NLP_NO_PLACE && mtu == 1500);
    expect("the state", nlp_view_u8(link_payload, len, &view, NLP_IFLA_OPERSTATE, &state) == NLP_OK && state == 6);
    expect("a negative number", nlp_view_i32(link_payload, len, &view, NLP_IFLA_LINK_NETNSID, &id) == NLP_OK && id == -2);
    expect("the name", nlp_view_str(link_payload, len, &view, NLP_IFLA_IFNAME, &part) == NLP_OK && is_part(&part, 20, 5));
    expect("bytes", nlp_view_bytes(link_payload, len, &view, NLP_IFLA_ADDRESS, &part) == NLP_OK && is_part(&part, 48, 6));
    expect("a MAC address", nlp_view_mac(link_payload, len, &view, NLP_IFLA_ADDRESS, &mac) == NLP_OK && mac[0] == 2 && mac[5] == 9);
    expect("any value", nlp_view_first(link_payload, len, &view, NLP_IFLA_LINKINFO, &part) == NLP_OK && is_part(&part, 76, 48));
    expect("a nest", nlp_view_nest(link_payload, len, &view, NLP_IFLA_LINKINFO, &info) == NLP_OK && info.policy == 1
        && is_part(&info.header, 76, 0) && is_part(&info.attributes, 76, 48));
    expect("a string without a zero", nlp_view_str(link_payload, len, &info, NLP_IFLA_INFO_KIND, &part) == NLP_OK && is_part(&part, 80, 4));
    expect("a nest that the kind chooses", nlp_view_nest(link_payload, len, &info, NLP_IFLA_INFO_DATA, &data) == NLP_OK
        && is_part(&data.attributes, 88, 36));
    expect("a nest after a header", nlp_view_nest(link_payload, len, &data, NLP_VETH_INFO_PEER, &peer) == NLP_OK && peer.policy == 0
        && is_part(&peer.header, 92, 16) && is_part(&peer.attributes, 108, 16));
    expect("its header", nlp_view_header_i32(link_payload, len, &peer, NLP_IFI_INDEX, &index) == NLP_OK && index == 9);
    expect("no header of 16 bytes", nlp_view_header_i32(link_payload, len, &info, NLP_IFI_INDEX, &index) == NLP_NO_PLACE && index == 9);
    expect("its name", nlp_view_str(link_payload, len, &peer, NLP_IFLA_IFNAME, &part) == NLP_OK && is_part(&part, 112, 1));
    expect("no nest", nlp_view_nest(link_payload, len, &view, NLP_IFLA_MTU, &info) == NLP_NO_PLACE && info.policy == 1);
}

/* A view that is passed with other bytes than its own. */
static void others(void)
{
    const size_t len = sizeof link_payload;
    const struct nlp_view view = view_of(NLP_RTM_NEWLINK, link_payload, len);
    struct nlp_view far = view;
    uint8_t bytes[sizeof link_payload];
    uint32_t mtu = 3;
    memcpy(bytes, link_payload, len);
    bytes[28] = 7;
    expect("a value of another size", nlp_view_u32(bytes, len, &view, NLP_IFLA_MTU, &mtu) == NLP_WRONG_SHAPE && mtu == 3);
    expect("a payload that is shorter", nlp_view_u32(bytes, len - 1, &view, NLP_IFLA_MTU, &mtu) == NLP_NO_PLACE && mtu == 3);
    expect("no payload", nlp_view_u32(NULL, 0, &view, NLP_IFLA_MTU, &mtu) == NLP_NO_PLACE && mtu == 3);
    far.attributes.offset = SIZE_MAX;
    expect("an offset that overflows", nlp_view_u32(bytes, len, &far, NLP_IFLA_MTU, &mtu) == NLP_NO_PLACE && mtu == 3);
    far.header.offset = len - 8;
    expect("a header outside", nlp_view_header_u32(bytes, len, &far, NLP_IFI_FLAGS, &mtu) == NLP_NO_PLACE && mtu == 3);
}

/* Payloads of other types, and their numbers, addresses and shapes. */
static void values(void)
{
    static const uint8_t address[] = { 2, 24, 128, 0, 3, 0, 0, 0, 8, 0, 2, 0, 192, 0, 2, 1, 5, 0, 11, 0, 3, 0, 0, 0 };
    static const uint8_t family[] = { 1, 2, 0, 0, 6, 0, 1, 0, 16, 0, 0, 0, 11, 0, 2, 0, 'n', 'l', 'c', 't', 'r', 'l', 0, 0 };
    static const uint8_t policy[] = { 10, 2, 0, 0, 24, 0, 8, 0, 20, 0, 1, 0, 16, 0, 1, 0, 12, 0, 2, 0, 0xff, 0xff, 0xff, 0xff, 0xff, 0xff, 0xff, 0xff };
    static const uint8_t vlan[] = { 0, 0, 0, 0, 0, 0, 0, 0, 0, 0, 0, 0, 0, 0, 0, 0, 34, 0, 18, 0, 9, 0, 1, 0, 'v', 'l', 'a', 'n', 0, 0, 0, 0,
        18, 0, 2, 0, 6, 0, 1, 0, 5, 0, 0, 0, 6, 0, 5, 0, 0x88, 0xa8 };
    struct nlp_view view = view_of(NLP_RTM_NEWADDR, address, sizeof address), inner;
    struct nlp_route_error error;
    struct nlp_part part = { 0, 0 };
    uint16_t id = 0;
    uint8_t prefix = 0;
    int64_t least = 0;
    expect("an address", nlp_view_ip(address, sizeof address, &view, NLP_IFA_LOCAL, &part) == NLP_OK && is_part(&part, 12, 4));
    expect("its prefix", nlp_view_header_u8(address, sizeof address, &view, NLP_IFA_PREFIXLEN, &prefix) == NLP_OK && prefix == 24);
    expect("a family", nlp_generic_view(family, sizeof family, &view, &error) == NLP_OK && view.message_type == 0);
    expect("its id", nlp_view_u16(family, sizeof family, &view, NLP_CTRL_ATTR_FAMILY_ID, &id) == NLP_OK && id == 16);
    expect("its name", nlp_view_str(family, sizeof family, &view, NLP_CTRL_ATTR_FAMILY_NAME, &part) == NLP_OK && is_part(&part, 16, 6));
    expect("a policy", nlp_generic_view(policy, sizeof policy, &view, &error) == NLP_OK);
    expect("nests by any kind", nlp_view_nest(policy, sizeof policy, &view, NLP_CTRL_ATTR_POLICY, &inner) == NLP_OK
        && nlp_view_nest(policy, sizeof policy, &inner, 1, &inner) == NLP_OK && nlp_view_nest(policy, sizeof policy, &inner, 1, &inner) == NLP_OK);
    expect("8 bytes with a sign", nlp_view_i64(policy, sizeof policy, &inner, NLP_NL_POLICY_TYPE_ATTR_MIN_VALUE_S, &least) == NLP_OK && least == -1);
    view = view_of(NLP_RTM_NEWLINK, vlan, 50);
    expect("the data of a VLAN", nlp_view_nest(vlan, 50, &view, NLP_IFLA_LINKINFO, &view) == NLP_OK
        && nlp_view_nest(vlan, 50, &view, NLP_IFLA_INFO_DATA, &view) == NLP_OK);
    expect("2 bytes", nlp_view_u16(vlan, 50, &view, NLP_IFLA_VLAN_ID, &id) == NLP_OK && id == 5);
    expect("2 big-endian bytes", nlp_view_be16(vlan, 50, &view, NLP_IFLA_VLAN_PROTOCOL, &id) == NLP_OK && id == 0x88a8);
}

/* What each payload is rejected for, and the text of that. */
static void errors(void)
{
    static const struct {
        uint16_t type;
        uint8_t len, payload[48];
        struct nlp_route_error error;
        const char *text;
    } rows[] = {
        { 99, 0, { 0 }, { 40, 99, 0, 0, 0, 0 }, "message type 99 is not known" },
        { 0, 4, { 0 }, { 40, 0, 0, 0, 0, 0 }, "message type 0 is not known" },
        { 20, 7, { 0 }, { 41, 0, 0, 0, 8, 7 }, "the payload has 7 bytes, fewer than its header of 8" },
        { 16, 18, { 0 }, { 5, 0, 0, 16, 0, 2 }, "at byte 16, in policy 0: 2 bytes are too few for an attribute" },
        { 16, 20, { [16] = 9 }, { 6, 0, 0, 16, 9, 4 }, "at byte 16, in policy 0: an attribute of 9 bytes is truncated to 4" },
        { 16, 20, { [16] = 3 }, { 7, 0, 0, 16, 0, 3 }, "at byte 16, in policy 0: an attribute has length 3, less than 4" },
        { 16, 22, { [16] = 6, 0, 4 }, { 42, 4, 0, 16, 4, 2 }, "at byte 16, in policy 0: attribute 4 has a value of 2 bytes instead of 4" },
        { 16, 23, { [16] = 7, 0, 3, 0, 'a', 0, 'b' }, { 44, 3, 0, 16, 0, 0 }, "at byte 16, in policy 0: attribute 3 is a string with a NUL before its last byte" },
        { 20, 16, { [8] = 7, 0, 6 }, { 45, 6, 0, 8, 16, 3 }, "at byte 8, in policy 0: attribute 6 has a value of 3 bytes instead of 16 or more" },
        { 20, 16, { [8] = 7, 0, 1 }, { 46, 1, 0, 8, 0, 3 }, "at byte 8, in policy 0: attribute 1 has an address of 3 bytes instead of 4 or 16" },
        { 16, 28, { [16] = 12, 0, 18, 0, 7, 0, 1, 0, 'a', 0, 'b' }, { 44, 1, 1, 20, 0, 0 }, "at byte 20, in policy 1: attribute 1 is a string with a NUL before its last byte" },
    };
    for (size_t at = 0; at < sizeof rows / sizeof rows[0]; at++) {
        struct nlp_view view = { 99, 98, 97, { 96, 95 }, { 94, 93 } };
        struct nlp_route_error error = { 0, 0, 0, 0, 0, 0 };
        uint8_t text[128];
        size_t size = 0;
        const uint32_t result = nlp_route_view(rows[at].type, rows[at].payload, rows[at].len, &view, &error);
        expect(rows[at].text, result == rows[at].error.reason && memcmp(&error, &rows[at].error, sizeof error) == 0 && view.policy == 98);
        expect("its text", nlp_route_error_text(&error, text, sizeof text, &size) == NLP_OK && size == strlen(rows[at].text)
            && memcmp(text, rows[at].text, size) == 0);
    }
}

/* The texts of errors that no payload above has, and buffers that are too small. */
static void texts(void)
{
    static const struct {
        struct nlp_route_error error;
        const char *text;
    } rows[] = {
        { { 43, 3, 2, 8, 0, 0 }, "at byte 8, in policy 2: attribute 3 is not a string whose only NUL is its last byte" },
        { { 47, 3, 2, 8, 0, 0 }, "at byte 8, in policy 2: attribute 3 is nested too deeply" },
        { { 48, 3, 2, 8, 0, 0 }, "at byte 8, in policy 2: attribute 3 comes after an attribute whose shape it chooses" },
        { { 49, 3, 2, 8, 4, 5 }, "at byte 8, in policy 2: attribute 3 has a value of 5 bytes, no multiple of 4" },
        { { 33, 0, 0, 0, 0, 0 }, "the attributes are too long" },
        { { 16, 0, 0, 0, 0, 0 }, "out of memory" },
    };
    const struct nlp_route_error none = { 32, 0, 0, 0, 0, 0 };
    uint8_t text[128];
    size_t size = 7;
    expect("no reason", nlp_route_error_text(&none, text, sizeof text, &size) == NLP_NO_PLACE && size == 7);
    for (size_t at = 0; at < sizeof rows / sizeof rows[0]; at++) {
        const size_t wanted = strlen(rows[at].text);
        expect("no room", nlp_route_error_text(&rows[at].error, text, wanted - 1, &size) == NLP_NO_ROOM && size == wanted);
        expect(rows[at].text, nlp_route_error_text(&rows[at].error, text, wanted, &size) == NLP_OK && memcmp(text, rows[at].text, size) == 0);
    }
}

static void shows(void)
{
    static const uint8_t dump[1] = { 10 }, family[] = { 3, 1, 0, 0, 6, 0, 2, 0, 'x', 0 };
    static const char address_text[] = "type 22\nifa_family: 10\n", family_text[] = "type 16\ncmd: 3\nversion: 1\nCTRL_ATTR_FAMILY_NAME: x\n";
    const struct nlp_view view = view_of(NLP_RTM_GETADDR, dump, 1);
    struct nlp_route_error error = { 0, 0, 0, 0, 0, 0 };
    uint8_t text[256], scope = 1;
    size_t size = 0;
    expect("a short payload", view.missing == 7 && is_part(&view.header, 0, 1) && is_part(&view.attributes, 1, 0));
    expect("what it lacks", nlp_view_header_u8(dump, 1, &view, NLP_IFA_SCOPE, &scope) == NLP_OK && scope == 0);
    expect("what it has", nlp_view_header_u8(dump, 1, &view, NLP_IFA_FAMILY, &scope) == NLP_OK && scope == 10);
    expect("its text", nlp_route_show(NLP_RTM_GETADDR, dump, 1, text, sizeof text, &size, &error) == NLP_OK
        && size >= strlen(address_text) && memcmp(text, address_text, strlen(address_text)) == 0);
    expect("no room", nlp_generic_show(family, sizeof family, text, 10, &size, &error) == NLP_NO_ROOM && size == strlen(family_text));
    expect("a family's text", nlp_generic_show(family, sizeof family, text, sizeof text, &size, &error) == NLP_OK
        && size == strlen(family_text) && memcmp(text, family_text, size) == 0);
    expect("no text of an unknown type", nlp_route_show(99, dump, 1, text, sizeof text, &size, &error) == NLP_UNKNOWN_TYPE && error.kind == 99);
}

static const struct nlp_route_error no_error = { 1, 2, 3, 4, 5, 6 };

/* Values that are to be put after attributes of the link, and what is wrong with them. */
static const struct {
    const char *what;
    struct nlp_view view;
    uint16_t shape, kind;
    uint8_t size, value[24];
    struct nlp_route_error error; /* reason 0 if there is none */
} check_rows[] = {
    { "a number", { 16, 0, 0, { 0, 0 }, { 28, 8 } }, 3, 4, 4, { 1 }, { 0, 0, 0, 0, 0, 0 } },
    { "any shape", { 16, 0, 0, { 0, 0 }, { 28, 8 } }, 65535, 4, 4, { 1 }, { 0, 0, 0, 0, 0, 0 } },
    { "flag bits", { 16, 0, 0, { 0, 0 }, { 28, 8 } }, 3, 0xc004, 4, { 1 }, { 0, 0, 0, 0, 0, 0 } },
    { "no payload before it", { 16, 0, 0, { 0, 0 }, { 0, 0 } }, 3, 4, 4, { 1 }, { 0, 0, 0, 0, 0, 0 } },
    { "another size", { 16, 0, 0, { 0, 0 }, { 28, 8 } }, 3, 4, 2, { 1 }, { 42, 4, 0, 36, 4, 2 } },
    { "another size for any shape", { 16, 0, 0, { 0, 0 }, { 16, 0 } }, 65535, 4, 5, { 1 }, { 42, 4, 0, 16, 4, 5 } },
    { "a u32 for a be32", { 16, 7, 0, { 0, 0 }, { 28, 8 } }, 3, 4, 4, { 1 }, { 36, 4, 7, 36, 8, 3 } },
    { "a shape that is none", { 16, 0, 0, { 0, 0 }, { 28, 8 } }, 99, 4, 4, { 1 }, { 36, 4, 0, 36, 3, 99 } },
    { "another shape before another size", { 16, 0, 0, { 0, 0 }, { 28, 8 } }, 1, 4, 2, { 1 }, { 36, 4, 0, 36, 3, 1 } },
    { "a kind without a row", { 16, 0, 0, { 0, 0 }, { 28, 8 } }, 0, 1000, 3, { 1 }, { 0, 0, 0, 0, 0, 0 } },
    { "a u8 for a kind without a row", { 16, 0, 0, { 0, 0 }, { 28, 8 } }, 1, 1000, 1, { 1 }, { 36, 1000, 0, 36, 0, 1 } },
    { "a string", { 16, 0, 0, { 0, 0 }, { 28, 8 } }, 13, 3, 2, "a", { 0, 0, 0, 0, 0, 0 } },
    { "a zero inside", { 16, 0, 0, { 0, 0 }, { 28, 8 } }, 13, 3, 3, { 'a', 0, 'b' }, { 44, 3, 0, 36, 0, 0 } },
    { "an address of 5 bytes", { 20, 0, 0, { 0, 0 }, { 28, 8 } }, 11, 2, 5, { 1 }, { 46, 2, 0, 36, 0, 5 } },
    { "too few bytes", { 24, 0, 0, { 0, 0 }, { 28, 8 } }, 15, 23, 3, { 1 }, { 45, 23, 0, 36, 4, 3 } },
    { "a nest", { 16, 0, 0, { 0, 0 }, { 28, 8 } }, 16, 18, 8, { 8, 0, 1, 0, 'v', 'l', 'a', 'n' }, { 0, 0, 0, 0, 0, 0 } },
    { "a nest with an error", { 16, 0, 0, { 0, 0 }, { 28, 8 } }, 16, 18, 24,
      { 8, 0, 1, 0, 'v', 'l', 'a', 'n', 16, 0, 2, 0, 12, 0, 1, 0, 1 }, { 42, 1, 11, 52, 2, 8 } },
    { "a nest that is cut", { 16, 0, 0, { 0, 0 }, { 28, 8 } }, 16, 18, 5, { 9, 0, 1, 0, 'v' }, { 6, 0, 1, 40, 9, 5 } },
    { "data before its kind", { 16, 1, 0, { 0, 0 }, { 76, 0 } }, 16, 2, 0, { 0 }, { 36, 2, 1, 76, 0, 16 } },
    { "data after its kind", { 16, 1, 0, { 0, 0 }, { 76, 8 } }, 16, 2, 0, { 0 }, { 0, 0, 0, 0, 0, 0 } },
    { "data after its kind that is cut", { 16, 1, 0, { 0, 0 }, { 76, 8 } }, 16, 2, 5, { 8, 0, 1, 0, 1 }, { 6, 0, 10, 88, 8, 5 } },
    { "the end of the payload", { 16, 0, 0, { 0, 0 }, { 16, 108 } }, 3, 4, 1, { 1 }, { 42, 4, 0, 124, 4, 1 } },
    { "after the payload", { 16, 0, 0, { 0, 0 }, { 16, 109 } }, 3, 4, 4, { 1 }, { 34, 0, 0, 0, 0, 0 } },
    { "an offset that overflows", { 16, 0, 0, { 0, 0 }, { 17, SIZE_MAX } }, 3, 4, 4, { 1 }, { 34, 0, 0, 0, 0, 0 } },
};

static void checks(void)
{
    for (size_t at = 0; at < sizeof check_rows / sizeof check_rows[0]; at++) {
        const uint8_t *value = check_rows[at].size == 0 ? NULL : check_rows[at].value;
        const uint32_t wanted = check_rows[at].error.reason;
        const struct nlp_route_error *numbers = wanted == 0 || wanted == NLP_NO_PLACE ? &no_error : &check_rows[at].error;
        struct nlp_route_error error = no_error;
        expect(check_rows[at].what, nlp_view_check(link_payload, sizeof link_payload, &check_rows[at].view, check_rows[at].shape,
                                                   check_rows[at].kind, value, check_rows[at].size, &error) == wanted);
        expect("its numbers", memcmp(&error, numbers, sizeof error) == 0);
    }
}

/* The longest value, and one that is longer. */
static void long_values(void)
{
    static uint8_t bytes[65532];
    const struct nlp_view view = { NLP_RTM_NEWLINK, 0, 0, { 0, 0 }, { 0, 0 } };
    const struct nlp_route_error too_long = { 33, 0, 0, 0, 0, 0 };
    struct nlp_route_error error = no_error;
    expect("the longest value", nlp_view_check(NULL, 0, &view, 0, 1, bytes, 65531, &error) == NLP_OK && error.reason == 1);
    expect("a value that is longer", nlp_view_check(NULL, 0, &view, 0, 1, bytes, 65532, &error) == NLP_TOO_LONG
        && memcmp(&error, &too_long, sizeof error) == 0);
    expect("another shape comes first", nlp_view_check(NULL, 0, &view, 1, 1, bytes, 65532, &error) == NLP_WRONG_SHAPE);
}

/* Writes the nests of peers of peers up to a size: IFLA_LINKINFO, IFLA_INFO_KIND, IFLA_INFO_DATA, and VETH_INFO_PEER with
 * its struct ifinfomsg, are 4, 8, 4 and 20 bytes. All but the second are nests. */
static void write_peers(uint8_t *nests, size_t size)
{
    static const uint8_t kind[8] = { 8, 0, 1, 0, 'v', 'e', 't', 'h' };
    memset(nests, 0, 108);
    for (size_t at = 0; at < size; at += 36) {
        const size_t left = size - at;
        const size_t heads[3][3] = { { at, left, 18 }, { at + 12, left - 12, 2 }, { at + 16, left - 16, 1 } };
        memcpy(nests + at + 4, kind, sizeof kind);
        for (int i = 0; i < 3; i++) {
            nests[heads[i][0]] = (uint8_t)heads[i][1];
            nests[heads[i][0] + 2] = (uint8_t)heads[i][2];
        }
    }
}

static void deep_nests(void)
{
    const struct nlp_view view = { NLP_RTM_NEWLINK, 0, 0, { 0, 0 }, { 0, 0 } };
    const struct nlp_route_error too_deep = { 47, 1, 10, 88, 0, 0 };
    struct nlp_route_error error = no_error;
    uint8_t nests[108];
    write_peers(nests, 88);
    expect("eight nests, one inside the other", nlp_view_check(NULL, 0, &view, 16, 18, nests + 4, 84, &error) == NLP_OK && error.reason == 1);
    write_peers(nests, 108);
    expect("nine nests", nlp_view_check(NULL, 0, &view, 16, 18, nests + 4, 104, &error) == NLP_TOO_DEEP
        && memcmp(&error, &too_deep, sizeof error) == 0);
}

int main(void)
{
    constants();
    links();
    others();
    values();
    errors();
    texts();
    shows();
    checks();
    long_values();
    deep_nests();
    printf("%d passed, %d failed\n", passed, failed);
    return failed != 0;
}
