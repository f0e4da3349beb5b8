//! Tests the views of messages by tables, on messages that are written by hand after the kernel's headers.

use netlink_packet::route::*;
use netlink_packet::Messages;
use std::net::IpAddr;

/// A link of the kind veth with index 7, and its peer.
const LINK: [u8; 96] = [
    0, 0, 1, 0, 7, 0, 0, 0, 3, 16, 0, 0, 0, 0, 0, 0, // struct ifinfomsg
    10, 0, 3, 0, b'v', b'e', b't', b'h', b'0', 0, 0, 0, // IFLA_IFNAME
    8, 0, 4, 0, 0xdc, 5, 0, 0, // IFLA_MTU
    10, 0, 1, 0, 2, 0, 0, 0, 0, 9, 0, 0, // IFLA_ADDRESS
    5, 0, 16, 0, 6, 0, 0, 0, // IFLA_OPERSTATE
    8, 0, 37, 0, 0xfe, 0xff, 0xff, 0xff, // IFLA_LINK_NETNSID
    32, 0, 18, 0, 8, 0, 1, 0, b'v', b'e', b't', b'h', // IFLA_LINKINFO, IFLA_INFO_KIND
    20, 0, 2, 0, 16, 0, 1, 0, 0, 0, 1, 0, 9, 0, 0, 0, // IFLA_INFO_DATA, VETH_INFO_PEER
    1, 0, 0, 0,
];

fn link() -> View<'static> {
    let mut bytes = LINK.to_vec();
    bytes.extend([0; 8]);
    // The peer's header ends here.
    bytes[64] = 40;
    bytes[76] = 28;
    bytes[80] = 24;
    bytes[96..].copy_from_slice(&[0, 0, 0, 0, 4, 0, 3, 0]);
    View::new(RTM_NEWLINK, bytes.leak()).unwrap()
}

#[test]
fn a_link_is_read() {
    let link = link();
    assert_eq!(link.header_i32(IFI_INDEX), Some(7));
    assert_eq!(link.header_u32(IFI_FLAGS), Some(0x1003));
    assert_eq!(link.header_u16(IFI_TYPE), Some(1));
    assert_eq!(link.header_u8(IFI_FAMILY), Some(0));
    assert_eq!(link.header_u32(IFI_INDEX), None);
    assert_eq!(link.str(IFLA_IFNAME), Some("veth0"));
    assert_eq!(link.str_bytes(IFLA_IFNAME), Some(&b"veth0"[..]));
    assert_eq!(link.u32(IFLA_MTU), Some(1500));
    assert_eq!(link.u8(IFLA_OPERSTATE), Some(6));
    assert_eq!(link.i32(IFLA_LINK_NETNSID), Some(-2));
    assert_eq!(link.mac(IFLA_ADDRESS), Some([2, 0, 0, 0, 0, 9]));
    assert_eq!(link.bytes(IFLA_ADDRESS), Some(&[2, 0, 0, 0, 0, 9][..]));
    assert_eq!(link.first(IFLA_MTU), Some(&[0xdc, 5, 0, 0][..]));
    assert_eq!(link.u32(IFLA_OPERSTATE), None);
    assert_eq!(link.u32(IFLA_MASTER), None);
    assert_eq!(link.exact(IFLA_ADDRESS), None);
    assert_eq!(link.u64(IFLA_MTU), None);
    assert_eq!(link.be32(IFLA_MTU), None);
    assert_eq!(link.be64(IFLA_MTU), None);
    assert_eq!(link.attributes().count(), 6);
}

#[test]
fn nests_are_read() {
    let info = link().nest(IFLA_LINKINFO).unwrap();
    assert_eq!(info.str(IFLA_INFO_KIND), Some("veth"));
    let peer = info.nest(IFLA_INFO_DATA).and_then(|data| data.nest(VETH_INFO_PEER)).unwrap();
    assert_eq!(peer.header_i32(IFI_INDEX), Some(9));
    assert_eq!(peer.str(IFLA_IFNAME), Some(""));
    assert!(link().nest(IFLA_MTU).is_none());
}

#[test]
fn addresses_are_read() {
    let address = [2, 24, 128, 0, 3, 0, 0, 0, 8, 0, 2, 0, 192, 0, 2, 1];
    let view = View::new(RTM_NEWADDR, &address).unwrap();
    assert_eq!(view.ip(IFA_LOCAL), Some(IpAddr::from([192, 0, 2, 1])));
    assert_eq!(view.ip(IFA_ADDRESS), None);
    let mut address = vec![10, 64, 0, 0, 3, 0, 0, 0, 20, 0, 1, 0];
    address.extend([0; 15]);
    address.push(1);
    let view = View::new(RTM_NEWADDR, &address).unwrap();
    assert_eq!(view.ip(IFA_ADDRESS), Some(IpAddr::from([0, 0, 0, 0, 0, 0, 0, 1])));
}

#[test]
fn numbers_of_other_sizes_are_read() {
    let neighbour = [2, 0, 0, 0, 3, 0, 0, 0, 2, 0, 0, 0, 6, 0, 5, 0, 9, 0, 0, 0, 6, 0, 6, 0, 0x12, 0xb5];
    let view = View::new(28, &neighbour).unwrap();
    assert_eq!(view.u16(NDA_VLAN), Some(9));
    assert_eq!(view.be16(NDA_PORT), Some(0x12b5));
    let table = [0, 0, 0, 0, 12, 0, 8, 0, 1, 2, 3, 4, 5, 6, 7, 8];
    let view = View::new(64, &table).unwrap();
    assert_eq!(view.u64(NDTA_GC_INTERVAL), Some(0x0807060504030201));
    let policy = [10, 2, 0, 0, 20, 0, 8, 0, 16, 0, 1, 0, 12, 0, 2, 0, 0xff, 0xff, 0xff, 0xff, 0xff, 0xff, 0xff, 0xff];
    let mut nested = policy.to_vec();
    nested.splice(8..8, [20, 0, 1, 0]);
    nested[4] = 24;
    let view = View::generic(&nested).unwrap().nest(CTRL_ATTR_POLICY).unwrap();
    let row = view.nest(Kind(1)).and_then(|it| it.nest(Kind(1))).unwrap();
    assert_eq!(row.i64(NL_POLICY_TYPE_ATTR_MIN_VALUE_S), Some(-1));
    let rule = [vec![0; 12], vec![12, 0, 12, 0, 1, 2, 3, 4, 5, 6, 7, 8, 8, 0, 26, 0, 1, 2, 3, 4]].concat();
    let view = View::new(32, &rule).unwrap();
    assert_eq!(view.be64(FRA_TUN_ID), Some(0x0102030405060708));
    assert_eq!(view.be32(FRA_FLOWLABEL), Some(0x01020304));
}

#[test]
fn items_have_their_shape() {
    let link = link();
    let items: Vec<_> = link.items().collect();
    let shapes: Vec<_> = items.iter().map(|it| (it.number(), it.shape)).collect();
    let wanted = [
        (IFLA_IFNAME, Shape::Str),
        (IFLA_MTU, Shape::U32),
        (IFLA_ADDRESS, Shape::Bytes),
        (IFLA_OPERSTATE, Shape::U8),
        (IFLA_LINK_NETNSID, Shape::I32),
        (IFLA_LINKINFO, Shape::Nested { policy: 1 }),
    ];
    assert_eq!(shapes, wanted);
    assert_eq!(items[1].value, [0xdc, 5, 0, 0]);
    assert!(items[1].nest.is_none());
    let info: Vec<_> = items[5].nest.unwrap().items().collect();
    assert_eq!((info[0].value, info[1].shape), (&b"veth"[..], Shape::Nested { policy: 10 }));
    let peer = info[1].nest.unwrap().items().next().unwrap();
    assert_eq!(peer.shape, Shape::HeaderNested { size: 16, policy: 0 });
    let peer = peer.nest.unwrap();
    assert_eq!((peer.header_i32(IFI_INDEX), peer.items().count()), (Some(9), 1));
}

#[test]
fn hops_are_items() {
    let route = [2, 24, 0, 0, 254, 4, 0, 1, 0, 0, 0, 0, 12, 0, 9, 0, 8, 0, 4, 0xc1, 3, 0, 0, 0, 5, 0, 20, 0, 1];
    let items: Vec<_> = View::new(24, &route).unwrap().items().collect();
    assert_eq!((items.len(), items[1].shape), (2, Shape::U8));
    let hop = items[0].nest.unwrap().items().next().unwrap();
    assert_eq!((hop.kind, hop.number()), (0xc104, Kind(0x104)));
    assert_eq!(hop.nest.unwrap().header_i32(RTNH_IFINDEX), Some(3));
}

/// Returns the shapes of attributes without values, after a header of zeros.
fn shapes(message_type: u16, header: usize, values: &[(u16, usize)]) -> Vec<Shape> {
    let mut payload = vec![0; header];
    for (kind, size) in values {
        payload.extend([4 + *size as u8, 0, *kind as u8, (*kind >> 8) as u8]);
        payload.resize(payload.len() + size.next_multiple_of(4), 0);
    }
    View::new(message_type, &payload).unwrap().items().map(|it| it.shape).collect()
}

#[test]
fn other_shapes_are_read() {
    assert_eq!(
        shapes(28, 12, &[(1, 4), (5, 2), (6, 2), (3, 16)]),
        [Shape::Ip, Shape::U16, Shape::Be16, Shape::MinLen(16)]
    );
    assert_eq!(shapes(32, 12, &[(12, 8), (26, 4), (1000, 0)]), [Shape::Be64, Shape::Be32, Shape::Bytes]);
    assert_eq!(shapes(64, 4, &[(8, 8)]), [Shape::U64]);
    let gre =
        [0, 0, 0, 0, 0, 0, 0, 0, 0, 0, 0, 0, 0, 0, 0, 0, 28, 0, 18, 0, 7, 0, 1, 0, b'g', b'r', b'e', 0, 16, 0, 2, 0];
    let data = [gre.as_slice(), &[8, 0, 6, 0, 10, 0, 0, 1, 4, 0, 18, 0]].concat();
    let view = View::new(RTM_NEWLINK, &data).unwrap();
    let view = view.nest(IFLA_LINKINFO).and_then(|it| it.nest(IFLA_INFO_DATA)).unwrap();
    let found: Vec<_> = view.items().map(|it| it.shape).collect();
    assert_eq!(found, [Shape::ExactLen(4), Shape::Flag]);
    assert_eq!(view.exact(IFLA_GRE_LOCAL), Some(&[10, 0, 0, 1][..]));
    let policy = [10, 2, 0, 0, 24, 0, 8, 0, 20, 0, 1, 0, 16, 0, 1, 0, 12, 0, 2, 0, 0, 0, 0, 0, 0, 0, 0, 0];
    let view = View::generic(&policy).unwrap();
    let nests = [CTRL_ATTR_POLICY, Kind(1), Kind(1)].into_iter().fold(Some(view), |it, kind| it?.nest(kind));
    assert_eq!(nests.unwrap().items().next().unwrap().shape, Shape::I64);
}

#[test]
fn errors_have_their_text() {
    let short = View::new(RTM_NEWLINK, &LINK[..15]).unwrap_err();
    assert_eq!((short.reason, short.expected, short.received), (41, 16, 15));
    assert_eq!(short.to_string(), "the payload has 15 bytes, fewer than its header of 16");
    let size = View::generic(&[3, 1, 0, 0, 5, 0, 1, 0, 1]).unwrap_err();
    let wanted = Error { reason: 42, kind: 1, policy: 0, offset: 4, expected: 2, received: 1 };
    assert_eq!(size, wanted);
    assert_eq!(size.to_string(), "at byte 4, in policy 0: attribute 1 has a value of 1 bytes instead of 2");
    assert_eq!(Error { reason: 1, ..wanted }.to_string(), "reason 1");
}

#[test]
fn a_message_is_viewed() {
    let mut frame = vec![32, 0, 0, 0, 16, 0, 0, 0, 0, 0, 0, 0, 0, 0, 0, 0];
    frame.extend([0; 16]);
    let message = Messages::new(&frame).next().unwrap().unwrap();
    assert_eq!(message.view().unwrap().header_i32(IFI_INDEX), Some(0));
}
