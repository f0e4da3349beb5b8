//! The cases of Rust crates: here links and addresses read by netlink-packet-route, and in `plain` those of any protocol.

mod plain;

use netlink_packet_route::rtnl::{address, link};
use netlink_packet_route::nlas::Nla as _;
use netlink_packet_route::{NetlinkBuffer, NetlinkMessage, NetlinkPayload, RtnlMessage};

type Message = NetlinkMessage<RtnlMessage>;

/// Calls `visit` with each message of a datagram, and adds up what it returns.
fn each(mut rest: &[u8], mut visit: impl FnMut(Message) -> usize) -> usize {
    let mut sum = 0usize;
    while !rest.is_empty() {
        let Ok(frame) = NetlinkBuffer::new_checked(rest) else { return 0 };
        let end = (frame.length() as usize + 3) & !3;
        let Ok(message) = Message::deserialize(rest) else { return 0 };
        sum = sum.wrapping_add(visit(message));
        rest = rest.get(end..).unwrap_or(&[]);
    }
    sum
}

/// Returns the number of messages.
///
/// # Safety
/// `bytes` must point to `len` bytes.
#[no_mangle]
pub unsafe extern "C" fn netlink_packet_route_read(bytes: *const u8, len: usize) -> usize {
    each(std::slice::from_raw_parts(bytes, len), |_| 1)
}

/// Reads each attribute once and returns their sum.
///
/// # Safety
/// `bytes` must point to `len` bytes.
#[no_mangle]
pub unsafe extern "C" fn netlink_packet_route_look(bytes: *const u8, len: usize) -> usize {
    each(std::slice::from_raw_parts(bytes, len), |message| match &message.payload {
        NetlinkPayload::InnerMessage(RtnlMessage::NewLink(link)) => {
            link.nlas.iter().map(link_number).fold(0, usize::wrapping_add)
        }
        NetlinkPayload::InnerMessage(RtnlMessage::NewAddress(address)) => {
            address.nlas.iter().map(address_number).fold(0, usize::wrapping_add)
        }
        _ => 0,
    })
}

/// Five kinds of a link.
#[derive(Default)]
struct Five<'a> {
    name: &'a [u8],
    address: &'a [u8],
    mtu: u32,
    queue: u32,
    state: u8,
}

/// Calls `visit` with five kinds of each link of a datagram, and adds up what it returns.
fn each_five(bytes: &[u8], mut visit: impl FnMut(Five<'_>) -> usize) -> usize {
    use link::nlas::Nla;
    each(bytes, |message| {
        let NetlinkPayload::InnerMessage(RtnlMessage::NewLink(link)) = &message.payload else { return 0 };
        let mut five = Five::default();
        for attribute in &link.nlas {
            match attribute {
                Nla::IfName(name) => five.name = name.as_bytes(),
                Nla::Mtu(mtu) => five.mtu = *mtu,
                Nla::OperState(state) => five.state = u8::from(*state),
                Nla::TxQueueLen(queue) => five.queue = *queue,
                Nla::Address(address) => five.address = address,
                _ => {}
            }
        }
        visit(five)
    })
}

/// Returns the sum of the numbers, and of the first bytes of the name and of the address.
///
/// # Safety
/// `bytes` must point to `len` bytes.
#[no_mangle]
pub unsafe extern "C" fn netlink_packet_route_five(bytes: *const u8, len: usize) -> usize {
    each_five(std::slice::from_raw_parts(bytes, len), |it| {
        let first = |bytes: &[u8]| bytes.first().map_or(0, |it| *it as usize);
        it.mtu as usize + it.queue as usize + it.state as usize + first(it.name) + first(it.address)
    })
}

/// Writes the numbers, the name and the address. Returns the size, or 0 if `out` is too small.
///
/// # Safety
/// `bytes` must point to `len` bytes, and `out` to `room` bytes.
#[no_mangle]
pub unsafe extern "C" fn netlink_packet_route_five_output(
    bytes: *const u8, len: usize, out: *mut u8, room: usize,
) -> usize {
    let mut found = Vec::new();
    each_five(std::slice::from_raw_parts(bytes, len), |it| {
        found.extend([it.mtu, it.queue, u32::from(it.state)].into_iter().flat_map(u32::to_ne_bytes));
        found.extend(it.name);
        found.extend(it.address);
        1
    });
    plain::hand_out(Some(found), out, room)
}

fn link_number(attribute: &link::nlas::Nla) -> usize {
    use link::nlas::Nla;
    match attribute {
        Nla::Address(bytes) | Nla::Broadcast(bytes) | Nla::PermAddress(bytes) => bytes.len(),
        Nla::Map(bytes) | Nla::Stats(bytes) | Nla::Stats64(bytes) | Nla::Xdp(bytes) => bytes.len(),
        Nla::IfName(text) | Nla::Qdisc(text) | Nla::IfAlias(text) => text.len(),
        Nla::Mode(number) | Nla::Carrier(number) | Nla::ProtoDown(number) => *number as usize,
        Nla::Mtu(number)
        | Nla::Link(number)
        | Nla::Master(number)
        | Nla::TxQueueLen(number)
        | Nla::Group(number)
        | Nla::Promiscuity(number)
        | Nla::NumTxQueues(number)
        | Nla::NumRxQueues(number)
        | Nla::CarrierChanges(number)
        | Nla::GsoMaxSegs(number)
        | Nla::GsoMaxSize(number)
        | Nla::MinMtu(number)
        | Nla::MaxMtu(number)
        | Nla::ExtMask(number) => *number as usize,
        Nla::OperState(state) => u8::from(*state) as usize,
        Nla::Info(nest) => nest.len(),
        Nla::AfSpecInet(nest) => nest.len(),
        Nla::CarrierUpCount(bytes) | Nla::CarrierDownCount(bytes) => bytes.len(),
        _ => 1,
    }
}

fn address_number(attribute: &address::nlas::Nla) -> usize {
    use address::nlas::Nla;
    match attribute {
        Nla::Address(bytes) | Nla::Local(bytes) | Nla::Broadcast(bytes) => bytes.len(),
        Nla::CacheInfo(bytes) => bytes.len(),
        Nla::Label(text) => text.len(),
        Nla::Flags(number) => *number as usize,
        _ => 1,
    }
}

/// Decodes each message of a datagram. Writes its header, and the kind of each of its attributes. Returns the size, or 0
/// if `out` is too small.
///
/// # Safety
/// `bytes` must point to `len` bytes, and `out` to `room` bytes.
#[no_mangle]
pub unsafe extern "C" fn netlink_packet_route_output(bytes: *const u8, len: usize, out: *mut u8, room: usize) -> usize {
    let mut found = Vec::new();
    each(std::slice::from_raw_parts(bytes, len), |message| {
        let header = &message.header;
        found.extend(header.length.to_ne_bytes());
        found.extend(header.message_type.to_ne_bytes());
        found.extend(header.flags.to_ne_bytes());
        found.extend(header.sequence_number.to_ne_bytes());
        found.extend(header.port_number.to_ne_bytes());
        if let NetlinkPayload::InnerMessage(RtnlMessage::NewLink(link)) = &message.payload {
            found.extend(link.nlas.iter().flat_map(|it| it.kind().to_ne_bytes()));
        }
        1
    });
    plain::hand_out(Some(found), out, room)
}
