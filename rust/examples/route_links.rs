//! Prints index, name, MTU, state and kind of each link, and then the addresses by the index of their link.

use netlink_packet::route::*;
use netlink_packet::{Header, Protocol, Socket, Writer};
use std::error::Error;

const NLM_F_DUMP: u16 = 0x300;

/// Requests a dump, and calls a function with the view of each message of the answer.
fn dump(message_type: u16, fixed: usize, print: fn(&View<'_>)) -> Result<(), Box<dyn Error>> {
    let mut buffer = [0; 64];
    let mut writer = Writer::new(&mut buffer);
    let header = Header { message_type, flags: NLM_F_DUMP, ..Header::default() };
    writer.begin_frame(&header, &[0; 16][..fixed])?.end()?;
    let mut socket = Socket::open(Protocol::Route)?;
    let mut answer = socket.request(&writer)?;
    while let Some(message) = answer.next() {
        print(&message?.view()?);
    }
    Ok(())
}

fn main() -> Result<(), Box<dyn Error>> {
    dump(RTM_GETLINK, 16, |link| {
        let index = link.header_i32(IFI_INDEX).unwrap_or(0);
        let name = link.str(IFLA_IFNAME).unwrap_or("?");
        let mtu = link.u32(IFLA_MTU).unwrap_or(0);
        let state = link.u8(IFLA_OPERSTATE).unwrap_or(0);
        let kind = link.nest(IFLA_LINKINFO).and_then(|info| info.str(IFLA_INFO_KIND)).unwrap_or("");
        println!("{index} {name} mtu {mtu} state {state} kind {kind}");
    })?;
    dump(RTM_GETADDR, 8, |address| {
        let ip = address.ip(IFA_LOCAL).or(address.ip(IFA_ADDRESS));
        let index = address.header_u32(IFA_INDEX).unwrap_or(0);
        let prefix = address.header_u8(IFA_PREFIXLEN).unwrap_or(0);
        println!("{index} {}/{prefix}", ip.map_or(String::new(), |it| it.to_string()));
    })
}
