//! Prints index, name, MTU and kind of each link in a dump. The arguments are the files to read.

use netlink_packet::{Message, Messages};
use std::error::Error;

const NEW_LINK: u16 = 16;
const IFINFOMSG: usize = 16;
const IFLA_IFNAME: usize = 3;
const IFLA_MTU: usize = 4;
const IFLA_LINKINFO: usize = 18;
const IFLA_INFO_KIND: u16 = 1;

/// Prints the link that a message describes.
fn show(message: &Message<'_>) -> Result<(), Box<dyn Error>> {
    let table: [_; IFLA_LINKINFO + 1] = message.attributes(IFINFOMSG)?.table()?;
    let name = table[IFLA_IFNAME].map_or(&b"-"[..], |it| it.text());
    let mtu = table[IFLA_MTU].map_or(Ok(0), |it| it.u32())?;
    let kind = table[IFLA_LINKINFO].map_or(Ok(None), |it| it.inside().find(IFLA_INFO_KIND))?;
    let kind = kind.map_or(&b"-"[..], |it| it.text());
    let index = u32::from_ne_bytes(message.payload[4..8].try_into()?);
    println!("{index} {} mtu {mtu} kind {}", String::from_utf8_lossy(name), String::from_utf8_lossy(kind));
    Ok(())
}

fn main() -> Result<(), Box<dyn Error>> {
    for name in std::env::args().skip(1) {
        for message in Messages::new(&std::fs::read(name)?) {
            let message = message?;
            if message.header.message_type == NEW_LINK {
                show(&message)?;
            }
        }
    }
    Ok(())
}
