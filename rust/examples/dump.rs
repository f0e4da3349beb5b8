//! Asks the kernel for its links over a socket of route netlink, and prints the index and the name of each.

use netlink_packet::{Header, Protocol, Socket, Writer};
use std::error::Error;

const RTM_NEWLINK: u16 = 16;
const RTM_GETLINK: u16 = 18;
const NLM_F_DUMP: u16 = 0x300;
const IFINFOMSG: usize = 16;
const IFLA_IFNAME: u16 = 3;

fn main() -> Result<(), Box<dyn Error>> {
    let mut buffer = [0; 32];
    let mut writer = Writer::new(&mut buffer);
    let header = Header { message_type: RTM_GETLINK, flags: NLM_F_DUMP, ..Header::default() };
    writer.begin_frame(&header, &[0; IFINFOMSG])?.end()?;
    let mut socket = Socket::open(Protocol::Route)?;
    let mut answer = socket.request(&writer)?;
    while let Some(message) = answer.next() {
        let message = message?;
        if message.header.message_type == RTM_NEWLINK {
            let name = message.attributes(IFINFOMSG)?.find(IFLA_IFNAME)?.ok_or("a link without a name")?;
            println!("{} {}", i32::from_ne_bytes(message.payload[4..8].try_into()?), name.str()?);
        }
    }
    Ok(())
}
