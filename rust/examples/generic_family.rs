//! Prints the id of a family of generic netlink, and the ids and names of its multicast groups: generic_family NAME.

use netlink_packet::route::*;
use netlink_packet::{Header, Protocol, Socket, Writer};
use std::error::Error;

fn main() -> Result<(), Box<dyn Error>> {
    let name = std::env::args().nth(1).ok_or("NAME")?;
    let mut buffer = [0; 64];
    let mut writer = Writer::new(&mut buffer);
    let header = Header { message_type: GENL_ID_CTRL, ..Header::default() };
    let mut frame = writer.begin_frame(&header, &[CTRL_CMD_GETFAMILY, 1, 0, 0])?;
    frame.text(CTRL_ATTR_FAMILY_NAME.0, &name)?;
    frame.end()?;
    let mut socket = Socket::open(Protocol::Generic)?;
    let mut answer = socket.request(&writer)?;
    while let Some(message) = answer.next() {
        let family = View::generic(message?.payload)?;
        println!("{name} {}", family.u16(CTRL_ATTR_FAMILY_ID).ok_or("a family without an id")?);
        let groups = family.nest(CTRL_ATTR_MCAST_GROUPS);
        for group in (1..).map_while(|kind| groups?.nest(Kind(kind))) {
            let id = group.u32(CTRL_ATTR_MCAST_GRP_ID).ok_or("a group without an id")?;
            println!("group {id} {}", group.str(CTRL_ATTR_MCAST_GRP_NAME).unwrap_or("?"));
        }
    }
    Ok(())
}
