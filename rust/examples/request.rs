//! Builds "set the MTU of the link veth-b to 1400" and writes its bytes to standard output.

use netlink_packet::{Header, Refusal, Writer};
use std::error::Error;
use std::io::Write;

const NEW_LINK: u16 = 16;
const IFLA_IFNAME: u16 = 3;
const IFLA_MTU: u16 = 4;
const NLM_F_REQUEST: u16 = 1;
const NLM_F_ACK: u16 = 4;

fn set_mtu(writer: &mut Writer<'_>, name: &str, mtu: u32) -> Result<(), Refusal> {
    let header =
        Header { message_type: NEW_LINK, flags: NLM_F_REQUEST | NLM_F_ACK, sequence_number: 1, ..Header::default() };
    let any_link = [0; 16];
    let mut frame = writer.begin_frame(&header, &any_link)?;
    frame.text(IFLA_IFNAME, name)?;
    frame.u32(IFLA_MTU, mtu)?;
    frame.end()
}

fn main() -> Result<(), Box<dyn Error>> {
    let mut buffer = [0; 64];
    let mut writer = Writer::new(&mut buffer);
    set_mtu(&mut writer, "veth-b", 1400)?;
    std::io::stdout().write_all(writer.written())?;
    Ok(())
}
