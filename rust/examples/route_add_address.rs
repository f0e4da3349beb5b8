//! Adds an address to a link: route_add_address NAME ADDRESS/LENGTH. Prints the reason if the kernel refuses.

use netlink_packet::route::{IFA_ADDRESS, IFA_LOCAL, IFI_INDEX, IFLA_IFNAME, RTM_GETLINK, RTM_NEWADDR};
use netlink_packet::{Header, Protocol, Socket, Writer};
use std::error::Error;
use std::net::IpAddr;

const NLM_F_CREATE_EXCL: u16 = 0x600;

/// Sends a request with these attributes. Returns the index of the link in the answer, if it has one.
fn request(message_type: u16, flags: u16, fixed: &[u8], attributes: &[(u16, &[u8])]) -> Result<i32, Box<dyn Error>> {
    let mut buffer = [0; 128];
    let mut writer = Writer::new(&mut buffer);
    let mut frame = writer.begin_frame(&Header { message_type, flags, ..Header::default() }, fixed)?;
    attributes.iter().try_for_each(|(kind, value)| frame.attribute(*kind, value))?;
    frame.end()?;
    let mut socket = Socket::open(Protocol::Route)?;
    let mut answer = socket.request(&writer)?;
    let Some(message) = answer.next() else { return Ok(0) };
    Ok(message?.view()?.header_i32(IFI_INDEX).unwrap_or(0))
}

fn main() -> Result<(), Box<dyn Error>> {
    let words: Vec<String> = std::env::args().skip(1).collect();
    let (address, prefix) = words.get(1).and_then(|it| it.split_once('/')).ok_or("NAME ADDRESS/LENGTH")?;
    let (family, bytes) = match address.parse()? {
        IpAddr::V4(it) => (2, it.octets().to_vec()),
        IpAddr::V6(it) => (10, it.octets().to_vec()),
    };
    let index = request(RTM_GETLINK, 0, &[0; 16], &[(IFLA_IFNAME.0, words[0].as_bytes())])?;
    let mut fixed = [family, prefix.parse()?, 0, 0, 0, 0, 0, 0];
    fixed[4..].copy_from_slice(&index.to_ne_bytes());
    let attributes = [(IFA_LOCAL.0, &bytes[..]), (IFA_ADDRESS.0, &bytes[..])];
    if let Err(why) = request(RTM_NEWADDR, NLM_F_CREATE_EXCL, &fixed, &attributes) {
        eprintln!("{why}");
        std::process::exit(1);
    }
    Ok(())
}
