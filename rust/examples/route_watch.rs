//! Prints the links and addresses that change, until Ctrl-C.

use netlink_packet::route::*;
use netlink_packet::{Protocol, Socket};
use std::error::Error;

// RTNLGRP_LINK, RTNLGRP_IPV4_IFADDR and RTNLGRP_IPV6_IFADDR of linux/rtnetlink.h.
const GROUPS: [u32; 3] = [1, 5, 9];

fn main() -> Result<(), Box<dyn Error>> {
    let mut socket = Socket::open(Protocol::Route)?;
    for group in GROUPS {
        socket.join(group)?;
    }
    let mut events = socket.events();
    while let Some(message) = events.next() {
        let message = message?;
        let view = message.view()?;
        match message.header.message_type {
            RTM_NEWLINK => println!("link {}", view.str(IFLA_IFNAME).unwrap_or("?")),
            RTM_DELLINK => println!("link {} deleted", view.str(IFLA_IFNAME).unwrap_or("?")),
            RTM_NEWADDR | RTM_DELADDR => {
                let deleted = if message.header.message_type == RTM_DELADDR { " deleted" } else { "" };
                let ip = view.ip(IFA_LOCAL).or(view.ip(IFA_ADDRESS)).map_or(String::new(), |it| it.to_string());
                println!("address {ip}/{}{deleted}", view.header_u8(IFA_PREFIXLEN).unwrap_or(0));
            }
            other => println!("message type {other}"),
        }
    }
    Ok(())
}
