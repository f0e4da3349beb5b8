//! Tests a socket with the kernel of this machine. A test is skipped if the machine opens no such socket. The numbers
//! are those of linux/netlink.h, linux/rtnetlink.h, linux/genetlink.h and errno.h.

use netlink_packet::{Answer, Error, Header, Message, Protocol, Rejection, Socket, Writer};
use std::fs::read_to_string;
use std::io::ErrorKind;
use std::os::fd::{AsFd, AsRawFd};
use std::time::{Duration, Instant};

const EPERM: i32 = 1;
const ENOENT: i32 = 2;
const EACCES: i32 = 13;
const ENODEV: i32 = 19;
const EINVAL: i32 = 22;
const EPROTONOSUPPORT: i32 = 93;
const EAFNOSUPPORT: i32 = 97;

const NLM_F_DUMP: u16 = 0x300;
const RTM_NEWLINK: u16 = 16;
const RTM_GETLINK: u16 = 18;
const IFINFOMSG: usize = 16;
const IFLA_IFNAME: u16 = 3;
const RTNLGRP_LINK: u32 = 1;
const RTNLGRP_NEIGH: u32 = 3;
const GENL_ID_CTRL: u16 = 16;
const CTRL_CMD_GETFAMILY: u8 = 3;
const CTRL_ATTR_FAMILY_ID: u16 = 1;
const CTRL_ATTR_FAMILY_NAME: u16 = 2;

/// Returns a socket, or `None` if the machine opens none.
fn socket(protocol: Protocol) -> Option<Socket> {
    match Socket::open(protocol) {
        Ok(socket) => Some(socket),
        Err(Error::Io(why))
            if [EPERM, EACCES, EPROTONOSUPPORT, EAFNOSUPPORT].map(Some).contains(&why.raw_os_error()) =>
        {
            println!("skipped: {protocol:?} ({why})");
            None
        }
        Err(why) => panic!("{why:?}"),
    }
}

/// Writes a request for the link with this index, or for all links.
fn put_link(writer: &mut Writer<'_>, flags: u16, index: i32) {
    let mut fixed = [0; IFINFOMSG];
    fixed[4..8].copy_from_slice(&index.to_ne_bytes());
    let header = Header { message_type: RTM_GETLINK, flags, ..Header::default() };
    writer.begin_frame(&header, &fixed).unwrap().end().unwrap();
}

/// Requests the link with this index, or all links.
fn request_link(socket: &mut Socket, flags: u16, index: i32) -> Answer<'_> {
    let mut buffer = [0; 64];
    let mut writer = Writer::new(&mut buffer);
    put_link(&mut writer, flags, index);
    socket.request(&writer).unwrap()
}

/// Returns the name of a link.
fn name(message: &Message<'_>) -> String {
    assert_eq!(message.header.message_type, RTM_NEWLINK);
    let name = message.attributes(IFINFOMSG).unwrap().find(IFLA_IFNAME).unwrap().unwrap();
    name.str().unwrap().to_string()
}

/// Returns the names in an answer, or `None` if the links changed.
fn names(mut answer: Answer<'_>) -> Option<Vec<String>> {
    let mut names = vec![];
    while let Some(message) = answer.next() {
        match message {
            Ok(message) => names.push(name(&message)),
            Err(Error::Interrupted) => return None,
            Err(why) => panic!("{why}"),
        }
    }
    assert!(answer.next().is_none());
    names.sort();
    Some(names)
}

/// Returns the names of all links, as the kernel has them in a file.
fn names_in_file() -> Vec<String> {
    let file = read_to_string("/proc/net/dev").unwrap();
    let mut names: Vec<_> = file.lines().filter_map(|it| Some(it.split_once(':')?.0.trim().to_string())).collect();
    names.sort();
    names
}

/// Returns why the kernel rejects the request, which has no other answer.
fn rejection(mut answer: Answer<'_>) -> Rejection {
    let Some(Err(Error::Rejected(rejection))) = answer.next() else {
        panic!("the request is not rejected");
    };
    assert!(answer.next().is_none());
    rejection
}

#[test]
fn links_are_listed_again_and_again() {
    let Some(mut socket) = socket(Protocol::Route) else { return };
    socket.set_receive_buffer(1 << 20).unwrap();
    for _ in 0..20 {
        let lists = [names_in_file(), names_in_file()].map(Some);
        if [(); 2].map(|_| names(request_link(&mut socket, NLM_F_DUMP, 0))) == lists {
            return;
        }
    }
    panic!("the lists differ");
}

#[test]
fn an_answer_may_be_dropped_early() {
    let Some(mut socket) = socket(Protocol::Route) else { return };
    socket.set_time_limit(Some(Duration::from_millis(100))).unwrap();
    for _ in 0..20 {
        drop(request_link(&mut socket, NLM_F_DUMP, 0));
        assert!(matches!(request_link(&mut socket, NLM_F_DUMP, 0).next(), Some(Ok(_))));
        assert!(matches!(socket.events().next(), Some(Err(Error::TimedOut))));
        drop(request_link(&mut socket, NLM_F_DUMP, 0));
        if names(request_link(&mut socket, NLM_F_DUMP, 0)) == Some(names_in_file()) {
            return;
        }
    }
    panic!("the lists differ");
}

#[test]
fn requests_are_answered_in_order() {
    let Some(mut socket) = socket(Protocol::Route) else { return };
    let mut buffer = [0; 256];
    let mut writer = Writer::new(&mut buffer);
    for (flags, index) in [(0, 1), (NLM_F_DUMP, 0), (0, 1), (0, i32::MAX), (0, 1)] {
        put_link(&mut writer, flags, index);
    }
    let mut answer = socket.request(&writer).unwrap();
    let first = name(&answer.next().unwrap().unwrap());
    let mut last = String::new();
    let error = loop {
        match answer.next() {
            Some(Ok(message)) => last = name(&message),
            end => break end,
        }
    };
    match error {
        Some(Err(Error::Rejected(why))) => assert_eq!((why.errno, last), (ENODEV, first)),
        error => assert!(matches!(error, Some(Err(Error::Interrupted)))),
    }
    assert!(answer.next().is_none());
}

#[test]
fn a_request_is_rejected() {
    let Some(mut socket) = socket(Protocol::Route) else { return };
    let why = rejection(request_link(&mut socket, 0, i32::MAX));
    assert_eq!((why.errno, why.offset, why.kind, why.missing), (ENODEV, None, None, None));
    let options = socket.options();
    let mut buffer = [0; 64];
    let mut writer = Writer::new(&mut buffer);
    let header = Header { message_type: RTM_GETLINK, ..Header::default() };
    let mut frame = writer.begin_frame(&header, &[0; IFINFOMSG]).unwrap();
    frame.attribute(0x3fff, &[]).unwrap();
    frame.end().unwrap();
    let why = rejection(socket.request(&writer).unwrap());
    assert_eq!(why.errno, EINVAL);
    if options.extended_acks && options.strict_checks {
        assert_eq!((why.offset, why.kind, why.missing), (Some(32), Some(0x3fff), None));
        assert!(why.text.is_some_and(|it| !it.is_empty()));
    }
}

/// Requests the family of generic netlink with this name.
fn request_family<'s>(socket: &'s mut Socket, name: &str) -> Answer<'s> {
    let mut buffer = [0; 64];
    let mut writer = Writer::new(&mut buffer);
    let header = Header { message_type: GENL_ID_CTRL, ..Header::default() };
    let mut frame = writer.begin_frame(&header, &[CTRL_CMD_GETFAMILY, 1, 0, 0]).unwrap();
    frame.text(CTRL_ATTR_FAMILY_NAME, name).unwrap();
    frame.end().unwrap();
    socket.request(&writer).unwrap()
}

#[test]
fn a_family_is_found_or_not() {
    let Some(mut socket) = socket(Protocol::Generic) else { return };
    assert_eq!(rejection(request_family(&mut socket, "no_such_family")).errno, ENOENT);
    let mut answer = request_family(&mut socket, "nlctrl");
    let message = answer.next().unwrap().unwrap();
    let id = message.attributes(4).unwrap().find(CTRL_ATTR_FAMILY_ID).unwrap().unwrap();
    assert_eq!(id.u16(), Ok(GENL_ID_CTRL));
    assert!(answer.next().is_none());
}

#[test]
fn waiting_has_a_limit() {
    let Some(mut socket) = socket(Protocol::Other(0)) else { return };
    let zero = socket.set_time_limit(Some(Duration::ZERO));
    assert!(matches!(zero, Err(Error::Io(why)) if why.kind() == ErrorKind::InvalidInput));
    socket.set_time_limit(None).unwrap();
    for limit in [Duration::from_millis(1100), Duration::from_nanos(1)] {
        socket.set_time_limit(Some(limit)).unwrap();
        let start = Instant::now();
        assert!(matches!(socket.events().next(), Some(Err(Error::TimedOut))));
        assert!(start.elapsed() >= limit / 2 && start.elapsed() < Duration::from_secs(60));
    }
    let mut events = socket.events();
    assert!((0..3).all(|_| matches!(events.next(), Some(Err(Error::TimedOut)))));
    assert!(matches!(request_link(&mut socket, 0, 1).next(), Some(Ok(_))));
}

/// Returns the groups of the socket, a bit for each, as the kernel has them in a file.
fn groups(socket: &Socket) -> u32 {
    let file = read_to_string("/proc/net/netlink").unwrap();
    let port = socket.port().to_string();
    let line = file.lines().map(|it| it.split_whitespace().collect::<Vec<_>>()).find(|it| it[1..3] == ["0", &port]);
    u32::from_str_radix(line.unwrap()[3], 16).unwrap()
}

#[test]
fn groups_are_joined_and_left() {
    let Some(socket) = socket(Protocol::Route) else { return };
    assert_eq!(groups(&socket), 0);
    socket.join(RTNLGRP_LINK).unwrap();
    socket.join(RTNLGRP_NEIGH).unwrap();
    assert_eq!(groups(&socket), 0b101);
    socket.leave(RTNLGRP_LINK).unwrap();
    assert_eq!(groups(&socket), 0b100);
    for result in [socket.join(1 << 20), socket.leave(1 << 20)] {
        assert!(matches!(result, Err(Error::Io(why)) if why.raw_os_error() == Some(EINVAL)));
    }
}

#[test]
fn the_descriptor_is_closed_on_exec() {
    let Some(socket) = socket(Protocol::Route) else { return };
    let file = read_to_string(format!("/proc/self/fdinfo/{}", socket.as_fd().as_raw_fd())).unwrap();
    let flags = file.lines().find_map(|it| it.strip_prefix("flags:")).unwrap();
    assert_eq!(u32::from_str_radix(flags.trim(), 8).unwrap() & 0o2000000, 0o2000000);
    assert!(
        matches!(Socket::open(Protocol::Other(-1)), Err(Error::Io(why)) if why.raw_os_error() == Some(EPROTONOSUPPORT))
    );
}
