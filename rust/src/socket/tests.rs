//! Plays the kernel: its datagrams, other senders and errors. The bytes are written by hand from linux/netlink.h.

use super::exchange::{Exchange, Wire, BUFFER};
use super::{Error, Rejection};
use crate::{Fault, Header, Message, Writer};
use std::collections::VecDeque;
use std::error::Error as _;
use std::io;
use std::thread::sleep;
use std::time::{Duration, Instant};

const EINTR: i32 = 4;
const EAGAIN: i32 = 11;
const ENOMEM: i32 = 12;
const ENOBUFS: i32 = 105;
const MSG_PEEK: i32 = 2;
const MSG_TRUNC: i32 = 0x20;
const MSG_DONTWAIT: i32 = 0x40;

const ERROR: u16 = 2;
const DONE: u16 = 3;
const DATA: u16 = 16;
const MULTI: u16 = 2;
const TORN: u16 = 0x10;
const CAPPED: u16 = 0x100;
const ACK_TLVS: u16 = 0x200;
const DUMP: u16 = 0x300;

/// A datagram and the port of its sender, or an errno.
type Step = Result<(Vec<u8>, u32), i32>;

/// Returns the steps, and then `last` again and again.
struct Played {
    steps: VecDeque<Step>,
    last: Step,
    sent: Vec<Vec<u8>>,
    /// How many steps were left at each call of `send`, and the errors of the next calls.
    left: Vec<usize>,
    refusals: Vec<i32>,
    flags: Vec<i32>,
    /// How long it takes to receive.
    pause: Duration,
}

impl Wire for Played {
    fn send(&mut self, bytes: &[u8]) -> io::Result<()> {
        if let Some(errno) = self.refusals.pop() {
            return Err(io::Error::from_raw_os_error(errno));
        }
        self.sent.push(bytes.to_vec());
        self.left.push(self.steps.len());
        Ok(())
    }

    fn receive(&mut self, buffer: &mut [u8], flags: i32) -> io::Result<(usize, u32)> {
        self.flags.push(flags);
        sleep(self.pause);
        let step = self.steps.front().unwrap_or(&self.last).clone();
        if step.is_err() || flags & MSG_PEEK == 0 {
            self.steps.pop_front();
        }
        let (bytes, port) = step.map_err(io::Error::from_raw_os_error)?;
        let size = bytes.len().min(buffer.len());
        buffer[..size].copy_from_slice(&bytes[..size]);
        Ok((if flags & MSG_TRUNC != 0 { bytes.len() } else { size }, port))
    }
}

/// Returns a socket with port 9 that receives these.
fn playing(steps: impl IntoIterator<Item = Step>) -> Exchange<Played> {
    let steps = steps.into_iter().collect();
    let (sent, left, refusals, flags, pause) = (vec![], vec![], vec![], vec![], Duration::ZERO);
    Exchange::new(Played { steps, last: Err(EAGAIN), sent, left, refusals, flags, pause }, 9).unwrap()
}

/// Returns a message for port 9, padded.
fn frame(kind: u16, flags: u16, sequence_number: u32, payload: &[u8]) -> Vec<u8> {
    let mut bytes = (16 + payload.len() as u32).to_le_bytes().to_vec();
    bytes.extend_from_slice(&kind.to_le_bytes());
    bytes.extend_from_slice(&flags.to_le_bytes());
    bytes.extend_from_slice(&sequence_number.to_le_bytes());
    bytes.extend_from_slice(&[9, 0, 0, 0]);
    bytes.extend_from_slice(payload);
    bytes.resize(bytes.len().next_multiple_of(4), 0);
    bytes
}

/// Returns a datagram of the kernel with these messages.
fn kernel(frames: &[Vec<u8>]) -> Step {
    Ok((frames.concat(), 0))
}

/// Returns a datagram with a message of a dump, whose payload is this byte.
fn part(sequence_number: u32, byte: u8) -> Step {
    kernel(&[frame(DATA, MULTI, sequence_number, &[byte])])
}

fn done(sequence_number: u32) -> Step {
    kernel(&[frame(DONE, MULTI, sequence_number, &[0; 4])])
}

/// Returns an acknowledgement, whose request is capped.
fn acknowledged(sequence_number: u32) -> Step {
    kernel(&[frame(ERROR, CAPPED, sequence_number, &[0; 20])])
}

/// Returns an error with this code, whose request is capped, and these attributes.
fn rejected(sequence_number: u32, code: i32, attributes: &[u8]) -> Step {
    let payload = [&code.to_le_bytes(), &[0; 16][..], attributes].concat();
    kernel(&[frame(ERROR, CAPPED | ACK_TLVS, sequence_number, &payload)])
}

/// Sends requests with these flags. Each has one attribute with the value 5 and the nested flag: the first of kind 7,
/// the second of kind 8, and so on.
fn request(exchange: &mut Exchange<Played>, flags: &[u16]) -> Result<(), Error> {
    let mut buffer = [0; 256];
    let mut writer = Writer::new(&mut buffer);
    for (kind, &flags) in (0x8007..).zip(flags) {
        let header = Header { message_type: 18, flags, ..Header::default() };
        let mut frame = writer.begin_frame(&header, &[0; 4]).unwrap();
        frame.attribute(kind, &[5]).unwrap();
        frame.end().unwrap();
    }
    exchange.request(writer.written())
}

/// Returns the first bytes of the payloads of the answer, and how it ends.
fn answer(exchange: &mut Exchange<Played>) -> (Vec<u8>, Option<Error>) {
    let mut bytes = vec![];
    loop {
        match exchange.next_reply() {
            Ok(Some(message)) => bytes.push(message.payload[0]),
            Ok(None) => return (bytes, None),
            Err(error) => return (bytes, Some(error)),
        }
    }
}

#[test]
fn a_request_has_the_fields_of_the_socket() {
    let mut socket = playing([part(1, 7), done(1), acknowledged(2)]);
    request(&mut socket, &[DUMP, 0x400]).unwrap();
    let message = socket.next_reply().unwrap().unwrap();
    let header = Header { length: 17, message_type: DATA, flags: MULTI, sequence_number: 1, port_number: 9 };
    assert_eq!(message, Message { header, payload: &[7] });
    assert_eq!(socket.wire.sent.len(), 1);
    assert!(matches!(answer(&mut socket), (bytes, None) if bytes.is_empty()));
    #[rustfmt::skip]
    const SENT: [[u8; 28]; 2] = [
        [28, 0, 0, 0, 18, 0, 1, 3, 1, 0, 0, 0, 9, 0, 0, 0, 0, 0, 0, 0, 5, 0, 7, 0x80, 5, 0, 0, 0],
        [28, 0, 0, 0, 18, 0, 5, 4, 2, 0, 0, 0, 9, 0, 0, 0, 0, 0, 0, 0, 5, 0, 8, 0x80, 5, 0, 0, 0],
    ];
    assert_eq!((&socket.wire.sent[..], &socket.wire.left[..]), (&SENT.map(|it| it.to_vec())[..], &[3, 1][..]));
    assert_eq!(socket.wire.flags[..2], [MSG_PEEK | MSG_TRUNC, 0]);
}

#[test]
fn a_sequence_number_is_not_zero() {
    let mut socket = playing([acknowledged(u32::MAX), acknowledged(1), acknowledged(2)]);
    socket.sequence_number = u32::MAX - 1;
    request(&mut socket, &[0, 0x100, 0x200]).unwrap();
    assert!(matches!(answer(&mut socket), (_, None)));
    let numbers: Vec<_> = socket.wire.sent.iter().map(|it| it[8..12].to_vec()).collect();
    assert_eq!(numbers, [[255, 255, 255, 255], [1, 0, 0, 0], [2, 0, 0, 0]]);
    assert!(request(&mut socket, &[]).is_ok() && matches!(socket.next_reply(), Ok(None)));
    assert_eq!(socket.wire.sent.len(), 3);
}

#[test]
fn a_long_datagram_is_not_cut() {
    let mut socket = playing([kernel(&[frame(DATA, 0, 1, &[3; 40000])]), acknowledged(1)]);
    request(&mut socket, &[0]).unwrap();
    assert_eq!(socket.buffer.len(), BUFFER);
    assert_eq!(socket.next_reply().unwrap().unwrap().payload, [3; 40000]);
    assert!(matches!(answer(&mut socket), (_, None)));
    assert_eq!(socket.buffer.len(), 40016);
}

#[test]
fn another_sender_is_ignored() {
    let foreign = |size| Ok((frame(DATA, MULTI, 1, &vec![8; size]), 4711));
    let mut socket = playing([foreign(1), part(1, 1), foreign(50000), foreign(1), part(1, 2), done(1)]);
    request(&mut socket, &[DUMP]).unwrap();
    assert!(matches!(answer(&mut socket), (bytes, None) if bytes == [1, 2]));
    assert_eq!((socket.wire.steps.len(), socket.buffer.len()), (0, BUFFER));
}

#[test]
fn other_datagrams_do_not_prolong_the_time_limit() {
    let event = kernel(&[frame(DATA, 0, 0, &[])]);
    for last in [Ok((frame(DATA, MULTI, 1, &[8]), 4711)), event, Err(EINTR), Ok((vec![], 0))] {
        let mut socket = playing([]);
        (socket.limit, socket.wire.last) = (Some(Duration::from_millis(20)), last);
        request(&mut socket, &[DUMP]).unwrap();
        let start = Instant::now();
        assert!(matches!(socket.next_reply(), Err(Error::TimedOut)));
        let first = start.elapsed();
        socket.drain();
        assert!(first >= Duration::from_millis(20) && start.elapsed() < Duration::from_secs(5));
    }
}

#[test]
fn each_request_has_the_time_limit() {
    let mut socket = playing((1..=5).map(acknowledged));
    // The pauses of all together exceed the limit, and a slow machine keeps that of one.
    (socket.limit, socket.wire.pause) = (Some(Duration::from_millis(600)), Duration::from_millis(180));
    request(&mut socket, &[0; 5]).unwrap();
    assert!(matches!(answer(&mut socket), (_, None)));
}

#[test]
fn a_dump_is_torn() {
    let message = frame(DATA, MULTI | TORN, 1, &[1]);
    let mut socket = playing([kernel(&[message, frame(DATA, MULTI, 1, &[2])]), done(1), acknowledged(2), done(2)]);
    request(&mut socket, &[DUMP, 0]).unwrap();
    assert!(matches!(answer(&mut socket), (bytes, Some(Error::Interrupted)) if bytes == [1, 2]));
    assert_eq!((socket.wire.sent.len(), socket.wire.steps.len()), (1, 2));
    for requests in [&[][..], &[DUMP]] {
        request(&mut socket, requests).unwrap();
        assert!(matches!(answer(&mut socket), (_, None)));
    }
}

#[test]
fn messages_were_lost() {
    let marked = kernel(&[frame(4, 0, 2, &[])]);
    let mut socket = playing([part(1, 1), Err(ENOBUFS), part(1, 2), Err(ENOBUFS), done(1), marked, acknowledged(2)]);
    request(&mut socket, &[DUMP]).unwrap();
    assert!(matches!(answer(&mut socket), (bytes, Some(Error::Overrun)) if bytes == [1]));
    request(&mut socket, &[0]).unwrap();
    assert_eq!(socket.wire.left, [7, 2]);
    assert!(matches!(answer(&mut socket), (_, Some(Error::Overrun))));
}

/// Returns why the second request is rejected if the kernel answers it with these attributes.
fn rejection(attributes: &[u8]) -> Rejection {
    let mut socket = playing([acknowledged(1), rejected(2, -22, attributes), acknowledged(3)]);
    request(&mut socket, &[0, 0, 0]).unwrap();
    let (_, Some(Error::Rejected(rejection))) = answer(&mut socket) else {
        panic!("the second request is not rejected");
    };
    assert_eq!((socket.wire.sent.len(), socket.wire.steps.len()), (2, 1));
    rejection
}

#[test]
fn the_second_of_three_requests_is_rejected() {
    let bare = Rejection { errno: 22, text: None, offset: None, kind: None, missing: None };
    assert_eq!(rejection(&[]), bare);
    let invalid = "the kernel rejected the request: Invalid argument (os error 22)";
    assert_eq!(Error::Rejected(bare.clone()).to_string(), invalid);

    let about = rejection(&[7, 0, 1, 0, b'n', b'o', 0, 0, 8, 0, 2, 0, 20, 0, 0, 0]);
    assert_eq!(about, Rejection { text: Some("no".into()), offset: Some(20), kind: Some(8), ..bare.clone() });
    assert_eq!(about.to_string(), format!("{invalid}: no, in the attribute of kind 8 at offset 20"));

    let lacking = rejection(&[6, 0, 1, 0, 0xff, 0, 0, 0, 8, 0, 5, 0, 6, 0, 0, 0]);
    assert_eq!(lacking, Rejection { text: Some("\u{fffd}".into()), missing: Some(6), ..bare.clone() });
    assert_eq!(lacking.to_string(), format!("{invalid}: \u{fffd}, without an attribute of kind 6"));

    // No attribute begins in the value of the last one, at the end of the request, or after it.
    for offset in [24, 28, 29, 200] {
        let outside = rejection(&[8, 0, 2, 0, offset, 0, 0, 0]);
        assert_eq!(outside, Rejection { offset: Some(offset.into()), ..bare.clone() });
        assert_eq!(outside.to_string(), format!("{invalid}, at offset {offset}"));
    }
}

#[test]
fn a_dump_fails_later() {
    let failed = frame(DONE, MULTI | ACK_TLVS, 1, &[0xed, 0xff, 0xff, 0xff, 7, 0, 1, 0, b'n', b'o', 0, 0]);
    let mut socket = playing([part(1, 1), kernel(&[failed])]);
    request(&mut socket, &[DUMP]).unwrap();
    let (bytes, Some(Error::Rejected(why))) = answer(&mut socket) else {
        panic!("the dump does not fail");
    };
    assert_eq!((&bytes[..], why.errno, why.text.as_deref()), (&[1][..], 19, Some("no")));
}

#[test]
fn each_message_has_a_datagram() {
    let noop = kernel(&[frame(1, 0, 1, &[])]);
    let other = kernel(&[frame(DATA, MULTI, 5, &[9]), frame(DATA, MULTI, 1, &[4])]);
    let mut socket = playing([part(1, 1), noop, part(1, 2), Err(EINTR), part(1, 3), other, done(1)]);
    socket.wire.refusals = vec![EINTR, EINTR];
    request(&mut socket, &[DUMP]).unwrap();
    assert!(matches!(answer(&mut socket), (bytes, None) if bytes == [1, 2, 3, 4]));
}

#[test]
fn no_answer_arrives() {
    let mut socket = playing([part(1, 1)]);
    request(&mut socket, &[DUMP]).unwrap();
    assert!(matches!(answer(&mut socket), (bytes, Some(Error::TimedOut)) if bytes == [1]));
    socket.wire.steps.extend([part(1, 2), done(1), acknowledged(2)]);
    request(&mut socket, &[0]).unwrap();
    assert_eq!(socket.wire.left, [1, 1]);
    assert!(matches!(answer(&mut socket), (bytes, None) if bytes.is_empty()));
    socket.wire.refusals = vec![ENOMEM];
    assert!(matches!(request(&mut socket, &[0]), Err(Error::Io(why)) if why.raw_os_error() == Some(ENOMEM)));
}

#[test]
fn an_answer_is_dropped_early() {
    let rest = [frame(DATA, MULTI, 1, &[2]), frame(DONE, MULTI, 1, &[0; 4])];
    let both = kernel(&[frame(DATA, MULTI, 1, &[1]), frame(DATA, MULTI, 1, &[9])]);
    let mut socket = playing([both, part(1, 1), kernel(&rest), acknowledged(2)]);
    request(&mut socket, &[DUMP, 0]).unwrap();
    assert!(matches!(socket.next_reply(), Ok(Some(_))));
    socket.wire.flags.clear();
    request(&mut socket, &[0]).unwrap();
    assert_eq!((&socket.wire.left[..], socket.wire.sent[1][8]), (&[4, 1][..], 2));
    assert_eq!(socket.wire.flags, [MSG_DONTWAIT | MSG_PEEK | MSG_TRUNC, MSG_DONTWAIT].repeat(2));
    assert!(matches!(answer(&mut socket), (bytes, None) if bytes.is_empty()));
}

#[test]
fn malformed_bytes() {
    let cut = || Ok((vec![20, 0, 0, 0, 16, 0, 0, 0, 1, 0, 0, 0, 9, 0, 0, 0], 0));
    let fault = Fault::FrameCut { size: 16, length: 20, inside: false };
    let mut socket = playing([part(1, 1), cut(), cut(), done(1), acknowledged(2)]);
    request(&mut socket, &[DUMP]).unwrap();
    let (_, Some(error)) = answer(&mut socket) else {
        panic!("the answer does not fail");
    };
    assert!(matches!(error, Error::Malformed(why) if why == fault));
    assert_eq!(error.source().unwrap().to_string(), fault.to_string());
    let frame = [16, 0, 0, 0, 18, 0, 0, 0, 0, 0, 0, 0, 0, 0, 0, 0];
    let short = Fault::FrameShort { size: 4, inside: false };
    let mixed = socket.request(&[&frame[..], &[4, 0, 1, 0]].concat());
    assert!(matches!(mixed, Err(Error::Malformed(why)) if why == short));
    assert_eq!((socket.wire.sent.len(), socket.wire.steps.len()), (1, 1));
    request(&mut socket, &[0]).unwrap();
    assert!(matches!(answer(&mut socket), (_, None)));
}

#[test]
fn events_are_received() {
    let event = |byte| frame(DATA, 0, 0, &[byte]);
    let cut = Ok(([event(3), vec![9; 16]].concat(), 0));
    let mut socket = playing([kernel(&[event(1), event(2)]), Err(ENOBUFS), Err(EINTR), cut, kernel(&[event(4)])]);
    let mut next = || socket.next_event().map(|it| it.payload[0]);
    assert!(matches!((next(), next(), next()), (Ok(1), Ok(2), Err(Error::Overrun))));
    let length = Fault::FrameCut { size: 16, length: 0x09090909, inside: false };
    assert!(matches!((next(), next()), (Ok(3), Err(Error::Malformed(why))) if why == length));
    assert!(matches!((next(), next(), next()), (Ok(4), Err(Error::TimedOut), Err(Error::TimedOut))));
    socket.wire.last = Err(ENOMEM);
    let Err(error) = socket.next_event() else {
        panic!("the system call does not fail");
    };
    assert_eq!(error.source().unwrap().to_string(), "Cannot allocate memory (os error 12)");
}

#[test]
fn errors_have_texts() {
    for (error, text) in [
        (Error::Interrupted, "what the dump lists changed while it was listed"),
        (Error::Overrun, "messages were lost because the receive buffer was full"),
        (Error::TimedOut, "nothing was received within the time limit"),
        (Error::Malformed(Fault::Refused), "the bytes are no netlink messages"),
        (Error::Io(io::ErrorKind::OutOfMemory.into()), "a system call on the socket failed"),
    ] {
        assert_eq!(error.to_string(), text);
        assert_eq!(error.source().is_some(), matches!(error, Error::Malformed(_) | Error::Io(_)));
    }
}

#[test]
fn events_follow_an_answer_that_is_dropped() {
    let event = || frame(DATA, 0, 0, &[7]);
    let end = [frame(DONE, MULTI, 1, &[0; 4]), event()];
    let mut socket = playing([part(1, 1), part(1, 2), kernel(&end), kernel(&[event()])]);
    request(&mut socket, &[DUMP]).unwrap();
    socket.drain();
    assert!(matches!(socket.next_event(), Ok(message) if message.payload == [7]));
    assert_eq!(socket.wire.steps.len(), 0);
}
