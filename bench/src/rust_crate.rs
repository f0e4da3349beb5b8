//! The Rust crate.

use crate::found::Found;
use netlink_packet_core::{
    NetlinkBuffer, NetlinkDeserializable, NetlinkHeader, NetlinkMessage, NetlinkPayload, NetlinkSerializable,
};
use netlink_packet_utils::nla::{DefaultNla, Nla, NlasIterator};
use netlink_packet_utils::traits::{Emitable, Parseable};
use std::fmt;

/// A message of any type with any bytes.
struct Raw {
    kind: u16,
    bytes: Vec<u8>,
}

#[derive(Debug)]
struct Never;

impl fmt::Display for Never {
    fn fmt(&self, f: &mut fmt::Formatter<'_>) -> fmt::Result {
        f.write_str("never")
    }
}

impl std::error::Error for Never {}

impl NetlinkDeserializable for Raw {
    type Error = Never;

    fn deserialize(header: &NetlinkHeader, payload: &[u8]) -> Result<Self, Never> {
        Ok(Raw { kind: header.message_type, bytes: payload.to_vec() })
    }
}

impl NetlinkSerializable for Raw {
    fn message_type(&self) -> u16 {
        self.kind
    }

    fn buffer_len(&self) -> usize {
        self.bytes.len()
    }

    fn serialize(&self, buffer: &mut [u8]) {
        buffer.copy_from_slice(&self.bytes);
    }
}

pub fn read(bytes: &[u8]) -> usize {
    match NetlinkMessage::<Raw>::deserialize(bytes) {
        Ok(message) => match message.payload {
            NetlinkPayload::InnerMessage(raw) => raw.kind as usize + raw.bytes.len(),
            _ => 0,
        },
        Err(_) => 0,
    }
}

pub fn view(bytes: &[u8]) -> usize {
    match NetlinkBuffer::new_checked(bytes) {
        Ok(view) => view.message_type() as usize + view.payload().len(),
        Err(_) => 0,
    }
}

pub fn round_trip(bytes: &[u8], out: &mut [u8]) -> usize {
    match NetlinkMessage::<Raw>::deserialize(bytes) {
        Ok(mut message) => {
            message.finalize();
            let size = message.buffer_len();
            message.serialize(&mut out[..size]);
            size
        }
        Err(_) => 0,
    }
}

/// Calls `see` with the kind and the value of each attribute of a block. Returns whether there is no error.
fn attributes(bytes: &[u8], mut see: impl FnMut(u16, &[u8])) -> bool {
    for item in NlasIterator::new(bytes) {
        match item {
            Ok(nla) => see(nla.kind(), nla.value()),
            Err(_) => return false,
        }
    }
    true
}

pub fn walk(bytes: &[u8]) -> usize {
    let mut sum = 0;
    let is_read = attributes(bytes, |kind, value| sum += kind as usize + value.len());
    if is_read {
        sum
    } else {
        0
    }
}

struct Number {
    kind: u16,
    value: u32,
}

impl Nla for Number {
    fn value_len(&self) -> usize {
        4
    }

    fn kind(&self) -> u16 {
        self.kind
    }

    fn emit_value(&self, buffer: &mut [u8]) {
        buffer.copy_from_slice(&self.value.to_ne_bytes());
    }
}

pub fn put(count: usize, out: &mut [u8]) -> usize {
    let mut at = 0;
    for i in 0..count {
        let number = Number { kind: i as u16 & 0x3fff, value: i as u32 };
        let size = number.buffer_len();
        number.emit(&mut out[at..at + size]);
        at += size;
    }
    at
}

pub fn normalize(bytes: &[u8], out: &mut [u8]) -> usize {
    let mut all = Vec::new();
    for item in NlasIterator::new(bytes) {
        match item.and_then(|nla| DefaultNla::parse(&nla)) {
            Ok(nla) => all.push(nla),
            Err(_) => return 0,
        }
    }
    let all = all.as_slice();
    let size = all.buffer_len();
    all.emit(&mut out[..size]);
    size
}

pub fn refuse(bytes: &[u8]) -> usize {
    NetlinkBuffer::new_checked(bytes).is_err() as usize
}

/// Calls `see` with the bytes from each frame of a datagram on, and its size. Returns whether there is no error.
fn frames(bytes: &[u8], mut see: impl FnMut(&[u8], usize)) -> bool {
    let mut rest = bytes;
    while !rest.is_empty() {
        let size = match NetlinkBuffer::new_checked(rest) {
            Ok(view) => view.length() as usize,
            Err(_) => return false,
        };
        see(rest, size);
        rest = &rest[((size + 3) / 4 * 4).min(rest.len())..];
    }
    true
}

pub fn split(bytes: &[u8]) -> usize {
    let mut sum = 0;
    let is_read = frames(bytes, |_, size| sum += size);
    if is_read {
        sum
    } else {
        0
    }
}

/// Returns what one call of a case that writes no bytes found.
pub fn found(case: &str, bytes: &[u8]) -> Found {
    let mut found = Found::default();
    let at = |part: &[u8]| part.as_ptr() as usize - bytes.as_ptr() as usize;
    match case {
        "read" => {
            let message = NetlinkMessage::<Raw>::deserialize(bytes).unwrap();
            let it = message.header;
            found.header(it.length, it.message_type, it.flags, it.sequence_number, it.port_number);
            if let NetlinkPayload::InnerMessage(raw) = message.payload {
                found.bytes(&raw.bytes);
            }
        }
        "view" => {
            let view = NetlinkBuffer::new_checked(bytes).unwrap();
            found.item(view.message_type(), at(view.payload()), view.payload().len());
        }
        "refuse" => {
            found.rejected(refuse(bytes) != 0);
            frames(bytes, |rest, size| found.item(0, at(rest), size));
        }
        "walk" => {
            attributes(bytes, |kind, value| found.item(kind, at(value), value.len()));
        }
        "split" => {
            frames(bytes, |rest, size| found.item(0, at(rest), size));
        }
        _ => panic!("no such case: {case}"),
    }
    found
}
