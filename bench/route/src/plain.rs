//! Messages, frames and attributes of any protocol, read and written with netlink-packet-core and
//! netlink-packet-utils.

use netlink_packet_core::{
    NetlinkBuffer, NetlinkDeserializable, NetlinkHeader, NetlinkMessage, NetlinkSerializable,
};
use netlink_packet_utils::nla::{DefaultNla, NlaBuffer, NlasIterator, NLA_HEADER_SIZE};
use netlink_packet_utils::{DecodeError, Emitable, Parseable};
use std::fmt;

/// A message of any type with any bytes.
#[derive(Debug)]
struct Raw {
    kind: u16,
    bytes: Vec<u8>,
}

#[derive(Debug)]
struct Never;

impl fmt::Display for Never {
    fn fmt(&self, f: &mut fmt::Formatter<'_>) -> fmt::Result {
        f.write_str("never")
    }
}

impl std::error::Error for Never {}

impl NetlinkDeserializable for Raw {
    type Error = Never;

    fn deserialize(header: &NetlinkHeader, payload: &[u8]) -> Result<Self, Never> {
        Ok(Raw { kind: header.message_type, bytes: payload.to_vec() })
    }
}

impl NetlinkSerializable for Raw {
    fn message_type(&self) -> u16 {
        self.kind
    }

    fn buffer_len(&self) -> usize {
        self.bytes.len()
    }

    fn serialize(&self, buffer: &mut [u8]) {
        buffer.copy_from_slice(&self.bytes);
    }
}

/// Copies a result into a buffer. Returns its size, or 0 if there is none or it does not fit.
pub fn hand_out(result: Option<Vec<u8>>, out: *mut u8, room: usize) -> usize {
    let bytes = result.unwrap_or_default();
    if bytes.len() > room {
        return 0;
    }
    unsafe { std::ptr::copy_nonoverlapping(bytes.as_ptr(), out, bytes.len()) };
    bytes.len()
}

/// Exports a call, which returns a number, and the same call with its result as bytes. The bytes that a call gets must
/// be `len`, and the buffer must have `room` bytes.
macro_rules! exports {
    ($(($name:ident, $output:ident, $number:expr, $bytes:expr))*) => {$(
        #[no_mangle]
        pub unsafe extern "C" fn $name(bytes: *const u8, len: usize) -> usize {
            $number(std::slice::from_raw_parts(bytes, len))
        }

        #[no_mangle]
        pub unsafe extern "C" fn $output(bytes: *const u8, len: usize, out: *mut u8, room: usize) -> usize {
            hand_out($bytes(std::slice::from_raw_parts(bytes, len)), out, room)
        }
    )*};
}

exports! {
    (rust_read, rust_read_output, read, read_output)
    (rust_normalize, rust_normalize_output, |it| normalized(it).map_or(0, |it| it.len()), normalized)
    (rust_append_frames, rust_append_frames_output, |it| appended(it).map_or(0, |it| it.len()), appended)
    (rust_read_tree, rust_tree_output, |it| trees(it).map_or(0, |it| it.len()), rewritten)
    (rust_rewrite_tree, rust_rewrite_tree_output, |it| rewritten(it).map_or(0, |it| it.len()), rewritten)
}

fn read(bytes: &[u8]) -> usize {
    NetlinkMessage::<Raw>::deserialize(bytes).map_or(0, |it| it.header.length as usize)
}

fn read_output(bytes: &[u8]) -> Option<Vec<u8>> {
    let message = NetlinkMessage::<Raw>::deserialize(bytes).ok()?;
    let mut out = vec![0; message.buffer_len()];
    message.serialize(&mut out);
    Some(out)
}

/// Decodes the attributes of a block, and writes them again.
fn normalized(bytes: &[u8]) -> Option<Vec<u8>> {
    let all: Result<Vec<DefaultNla>, DecodeError> =
        NlasIterator::new(bytes).map(|item| DefaultNla::parse(&item?)).collect();
    let all = all.ok()?;
    let mut out = vec![0; all.as_slice().buffer_len()];
    all.as_slice().emit(&mut out);
    Some(out)
}

/// Appends each frame of a datagram, with its padding, to a new one.
fn appended(bytes: &[u8]) -> Option<Vec<u8>> {
    let mut out = Vec::new();
    let mut rest = bytes;
    while !rest.is_empty() {
        let size = NetlinkBuffer::new_checked(rest).ok()?.length() as usize;
        append(&mut out, &rest[..size])?;
        rest = rest.get((size + 3) / 4 * 4..).unwrap_or(&[]);
    }
    Some(out)
}

/// Appends a frame, if it is one, and its padding.
fn append(out: &mut Vec<u8>, frame: &[u8]) -> Option<()> {
    let size = NetlinkBuffer::new_checked(frame).ok()?.length() as usize;
    out.extend_from_slice(&frame[..size]);
    out.resize((out.len() + 3) / 4 * 4, 0);
    Some(())
}

enum Tree {
    Leaf(DefaultNla),
    Nest(u16, Vec<Tree>),
}

fn trees(bytes: &[u8]) -> Option<Vec<Tree>> {
    let mut all = Vec::new();
    for item in NlasIterator::new(bytes) {
        let nla = item.ok()?;
        all.push(match nla.nested_flag() {
            true => Tree::Nest(nla.kind(), trees(nla.value())?),
            false => Tree::Leaf(DefaultNla::parse(&nla).ok()?),
        });
    }
    Some(all)
}

fn rewritten(bytes: &[u8]) -> Option<Vec<u8>> {
    let mut out = Vec::new();
    append_trees(&trees(bytes)?, &mut out);
    Some(out)
}

/// Appends trees. The length of a nest is written once what is inside is written.
fn append_trees(trees: &[Tree], out: &mut Vec<u8>) {
    for tree in trees {
        let start = out.len();
        match tree {
            Tree::Leaf(leaf) => {
                out.resize(start + leaf.buffer_len(), 0);
                leaf.emit(&mut out[start..]);
            }
            Tree::Nest(kind, children) => {
                out.resize(start + NLA_HEADER_SIZE, 0);
                append_trees(children, out);
                let size = out.len() - start;
                let mut nest = NlaBuffer::new(&mut out[start..]);
                nest.set_kind(*kind);
                nest.set_nested_flag();
                nest.set_length(size as u16);
            }
        }
    }
}
