//! The library of c/, by its C calls.

use crate::found::Found;
use std::mem::MaybeUninit;
use std::ptr::addr_of_mut;

#[repr(C)]
#[derive(Clone, Copy, Default)]
struct Fault {
    cause: u32,
    inside: u32,
    size: usize,
    wanted: usize,
}

#[repr(C)]
#[derive(Clone, Copy, Default)]
struct Part {
    offset: usize,
    size: usize,
}

#[repr(C)]
#[derive(Clone, Copy, Default)]
struct Header {
    length: u32,
    message_type: u16,
    flags: u16,
    sequence_number: u32,
    port_number: u32,
}

#[repr(C)]
#[derive(Clone, Copy, Default)]
struct Attr {
    kind: u16,
    offset: usize,
    size: usize,
}

#[repr(C)]
#[derive(Clone, Copy, Default)]
struct Message {
    header: Header,
    payload: Part,
}

#[repr(C)]
struct MessageBatch {
    cursor: usize,
    count: usize,
    item: [Message; 16],
}

#[repr(C)]
struct AttrBatch {
    cursor: usize,
    count: usize,
    item: [Attr; 16],
}

extern "C" {
    fn nlp_frame_check(bytes: *const u8, len: usize, fault: *mut Fault) -> u32;
    fn nlp_frame_header(bytes: *const u8, len: usize, header: *mut Header, fault: *mut Fault) -> u32;
    fn nlp_frame_payload(bytes: *const u8, len: usize, payload: *mut Part, fault: *mut Fault) -> u32;
    fn nlp_frames_next(bytes: *const u8, len: usize, cursor: *mut usize, item: *mut Part, fault: *mut Fault) -> u32;
    fn nlp_attrs_next(bytes: *const u8, len: usize, cursor: *mut usize, item: *mut Attr, fault: *mut Fault) -> u32;
    fn nlp_attrs_fill(bytes: *const u8, len: usize, batch: *mut AttrBatch, fault: *mut Fault) -> u32;
    fn nlp_attrs_table(bytes: *const u8, len: usize, table: *mut Attr, count: usize, fault: *mut Fault) -> u32;
    fn nlp_message_read(bytes: *const u8, len: usize, cursor: *mut usize, item: *mut Message, fault: *mut Fault)
        -> u32;
    fn nlp_messages_fill(bytes: *const u8, len: usize, batch: *mut MessageBatch, fault: *mut Fault) -> u32;
    fn nlp_attr_put_u32(buffer: *mut u8, capacity: usize, cursor: *mut usize, kind: u16, value: u32) -> u32;
    fn nlp_attrs_normalize(
        bytes: *const u8,
        len: usize,
        buffer: *mut u8,
        capacity: usize,
        size: *mut usize,
        fault: *mut Fault,
    ) -> u32;
    fn nlp_frame_normalize(
        bytes: *const u8,
        len: usize,
        buffer: *mut u8,
        capacity: usize,
        size: *mut usize,
        fault: *mut Fault,
    ) -> u32;
}

/// Returns the header of a frame, and where its payload is.
fn parts(bytes: &[u8]) -> Option<(Header, Part)> {
    let mut header = Header::default();
    let mut part = Part::default();
    let mut fault = Fault::default();
    unsafe {
        if nlp_frame_header(bytes.as_ptr(), bytes.len(), &mut header, &mut fault) != 0
            || nlp_frame_payload(bytes.as_ptr(), bytes.len(), &mut part, &mut fault) != 0
        {
            return None;
        }
    }
    Some((header, part))
}

pub fn read(bytes: &[u8]) -> usize {
    parts(bytes).map_or(0, |(header, part)| header.message_type as usize + part.size)
}

pub fn round_trip(bytes: &[u8], out: &mut [u8]) -> usize {
    let mut size = 0;
    let mut fault = Fault::default();
    unsafe { nlp_frame_normalize(bytes.as_ptr(), bytes.len(), out.as_mut_ptr(), out.len(), &mut size, &mut fault) };
    size
}

/// The walk of the header over attributes: its inline functions, in Rust.
struct Attrs {
    block: *const u8,
    len: usize,
    batch: AttrBatch,
    next: usize,
    result: u32,
    fault: Fault,
}

/// `nlp_attrs_begin`: leaves the attributes and the fault as they are.
unsafe fn attrs_begin(walk: *mut Attrs, block: &[u8]) {
    addr_of_mut!((*walk).block).write(block.as_ptr());
    addr_of_mut!((*walk).len).write(block.len());
    addr_of_mut!((*walk).batch.cursor).write(0);
    addr_of_mut!((*walk).batch.count).write(0);
    addr_of_mut!((*walk).next).write(0);
    addr_of_mut!((*walk).result).write(0);
}

/// `nlp_attrs_read`.
#[inline(always)]
unsafe fn attrs_read(walk: *mut Attrs) -> *const Attr {
    if (*walk).next == (*walk).batch.count {
        (*walk).result = if (*walk).batch.cursor >= (*walk).len {
            32
        } else {
            let (batch, fault) = (addr_of_mut!((*walk).batch), addr_of_mut!((*walk).fault));
            nlp_attrs_fill((*walk).block, (*walk).len, batch, fault)
        };
        if (*walk).result != 0 {
            return std::ptr::null();
        }
        (*walk).next = 0;
    }
    let at = (*walk).next;
    (*walk).next = at + 1;
    addr_of_mut!((*walk).batch.item).cast::<Attr>().add(at)
}

/// Calls `see` for each attribute of a block.
fn attributes(block: &[u8], mut see: impl FnMut(&Attr)) {
    let mut walk = MaybeUninit::<Attrs>::uninit();
    unsafe {
        attrs_begin(walk.as_mut_ptr(), block);
        while let Some(attr) = attrs_read(walk.as_mut_ptr()).as_ref() {
            see(attr);
        }
    }
}

pub fn walk(block: &[u8]) -> usize {
    let mut sum = 0;
    attributes(block, |it| sum += it.kind as usize + it.size);
    sum
}

/// Calls `see` for each attribute of a block, with one call of the library for each.
fn each_attribute(bytes: &[u8], mut see: impl FnMut(&Attr)) {
    let mut at = 0;
    let mut item = Attr::default();
    let mut fault = Fault::default();
    while unsafe { nlp_attrs_next(bytes.as_ptr(), bytes.len(), &mut at, &mut item, &mut fault) } == 0 {
        see(&item);
    }
}

pub fn walk_each(bytes: &[u8]) -> usize {
    let mut sum = 0;
    each_attribute(bytes, |it| sum += it.kind as usize + it.size);
    sum
}

pub fn put(count: usize, out: &mut [u8]) -> usize {
    let mut at = 0;
    for i in 0..count {
        unsafe { nlp_attr_put_u32(out.as_mut_ptr(), out.len(), &mut at, i as u16 & 0x3fff, i as u32) };
    }
    at
}

pub fn normalize(bytes: &[u8], out: &mut [u8]) -> usize {
    let mut size = 0;
    let mut fault = Fault::default();
    unsafe { nlp_attrs_normalize(bytes.as_ptr(), bytes.len(), out.as_mut_ptr(), out.len(), &mut size, &mut fault) };
    size
}

pub fn refuse(bytes: &[u8]) -> usize {
    let mut fault = Fault::default();
    unsafe { nlp_frame_check(bytes.as_ptr(), bytes.len(), &mut fault) as usize }
}

/// Calls `see` for each frame of a datagram.
fn frames(bytes: &[u8], mut see: impl FnMut(&Part)) {
    let mut at = 0;
    let mut item = Part::default();
    let mut fault = Fault::default();
    while unsafe { nlp_frames_next(bytes.as_ptr(), bytes.len(), &mut at, &mut item, &mut fault) } == 0 {
        see(&item);
    }
}

pub fn split(bytes: &[u8]) -> usize {
    let mut sum = 0;
    frames(bytes, |it| sum += it.size);
    sum
}

/// Returns a table of `count` entries, which is filled.
fn filled<'a>(block: &[u8], count: usize, out: &'a mut [u8]) -> &'a [Attr] {
    let mut fault = Fault::default();
    unsafe {
        let table = &mut out.align_to_mut::<Attr>().1[..count];
        nlp_attrs_table(block.as_ptr(), block.len(), table.as_mut_ptr(), count, &mut fault);
        table
    }
}

/// Fills a table of `count` entries, and returns the size of the value of the last.
pub fn table(frame: &[u8], count: usize, out: &mut [u8]) -> usize {
    filled(&frame[16..], count, out)[count - 1].size
}

/// The walk of the header: its inline functions, in Rust.
struct Messages {
    bytes: *const u8,
    len: usize,
    batch: MessageBatch,
    next: usize,
    result: u32,
    fault: Fault,
}

/// `nlp_messages_begin`: leaves the messages and the fault as they are.
unsafe fn messages_begin(walk: *mut Messages, bytes: &[u8]) {
    addr_of_mut!((*walk).bytes).write(bytes.as_ptr());
    addr_of_mut!((*walk).len).write(bytes.len());
    addr_of_mut!((*walk).batch.cursor).write(0);
    addr_of_mut!((*walk).batch.count).write(0);
    addr_of_mut!((*walk).next).write(0);
    addr_of_mut!((*walk).result).write(0);
}

/// `nlp_messages_next`.
#[inline(always)]
unsafe fn messages_next(walk: *mut Messages) -> *const Message {
    if (*walk).next == (*walk).batch.count {
        (*walk).result = if (*walk).batch.cursor >= (*walk).len {
            32
        } else {
            let (batch, fault) = (addr_of_mut!((*walk).batch), addr_of_mut!((*walk).fault));
            nlp_messages_fill((*walk).bytes, (*walk).len, batch, fault)
        };
        if (*walk).result != 0 {
            return std::ptr::null();
        }
        (*walk).next = 0;
    }
    let at = (*walk).next;
    (*walk).next = at + 1;
    addr_of_mut!((*walk).batch.item).cast::<Message>().add(at)
}

/// Calls `see` for each message of a datagram.
fn each_message(bytes: &[u8], mut see: impl FnMut(&Message)) {
    let mut walk = MaybeUninit::<Messages>::uninit();
    unsafe {
        messages_begin(walk.as_mut_ptr(), bytes);
        while let Some(message) = messages_next(walk.as_mut_ptr()).as_ref() {
            see(message);
        }
    }
}

pub fn messages(bytes: &[u8]) -> usize {
    let mut sum = 0;
    each_message(bytes, |it| sum += it.header.message_type as usize + it.payload.size);
    sum
}

/// Calls `see` for each message of a datagram, with one call of the library for each.
fn each_read(bytes: &[u8], mut see: impl FnMut(&Message)) {
    let mut at = 0;
    let mut item = Message::default();
    let mut fault = Fault::default();
    while unsafe { nlp_message_read(bytes.as_ptr(), bytes.len(), &mut at, &mut item, &mut fault) } == 0 {
        see(&item);
    }
}

pub fn read_each(bytes: &[u8]) -> usize {
    let mut sum = 0;
    each_read(bytes, |it| sum += it.header.message_type as usize + it.payload.size);
    sum
}

/// Returns what one call of a case that writes no bytes found.
pub fn found(case: &str, size: usize, bytes: &[u8], out: &mut [u8]) -> Found {
    let mut found = Found::default();
    match case {
        "read" => {
            let (it, part) = parts(bytes).unwrap();
            found.header(it.length, it.message_type, it.flags, it.sequence_number, it.port_number);
            found.bytes(&bytes[part.offset..][..part.size]);
        }
        "view" => {
            let (header, part) = parts(bytes).unwrap();
            found.item(header.message_type, part.offset, part.size);
        }
        "refuse" => {
            found.rejected(refuse(bytes) != 0);
            frames(bytes, |it| found.item(0, it.offset, it.size));
        }
        "walk" => attributes(bytes, |it| found.item(it.kind, it.offset, it.size)),
        "walk_each" => each_attribute(bytes, |it| found.item(it.kind, it.offset, it.size)),
        "split" => frames(bytes, |it| found.item(0, it.offset, it.size)),
        "table" => filled(&bytes[16..], size, out).iter().for_each(|it| found.item(it.kind, 16 + it.offset, it.size)),
        "messages" | "dump" => {
            each_message(bytes, |it| found.item(it.header.message_type, it.payload.offset, it.payload.size))
        }
        "read_each" => each_read(bytes, |it| found.item(it.header.message_type, it.payload.offset, it.payload.size)),
        _ => panic!("no such case: {case}"),
    }
    found
}
