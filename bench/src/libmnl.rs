//! libmnl, as a C program calls it.

use crate::found::Found;
use std::ffi::{c_int, c_uint, c_void};

extern "C" {
    fn mnl_nlmsg_ok(nlh: *const c_void, len: c_int) -> bool;
    fn mnl_nlmsg_next(nlh: *const c_void, len: *mut c_int) -> *mut c_void;
    fn mnl_nlmsg_get_payload(nlh: *const c_void) -> *mut c_void;
    fn mnl_nlmsg_get_payload_len(nlh: *const c_void) -> usize;
    fn mnl_nlmsg_put_header(buf: *mut c_void) -> *mut c_void;
    fn mnl_attr_ok(attr: *const c_void, len: c_int) -> bool;
    fn mnl_attr_next(attr: *const c_void) -> *mut c_void;
    fn mnl_attr_get_type(attr: *const c_void) -> u16;
    fn mnl_attr_get_payload_len(attr: *const c_void) -> u16;
    fn mnl_attr_get_payload(attr: *const c_void) -> *mut c_void;
    fn mnl_attr_type_valid(attr: *const c_void, max: u16) -> c_int;
    fn mnl_attr_parse(
        nlh: *const c_void,
        offset: c_uint,
        call: extern "C" fn(*const c_void, *mut c_void) -> c_int,
        data: *mut c_void,
    ) -> c_int;
    fn mnl_attr_put_u32_check(nlh: *mut c_void, buflen: usize, kind: u16, data: u32) -> bool;
    fn mnl_attr_put_check(nlh: *mut c_void, buflen: usize, kind: u16, len: usize, data: *const c_void) -> bool;
}

pub fn read(bytes: &[u8]) -> usize {
    let frame = bytes.as_ptr().cast::<c_void>();
    unsafe {
        if !mnl_nlmsg_ok(frame, bytes.len() as c_int) {
            return 0;
        }
        let _payload = mnl_nlmsg_get_payload(frame);
        u16::from_ne_bytes([bytes[4], bytes[5]]) as usize + mnl_nlmsg_get_payload_len(frame)
    }
}

/// Calls `see` for each attribute of a block.
fn attributes(bytes: &[u8], mut see: impl FnMut(*const c_void)) {
    let mut attr = bytes.as_ptr().cast::<c_void>();
    let end = bytes.as_ptr_range().end as isize;
    unsafe {
        while mnl_attr_ok(attr, (end - attr as isize) as c_int) {
            see(attr);
            attr = mnl_attr_next(attr);
        }
    }
}

pub fn walk(bytes: &[u8]) -> usize {
    let mut sum = 0;
    attributes(bytes, |attr| unsafe {
        sum += mnl_attr_get_type(attr) as usize + mnl_attr_get_payload_len(attr) as usize;
    });
    sum
}

pub fn put(count: usize, out: &mut [u8]) -> usize {
    unsafe {
        let frame = mnl_nlmsg_put_header(out.as_mut_ptr().cast());
        for i in 0..count {
            mnl_attr_put_u32_check(frame, out.len(), i as u16 & 0x3fff, i as u32);
        }
        mnl_nlmsg_get_payload_len(frame)
    }
}

pub fn normalize(bytes: &[u8], out: &mut [u8]) -> usize {
    unsafe {
        let frame = mnl_nlmsg_put_header(out.as_mut_ptr().cast());
        attributes(bytes, |attr| {
            let size = mnl_attr_get_payload_len(attr) as usize;
            mnl_attr_put_check(frame, out.len(), mnl_attr_get_type(attr), size, mnl_attr_get_payload(attr));
        });
        mnl_nlmsg_get_payload_len(frame)
    }
}

pub fn refuse(bytes: &[u8]) -> usize {
    !unsafe { mnl_nlmsg_ok(bytes.as_ptr().cast(), bytes.len() as c_int) } as usize
}

/// Calls `see` for each frame of a datagram.
fn frames(bytes: &[u8], mut see: impl FnMut(*const c_void)) {
    let mut frame = bytes.as_ptr().cast::<c_void>();
    let mut left = bytes.len() as c_int;
    unsafe {
        while mnl_nlmsg_ok(frame, left) {
            see(frame);
            frame = mnl_nlmsg_next(frame, &mut left);
        }
    }
}

pub fn split(bytes: &[u8]) -> usize {
    let mut sum = 0;
    frames(bytes, |frame| unsafe { sum += mnl_nlmsg_get_payload_len(frame) + 16 });
    sum
}

struct Table {
    attributes: *mut *const c_void,
    most: u16,
}

/// Puts an attribute into a table by kind, as the callbacks of libmnl's examples do.
extern "C" fn enter(attr: *const c_void, table: *mut c_void) -> c_int {
    unsafe {
        let table = &*table.cast::<Table>();
        if mnl_attr_type_valid(attr, table.most) > 0 {
            *table.attributes.add(mnl_attr_get_type(attr) as usize) = attr;
        }
    }
    1
}

/// Returns a table of `count` entries, which is filled.
fn filled<'a>(frame: &[u8], count: usize, out: &'a mut [u8]) -> &'a [*const c_void] {
    unsafe {
        let attributes = &mut out.align_to_mut::<*const c_void>().1[..count];
        attributes.fill(std::ptr::null());
        let mut table = Table { attributes: attributes.as_mut_ptr(), most: (count - 1) as u16 };
        mnl_attr_parse(frame.as_ptr().cast(), 0, enter, (&raw mut table).cast());
        attributes
    }
}

/// Fills a table of `count` entries, and returns the size of the value of the last.
pub fn table(frame: &[u8], count: usize, out: &mut [u8]) -> usize {
    unsafe { mnl_attr_get_payload_len(filled(frame, count, out)[count - 1]) as usize }
}

/// Returns the type and the size of a message, and locates its payload.
unsafe fn message(frame: *const c_void) -> (u16, usize, *mut c_void) {
    let payload = mnl_nlmsg_get_payload(frame);
    let header = frame.cast::<u8>();
    let length = header.cast::<u32>().read_unaligned() as usize;
    let kind = header.add(4).cast::<u16>().read_unaligned();
    (kind, length - (payload as usize - frame as usize), payload)
}

pub fn messages(bytes: &[u8]) -> usize {
    let mut sum = 0;
    frames(bytes, |frame| {
        let (kind, size, _payload) = unsafe { message(frame) };
        sum += kind as usize + size;
    });
    sum
}

/// Returns what one call of a case that writes no bytes found.
pub fn found(case: &str, size: usize, bytes: &[u8], out: &mut [u8]) -> Found {
    let mut found = Found::default();
    let at = |place: *const c_void| place as usize - bytes.as_ptr() as usize;
    let frame = |frame, found: &mut Found| found.item(0, at(frame), unsafe { mnl_nlmsg_get_payload_len(frame) } + 16);
    let attribute = |attr, found: &mut Found| unsafe {
        found.item(mnl_attr_get_type(attr), at(mnl_attr_get_payload(attr)), mnl_attr_get_payload_len(attr) as usize)
    };
    match case {
        "view" => unsafe {
            let frame = bytes.as_ptr().cast::<c_void>();
            let kind = u16::from_ne_bytes([bytes[4], bytes[5]]);
            found.item(kind, at(mnl_nlmsg_get_payload(frame)), mnl_nlmsg_get_payload_len(frame));
        },
        "refuse" => {
            found.rejected(refuse(bytes) != 0);
            frames(bytes, |it| frame(it, &mut found));
        }
        "walk" | "walk_each" => attributes(bytes, |it| attribute(it, &mut found)),
        "split" => frames(bytes, |it| frame(it, &mut found)),
        "table" => filled(bytes, size, out).iter().for_each(|&it| match it.is_null() {
            true => found.item(0, 16, 0),
            false => attribute(it, &mut found),
        }),
        "messages" | "read_each" | "dump" => frames(bytes, |frame| {
            let (kind, size, payload) = unsafe { message(frame) };
            found.item(kind, at(payload), size);
        }),
        _ => panic!("no such case: {case}"),
    }
    found
}
