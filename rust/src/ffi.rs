//! The functions that c/include/netlink_packet.h and netlink_packet_route.h declare.

#[repr(C)]
#[derive(Clone, Copy, Default)]
pub struct Fault {
    pub cause: u32,
    pub inside: u32,
    pub size: usize,
    pub wanted: usize,
}

#[repr(C)]
#[derive(Clone, Copy, Debug, Default)]
pub struct Part {
    pub offset: usize,
    pub size: usize,
}

#[repr(C)]
#[derive(Clone, Copy, Default)]
pub struct Header {
    pub length: u32,
    pub message_type: u16,
    pub flags: u16,
    pub sequence_number: u32,
    pub port_number: u32,
}

#[repr(C)]
#[derive(Clone, Copy, Default)]
pub struct Attr {
    pub kind: u16,
    pub offset: usize,
    pub size: usize,
}

#[repr(C)]
#[derive(Clone, Copy, Default)]
pub struct Message {
    pub header: Header,
    pub payload: Part,
}

#[repr(C)]
#[derive(Clone, Copy, Default)]
pub struct ErrorBody {
    pub code: i32,
    pub request: Part,
    pub attributes: Part,
}

/// `request` is struct nlp_request, which only the library reads.
#[repr(C)]
#[derive(Clone, Copy, Debug, Default, PartialEq, Eq)]
pub struct Replies {
    pub request: [u32; 4],
    pub ended: u32,
    pub interrupted: u32,
}

#[repr(C)]
#[derive(Clone, Copy, Default)]
pub struct Reply {
    pub what: u32,
    pub code: i32,
    pub frame: Part,
    pub request: Part,
    pub attributes: Part,
}

#[repr(C)]
#[derive(Clone, Copy, Debug, Default)]
pub struct View {
    pub message_type: u16,
    pub policy: u16,
    pub missing: usize,
    pub header: Part,
    pub attributes: Part,
}

#[repr(C)]
#[derive(Clone, Copy, Default)]
pub struct RouteError {
    pub reason: u32,
    pub kind: u16,
    pub policy: u16,
    pub offset: usize,
    pub expected: usize,
    pub received: usize,
}

#[repr(C)]
#[derive(Clone, Copy, Debug, Default)]
pub struct Shape {
    pub shape: u16,
    pub size: u16,
    pub policy: u16,
}

/// Its fields are only for the library. All zeros begin a walk.
#[repr(C)]
#[derive(Clone, Copy, Debug, Default)]
pub struct ViewWalk([usize; 4]);

#[repr(C)]
#[derive(Clone, Copy, Default)]
pub struct Item {
    pub kind: u16,
    pub shape: Shape,
    pub value: Part,
    pub nest: View,
}

type In = *const u8;
type Out = *mut u8;

extern "C" {
    pub fn nlp_frame_header(bytes: In, len: usize, header: *mut Header, fault: *mut Fault) -> u32;
    pub fn nlp_frame_payload(bytes: In, len: usize, payload: *mut Part, fault: *mut Fault) -> u32;
    pub fn nlp_error_body(bytes: In, len: usize, flags: u16, body: *mut ErrorBody, fault: *mut Fault) -> u32;
    pub fn nlp_done_body(bytes: In, len: usize, code: *mut i32, rest: *mut Part, fault: *mut Fault) -> u32;
    pub fn nlp_frames_next(bytes: In, len: usize, cursor: *mut usize, item: *mut Part, fault: *mut Fault) -> u32;
    pub fn nlp_message_read(bytes: In, len: usize, cursor: *mut usize, item: *mut Message, fault: *mut Fault) -> u32;
    pub fn nlp_message_attrs(message: *const Message, fixed_len: usize, attributes: *mut Part) -> u32;
    pub fn nlp_attrs_next(bytes: In, len: usize, cursor: *mut usize, item: *mut Attr, fault: *mut Fault) -> u32;
    pub fn nlp_attrs_find(block: In, len: usize, kind: u16, item: *mut Attr, fault: *mut Fault) -> u32;
    pub fn nlp_attrs_table(block: In, len: usize, table: *mut Attr, count: usize, fault: *mut Fault) -> u32;
    pub fn nlp_replies_begin(header: *const Header, is_dump: u32, replies: *mut Replies);
    pub fn nlp_replies_next(
        bytes: In,
        len: usize,
        cursor: *mut usize,
        replies: *mut Replies,
        reply: *mut Reply,
        fault: *mut Fault,
    ) -> u32;
    pub fn nlp_ext_ack_text(attributes: In, len: usize, text: *mut Part) -> u32;
    pub fn nlp_ext_ack_offset(attributes: In, len: usize, offset: *mut u32) -> u32;
    pub fn nlp_ext_ack_cookie(attributes: In, len: usize, cookie: *mut Part) -> u32;
    pub fn nlp_ext_ack_policy(attributes: In, len: usize, policy: *mut Part) -> u32;
    pub fn nlp_ext_ack_missing_type(attributes: In, len: usize, kind: *mut u32) -> u32;
    pub fn nlp_ext_ack_missing_nest(attributes: In, len: usize, offset: *mut u32) -> u32;
    pub fn nlp_ext_ack_path(
        attributes: In,
        len: usize,
        request: In,
        request_len: usize,
        fixed_len: usize,
        kinds: *mut u16,
        capacity: usize,
        count: *mut usize,
    ) -> u32;
    pub fn nlp_frame_put(
        buffer: Out,
        capacity: usize,
        cursor: *mut usize,
        header: *const Header,
        fixed: In,
        fixed_len: usize,
    ) -> u32;
    pub fn nlp_frame_end(buffer: Out, capacity: usize, cursor: usize, start: usize) -> u32;
    pub fn nlp_attr_put(buffer: Out, capacity: usize, cursor: *mut usize, kind: u16, value: In, len: usize) -> u32;
    pub fn nlp_attr_put_u8(buffer: Out, capacity: usize, cursor: *mut usize, kind: u16, value: u8) -> u32;
    pub fn nlp_attr_put_u16(buffer: Out, capacity: usize, cursor: *mut usize, kind: u16, value: u16) -> u32;
    pub fn nlp_attr_put_u32(buffer: Out, capacity: usize, cursor: *mut usize, kind: u16, value: u32) -> u32;
    pub fn nlp_attr_put_u64(buffer: Out, capacity: usize, cursor: *mut usize, kind: u16, value: u64) -> u32;
    pub fn nlp_attr_put_str(buffer: Out, capacity: usize, cursor: *mut usize, kind: u16, text: In, len: usize) -> u32;
    pub fn nlp_nest_begin(buffer: Out, capacity: usize, cursor: *mut usize, kind: u16) -> u32;
    pub fn nlp_nest_end(buffer: Out, capacity: usize, cursor: usize, start: usize) -> u32;
    pub fn nlp_attr_write(block: Out, block_len: usize, index: usize, value: In, len: usize) -> u32;
    pub fn nlp_attrs_is_canonical(bytes: In, len: usize) -> bool;
    pub fn nlp_attrs_normalize(
        bytes: In,
        len: usize,
        buffer: Out,
        capacity: usize,
        size: *mut usize,
        fault: *mut Fault,
    ) -> u32;
    pub fn nlp_frame_is_canonical(bytes: In, len: usize, canonical: *mut u32, fault: *mut Fault) -> u32;
    pub fn nlp_frame_normalize(
        bytes: In,
        len: usize,
        buffer: Out,
        capacity: usize,
        size: *mut usize,
        fault: *mut Fault,
    ) -> u32;
    #[cfg(test)]
    pub fn nlp_fault_text(fault: *const Fault, buffer: Out, capacity: usize, size: *mut usize) -> u32;
    pub fn nlp_route_view(message_type: u16, payload: In, len: usize, view: *mut View, error: *mut RouteError) -> u32;
    pub fn nlp_generic_view(payload: In, len: usize, view: *mut View, error: *mut RouteError) -> u32;
    pub fn nlp_route_error_text(error: *const RouteError, buffer: Out, capacity: usize, size: *mut usize) -> u32;
    pub fn nlp_view_u8(payload: In, len: usize, view: *const View, kind: u16, number: *mut u8) -> u32;
    pub fn nlp_view_u16(payload: In, len: usize, view: *const View, kind: u16, number: *mut u16) -> u32;
    pub fn nlp_view_u32(payload: In, len: usize, view: *const View, kind: u16, number: *mut u32) -> u32;
    pub fn nlp_view_u64(payload: In, len: usize, view: *const View, kind: u16, number: *mut u64) -> u32;
    pub fn nlp_view_i32(payload: In, len: usize, view: *const View, kind: u16, number: *mut i32) -> u32;
    pub fn nlp_view_i64(payload: In, len: usize, view: *const View, kind: u16, number: *mut i64) -> u32;
    pub fn nlp_view_be16(payload: In, len: usize, view: *const View, kind: u16, number: *mut u16) -> u32;
    pub fn nlp_view_be32(payload: In, len: usize, view: *const View, kind: u16, number: *mut u32) -> u32;
    pub fn nlp_view_be64(payload: In, len: usize, view: *const View, kind: u16, number: *mut u64) -> u32;
    pub fn nlp_view_str(payload: In, len: usize, view: *const View, kind: u16, value: *mut Part) -> u32;
    pub fn nlp_view_ip(payload: In, len: usize, view: *const View, kind: u16, value: *mut Part) -> u32;
    pub fn nlp_view_mac(payload: In, len: usize, view: *const View, kind: u16, address: *mut [u8; 6]) -> u32;
    pub fn nlp_view_exact(payload: In, len: usize, view: *const View, kind: u16, value: *mut Part) -> u32;
    pub fn nlp_view_bytes(payload: In, len: usize, view: *const View, kind: u16, value: *mut Part) -> u32;
    pub fn nlp_view_first(payload: In, len: usize, view: *const View, kind: u16, value: *mut Part) -> u32;
    pub fn nlp_view_nest(payload: In, len: usize, view: *const View, kind: u16, inner: *mut View) -> u32;
    pub fn nlp_view_next(payload: In, len: usize, view: *const View, walk: *mut ViewWalk, item: *mut Item) -> u32;
    pub fn nlp_view_header_u8(payload: In, len: usize, view: *const View, field: u32, number: *mut u8) -> u32;
    pub fn nlp_view_header_u16(payload: In, len: usize, view: *const View, field: u32, number: *mut u16) -> u32;
    pub fn nlp_view_header_u32(payload: In, len: usize, view: *const View, field: u32, number: *mut u32) -> u32;
    pub fn nlp_view_header_i32(payload: In, len: usize, view: *const View, field: u32, number: *mut i32) -> u32;
}
