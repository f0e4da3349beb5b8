//! A frame in place.

use crate::fault::{Fault, OK};
use crate::ffi;

/// The five fields of a header.
#[derive(Clone, Copy, Debug, Default, PartialEq, Eq)]
pub struct Header {
    /// The size of the message in bytes, including this header. Writing ignores it.
    pub length: u32,
    /// The message type.
    pub message_type: u16,
    /// The flags (`NLM_F_REQUEST` and so on).
    pub flags: u16,
    /// The sequence number.
    pub sequence_number: u32,
    /// The port number.
    pub port_number: u32,
}

impl Header {
    pub(crate) fn of(fields: &ffi::Header) -> Self {
        Header {
            length: fields.length,
            message_type: fields.message_type,
            flags: fields.flags,
            sequence_number: fields.sequence_number,
            port_number: fields.port_number,
        }
    }

    pub(crate) fn fields(&self) -> ffi::Header {
        ffi::Header {
            length: self.length,
            message_type: self.message_type,
            flags: self.flags,
            sequence_number: self.sequence_number,
            port_number: self.port_number,
        }
    }
}

/// The body of an error message.
#[derive(Clone, Copy, Debug, PartialEq, Eq)]
pub struct ErrorBody<'a> {
    /// 0 for an acknowledgement, else a negative errno.
    pub code: i32,
    /// The header of the request, and what is present of its payload.
    pub request: &'a [u8],
    /// The attributes of the extended acknowledgement.
    pub attributes: &'a [u8],
}

/// The body of a done message.
#[derive(Clone, Copy, Debug, PartialEq, Eq)]
pub struct DoneBody<'a> {
    /// 0, or a negative errno.
    pub code: i32,
    /// The bytes after the code.
    pub rest: &'a [u8],
}

pub(crate) fn part(bytes: &[u8], part: ffi::Part) -> &[u8] {
    &bytes[part.offset..part.offset + part.size]
}

/// Returns the header that the bytes begin with. Its length may have any value. Returns [`Fault::FrameShort`] if there
/// are fewer than 16 bytes.
pub fn header(bytes: &[u8]) -> Result<Header, Fault> {
    let mut fields = ffi::Header::default();
    let mut fault = ffi::Fault::default();
    // SAFETY: the slice is live, and so are both structs.
    let answer = unsafe { ffi::nlp_frame_header(bytes.as_ptr(), bytes.len(), &mut fields, &mut fault) };
    if answer != OK {
        return Err(Fault::of(&fault));
    }
    Ok(Header::of(&fields))
}

/// Returns the payload of the complete frame that the bytes begin with. Returns [`Fault::FrameShort`],
/// [`Fault::FrameCut`] or [`Fault::FrameLength`] if there is no such frame.
pub fn payload(bytes: &[u8]) -> Result<&[u8], Fault> {
    let mut place = ffi::Part::default();
    let mut fault = ffi::Fault::default();
    // SAFETY: the slice is live, and so are both structs.
    let answer = unsafe { ffi::nlp_frame_payload(bytes.as_ptr(), bytes.len(), &mut place, &mut fault) };
    if answer != OK {
        return Err(Fault::of(&fault));
    }
    Ok(part(bytes, place))
}

/// Returns the body of an error message whose header has these flags. Returns [`Fault::ErrorShort`] if there are fewer
/// than 4 bytes.
pub fn error_body(payload: &[u8], flags: u16) -> Result<ErrorBody<'_>, Fault> {
    let mut body = ffi::ErrorBody::default();
    let mut fault = ffi::Fault::default();
    // SAFETY: the slice is live, and so are both structs.
    let answer = unsafe { ffi::nlp_error_body(payload.as_ptr(), payload.len(), flags, &mut body, &mut fault) };
    if answer != OK {
        return Err(Fault::of(&fault));
    }
    Ok(ErrorBody { code: body.code, request: part(payload, body.request), attributes: part(payload, body.attributes) })
}

/// Returns the body of a done message; an empty one has the code 0. Returns [`Fault::DoneShort`] if there are 1 to 3
/// bytes.
pub fn done_body(payload: &[u8]) -> Result<DoneBody<'_>, Fault> {
    let mut code = 0;
    let mut rest = ffi::Part::default();
    let mut fault = ffi::Fault::default();
    // SAFETY: the slice is live, and so are the three values.
    let answer = unsafe { ffi::nlp_done_body(payload.as_ptr(), payload.len(), &mut code, &mut rest, &mut fault) };
    if answer != OK {
        return Err(Fault::of(&fault));
    }
    Ok(DoneBody { code, rest: part(payload, rest) })
}
