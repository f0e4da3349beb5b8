//! The errors of reading and of writing.

use crate::ffi;
use std::error::Error;
use std::fmt;

pub(crate) const OK: u32 = 0;
pub(crate) const NO_ROOM: u32 = 8;
pub(crate) const TOO_LONG: u32 = 33;
pub(crate) const NO_PLACE: u32 = 34;

/// Why bytes are rejected. Sizes and lengths are in bytes.
#[derive(Clone, Copy, Debug, PartialEq, Eq)]
pub enum Fault {
    /// The value of an attribute does not have the size of the integer.
    InvalidNumber {
        /// The size of the integer.
        expected: usize,
        /// The size of the value.
        received: usize,
    },
    /// Fewer than 4 bytes of a block are left.
    AttributeShort {
        /// How many are left.
        size: usize,
    },
    /// An attribute's length field is more than the number of bytes left.
    AttributeCut {
        /// How many bytes are left.
        size: usize,
        /// The value of the length field.
        length: usize,
    },
    /// An attribute's length field is less than 4.
    AttributeLength {
        /// The value of the length field.
        length: usize,
    },
    /// There are fewer than 16 bytes.
    FrameShort {
        /// How many there are.
        size: usize,
        /// Whether it was found inside a larger call.
        inside: bool,
    },
    /// A frame's length field is more than the number of bytes.
    FrameCut {
        /// How many bytes there are.
        size: usize,
        /// The value of the length field.
        length: usize,
        /// Whether it was found inside a larger call.
        inside: bool,
    },
    /// A frame's length field is less than 16.
    FrameLength {
        /// The value of the length field.
        length: usize,
        /// Whether it was found inside a larger call.
        inside: bool,
    },
    /// The body of a done message has fewer than 4 bytes.
    DoneShort {
        /// How many it has.
        size: usize,
        /// Whether it was found inside a larger call.
        inside: bool,
    },
    /// The body of an error message has fewer than 4 bytes.
    ErrorShort {
        /// How many it has.
        size: usize,
        /// Whether it was found inside a larger call.
        inside: bool,
    },
    /// The payload of a message has fewer bytes than its fixed header.
    PayloadShort {
        /// How many it has.
        size: usize,
        /// The size of the fixed header.
        fixed: usize,
    },
    /// A message type is 0, or 5 to 15.
    Refused,
    /// A message's length does not fit in 32 bits.
    TooLong,
    /// An allocation failed.
    OutOfMemory,
    /// A string is not UTF-8.
    NotUtf8 {
        /// How many bytes at its start are UTF-8.
        valid: usize,
    },
}

impl Fault {
    pub(crate) fn of(numbers: &ffi::Fault) -> Fault {
        let size = numbers.size;
        let length = numbers.wanted;
        let inside = numbers.inside != 0;
        match numbers.cause {
            5 => Fault::AttributeShort { size },
            6 => Fault::AttributeCut { size, length },
            7 => Fault::AttributeLength { length },
            9 => Fault::FrameShort { size, inside },
            10 => Fault::FrameCut { size, length, inside },
            11 => Fault::FrameLength { length, inside },
            12 => Fault::DoneShort { size, inside },
            13 => Fault::ErrorShort { size, inside },
            14 => Fault::Refused,
            15 => Fault::TooLong,
            _ => Fault::OutOfMemory,
        }
    }
}

/// The library's text of the error. Does not allocate.
impl fmt::Display for Fault {
    fn fmt(&self, f: &mut fmt::Formatter<'_>) -> fmt::Result {
        match *self {
            Fault::InvalidNumber { expected, received } => {
                write!(f, "Invalid number. Expected {expected} bytes, received {received} bytes")
            }
            Fault::AttributeShort { size } => write!(f, "buffer has length {size}, but an NLA header is 4 bytes"),
            Fault::AttributeCut { size, length } => {
                write!(f, "buffer has length: {size}, but the NLA is {length} bytes")
            }
            Fault::AttributeLength { length } => {
                write!(f, "NLA has invalid length: {length} (should be at least 4 bytes)")
            }
            Fault::FrameShort { size, inside } => {
                frame_line(f, inside)?;
                write!(f, "length is {size} but netlink packets are at least 16 bytes")
            }
            Fault::FrameCut { size, length, inside } => {
                frame_line(f, inside)?;
                write!(f, "length field says {length} the buffer is {size} bytes long")
            }
            Fault::FrameLength { length, inside } => {
                frame_line(f, inside)?;
                write!(f, "length field says {length} but netlink packets are at least 16 bytes")
            }
            Fault::DoneShort { size, inside } => {
                f.write_str(if inside { "failed to parse NLMSG_DONE caused by " } else { "" })?;
                body_line(f, "DoneBuffer", size)
            }
            Fault::ErrorShort { size, inside } => {
                f.write_str(if inside { "failed parsing NLMSG_ERROR caused by " } else { "" })?;
                body_line(f, "ErrorBuffer", size)
            }
            Fault::PayloadShort { size, fixed } => {
                write!(f, "the payload has {size} bytes, fewer than its header of {fixed}")
            }
            Fault::Refused => f.write_str("the message type is 0, or 5 to 15"),
            Fault::TooLong => f.write_str("message does not fit a 32-bit length"),
            Fault::OutOfMemory => f.write_str("out of memory"),
            Fault::NotUtf8 { valid } => write!(f, "the string is not UTF-8 after {valid} bytes"),
        }
    }
}

/// Writes the beginning of the text of a frame's error.
fn frame_line(f: &mut fmt::Formatter<'_>, inside: bool) -> fmt::Result {
    f.write_str(if inside { "failed deserializing NetlinkMessage caused by " } else { "" })?;
    f.write_str("invalid netlink buffer length caused by invalid netlink buffer: ")
}

/// Writes the end of the text of an error in a body.
fn body_line(f: &mut fmt::Formatter<'_>, name: &str, size: usize) -> fmt::Result {
    write!(f, "invalid {name} length caused by invalid {name}: length is {size} but {name} are at least 4 bytes")
}

impl Error for Fault {}

/// Why nothing was written. Nothing was changed.
#[derive(Clone, Copy, Debug, PartialEq, Eq)]
pub enum Refusal {
    /// The buffer has no room for it.
    NoRoom,
    /// It is longer than a length field can count.
    TooLong,
    /// There is no such location or attribute.
    NoPlace,
}

impl Refusal {
    pub(crate) fn of(answer: u32) -> Result<(), Refusal> {
        match answer {
            OK => Ok(()),
            NO_ROOM => Err(Refusal::NoRoom),
            TOO_LONG => Err(Refusal::TooLong),
            _ => Err(Refusal::NoPlace),
        }
    }
}

impl fmt::Display for Refusal {
    fn fmt(&self, f: &mut fmt::Formatter<'_>) -> fmt::Result {
        f.write_str(match self {
            Refusal::NoRoom => "there is no room in the buffer",
            Refusal::TooLong => "it is longer than a length field can count",
            Refusal::NoPlace => "there is no such location or attribute",
        })
    }
}

impl Error for Refusal {}

#[cfg(test)]
mod tests;
