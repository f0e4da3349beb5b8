//! Why a table rejects a payload.

use crate::fault::OK;
use crate::ffi;
use std::fmt;

/// The size of the longest text: three numbers of 20 digits, two of 5, and the words.
const TEXT_MAX: usize = 200;

/// The error of a payload. It displays as the text of the library.
#[derive(Clone, Copy, Debug, PartialEq, Eq)]
pub struct Error {
    /// The number of the reason: NLP_UNKNOWN_TYPE and so on of `netlink_packet_route.h`.
    pub reason: u32,
    /// The attribute, or the message type that no table has; 0 if the error has none.
    pub kind: u16,
    /// The policy of the attribute: 0, or that of the innermost nest.
    pub policy: u16,
    /// The offset of the attribute from the start of the payload.
    pub offset: usize,
    /// A size in bytes, or 0.
    pub expected: usize,
    /// The actual size in bytes, or 0.
    pub received: usize,
}

impl Error {
    pub(super) fn of(error: ffi::RouteError) -> Self {
        let ffi::RouteError { reason, kind, policy, offset, expected, received } = error;
        Error { reason, kind, policy, offset, expected, received }
    }
}

impl fmt::Display for Error {
    fn fmt(&self, f: &mut fmt::Formatter<'_>) -> fmt::Result {
        let Error { reason, kind, policy, offset, expected, received } = *self;
        let error = ffi::RouteError { reason, kind, policy, offset, expected, received };
        let mut text = [0; TEXT_MAX];
        let mut size = 0;
        // SAFETY: the struct is live, and so are the array and the size.
        let answer = unsafe { ffi::nlp_route_error_text(&error, text.as_mut_ptr(), TEXT_MAX, &mut size) };
        match answer {
            OK => f.write_str(&String::from_utf8_lossy(&text[..size])),
            _ => write!(f, "reason {reason}"),
        }
    }
}

impl std::error::Error for Error {}
