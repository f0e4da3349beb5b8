//! The errors of a socket.

use crate::ack::ExtendedAck;
use crate::fault::Fault;
use crate::system::ENOBUFS;
use crate::walk::Attributes;
use std::fmt;
use std::io;

/// Why a request, an answer or the receipt of events fails.
#[derive(Debug)]
pub enum Error {
    /// The kernel rejects the request, or a dump fails after it began.
    Rejected(Rejection),
    /// What the dump lists changed while it was listed, so its messages may not fit together: request it again. It is
    /// reported after all messages.
    Interrupted,
    /// The kernel dropped messages because the receive buffer was full: events were lost, and a dump has to be
    /// repeated.
    Overrun,
    /// Nothing was received within the time limit.
    TimedOut,
    /// The bytes of a datagram, or those of the request, are no messages.
    Malformed(Fault),
    /// A system call fails.
    Io(io::Error),
}

impl Error {
    /// Returns what an error of `recvmsg` means.
    pub(crate) fn of_receipt(error: io::Error) -> Self {
        match error.raw_os_error() {
            Some(ENOBUFS) => Error::Overrun,
            _ if error.kind() == io::ErrorKind::WouldBlock => Error::TimedOut,
            _ => Error::Io(error),
        }
    }
}

impl fmt::Display for Error {
    fn fmt(&self, f: &mut fmt::Formatter<'_>) -> fmt::Result {
        match self {
            Error::Rejected(rejection) => rejection.fmt(f),
            Error::Interrupted => f.write_str("what the dump lists changed while it was listed"),
            Error::Overrun => f.write_str("messages were lost because the receive buffer was full"),
            Error::TimedOut => f.write_str("nothing was received within the time limit"),
            Error::Malformed(_) => f.write_str("the bytes are no netlink messages"),
            Error::Io(_) => f.write_str("a system call on the socket failed"),
        }
    }
}

impl std::error::Error for Error {
    /// Returns the fault of [`Error::Malformed`] and the error of [`Error::Io`].
    fn source(&self) -> Option<&(dyn std::error::Error + 'static)> {
        match self {
            Error::Malformed(fault) => Some(fault),
            Error::Io(error) => Some(error),
            _ => None,
        }
    }
}

/// Why the kernel rejects a request, and which attribute it is about. A kernel without extended acknowledgements gives
/// the errno only.
#[derive(Clone, Debug, PartialEq, Eq)]
pub struct Rejection {
    /// The error number, which is positive.
    pub errno: i32,
    /// The kernel's text. What is not UTF-8 in it is replaced.
    pub text: Option<String>,
    /// The offset, in the request, of the attribute concerned.
    pub offset: Option<u32>,
    /// The kind of the attribute at this offset, without its flag bits, or `None` if there is no attribute.
    pub kind: Option<u16>,
    /// The kind of the attribute that the request lacks.
    pub missing: Option<u32>,
}

impl Rejection {
    /// Reads an acknowledgement of the request with this code.
    pub(crate) fn new(code: i32, ack: ExtendedAck<'_>, request: &[u8]) -> Self {
        let offset = ack.offset();
        let block = offset.and_then(|it| request.get(it as usize..)).unwrap_or_default();
        let attribute = Attributes::new(block).next().and_then(Result::ok);
        Rejection {
            errno: code.saturating_neg(),
            text: ack.message().map(|it| String::from_utf8_lossy(it).into_owned()),
            offset,
            kind: attribute.map(|it| it.number()),
            missing: ack.missing_type(),
        }
    }
}

impl fmt::Display for Rejection {
    fn fmt(&self, f: &mut fmt::Formatter<'_>) -> fmt::Result {
        write!(f, "the kernel rejected the request: {}", io::Error::from_raw_os_error(self.errno))?;
        if let Some(text) = &self.text {
            write!(f, ": {text}")?;
        }
        match (self.kind, self.offset) {
            (Some(kind), Some(offset)) => write!(f, ", in the attribute of kind {kind} at offset {offset}")?,
            (None, Some(offset)) => write!(f, ", at offset {offset}")?,
            _ => {}
        }
        match self.missing {
            Some(kind) => write!(f, ", without an attribute of kind {kind}"),
            None => Ok(()),
        }
    }
}
