//! A netlink socket: requests and their answers, and events.

mod error;
mod exchange;

use crate::system;
use crate::walk::Message;
use crate::write::Writer;
pub use error::{Error, Rejection};
use exchange::Exchange;
pub(crate) use exchange::Wire;
use std::io;
use std::os::fd::{AsFd, BorrowedFd, OwnedFd};
use std::time::Duration;

/// The sub-protocol of a socket.
#[derive(Clone, Copy, Debug, PartialEq, Eq)]
pub enum Protocol {
    /// Route netlink, 0.
    Route,
    /// Generic netlink, 16.
    Generic,
    /// The one with this number (`NETLINK_NETFILTER` and so on).
    Other(i32),
}

impl Protocol {
    fn number(self) -> i32 {
        match self {
            Protocol::Route => 0,
            Protocol::Generic => 16,
            Protocol::Other(number) => number,
        }
    }
}

/// Which options the kernel has. [`Socket::open`] switches them on.
#[derive(Clone, Copy, Debug, PartialEq, Eq)]
pub struct Options {
    /// Extended acknowledgements: text, offset and kind of a [`Rejection`].
    pub extended_acks: bool,
    /// Acknowledgements that do not repeat the whole request.
    pub capped_acks: bool,
    /// Strict checks: the kernel applies the filters of a dump, and rejects what it does not know.
    pub strict_checks: bool,
}

/// A netlink socket, which sends to the kernel and receives from it. What other processes send to it is ignored.
///
/// ```no_run
/// use netlink_packet::{Header, Protocol, Socket, Writer};
///
/// const RTM_GETLINK: u16 = 18;
/// const NLM_F_DUMP: u16 = 0x300;
///
/// let mut buffer = [0; 64];
/// let mut writer = Writer::new(&mut buffer);
/// let header = Header { message_type: RTM_GETLINK, flags: NLM_F_DUMP, ..Header::default() };
/// writer.begin_frame(&header, &[0; 16])?.end()?;
/// let mut socket = Socket::open(Protocol::Route)?;
/// let mut answer = socket.request(&writer)?;
/// while let Some(message) = answer.next() {
///     println!("{:?}", message?.header);
/// }
/// # Ok::<(), Box<dyn std::error::Error>>(())
/// ```
///
/// Use one socket for requests and another for events: what arrives during an answer and is no part of it is dropped.
#[derive(Debug)]
pub struct Socket {
    exchange: Exchange<OwnedFd>,
    options: Options,
}

impl Socket {
    /// Returns a socket with a port that the kernel chooses, the options that the kernel has, and no time limit. It is
    /// closed when the process executes another program. Returns [`Error::Io`] if a system call fails.
    pub fn open(protocol: Protocol) -> Result<Socket, Error> {
        let fd = system::open(protocol.number()).map_err(Error::Io)?;
        let options = Options {
            extended_acks: switch_on(&fd, system::NETLINK_EXT_ACK)?,
            capped_acks: switch_on(&fd, system::NETLINK_CAP_ACK)?,
            strict_checks: switch_on(&fd, system::NETLINK_GET_STRICT_CHK)?,
        };
        let port = system::bind(&fd).map_err(Error::Io)?;
        Ok(Socket { exchange: Exchange::new(fd, port).map_err(Error::Io)?, options })
    }

    /// Returns the number of the port.
    pub fn port(&self) -> u32 {
        self.exchange.port
    }

    /// Returns which options the kernel has.
    pub fn options(&self) -> Options {
        self.options
    }

    /// Joins the multicast group with this number (`RTNLGRP_LINK` and so on). Returns [`Error::Io`] if there is no such
    /// group, or if the process may not join it.
    pub fn join(&self, group: u32) -> Result<(), Error> {
        system::set_option(&self.exchange.wire, system::NETLINK_ADD_MEMBERSHIP, group).map_err(Error::Io)
    }

    /// Leaves the multicast group with this number. Returns [`Error::Io`] if there is no such group.
    pub fn leave(&self, group: u32) -> Result<(), Error> {
        system::set_option(&self.exchange.wire, system::NETLINK_DROP_MEMBERSHIP, group).map_err(Error::Io)
    }

    /// Sets the size of the kernel's receive buffer in bytes. If it is full, events are lost. The kernel takes at most
    /// the size in `/proc/sys/net/core/rmem_max`. With less than 65536, a dump may fail with [`Error::Overrun`].
    /// Returns [`Error::Io`] if the system call fails.
    pub fn set_receive_buffer(&self, size: usize) -> Result<(), Error> {
        system::set_receive_buffer(&self.exchange.wire, size).map_err(Error::Io)
    }

    /// Sets how long [`Answer::next`] and [`Events::next`] wait; `None` is for no limit. Datagrams that they ignore may
    /// prolong this to twice the limit. Returns [`Error::Io`] if the limit is zero, or if the system call fails.
    pub fn set_time_limit(&mut self, limit: Option<Duration>) -> Result<(), Error> {
        if limit == Some(Duration::ZERO) {
            return Err(Error::Io(io::ErrorKind::InvalidInput.into()));
        }
        system::set_time_limit(&self.exchange.wire, limit).map_err(Error::Io)?;
        self.exchange.limit = limit;
        Ok(())
    }

    /// Sends the first frame that was written, and returns the answer, which sends each of the others once the answer
    /// to the one before is complete. Sets in each frame, in a copy: `NLM_F_REQUEST`, the sequence number, the port,
    /// and `NLM_F_ACK` unless the frame requests a dump.
    ///
    /// A frame requests a dump if it has both flags of `NLM_F_DUMP`. `NLM_F_REPLACE | NLM_F_EXCL` are the same two, so
    /// they are a dump here; since they contradict each other, no other request needs both.
    ///
    /// Returns [`Error::Malformed`] if attributes were written outside of a frame, and [`Error::Io`] if the request
    /// cannot be sent. First reads the rest of an answer that was dropped early.
    pub fn request(&mut self, writer: &Writer<'_>) -> Result<Answer<'_>, Error> {
        self.exchange.request(writer.written())?;
        Ok(Answer { exchange: &mut self.exchange, is_over: false })
    }

    /// Returns what receives the messages of the groups that were joined. First reads the rest of an answer that was
    /// dropped early.
    pub fn events(&mut self) -> Events<'_> {
        self.exchange.drain();
        Events { exchange: &mut self.exchange }
    }
}

/// The file descriptor, to wait for a datagram by `poll`. A datagram may hold several messages, which one call of
/// `next` receives together: after the first, there may be more although the descriptor is not readable.
impl AsFd for Socket {
    fn as_fd(&self) -> BorrowedFd<'_> {
        self.exchange.wire.as_fd()
    }
}

/// Switches an option on. Returns whether the kernel has it.
fn switch_on(fd: &OwnedFd, name: i32) -> Result<bool, Error> {
    match system::set_option(fd, name, 1) {
        Ok(()) => Ok(true),
        Err(error) if error.raw_os_error() == Some(system::ENOPROTOOPT) => Ok(false),
        Err(error) => Err(Error::Io(error)),
    }
}

/// The answer to the requests that were written. It is no `Iterator`, because each message borrows the socket's
/// buffer.
///
/// It may be dropped early. Then the frames that were not sent yet are not sent, and the next call of
/// [`request`](Socket::request) or [`events`](Socket::events) reads the rest, because the kernel rejects a dump
/// (`EBUSY`) while another is unfinished. That does not wait, and takes at most the time limit. The same happens after
/// an error.
#[derive(Debug)]
#[must_use = "an error is found, and the second request is sent, only if the answer is read"]
pub struct Answer<'s> {
    exchange: &'s mut Exchange<OwnedFd>,
    is_over: bool,
}

impl Answer<'_> {
    /// Returns the next message, or `None` if the answers to all requests are complete. After an error, which ends the
    /// answer, returns `None` too. The errors:
    ///
    /// - [`Error::Rejected`] if the kernel rejects a request, or if a dump fails later.
    /// - [`Error::Interrupted`] at the end of a dump during which something changed.
    /// - [`Error::Overrun`] if the kernel dropped messages.
    /// - [`Error::TimedOut`] if nothing of the answer arrives within the time limit.
    /// - [`Error::Malformed`] if a datagram is malformed.
    /// - [`Error::Io`] if a system call fails, or if there is no memory for a long datagram.
    #[allow(clippy::should_implement_trait)]
    pub fn next(&mut self) -> Option<Result<Message<'_>, Error>> {
        if self.is_over {
            return None;
        }
        let read = self.exchange.next_reply();
        self.is_over = !matches!(read, Ok(Some(_)));
        read.transpose()
    }
}

/// The messages of multicast groups, in the order in which they arrive. It is no `Iterator`, because each message
/// borrows the socket's buffer. If it is dropped, the next one goes on where it ended.
#[derive(Debug)]
pub struct Events<'s> {
    exchange: &'s mut Exchange<OwnedFd>,
}

impl Events<'_> {
    /// Waits for the next message and returns it. Never returns `None`. After an error, the next call goes on:
    ///
    /// - [`Error::Overrun`] if the kernel dropped messages: what the program knows has to be requested again.
    /// - [`Error::TimedOut`] if nothing arrives within the time limit.
    /// - [`Error::Malformed`] if a datagram is malformed; what follows in it is ignored.
    /// - [`Error::Io`] if a system call fails, or if there is no memory for a long datagram.
    #[allow(clippy::should_implement_trait)]
    pub fn next(&mut self) -> Option<Result<Message<'_>, Error>> {
        Some(self.exchange.next_event())
    }
}

#[cfg(test)]
mod tests;
