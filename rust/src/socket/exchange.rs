//! Requests and their answers, and events, over anything that sends and receives datagrams.

use super::error::{Error, Rejection};
use crate::ffi;
use crate::frame::{header, Header};
use crate::replies::{Replies, Reply};
use crate::system::{MSG_DONTWAIT, MSG_PEEK, MSG_TRUNC};
use crate::walk::{next_message, Frames, Message};
use std::fmt;
use std::io;
use std::ops::Range;
use std::time::{Duration, Instant};

const NLM_F_REQUEST: u16 = 1;
const NLM_F_ACK: u16 = 4;
const NLM_F_DUMP: u16 = 0x300;
const KERNEL: u32 = 0;

/// The size of the buffer at first. The kernel fills datagrams up to this size, if there is room for them.
pub(super) const BUFFER: usize = 32768;

/// The system calls that send and receive. Tests replace them.
pub(crate) trait Wire {
    /// Sends a datagram to the kernel.
    fn send(&mut self, bytes: &[u8]) -> io::Result<()>;

    /// Calls `recvmsg` with these flags. Returns the size of the datagram, and the port of its sender.
    fn receive(&mut self, buffer: &mut [u8], flags: i32) -> io::Result<(usize, u32)>;
}

/// The state of a socket.
pub(super) struct Exchange<W> {
    pub wire: W,
    pub port: u32,
    /// The most time that passes until something is returned, or `None` for any time.
    pub limit: Option<Duration>,
    pub sequence_number: u32,
    /// It begins with the last datagram, which has `size` bytes. What is before the cursor was read.
    pub buffer: Vec<u8>,
    size: usize,
    cursor: usize,
    /// The requests without padding between them, and the place of the one that was sent last.
    requests: Vec<u8>,
    sent: Range<usize>,
    /// The state of the answer to that request. `None` if no answer is expected.
    replies: Option<Replies>,
}

impl<W: fmt::Debug> fmt::Debug for Exchange<W> {
    fn fmt(&self, f: &mut fmt::Formatter<'_>) -> fmt::Result {
        f.debug_struct("Exchange").field("wire", &self.wire).field("port", &self.port).finish_non_exhaustive()
    }
}

impl<W: Wire> Exchange<W> {
    pub fn new(wire: W, port: u32) -> io::Result<Self> {
        let mut buffer = Vec::new();
        grow(&mut buffer, BUFFER)?;
        Ok(Exchange {
            wire,
            port,
            limit: None,
            sequence_number: 0,
            buffer,
            size: 0,
            cursor: 0,
            requests: Vec::new(),
            sent: 0..0,
            replies: None,
        })
    }

    /// Sends the first of the requests, after the rest of the answer to earlier ones was read.
    pub fn request(&mut self, frames: &[u8]) -> Result<(), Error> {
        self.drain();
        let frames: Result<Vec<_>, _> = Frames::new(frames).collect();
        self.requests = frames.map_err(Error::Malformed)?.concat();
        self.sent = 0..0;
        self.send_next()?;
        Ok(())
    }

    /// Returns the next message of the answers. Returns `None` if all are complete.
    pub fn next_reply(&mut self) -> Result<Option<Message<'_>>, Error> {
        let mut since = None;
        let found = loop {
            if let Some(found) = self.read_reply()? {
                break found;
            }
            if self.is_open() {
                self.receive(0, &mut since)?;
            } else if self.is_torn() {
                return Err(Error::Interrupted);
            } else if self.send_next()? {
                since = None;
            } else {
                return Ok(None);
            }
        };
        Ok(Some(Message::of(&self.buffer, &found)))
    }

    /// Returns the next message, whatever it is.
    pub fn next_event(&mut self) -> Result<Message<'_>, Error> {
        let mut since = None;
        let found = loop {
            match next_message(&self.buffer[..self.size], &mut self.cursor) {
                Some(read) => break read.map_err(Error::Malformed)?,
                None => self.receive(0, &mut since)?,
            }
        };
        Ok(Message::of(&self.buffer, &found))
    }

    /// Reads the rest of an answer that was dropped early or that failed, because the kernel begins no other dump
    /// before its end. Does not wait: whenever a datagram of a dump is received, the kernel puts the next one into the
    /// queue. So an empty queue ends it, and so do the time limit and any error but an overrun.
    pub fn drain(&mut self) {
        let mut since = None;
        while self.is_open() {
            let has_read_all = matches!(self.read_reply(), Ok(None));
            if has_read_all && self.is_open() {
                match self.receive(MSG_DONTWAIT, &mut since) {
                    Ok(()) | Err(Error::Overrun) => {}
                    Err(_) => break,
                }
            }
        }
        self.replies = None;
    }

    fn is_open(&self) -> bool {
        self.replies.as_ref().is_some_and(|it| !it.has_ended())
    }

    fn is_torn(&self) -> bool {
        self.replies.as_ref().is_some_and(|it| it.is_interrupted())
    }

    /// Reads the datagram up to the next message of the answer.
    fn read_reply(&mut self) -> Result<Option<ffi::Message>, Error> {
        let Some(replies) = &mut self.replies else {
            return Ok(None);
        };
        let request = &self.requests[self.sent.clone()];
        while let Some(read) = replies.step(&self.buffer[..self.size], &mut self.cursor) {
            let (found, reply) = read.map_err(Error::Malformed)?;
            match reply {
                Reply::Message(_) => return Ok(Some(found)),
                Reply::Rejected { code, ack, .. } | Reply::Done { code, ack } if code != 0 => {
                    return Err(Error::Rejected(Rejection::new(code, ack, request)));
                }
                Reply::Overrun => return Err(Error::Overrun),
                _ => {}
            }
        }
        Ok(None)
    }

    /// Sends the next request. Returns whether there is one.
    fn send_next(&mut self) -> Result<bool, Error> {
        let start = self.sent.end;
        if start == self.requests.len() {
            return Ok(false);
        }
        let mut fields = header(&self.requests[start..]).map_err(Error::Malformed)?;
        self.sent = start..start + fields.length as usize;
        self.sequence_number = self.sequence_number.checked_add(1).unwrap_or(1);
        let is_dump = fields.flags & NLM_F_DUMP == NLM_F_DUMP;
        fields.flags |= if is_dump { NLM_F_REQUEST } else { NLM_F_REQUEST | NLM_F_ACK };
        fields.sequence_number = self.sequence_number;
        fields.port_number = self.port;
        let request = &mut self.requests[self.sent.clone()];
        set_fields(request, &fields);
        send(&mut self.wire, request).map_err(Error::Io)?;
        self.replies = Some(if is_dump { Replies::dump(&fields) } else { Replies::single(&fields) });
        Ok(true)
    }

    /// Returns whether the time limit has passed. `since` is when the caller began to wait; if it is `None`, that is
    /// now.
    fn is_late(&self, since: &mut Option<Instant>) -> bool {
        let Some(limit) = self.limit else {
            return false;
        };
        match since {
            Some(start) => start.elapsed() >= limit,
            None => {
                *since = Some(Instant::now());
                false
            }
        }
    }

    /// Receives a datagram into the buffer: none if another process sent it, or if a signal interrupts the call.
    /// `since` is that of [`is_late`](Exchange::is_late).
    fn receive(&mut self, flags: i32, since: &mut Option<Instant>) -> Result<(), Error> {
        (self.size, self.cursor) = (0, 0);
        if self.is_late(since) {
            return Err(Error::TimedOut);
        }
        match self.try_receive(flags) {
            Ok(size) => self.size = size,
            Err(error) if error.kind() == io::ErrorKind::Interrupted => {}
            Err(error) => return Err(Error::of_receipt(error)),
        }
        Ok(())
    }

    /// Receives a datagram, whose size it learns first. Returns the size, or 0 if it is not from the kernel.
    fn try_receive(&mut self, flags: i32) -> io::Result<usize> {
        let (size, sender) = self.wire.receive(&mut self.buffer, flags | MSG_PEEK | MSG_TRUNC)?;
        if sender == KERNEL {
            grow(&mut self.buffer, size)?;
        }
        let (size, sender) = self.wire.receive(&mut self.buffer, flags)?;
        Ok(if sender == KERNEL { size } else { 0 })
    }
}

/// Makes the buffer at least this large.
fn grow(buffer: &mut Vec<u8>, size: usize) -> io::Result<()> {
    let missing = size.saturating_sub(buffer.len());
    buffer.try_reserve_exact(missing).map_err(|_| io::ErrorKind::OutOfMemory)?;
    buffer.resize(buffer.len() + missing, 0);
    Ok(())
}

/// Writes flags, sequence number and port number into the header of a frame (`struct nlmsghdr`).
fn set_fields(frame: &mut [u8], fields: &Header) {
    frame[6..8].copy_from_slice(&fields.flags.to_ne_bytes());
    frame[8..12].copy_from_slice(&fields.sequence_number.to_ne_bytes());
    frame[12..16].copy_from_slice(&fields.port_number.to_ne_bytes());
}

/// Sends a request, again if a signal interrupts it.
fn send(wire: &mut impl Wire, request: &[u8]) -> io::Result<()> {
    loop {
        match wire.send(request) {
            Err(error) if error.kind() == io::ErrorKind::Interrupted => {}
            result => return result,
        }
    }
}
