//! The answer to a request: which frames belong to it, and when it is complete.

use crate::ack::ExtendedAck;
use crate::fault::{Fault, OK};
use crate::ffi;
use crate::frame::{part, Header};
use crate::walk::{next_message, Message, END};
use std::iter::FusedIterator;

/// What a frame means to a request.
#[derive(Clone, Copy, Debug, PartialEq, Eq)]
pub enum Reply<'a> {
    /// A message of the answer.
    Message(Message<'a>),
    /// The end of a multipart answer.
    Done {
        /// 0, or a negative errno.
        code: i32,
        /// The attributes of the extended acknowledgement.
        ack: ExtendedAck<'a>,
    },
    /// An error message with code 0.
    Acknowledged {
        /// The attributes of the extended acknowledgement.
        ack: ExtendedAck<'a>,
    },
    /// An error message with another code.
    Rejected {
        /// A negative errno.
        code: i32,
        /// The request as far as the kernel returned it.
        request: &'a [u8],
        /// The attributes of the extended acknowledgement.
        ack: ExtendedAck<'a>,
    },
    /// Data was lost. The kernel has never sent one.
    Overrun,
    /// A message that is no part of the answer: it has other numbers, or follows the end.
    Other(Message<'a>),
}

impl<'a> Reply<'a> {
    fn of(bytes: &'a [u8], item: &ffi::Reply, message: Message<'a>) -> Self {
        let code = item.code;
        let ack = ExtendedAck { attributes: part(bytes, item.attributes) };
        match item.what {
            1 => Reply::Message(message),
            2 => Reply::Done { code, ack },
            3 => Reply::Acknowledged { ack },
            4 => Reply::Rejected { code, request: part(bytes, item.request), ack },
            5 => Reply::Overrun,
            _ => Reply::Other(message),
        }
    }
}

/// The state of the answer to a request. It reads datagrams in the order in which they arrive.
#[derive(Clone, Debug, PartialEq, Eq)]
pub struct Replies {
    state: ffi::Replies,
}

impl Replies {
    /// Returns the state in which nothing of the answer to a dump was read. Takes the sequence number, the port
    /// number and `NLM_F_ACK` from the header that is sent. A port number of 0 accepts every port number.
    pub fn dump(header: &Header) -> Self {
        Replies::begin(header, true)
    }

    /// Returns the state in which nothing of the answer to another request was read. Takes the same from the
    /// header.
    pub fn single(header: &Header) -> Self {
        Replies::begin(header, false)
    }

    fn begin(header: &Header, is_dump: bool) -> Self {
        let mut state = ffi::Replies::default();
        // SAFETY: both structs are live.
        unsafe { ffi::nlp_replies_begin(&header.fields(), is_dump.into(), &mut state) };
        Replies { state }
    }

    /// Returns whether the answer is complete.
    pub fn has_ended(&self) -> bool {
        self.state.ended != 0
    }

    /// Returns whether a frame of the answer had the flag `NLM_F_DUMP_INTR`: what the dump lists changed while it
    /// was listed.
    pub fn is_interrupted(&self) -> bool {
        self.state.interrupted != 0
    }

    /// Iterates over what the frames of a datagram mean, without noops. After an error the answer is still open. A
    /// reading that is dropped early leaves the rest of the datagram unread.
    pub fn read<'r, 'a>(&'r mut self, datagram: &'a [u8]) -> Reading<'r, 'a> {
        Reading { replies: self, datagram, cursor: 0 }
    }

    /// Reads the next frame at the cursor that is no noop, and moves the cursor past it. Returns its message, and what
    /// the message means.
    pub(crate) fn step<'a>(
        &mut self,
        bytes: &'a [u8],
        cursor: &mut usize,
    ) -> Option<Result<(ffi::Message, Reply<'a>), Fault>> {
        let mut item = ffi::Reply::default();
        let mut fault = ffi::Fault::default();
        let (start, len) = (bytes.as_ptr(), bytes.len());
        // SAFETY: the slice is live, and so are the four values.
        let answer = unsafe { ffi::nlp_replies_next(start, len, cursor, &mut self.state, &mut item, &mut fault) };
        match answer {
            // The frame is complete, so this is its message, and no error.
            OK => next_message(bytes, &mut item.frame.offset.clone())
                .map(|read| read.map(|message| (message, Reply::of(bytes, &item, Message::of(bytes, &message))))),
            END => None,
            _ => Some(Err(Fault::of(&fault))),
        }
    }
}

/// An iterator over what the frames of a datagram mean.
#[derive(Debug)]
pub struct Reading<'r, 'a> {
    replies: &'r mut Replies,
    datagram: &'a [u8],
    cursor: usize,
}

impl<'a> Iterator for Reading<'_, 'a> {
    type Item = Result<Reply<'a>, Fault>;

    fn next(&mut self) -> Option<Self::Item> {
        self.replies.step(self.datagram, &mut self.cursor).map(|read| read.map(|(_, reply)| reply))
    }
}

impl FusedIterator for Reading<'_, '_> {}
