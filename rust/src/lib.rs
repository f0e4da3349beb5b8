//! Netlink messages, read and written in place: a safe wrapper over the proved library of `c/`.
//!
//! ```
//! use netlink_packet::{Attributes, Writer};
//!
//! let mut buffer = [0u8; 16];
//! let mut writer = Writer::new(&mut buffer);
//! writer.text(3, "lo")?;
//! writer.u32(4, 1400)?;
//! let kinds: Result<Vec<_>, _> = Attributes::new(writer.written()).map(|a| a.map(|a| a.kind)).collect();
//! assert_eq!(kinds.unwrap(), [3, 4]);
//! # Ok::<(), netlink_packet::Refusal>(())
//! ```
//!
//! - To read, iterate over [`Messages`], and take the [`attributes`](Message::attributes) of each: iterate over them,
//!   or call [`Attributes::find`] or [`Attributes::table`].
//! - To read messages of route netlink by tables, which know the shape of each kind, call [`Message::view`]; see
//!   [`route`].
//! - To write, begin a [`Frame`] and its [`Nest`]s with a [`Writer`].
//! - To send a request, and to read the answer to it, or to wait for events, open a [`Socket`], as `examples/dump.rs`
//!   does. On a socket of your own, read the answer with [`Replies`].

#![deny(missing_docs)]

mod ack;
mod fault;
mod ffi;
mod frame;
mod normal;
mod replies;
pub mod route;
mod socket;
mod system;
mod walk;
mod write;

pub use ack::ExtendedAck;
pub use fault::{Fault, Refusal};
pub use frame::{done_body, error_body, header, payload, DoneBody, ErrorBody, Header};
pub use normal::{attributes_are_canonical, frame_is_canonical, normalize_attributes, normalize_frame, write_value};
pub use replies::{Reading, Replies, Reply};
pub use socket::{Answer, Error, Events, Options, Protocol, Rejection, Socket};
pub use walk::{Attribute, Attributes, Frames, Message, Messages};
pub use write::{Frame, Nest, Writer};
