//! Messages of route netlink and of generic netlink's controller, read by tables.
//!
//! A table states, for each message type, the fixed header and the shape of each kind of attribute, as the kernel's
//! headers and policies do. The getters of a [`View`] return `None` if there is no such attribute or the table gives its
//! kind another shape.
//!
//! ```
//! use netlink_packet::route::{View, IFI_INDEX, IFLA_IFNAME, IFLA_INFO_KIND, IFLA_LINKINFO, IFLA_MTU, RTM_NEWLINK};
//!
//! let payload = [0, 0, 1, 0, 7, 0, 0, 0, 0, 0, 0, 0, 0, 0, 0, 0, 7, 0, 3, 0, b'l', b'o', 0, 0, 8, 0, 4, 0, 0, 0, 1, 0];
//! let link = View::new(RTM_NEWLINK, &payload)?;
//! assert_eq!(link.header_i32(IFI_INDEX), Some(7));
//! assert_eq!(link.str(IFLA_IFNAME), Some("lo"));
//! assert_eq!(link.u32(IFLA_MTU), Some(65536));
//! assert_eq!(link.nest(IFLA_LINKINFO).and_then(|info| info.str(IFLA_INFO_KIND)), None);
//! # Ok::<(), netlink_packet::route::Error>(())
//! ```

mod constants;
mod error;
mod items;

pub use constants::*;
pub use error::Error;
pub use items::{Item, Items, Shape};

use crate::fault::OK;
use crate::ffi;
use crate::frame::part;
use crate::walk::{Attributes, Message};
use std::net::IpAddr;

/// A kind of attribute.
#[derive(Clone, Copy, Debug, PartialEq, Eq, Hash)]
pub struct Kind(pub u16);

/// A field of a fixed header: 256 times its offset in bytes, plus the number of its shape.
#[derive(Clone, Copy, Debug, PartialEq, Eq, Hash)]
pub struct Field(pub u32);

/// A view of a message or of a nest, whose attributes have the shapes of their kinds. The getters find the first attribute
/// of a kind; [`Attributes::find`] finds the last one, as the kernel does.
#[derive(Clone, Copy, Debug)]
pub struct View<'a> {
    payload: &'a [u8],
    view: ffi::View,
}

type Getter<T> = unsafe extern "C" fn(*const u8, usize, *const ffi::View, u16, *mut T) -> u32;
type FieldGetter<T> = unsafe extern "C" fn(*const u8, usize, *const ffi::View, u32, *mut T) -> u32;

impl<'a> View<'a> {
    /// Checks the payload of a message of route netlink by the table of its type. Returns the payload's first error.
    pub fn new(message_type: u16, payload: &'a [u8]) -> Result<Self, Error> {
        let mut view = ffi::View::default();
        let mut error = ffi::RouteError::default();
        // SAFETY: the slice is live, and so are both structs.
        let answer =
            unsafe { ffi::nlp_route_view(message_type, payload.as_ptr(), payload.len(), &mut view, &mut error) };
        (answer == OK).then_some(View { payload, view }).ok_or(Error::of(error))
    }

    /// Checks the payload of a message of generic netlink's controller by its table. Returns the payload's first error.
    pub fn generic(payload: &'a [u8]) -> Result<Self, Error> {
        let mut view = ffi::View::default();
        let mut error = ffi::RouteError::default();
        // SAFETY: the slice is live, and so are both structs.
        let answer = unsafe { ffi::nlp_generic_view(payload.as_ptr(), payload.len(), &mut view, &mut error) };
        (answer == OK).then_some(View { payload, view }).ok_or(Error::of(error))
    }

    fn get<T: Default>(&self, getter: Getter<T>, kind: Kind) -> Option<T> {
        let mut value = T::default();
        // SAFETY: the slice is live, and so are the struct and the value.
        let answer = unsafe { getter(self.payload.as_ptr(), self.payload.len(), &self.view, kind.0, &mut value) };
        (answer == OK).then_some(value)
    }

    fn field<T: Default>(&self, getter: FieldGetter<T>, field: Field) -> Option<T> {
        let mut value = T::default();
        // SAFETY: the slice is live, and so are the struct and the value.
        let answer = unsafe { getter(self.payload.as_ptr(), self.payload.len(), &self.view, field.0, &mut value) };
        (answer == OK).then_some(value)
    }

    fn part(&self, getter: Getter<ffi::Part>, kind: Kind) -> Option<&'a [u8]> {
        self.get(getter, kind).map(|it| part(self.payload, it))
    }

    /// Returns the first attribute of a kind whose shape is a `u8`.
    pub fn u8(&self, kind: Kind) -> Option<u8> {
        self.get(ffi::nlp_view_u8, kind)
    }

    /// Returns the first attribute of a kind whose shape is a `u16`.
    pub fn u16(&self, kind: Kind) -> Option<u16> {
        self.get(ffi::nlp_view_u16, kind)
    }

    /// Returns the first attribute of a kind whose shape is a `u32`.
    pub fn u32(&self, kind: Kind) -> Option<u32> {
        self.get(ffi::nlp_view_u32, kind)
    }

    /// Returns the first attribute of a kind whose shape is a `u64`.
    pub fn u64(&self, kind: Kind) -> Option<u64> {
        self.get(ffi::nlp_view_u64, kind)
    }

    /// Returns the first attribute of a kind whose shape is an `i32`.
    pub fn i32(&self, kind: Kind) -> Option<i32> {
        self.get(ffi::nlp_view_i32, kind)
    }

    /// Returns the first attribute of a kind whose shape is an `i64`.
    pub fn i64(&self, kind: Kind) -> Option<i64> {
        self.get(ffi::nlp_view_i64, kind)
    }

    /// Returns the first attribute of a kind whose shape is a big-endian `u16`.
    pub fn be16(&self, kind: Kind) -> Option<u16> {
        self.get(ffi::nlp_view_be16, kind)
    }

    /// Returns the first attribute of a kind whose shape is a big-endian `u32`.
    pub fn be32(&self, kind: Kind) -> Option<u32> {
        self.get(ffi::nlp_view_be32, kind)
    }

    /// Returns the first attribute of a kind whose shape is a big-endian `u64`.
    pub fn be64(&self, kind: Kind) -> Option<u64> {
        self.get(ffi::nlp_view_be64, kind)
    }

    /// Returns the string in the first attribute of a kind whose shape is a string, without its zero. Returns `None` too
    /// if it is not UTF-8.
    pub fn str(&self, kind: Kind) -> Option<&'a str> {
        std::str::from_utf8(self.str_bytes(kind)?).ok()
    }

    /// Returns the bytes of that string.
    pub fn str_bytes(&self, kind: Kind) -> Option<&'a [u8]> {
        self.part(ffi::nlp_view_str, kind)
    }

    /// Returns the IP address in the first attribute of a kind whose shape is an address.
    pub fn ip(&self, kind: Kind) -> Option<IpAddr> {
        let bytes = self.part(ffi::nlp_view_ip, kind)?;
        let four: Result<[u8; 4], _> = bytes.try_into();
        let sixteen: Result<[u8; 16], _> = bytes.try_into();
        four.map(IpAddr::from).or(sixteen.map(IpAddr::from)).ok()
    }

    /// Returns the MAC address in the first attribute of a kind whose shape is any bytes, if it has 6 bytes.
    pub fn mac(&self, kind: Kind) -> Option<[u8; 6]> {
        self.get(ffi::nlp_view_mac, kind)
    }

    /// Returns the first attribute of a kind for which the table states the size.
    pub fn exact(&self, kind: Kind) -> Option<&'a [u8]> {
        self.part(ffi::nlp_view_exact, kind)
    }

    /// Returns the first attribute of a kind whose shape is any bytes, or at least as many as the table states.
    pub fn bytes(&self, kind: Kind) -> Option<&'a [u8]> {
        self.part(ffi::nlp_view_bytes, kind)
    }

    /// Returns the value of the first attribute of a kind, whatever its shape.
    pub fn first(&self, kind: Kind) -> Option<&'a [u8]> {
        self.part(ffi::nlp_view_first, kind)
    }

    /// Returns a view of the nest in the first attribute of a kind whose shape is a nest. Its header is that of the nest.
    pub fn nest(&self, kind: Kind) -> Option<View<'a>> {
        self.get(ffi::nlp_view_nest, kind).map(|view| View { payload: self.payload, view })
    }

    /// Returns a field of the fixed header. Returns `None` if it has another shape or is not inside the header.
    pub fn header_u8(&self, field: Field) -> Option<u8> {
        self.field(ffi::nlp_view_header_u8, field)
    }

    /// Returns a field of the fixed header, as [`header_u8`](View::header_u8) does.
    pub fn header_u16(&self, field: Field) -> Option<u16> {
        self.field(ffi::nlp_view_header_u16, field)
    }

    /// Returns a field of the fixed header, as [`header_u8`](View::header_u8) does.
    pub fn header_u32(&self, field: Field) -> Option<u32> {
        self.field(ffi::nlp_view_header_u32, field)
    }

    /// Returns a field of the fixed header, as [`header_u8`](View::header_u8) does.
    pub fn header_i32(&self, field: Field) -> Option<i32> {
        self.field(ffi::nlp_view_header_i32, field)
    }

    /// Iterates over the attributes, each with its shape.
    ///
    /// ```
    /// use netlink_packet::route::{Shape, View, IFLA_MTU, RTM_NEWLINK};
    ///
    /// let payload = [0, 0, 1, 0, 7, 0, 0, 0, 0, 0, 0, 0, 0, 0, 0, 0, 8, 0, 4, 0, 0, 0, 1, 0];
    /// let item = View::new(RTM_NEWLINK, &payload)?.items().next().unwrap();
    /// assert_eq!((item.number(), item.shape, item.value), (IFLA_MTU, Shape::U32, &[0, 0, 1, 0][..]));
    /// # Ok::<(), netlink_packet::route::Error>(())
    /// ```
    pub fn items(&self) -> Items<'a> {
        Items::new(*self)
    }

    /// Iterates over the attributes, as they were received.
    pub fn attributes(&self) -> Attributes<'a> {
        Attributes::new(part(self.payload, self.view.attributes))
    }
}

impl<'a> Message<'a> {
    /// Checks the payload of a message of route netlink, as [`View::new`] does.
    pub fn view(&self) -> Result<View<'a>, Error> {
        View::new(self.header.message_type, self.payload)
    }
}
