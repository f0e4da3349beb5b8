//! The messages of a datagram and the attributes of a block, one after another or by kind.

use crate::fault::{Fault, NO_PLACE, OK};
use crate::ffi;
use crate::frame::{part, Header};
use std::iter::FusedIterator;

pub(crate) const END: u32 = 32;
const KIND_MASK: u16 = 0x3fff;
const NESTED: u16 = 0x8000;

/// An attribute of a block.
#[derive(Clone, Copy, Debug, PartialEq, Eq)]
pub struct Attribute<'a> {
    /// The kind with its two flag bits.
    pub kind: u16,
    /// The bytes of the value.
    pub value: &'a [u8],
}

impl<'a> Attribute<'a> {
    fn of(bytes: &'a [u8], item: ffi::Attr) -> Self {
        Attribute { kind: item.kind, value: part(bytes, ffi::Part { offset: item.offset, size: item.size }) }
    }

    /// Returns the kind without its flag bits.
    pub fn number(&self) -> u16 {
        self.kind & KIND_MASK
    }

    /// Returns whether the kind has the nested bit.
    pub fn is_nested(&self) -> bool {
        self.kind & NESTED != 0
    }

    /// Iterates over the attributes in the value.
    pub fn inside(&self) -> Attributes<'a> {
        Attributes::new(self.value)
    }

    /// Returns the bytes of the string in the value, without its final zero.
    pub fn text(&self) -> &'a [u8] {
        self.value.strip_suffix(&[0]).unwrap_or(self.value)
    }

    /// Returns the string in the value, without its final zero. Returns [`Fault::NotUtf8`] if it is not UTF-8.
    pub fn str(&self) -> Result<&'a str, Fault> {
        std::str::from_utf8(self.text()).map_err(|why| Fault::NotUtf8 { valid: why.valid_up_to() })
    }

    fn bytes<const N: usize>(&self) -> Result<[u8; N], Fault> {
        self.value.try_into().map_err(|_| Fault::InvalidNumber { expected: N, received: self.value.len() })
    }

    /// Returns the integer in the value. Returns [`Fault::InvalidNumber`] if the value does not have 1 byte.
    pub fn u8(&self) -> Result<u8, Fault> {
        self.bytes().map(|[byte]| byte)
    }

    /// Returns the integer in the value. Returns [`Fault::InvalidNumber`] if the value does not have 2 bytes.
    pub fn u16(&self) -> Result<u16, Fault> {
        self.bytes().map(u16::from_ne_bytes)
    }

    /// Returns the integer in the value. Returns [`Fault::InvalidNumber`] if the value does not have 4 bytes.
    pub fn u32(&self) -> Result<u32, Fault> {
        self.bytes().map(u32::from_ne_bytes)
    }

    /// Returns the integer in the value. Returns [`Fault::InvalidNumber`] if the value does not have 8 bytes.
    pub fn u64(&self) -> Result<u64, Fault> {
        self.bytes().map(u64::from_ne_bytes)
    }

    /// Returns the signed integer in the value. Returns [`Fault::InvalidNumber`] if the value does not have 4 bytes.
    pub fn i32(&self) -> Result<i32, Fault> {
        self.bytes().map(i32::from_ne_bytes)
    }

    /// Returns the big-endian integer in the value, for example a port. Returns [`Fault::InvalidNumber`] if the value
    /// does not have 2 bytes.
    pub fn be16(&self) -> Result<u16, Fault> {
        self.bytes().map(u16::from_be_bytes)
    }

    /// Returns the big-endian integer in the value, for example an IPv4 address. Returns [`Fault::InvalidNumber`] if
    /// the value does not have 4 bytes.
    pub fn be32(&self) -> Result<u32, Fault> {
        self.bytes().map(u32::from_be_bytes)
    }

    /// Returns the big-endian integer in the value. Returns [`Fault::InvalidNumber`] if the value does not have 8
    /// bytes.
    pub fn be64(&self) -> Result<u64, Fault> {
        self.bytes().map(u64::from_be_bytes)
    }
}

/// The attributes of a block in order. An error is the last item.
#[derive(Clone, Debug)]
pub struct Attributes<'a> {
    bytes: &'a [u8],
    cursor: usize,
}

impl<'a> Attributes<'a> {
    /// Starts at the first attribute.
    pub fn new(bytes: &'a [u8]) -> Self {
        Attributes { bytes, cursor: 0 }
    }

    fn rest(&self) -> &'a [u8] {
        &self.bytes[self.cursor..]
    }

    /// Returns the last attribute whose kind, without its flag bits, is `number`, or `None` if there is none. The
    /// kernel takes the last one too. Reads from the next attribute to the end of the block, and leaves the iterator
    /// unchanged. Returns the error that ends the block, even if an attribute before it has this kind; iterate to read
    /// that one. To read several kinds, call [`table`](Attributes::table). It hides `Iterator::find`: call that one on
    /// `by_ref()`.
    pub fn find(&self, number: u16) -> Result<Option<Attribute<'a>>, Fault> {
        let rest = self.rest();
        let mut item = ffi::Attr::default();
        let mut fault = ffi::Fault::default();
        // SAFETY: the slice is live, and so are both structs.
        let answer = unsafe { ffi::nlp_attrs_find(rest.as_ptr(), rest.len(), number, &mut item, &mut fault) };
        match answer {
            OK => Ok(Some(Attribute::of(rest, item))),
            NO_PLACE => Ok(None),
            _ => Err(Fault::of(&fault)),
        }
    }

    /// Returns a table of the attributes by kind, in one pass: entry `k` is the attribute that
    /// [`find`](Attributes::find) returns for the kind `k`, the last one. Ignores the kinds from `N` on. Returns the
    /// error that ends the block, and then no table; iterate to read the attributes before it.
    ///
    /// ```
    /// # use netlink_packet::{Attributes, Fault};
    /// const IFLA_IFNAME: usize = 3;
    /// const IFLA_MTU: usize = 4;
    ///
    /// # let block = [8, 0, 4, 0, 0x78, 5, 0, 0];
    /// let table: [_; IFLA_MTU + 1] = Attributes::new(&block).table()?;
    /// assert_eq!(table[IFLA_MTU].map(|it| it.u32()).transpose()?, Some(1400));
    /// assert_eq!(table[IFLA_IFNAME], None);
    /// # Ok::<(), Fault>(())
    /// ```
    pub fn table<const N: usize>(&self) -> Result<[Option<Attribute<'a>>; N], Fault> {
        let rest = self.rest();
        let mut table = [ffi::Attr::default(); N];
        let mut fault = ffi::Fault::default();
        // SAFETY: the slice is live, and so are the array and the struct.
        let answer = unsafe { ffi::nlp_attrs_table(rest.as_ptr(), rest.len(), table.as_mut_ptr(), N, &mut fault) };
        if answer != OK {
            return Err(Fault::of(&fault));
        }
        Ok(table.map(|item| (item.offset != 0).then(|| Attribute::of(rest, item))))
    }
}

impl<'a> Iterator for Attributes<'a> {
    type Item = Result<Attribute<'a>, Fault>;

    fn next(&mut self) -> Option<Self::Item> {
        let mut item = ffi::Attr::default();
        let mut fault = ffi::Fault::default();
        // SAFETY: the slice is live, and so are the three values.
        let answer = unsafe {
            ffi::nlp_attrs_next(self.bytes.as_ptr(), self.bytes.len(), &mut self.cursor, &mut item, &mut fault)
        };
        match answer {
            OK => Some(Ok(Attribute::of(self.bytes, item))),
            END => None,
            _ => Some(Err(Fault::of(&fault))),
        }
    }
}

impl FusedIterator for Attributes<'_> {}

/// A message of a datagram.
#[derive(Clone, Copy, Debug, PartialEq, Eq)]
pub struct Message<'a> {
    /// Its header.
    pub header: Header,
    /// What follows its header, without padding.
    pub payload: &'a [u8],
}

impl<'a> Message<'a> {
    pub(crate) fn of(bytes: &'a [u8], item: &ffi::Message) -> Self {
        Message { header: Header::of(&item.header), payload: part(bytes, item.payload) }
    }

    /// Iterates over the attributes after a fixed header of `fixed` bytes and its padding. The fixed header is then
    /// `&message.payload[..fixed]`. Returns [`Fault::PayloadShort`] if the payload has fewer bytes. There are no
    /// attributes if the payload ends within the padding.
    pub fn attributes(&self, fixed: usize) -> Result<Attributes<'a>, Fault> {
        let payload = ffi::Part { offset: 0, size: self.payload.len() };
        let message = ffi::Message { payload, ..Default::default() };
        let mut place = ffi::Part::default();
        // SAFETY: both structs are live.
        let answer = unsafe { ffi::nlp_message_attrs(&message, fixed, &mut place) };
        if answer != OK {
            return Err(Fault::PayloadShort { size: self.payload.len(), fixed });
        }
        Ok(Attributes::new(part(self.payload, place)))
    }
}

/// Reads the message at the cursor, and moves the cursor past it, or to the end if there is an error.
pub(crate) fn next_message(bytes: &[u8], cursor: &mut usize) -> Option<Result<ffi::Message, Fault>> {
    let mut item = ffi::Message::default();
    let mut fault = ffi::Fault::default();
    // SAFETY: the slice is live, and so are the three values.
    let answer = unsafe { ffi::nlp_message_read(bytes.as_ptr(), bytes.len(), cursor, &mut item, &mut fault) };
    match answer {
        OK => Some(Ok(item)),
        END => None,
        _ => Some(Err(Fault::of(&fault))),
    }
}

/// The messages of a datagram in order. An error is the last item.
#[derive(Clone, Debug)]
pub struct Messages<'a> {
    bytes: &'a [u8],
    cursor: usize,
}

impl<'a> Messages<'a> {
    /// Starts at the first message.
    pub fn new(bytes: &'a [u8]) -> Self {
        Messages { bytes, cursor: 0 }
    }
}

impl<'a> Iterator for Messages<'a> {
    type Item = Result<Message<'a>, Fault>;

    fn next(&mut self) -> Option<Self::Item> {
        next_message(self.bytes, &mut self.cursor).map(|read| read.map(|item| Message::of(self.bytes, &item)))
    }
}

impl FusedIterator for Messages<'_> {}

/// The bytes of each message of a datagram in order, without its padding, for
/// [`normalize_frame`](crate::normalize_frame) and so on. To read the messages, use [`Messages`]. An error is the last
/// item.
#[derive(Clone, Debug)]
pub struct Frames<'a> {
    bytes: &'a [u8],
    cursor: usize,
}

impl<'a> Frames<'a> {
    /// Starts at the first frame.
    pub fn new(bytes: &'a [u8]) -> Self {
        Frames { bytes, cursor: 0 }
    }
}

impl<'a> Iterator for Frames<'a> {
    type Item = Result<&'a [u8], Fault>;

    fn next(&mut self) -> Option<Self::Item> {
        let mut item = ffi::Part::default();
        let mut fault = ffi::Fault::default();
        // SAFETY: the slice is live, and so are the three values.
        let answer = unsafe {
            ffi::nlp_frames_next(self.bytes.as_ptr(), self.bytes.len(), &mut self.cursor, &mut item, &mut fault)
        };
        match answer {
            OK => Some(Ok(part(self.bytes, item))),
            END => None,
            _ => Some(Err(Fault::of(&fault))),
        }
    }
}

impl FusedIterator for Frames<'_> {}
