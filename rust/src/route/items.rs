//! The attributes of a view, one after another, each with its shape.

use super::{Kind, View};
use crate::fault::OK;
use crate::ffi;
use crate::frame::part;
use std::iter::FusedIterator;

const KIND_MASK: u16 = 0x3fff;

/// The shape that the table gives a kind. Sizes are in bytes.
#[derive(Clone, Copy, Debug, PartialEq, Eq, Hash)]
#[non_exhaustive]
pub enum Shape {
    /// Any bytes; also the shape of a kind without a row.
    Bytes,
    /// A `u8`.
    U8,
    /// A `u16`.
    U16,
    /// A `u32`.
    U32,
    /// An `i32`.
    I32,
    /// A `u64`.
    U64,
    /// An `i64`.
    I64,
    /// A big-endian `u16`.
    Be16,
    /// A big-endian `u32`.
    Be32,
    /// A big-endian `u64`.
    Be64,
    /// A big-endian `i32`.
    BeI32,
    /// No bytes.
    Flag,
    /// An IP address, 4 or 16 bytes.
    Ip,
    /// A string whose last byte is its only zero.
    NulStr,
    /// The same, or a string without a zero.
    Str,
    /// Bytes of this size.
    ExactLen(u16),
    /// Bytes of at least this size.
    MinLen(u16),
    /// Elements of this size, one after another.
    Elements(u16),
    /// A nest.
    Nested {
        /// The policy of its attributes.
        policy: u16,
    },
    /// A nest after a header.
    HeaderNested {
        /// The size of the header.
        size: u16,
        /// The policy of the attributes.
        policy: u16,
    },
}

impl Shape {
    fn of(numbers: ffi::Shape) -> Self {
        let ffi::Shape { shape, size, policy } = numbers;
        match shape {
            1 => Shape::U8,
            2 => Shape::U16,
            3 => Shape::U32,
            4 => Shape::I32,
            5 => Shape::U64,
            6 => Shape::I64,
            7 => Shape::Be16,
            8 => Shape::Be32,
            9 => Shape::Be64,
            10 => Shape::Flag,
            11 => Shape::Ip,
            12 => Shape::NulStr,
            13 => Shape::Str,
            14 => Shape::ExactLen(size),
            15 => Shape::MinLen(size),
            16 => Shape::Nested { policy },
            17 => Shape::HeaderNested { size, policy },
            19 => Shape::BeI32,
            20 => Shape::Elements(size),
            _ => Shape::Bytes,
        }
    }
}

/// An attribute of a view.
#[derive(Clone, Copy, Debug)]
pub struct Item<'a> {
    /// The kind with its two flag bits. In `RTA_MULTIPATH`, it is `rtnh_flags | rtnh_hops << 8`.
    pub kind: u16,
    /// The shape that the table gives the kind. The value has it.
    pub shape: Shape,
    /// The bytes of the value.
    pub value: &'a [u8],
    /// A view of the nest, if the shape is a nest.
    pub nest: Option<View<'a>>,
}

impl Item<'_> {
    /// Returns the kind without its flag bits.
    pub fn number(&self) -> Kind {
        Kind(self.kind & KIND_MASK)
    }
}

/// The attributes of a view in order.
#[derive(Clone, Debug)]
pub struct Items<'a> {
    view: View<'a>,
    walk: ffi::ViewWalk,
}

impl<'a> Items<'a> {
    pub(super) fn new(view: View<'a>) -> Self {
        Items { view, walk: ffi::ViewWalk::default() }
    }
}

impl<'a> Iterator for Items<'a> {
    type Item = Item<'a>;

    fn next(&mut self) -> Option<Item<'a>> {
        let View { payload, view } = self.view;
        let mut item = ffi::Item::default();
        // SAFETY: the slice is live, and so are the structs.
        let answer = unsafe { ffi::nlp_view_next(payload.as_ptr(), payload.len(), &view, &mut self.walk, &mut item) };
        if answer != OK {
            return None;
        }
        let shape = Shape::of(item.shape);
        let is_nest = matches!(shape, Shape::Nested { .. } | Shape::HeaderNested { .. });
        let nest = is_nest.then_some(View { payload, view: item.nest });
        Some(Item { kind: item.kind, shape, value: part(payload, item.value), nest })
    }
}

impl FusedIterator for Items<'_> {}
