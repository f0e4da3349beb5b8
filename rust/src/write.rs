//! Writes frames and attributes into a buffer.

use crate::fault::Refusal;
use crate::ffi;
use crate::frame::Header;

type End = unsafe extern "C" fn(*mut u8, usize, usize, usize) -> u32;

/// A buffer, and the offset at which the next bytes are written.
#[derive(Debug)]
struct Area<'w> {
    buffer: &'w mut [u8],
    cursor: &'w mut usize,
}

impl<'w> Area<'w> {
    fn reborrow(&mut self) -> Area<'_> {
        Area { buffer: self.buffer, cursor: self.cursor }
    }

    fn frame(self, header: &Header, fixed: &[u8]) -> Result<Open<'w>, Refusal> {
        let start = *self.cursor;
        let (buffer, capacity) = (self.buffer.as_mut_ptr(), self.buffer.len());
        // SAFETY: both slices are live, and so are the cursor and the header.
        Refusal::of(unsafe {
            ffi::nlp_frame_put(buffer, capacity, self.cursor, &header.fields(), fixed.as_ptr(), fixed.len())
        })?;
        Ok(Open { area: self, start, is_ended: false })
    }

    fn nest(self, kind: u16) -> Result<Open<'w>, Refusal> {
        let start = *self.cursor;
        // SAFETY: the slice is live, and so is the cursor.
        Refusal::of(unsafe { ffi::nlp_nest_begin(self.buffer.as_mut_ptr(), self.buffer.len(), self.cursor, kind) })?;
        Ok(Open { area: self, start, is_ended: false })
    }

    fn attribute(self, kind: u16, value: &[u8]) -> Result<(), Refusal> {
        let (buffer, capacity) = (self.buffer.as_mut_ptr(), self.buffer.len());
        // SAFETY: both slices are live, and so is the cursor.
        Refusal::of(unsafe { ffi::nlp_attr_put(buffer, capacity, self.cursor, kind, value.as_ptr(), value.len()) })
    }

    fn text(self, kind: u16, text: &str) -> Result<(), Refusal> {
        let (buffer, capacity) = (self.buffer.as_mut_ptr(), self.buffer.len());
        // SAFETY: both slices are live, and so is the cursor.
        Refusal::of(unsafe { ffi::nlp_attr_put_str(buffer, capacity, self.cursor, kind, text.as_ptr(), text.len()) })
    }

    fn u8(self, kind: u16, value: u8) -> Result<(), Refusal> {
        // SAFETY: the slice is live, and so is the cursor.
        Refusal::of(unsafe {
            ffi::nlp_attr_put_u8(self.buffer.as_mut_ptr(), self.buffer.len(), self.cursor, kind, value)
        })
    }

    fn u16(self, kind: u16, value: u16) -> Result<(), Refusal> {
        // SAFETY: the slice is live, and so is the cursor.
        Refusal::of(unsafe {
            ffi::nlp_attr_put_u16(self.buffer.as_mut_ptr(), self.buffer.len(), self.cursor, kind, value)
        })
    }

    fn u32(self, kind: u16, value: u32) -> Result<(), Refusal> {
        // SAFETY: the slice is live, and so is the cursor.
        Refusal::of(unsafe {
            ffi::nlp_attr_put_u32(self.buffer.as_mut_ptr(), self.buffer.len(), self.cursor, kind, value)
        })
    }

    fn u64(self, kind: u16, value: u64) -> Result<(), Refusal> {
        // SAFETY: the slice is live, and so is the cursor.
        Refusal::of(unsafe {
            ffi::nlp_attr_put_u64(self.buffer.as_mut_ptr(), self.buffer.len(), self.cursor, kind, value)
        })
    }
}

/// A frame or a nest that was begun. Dropping it moves the cursor back to its start, unless it was ended.
#[derive(Debug)]
struct Open<'w> {
    area: Area<'w>,
    start: usize,
    is_ended: bool,
}

impl Open<'_> {
    fn end(mut self, end: End) -> Result<(), Refusal> {
        let (buffer, capacity) = (self.area.buffer.as_mut_ptr(), self.area.buffer.len());
        // SAFETY: the slice is live.
        Refusal::of(unsafe { end(buffer, capacity, *self.area.cursor, self.start) })?;
        self.is_ended = true;
        Ok(())
    }

    fn remaining(&self) -> usize {
        self.area.buffer.len() - *self.area.cursor
    }
}

impl Drop for Open<'_> {
    fn drop(&mut self) {
        if !self.is_ended {
            *self.area.cursor = self.start;
        }
    }
}

/// The methods that write an attribute, for each of the three types.
macro_rules! puts {
    ($name:ident) => {
        impl $name<'_> {
            /// Begins a nest of this kind, whose nested bit is set and whose byte-order bit is cleared. What is written
            /// into the [`Nest`] is its value. Returns [`Refusal::NoRoom`] if its header does not fit.
            pub fn begin_nest(&mut self, kind: u16) -> Result<Nest<'_>, Refusal> {
                self.area().nest(kind).map(Nest)
            }

            /// Writes an attribute with these bytes, its kind unchanged. Returns [`Refusal::TooLong`] if there are more
            /// than 65531 bytes, and [`Refusal::NoRoom`] if the attribute does not fit with its padding.
            pub fn attribute(&mut self, kind: u16, value: &[u8]) -> Result<(), Refusal> {
                self.area().attribute(kind, value)
            }

            /// Writes an attribute whose value is the string and one zero. Returns the errors of `attribute`.
            pub fn text(&mut self, kind: u16, text: &str) -> Result<(), Refusal> {
                self.area().text(kind, text)
            }

            /// Writes an attribute whose value is a `u8`. Returns [`Refusal::NoRoom`] if it does not fit.
            pub fn u8(&mut self, kind: u16, value: u8) -> Result<(), Refusal> {
                self.area().u8(kind, value)
            }

            /// Writes an attribute whose value is a `u16`, in native byte order. Returns [`Refusal::NoRoom`] if it does
            /// not fit.
            pub fn u16(&mut self, kind: u16, value: u16) -> Result<(), Refusal> {
                self.area().u16(kind, value)
            }

            /// Writes an attribute whose value is a `u32`, in native byte order. Returns [`Refusal::NoRoom`] if it does
            /// not fit.
            pub fn u32(&mut self, kind: u16, value: u32) -> Result<(), Refusal> {
                self.area().u32(kind, value)
            }

            /// Writes an attribute whose value is a `u64`, in native byte order. Returns [`Refusal::NoRoom`] if it does
            /// not fit.
            pub fn u64(&mut self, kind: u16, value: u64) -> Result<(), Refusal> {
                self.area().u64(kind, value)
            }
        }
    };
}

/// Writes into a buffer, starting at offset 0. What does not fit changes nothing.
///
/// A frame or a nest that is open borrows what it is written into. So nothing else can be written there until it ends,
/// and a frame cannot end before its nests:
///
/// ```compile_fail,E0505
/// # use netlink_packet::{Header, Refusal, Writer};
/// # fn main() -> Result<(), Refusal> {
/// # let mut buffer = [0; 64];
/// let mut writer = Writer::new(&mut buffer);
/// let mut frame = writer.begin_frame(&Header::default(), &[])?;
/// let nest = frame.begin_nest(1)?;
/// frame.end()?;
/// nest.end()
/// # }
/// ```
///
/// A nest is not a frame:
///
/// ```compile_fail,E0308
/// # use netlink_packet::{Frame, Refusal, Writer};
/// # fn main() -> Result<(), Refusal> {
/// # let mut buffer = [0; 64];
/// let mut writer = Writer::new(&mut buffer);
/// let nest: Frame<'_> = writer.begin_nest(1)?;
/// nest.end()
/// # }
/// ```
#[derive(Debug)]
pub struct Writer<'a> {
    buffer: &'a mut [u8],
    cursor: usize,
}

impl<'a> Writer<'a> {
    /// Returns a writer at the start of the buffer.
    pub fn new(buffer: &'a mut [u8]) -> Self {
        Writer { buffer, cursor: 0 }
    }

    fn area(&mut self) -> Area<'_> {
        Area { buffer: self.buffer, cursor: &mut self.cursor }
    }

    /// Returns what was written.
    pub fn written(&self) -> &[u8] {
        &self.buffer[..self.cursor]
    }

    /// Returns the number of bytes that are left in the buffer.
    pub fn remaining(&self) -> usize {
        self.buffer.len() - self.cursor
    }

    /// Begins a frame: writes its header and `fixed`, the sub-protocol's struct before the attributes. Ignores the
    /// length in the header. Returns [`Refusal::NoRoom`] if these do not fit.
    pub fn begin_frame(&mut self, header: &Header, fixed: &[u8]) -> Result<Frame<'_>, Refusal> {
        self.area().frame(header, fixed).map(Frame)
    }
}

/// A frame that was begun, and that consists of everything that is written into it. Dropping it without
/// [`end`](Frame::end) removes it.
#[derive(Debug)]
#[must_use = "a frame that is not ended is removed"]
pub struct Frame<'w>(Open<'w>);

impl Frame<'_> {
    fn area(&mut self) -> Area<'_> {
        self.0.area.reborrow()
    }

    /// Returns the number of bytes that are left in the buffer.
    pub fn remaining(&self) -> usize {
        self.0.remaining()
    }

    /// Ends the frame: writes its length. Returns [`Refusal::TooLong`] if the length does not fit in 32 bits; the frame
    /// is then removed.
    pub fn end(self) -> Result<(), Refusal> {
        self.0.end(ffi::nlp_frame_end)
    }

    /// Removes the frame. Its bytes in the buffer may have changed, but the writer overwrites them.
    pub fn cancel(self) {}
}

/// A nest that was begun, and whose value is everything that is written into it. Dropping it without
/// [`end`](Nest::end) removes it.
#[derive(Debug)]
#[must_use = "a nest that is not ended is removed"]
pub struct Nest<'w>(Open<'w>);

impl Nest<'_> {
    fn area(&mut self) -> Area<'_> {
        self.0.area.reborrow()
    }

    /// Returns the number of bytes that are left in the buffer.
    pub fn remaining(&self) -> usize {
        self.0.remaining()
    }

    /// Ends the nest: writes its length. Returns [`Refusal::TooLong`] if its value has more than 65531 bytes; the nest
    /// is then removed.
    pub fn end(self) -> Result<(), Refusal> {
        self.0.end(ffi::nlp_nest_end)
    }

    /// Removes the nest. Its bytes in the buffer may have changed, but the writer overwrites them.
    pub fn cancel(self) {}
}

puts!(Writer);
puts!(Frame);
puts!(Nest);
