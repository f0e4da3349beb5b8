//! The extended acknowledgement of an error or done message.

use crate::fault::{NO_ROOM, OK};
use crate::ffi;
use crate::frame::part;

type Part = unsafe extern "C" fn(*const u8, usize, *mut ffi::Part) -> u32;
type Number = unsafe extern "C" fn(*const u8, usize, *mut u32) -> u32;

/// The attributes of an error or done message. Each method reads the first attribute of its kind.
#[derive(Clone, Copy, Debug, PartialEq, Eq)]
pub struct ExtendedAck<'a> {
    /// The attributes, or no bytes.
    pub attributes: &'a [u8],
}

impl<'a> ExtendedAck<'a> {
    fn part(&self, read: Part) -> Option<&'a [u8]> {
        let mut place = ffi::Part::default();
        // SAFETY: the slice is live, and so is the part.
        let answer = unsafe { read(self.attributes.as_ptr(), self.attributes.len(), &mut place) };
        (answer == OK).then(|| part(self.attributes, place))
    }

    fn number(&self, read: Number) -> Option<u32> {
        let mut number = 0;
        // SAFETY: the slice is live, and so is the integer.
        let answer = unsafe { read(self.attributes.as_ptr(), self.attributes.len(), &mut number) };
        (answer == OK).then_some(number)
    }

    /// Returns the bytes of the error text, without the zero byte at their end.
    pub fn message(&self) -> Option<&'a [u8]> {
        self.part(ffi::nlp_ext_ack_text)
    }

    /// Returns the error text, or `None` if there is none or it is not UTF-8.
    pub fn text(&self) -> Option<&'a str> {
        std::str::from_utf8(self.message()?).ok()
    }

    /// Returns the offset, in the request, of the attribute that caused the error.
    pub fn offset(&self) -> Option<u32> {
        self.number(ffi::nlp_ext_ack_offset)
    }

    /// Returns the value that the sub-protocol added.
    pub fn cookie(&self) -> Option<&'a [u8]> {
        self.part(ffi::nlp_ext_ack_cookie)
    }

    /// Returns the attributes that describe which values the kernel accepts.
    pub fn policy(&self) -> Option<&'a [u8]> {
        self.part(ffi::nlp_ext_ack_policy)
    }

    /// Returns the kind of the attribute that the request lacks.
    pub fn missing_type(&self) -> Option<u32> {
        self.number(ffi::nlp_ext_ack_missing_type)
    }

    /// Returns the offset, in the request, of the nest that lacks an attribute, or `None` for the top level.
    pub fn missing_nest(&self) -> Option<u32> {
        self.number(ffi::nlp_ext_ack_missing_nest)
    }

    /// Returns the kinds of the attributes that contain the offset of the error, outermost first, without their
    /// flag bits. `request` is the request that was sent, with its header, and `fixed` the size of its fixed
    /// header with padding. The path is empty if there is no offset, or if no attribute contains it.
    pub fn path(&self, request: &[u8], fixed: usize) -> Vec<u16> {
        let mut kinds = vec![0; 16];
        let mut count = 0;
        while self.fill(request, fixed, &mut kinds, &mut count) == NO_ROOM {
            kinds.resize(count, 0);
        }
        kinds.truncate(count);
        kinds
    }

    fn fill(&self, request: &[u8], fixed: usize, kinds: &mut [u16], count: &mut usize) -> u32 {
        // SAFETY: the three slices are live, and so is the count.
        unsafe {
            ffi::nlp_ext_ack_path(
                self.attributes.as_ptr(),
                self.attributes.len(),
                request.as_ptr(),
                request.len(),
                fixed,
                kinds.as_mut_ptr(),
                kinds.len(),
                count,
            )
        }
    }
}
