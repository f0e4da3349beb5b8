//! Canonical forms, and values overwritten in place.

use crate::fault::{Fault, Refusal, NO_ROOM, OK};
use crate::ffi;

/// Overwrites the value of the attribute at `index`, which counts from 0. Returns [`Refusal::NoPlace`] if there is no such
/// attribute, or if its value has another size.
pub fn write_value(block: &mut [u8], index: usize, value: &[u8]) -> Result<(), Refusal> {
    // SAFETY: both slices are live.
    Refusal::of(unsafe { ffi::nlp_attr_write(block.as_mut_ptr(), block.len(), index, value.as_ptr(), value.len()) })
}

/// Returns whether the bytes are a canonical block.
pub fn attributes_are_canonical(bytes: &[u8]) -> bool {
    // SAFETY: the slice is live.
    unsafe { ffi::nlp_attrs_is_canonical(bytes.as_ptr(), bytes.len()) }
}

/// Returns whether the bytes are a canonical frame. If the type is 16 or greater, the payload may be any bytes. Returns
/// [`Fault::OutOfMemory`] if an allocation fails.
pub fn frame_is_canonical(bytes: &[u8]) -> Result<bool, Fault> {
    let mut canonical = 0;
    let mut fault = ffi::Fault::default();
    // SAFETY: the slice is live, and so are both values.
    match unsafe { ffi::nlp_frame_is_canonical(bytes.as_ptr(), bytes.len(), &mut canonical, &mut fault) } {
        OK => Ok(canonical == 1),
        _ => Err(Fault::of(&fault)),
    }
}

type Call = unsafe extern "C" fn(*const u8, usize, *mut u8, usize, *mut usize, *mut ffi::Fault) -> u32;

/// Gives the buffer this size.
fn grow(buffer: &mut Vec<u8>, size: usize) -> Result<(), Fault> {
    buffer.try_reserve_exact(size.saturating_sub(buffer.len())).map_err(|_| Fault::OutOfMemory)?;
    buffer.resize(size, 0);
    Ok(())
}

/// Returns what the function writes. The first buffer is as large as the input, which is enough unless padding is added.
fn written(call: Call, bytes: &[u8]) -> Result<Vec<u8>, Fault> {
    let mut text = Vec::new();
    grow(&mut text, bytes.len())?;
    let mut size = 0;
    let mut fault = ffi::Fault::default();
    loop {
        // SAFETY: both slices are live, and so are both values.
        let answer = unsafe { call(bytes.as_ptr(), bytes.len(), text.as_mut_ptr(), text.len(), &mut size, &mut fault) };
        match answer {
            OK => {
                text.truncate(size);
                return Ok(text);
            }
            NO_ROOM => grow(&mut text, size)?,
            _ => return Err(Fault::of(&fault)),
        }
    }
}

/// Returns the canonical block of the bytes. Returns the error that ends the block, or [`Fault::OutOfMemory`].
pub fn normalize_attributes(bytes: &[u8]) -> Result<Vec<u8>, Fault> {
    written(ffi::nlp_attrs_normalize, bytes)
}

/// Returns the canonical frame of the message at the start of the bytes. If the type is 16 or greater, the payload
/// may be any bytes. Returns the error if the message is rejected, or [`Fault::OutOfMemory`].
pub fn normalize_frame(bytes: &[u8]) -> Result<Vec<u8>, Fault> {
    written(ffi::nlp_frame_normalize, bytes)
}
