//! Printing an error does not allocate, and a failed allocation is an error.

use netlink_packet::{normalize_attributes, normalize_frame, Attributes, Fault};
use std::alloc::{GlobalAlloc, Layout, System};
use std::cell::Cell;
use std::fmt::Write;
use std::ptr::null_mut;

struct Counting;

thread_local! {
    static COUNT: Cell<usize> = const { Cell::new(0) };
    static FAILS: Cell<bool> = const { Cell::new(false) };
}

// SAFETY: each call is that of the system's allocator, or an allocation that fails.
unsafe impl GlobalAlloc for Counting {
    unsafe fn alloc(&self, layout: Layout) -> *mut u8 {
        COUNT.set(COUNT.get() + 1);
        if FAILS.get() {
            return null_mut();
        }
        System.alloc(layout)
    }

    unsafe fn dealloc(&self, block: *mut u8, layout: Layout) {
        System.dealloc(block, layout)
    }
}

#[global_allocator]
static ALLOCATOR: Counting = Counting;

/// The start of what is printed.
struct Fixed([u8; 256], usize);

impl Write for Fixed {
    fn write_str(&mut self, text: &str) -> std::fmt::Result {
        let end = self.1 + text.len();
        self.0.get_mut(self.1..end).ok_or(std::fmt::Error)?.copy_from_slice(text.as_bytes());
        self.1 = end;
        Ok(())
    }
}

#[test]
fn an_error_is_printed_without_memory() {
    let cut = Attributes::new(&[9, 0, 1, 0]).next().unwrap().unwrap_err();
    let before = COUNT.get();
    let mut printed = Fixed([0; 256], 0);
    let [body, payload] = [Fault::ErrorShort { size: 3, inside: true }, Fault::PayloadShort { size: 3, fixed: 16 }];
    for fault in [cut, Fault::OutOfMemory, Fault::Refused, Fault::NotUtf8 { valid: 2 }, body, payload] {
        printed.1 = 0;
        write!(printed, "{fault}").unwrap();
        if fault == cut {
            assert_eq!(&printed.0[..printed.1], b"buffer has length: 4, but the NLA is 9 bytes");
        }
    }
    assert_eq!(COUNT.get(), before);
    drop(vec![0u8; 9]);
    assert_eq!(COUNT.get(), before + 1);
}

#[test]
fn a_failed_allocation_is_an_error() {
    FAILS.set(true);
    let results = [normalize_attributes(&[4, 0, 1, 0]), normalize_frame(&[0; 16])];
    FAILS.set(false);
    assert_eq!(results, [Err(Fault::OutOfMemory), Err(Fault::OutOfMemory)]);
}
