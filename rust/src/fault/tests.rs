//! Compares the numbers of each error with those of c/include/netlink_packet.h, and its text with the library's.

use super::*;

/// The numbers of an error, the error, and its text.
struct Row(u32, u32, usize, usize, Fault, &'static str);

const FRAME: [&str; 3] = [
    "invalid netlink buffer length caused by invalid netlink buffer: length is 15 but netlink packets are at least 16 bytes",
    "invalid netlink buffer length caused by invalid netlink buffer: length field says 24 the buffer is 23 bytes long",
    "failed deserializing NetlinkMessage caused by invalid netlink buffer length caused by invalid netlink buffer: length \
     field says 7 but netlink packets are at least 16 bytes",
];

const BODY: [&str; 3] = [
    "invalid DoneBuffer length caused by invalid DoneBuffer: length is 3 but DoneBuffer are at least 4 bytes",
    "failed to parse NLMSG_DONE caused by invalid DoneBuffer length caused by invalid DoneBuffer: length is 2 but \
     DoneBuffer are at least 4 bytes",
    "failed parsing NLMSG_ERROR caused by invalid ErrorBuffer length caused by invalid ErrorBuffer: length is 1 but \
     ErrorBuffer are at least 4 bytes",
];

#[rustfmt::skip]
const ROWS: [Row; 12] = [
    Row(5, 0, 3, 4, Fault::AttributeShort { size: 3 }, "buffer has length 3, but an NLA header is 4 bytes"),
    Row(6, 0, 7, 8, Fault::AttributeCut { size: 7, length: 8 }, "buffer has length: 7, but the NLA is 8 bytes"),
    Row(7, 0, 4, 1, Fault::AttributeLength { length: 1 }, "NLA has invalid length: 1 (should be at least 4 bytes)"),
    Row(9, 0, 15, 0, Fault::FrameShort { size: 15, inside: false }, FRAME[0]),
    Row(10, 0, 23, 24, Fault::FrameCut { size: 23, length: 24, inside: false }, FRAME[1]),
    Row(11, 1, 0, 7, Fault::FrameLength { length: 7, inside: true }, FRAME[2]),
    Row(12, 0, 3, 0, Fault::DoneShort { size: 3, inside: false }, BODY[0]),
    Row(12, 1, 2, 0, Fault::DoneShort { size: 2, inside: true }, BODY[1]),
    Row(13, 1, 1, 0, Fault::ErrorShort { size: 1, inside: true }, BODY[2]),
    Row(14, 0, 0, 0, Fault::Refused, "the message type is 0, or 5 to 15"),
    Row(15, 0, 0, 0, Fault::TooLong, "message does not fit a 32-bit length"),
    Row(16, 0, 0, 0, Fault::OutOfMemory, "out of memory"),
];

/// Returns the library's text of the error that the numbers identify, or `None` if they identify none.
fn library_text(numbers: &ffi::Fault) -> Option<String> {
    let mut text = [0; 256];
    let mut size = 0;
    // SAFETY: the pointers are to live values, and the buffer has this many bytes.
    let answer = unsafe { ffi::nlp_fault_text(numbers, text.as_mut_ptr(), text.len(), &mut size) };
    (answer == OK).then(|| String::from_utf8(text[..size].to_vec()).unwrap())
}

#[test]
fn each_error_has_its_numbers_and_its_text() {
    for Row(cause, inside, size, wanted, fault, text) in ROWS {
        let numbers = ffi::Fault { cause, inside, size, wanted };
        assert_eq!((Fault::of(&numbers), &*fault.to_string()), (fault, text));
        let known = (cause != 14).then_some(text);
        assert_eq!(library_text(&numbers).as_deref(), known);
    }
}

#[test]
fn the_other_errors_have_texts() {
    let number = Fault::InvalidNumber { expected: 4, received: 3 };
    assert_eq!(number.to_string(), "Invalid number. Expected 4 bytes, received 3 bytes");
    assert_eq!(library_text(&ffi::Fault { cause: 4, inside: 0, size: 3, wanted: 4 }), Some(number.to_string()));
    let short = Fault::PayloadShort { size: 3, fixed: 16 };
    assert_eq!(short.to_string(), "the payload has 3 bytes, fewer than its header of 16");
    assert_eq!(Fault::NotUtf8 { valid: 2 }.to_string(), "the string is not UTF-8 after 2 bytes");
}

#[test]
fn results_of_writing() {
    let no_room = "there is no room in the buffer";
    let too_long = "it is longer than a length field can count";
    let no_place = "there is no such location or attribute";
    assert_eq!(Refusal::of(0), Ok(()));
    for (answer, refusal, text) in
        [(8, Refusal::NoRoom, no_room), (33, Refusal::TooLong, too_long), (34, Refusal::NoPlace, no_place)]
    {
        assert_eq!((Refusal::of(answer), &*refusal.to_string()), (Err(refusal), text));
    }
}
