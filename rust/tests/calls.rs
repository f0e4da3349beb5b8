//! Tests each function on valid and malformed bytes, which are written by hand from linux/netlink.h.

use netlink_packet::{
    attributes_are_canonical, done_body, error_body, frame_is_canonical, header, normalize_attributes, normalize_frame,
    payload, write_value, Attribute, Attributes, DoneBody, ExtendedAck, Fault, Frames, Header, Message, Messages,
    Refusal, Replies, Reply,
};

/// Two attributes, (1, aa) and (2 with the nested flag, 01020304).
const TWO: [u8; 16] = [5, 0, 1, 0, 0xaa, 0, 0, 0, 8, 0, 2, 0x80, 1, 2, 3, 4];

/// Four attributes: (1, aa), (2 with the nested flag, 01020304), (1 with the byte-order flag, bb) and (0, no bytes).
const FOUR: [u8; 28] = [5, 0, 1, 0, 0xaa, 0, 0, 0, 8, 0, 2, 0x80, 1, 2, 3, 4, 5, 0, 1, 0x40, 0xbb, 0, 0, 0, 4, 0, 0, 0];

/// A frame of type 18 with one attribute (1, aa), and 4 bytes after it.
const FRAME: [u8; 28] = [24, 0, 0, 0, 18, 0, 1, 3, 7, 0, 0, 0, 9, 0, 0, 0, 5, 0, 1, 0, 0xaa, 0, 0, 0, 1, 2, 3, 4];

#[test]
fn attributes_are_walked() {
    let all: Result<Vec<_>, _> = Attributes::new(&TWO).collect();
    assert_eq!(all.unwrap(), [Attribute { kind: 1, value: &[0xaa] }, Attribute { kind: 0x8002, value: &[1, 2, 3, 4] }]);
    assert_eq!(Attributes::new(&[]).next(), None);
    let mut walk = Attributes::new(&TWO[..15]);
    assert!(walk.next().unwrap().is_ok());
    assert_eq!(walk.next(), Some(Err(Fault::AttributeCut { size: 7, length: 8 })));
    assert_eq!((walk.next(), walk.next()), (None, None));
    assert_eq!(Attributes::new(&[3, 0, 1, 0]).next(), Some(Err(Fault::AttributeLength { length: 3 })));
    assert_eq!(Attributes::new(&[4, 0, 1]).next(), Some(Err(Fault::AttributeShort { size: 3 })));
}

#[test]
fn the_last_attribute_of_a_kind_is_found() {
    let mut all = Attributes::new(&FOUR);
    assert_eq!(all.find(0), Ok(Some(Attribute { kind: 0, value: &[] })));
    assert_eq!(all.find(1), Ok(Some(Attribute { kind: 0x4001, value: &[0xbb] })));
    assert_eq!(all.find(2), Ok(Some(Attribute { kind: 0x8002, value: &[1, 2, 3, 4] })));
    assert_eq!([3, 0x4001, 0x8002].map(|kind| all.find(kind)), [Ok(None); 3]);
    assert_eq!(all.next(), Some(Ok(Attribute { kind: 1, value: &[0xaa] })));
    assert_eq!(all.by_ref().find(|it| it.is_err()), None);
    assert_eq!((Attributes::new(&[]).find(0), Attributes::new(&TWO[..5]).find(2)), (Ok(None), Ok(None)));
    assert_eq!(Attributes::new(&TWO[..5]).find(1), Ok(Some(Attribute { kind: 1, value: &[0xaa] })));
    let cut = Err(Fault::AttributeCut { size: 7, length: 8 });
    assert_eq!([1, 2, 3].map(|kind| Attributes::new(&TWO[..15]).find(kind)), [cut; 3]);
}

#[test]
fn attributes_are_in_a_table_by_kind() {
    let zero = Some(Attribute { kind: 0, value: &[] });
    let one = Some(Attribute { kind: 0x4001, value: &[0xbb] });
    let two = Some(Attribute { kind: 0x8002, value: &[1, 2, 3, 4] });
    let all = Attributes::new(&FOUR);
    assert_eq!((all.table(), all.table()), (Ok([]), Ok([zero])));
    assert_eq!((all.table(), all.table()), (Ok([zero, one]), Ok([zero, one, two, None, None])));
    assert_eq!((Attributes::new(&[]).table(), Attributes::new(&[]).table()), (Ok([]), Ok([None, None])));
    let [_, first] = Attributes::new(&TWO[..5]).table().unwrap();
    assert_eq!(first, Some(Attribute { kind: 1, value: &[0xaa] }));
    let cut = Fault::AttributeCut { size: 7, length: 8 };
    assert_eq!(
        (Attributes::new(&TWO[..15]).table::<0>(), Attributes::new(&TWO[..15]).table::<4>()),
        (Err(cut), Err(cut))
    );
}

#[test]
fn kinds_are_found_from_the_next_attribute_on() {
    let zero = Some(Attribute { kind: 0, value: &[] });
    let one = Some(Attribute { kind: 0x4001, value: &[0xbb] });
    let mut all = Attributes::new(&FOUR);
    assert!(all.by_ref().take(2).all(|it| it.is_ok()));
    assert_eq!((all.find(1), all.find(2), all.table()), (Ok(one), Ok(None), Ok([zero, one, None])));
    assert_eq!(all.next(), one.map(Ok));
    assert_eq!((all.find(0), all.find(1), all.table()), (Ok(zero), Ok(None), Ok([zero, None, None])));
    assert_eq!(all.next(), zero.map(Ok));
    for bytes in [&FOUR[..], &TWO[..5], &TWO[..15]] {
        let mut all = Attributes::new(bytes);
        assert!(all.by_ref().last().is_some());
        assert_eq!((all.find(1), all.table()), (Ok(None), Ok([None, None])));
    }
}

#[test]
fn kinds_have_two_flag_bits() {
    let kinds = [0xc002, 0x4002, 0x8002, 0x3fff].map(|kind| Attribute { kind, value: &[] });
    assert_eq!(kinds.map(|it| it.number()), [2, 2, 2, 0x3fff]);
    assert_eq!(kinds.map(|it| it.is_nested()), [true, false, true, false]);
}

/// Returns an attribute with this value.
fn valued(value: &[u8]) -> Attribute<'_> {
    Attribute { kind: 1, value }
}

#[test]
fn values_are_integers() {
    let bytes = [0xf8, 0xf7, 0xf6, 0xf5, 0xf4, 0xf3, 0xf2, 0xf1];
    let [one, two, four, eight] = [1, 2, 4, 8].map(|size| valued(&bytes[..size]));
    assert_eq!((one.u8(), two.u16(), four.u32()), (Ok(0xf8), Ok(0xf7f8), Ok(0xf5f6f7f8)));
    assert_eq!((eight.u64(), four.i32()), (Ok(0xf1f2f3f4f5f6f7f8), Ok(-0x0a090808)));
    assert_eq!((two.be16(), four.be32(), eight.be64()), (Ok(0xf8f7), Ok(0xf8f7f6f5), Ok(0xf8f7f6f5f4f3f2f1)));
    let wrong = |expected, received| Fault::InvalidNumber { expected, received };
    assert_eq!((two.u8(), one.u16(), eight.u32()), (Err(wrong(1, 2)), Err(wrong(2, 1)), Err(wrong(4, 8))));
    assert_eq!((four.u64(), two.i32(), valued(&[]).be16()), (Err(wrong(8, 4)), Err(wrong(4, 2)), Err(wrong(2, 0))));
    assert_eq!((two.be32(), four.be64()), (Err(wrong(4, 2)), Err(wrong(8, 4))));
}

#[test]
fn values_are_strings() {
    assert_eq!((valued(b"lo\0").text(), valued(b"lo").text()), (&b"lo"[..], &b"lo"[..]));
    assert_eq!((valued(b"lo\0").str(), valued(b"lo\0\0").str()), (Ok("lo"), Ok("lo\0")));
    assert_eq!((valued(b"lo\xff\0").str(), valued(&[]).str()), (Err(Fault::NotUtf8 { valid: 2 }), Ok("")));
}

#[test]
fn frames_are_walked() {
    let all: Vec<_> = Frames::new(&FRAME).collect();
    assert_eq!(all, [Ok(&FRAME[..24]), Err(Fault::FrameShort { size: 4, inside: false })]);
    assert_eq!(payload(&FRAME), Ok(&FRAME[16..24]));
    assert_eq!(
        header(&FRAME),
        Ok(Header { length: 24, message_type: 18, flags: 0x301, sequence_number: 7, port_number: 9 })
    );
    assert_eq!(header(&FRAME[..15]), Err(Fault::FrameShort { size: 15, inside: false }));
    assert_eq!(payload(&FRAME[..23]), Err(Fault::FrameCut { size: 23, length: 24, inside: false }));
    let mut all = Frames::new(&FRAME[..24]);
    assert!(all.next().is_some());
    assert_eq!((all.next(), all.next()), (None, None));
    let mut short = FRAME;
    short[0] = 15;
    assert_eq!(Frames::new(&short).next(), Some(Err(Fault::FrameLength { length: 15, inside: false })));
}

#[test]
fn messages_are_walked() {
    /// A message of type 16 whose payload is 1 byte, with its padding, and one without a payload.
    const BOTH: [u8; 36] = [
        17, 0, 0, 0, 16, 0, 1, 3, 7, 0, 0, 0, 9, 0, 0, 0, 0xaa, 0, 0, 0, 16, 0, 0, 0, 17, 0, 2, 4, 8, 0, 0, 0, 1, 2, 3,
        4,
    ];
    let first = Header { length: 17, message_type: 16, flags: 0x301, sequence_number: 7, port_number: 9 };
    let second = Header { length: 16, message_type: 17, flags: 0x402, sequence_number: 8, port_number: 0x04030201 };
    let all: Vec<_> = Messages::new(&BOTH).collect();
    assert_eq!(all, [Ok(Message { header: first, payload: &[0xaa] }), Ok(Message { header: second, payload: &[] })]);
    assert_eq!(Messages::new(&[]).next(), None);
    let mut cut = Messages::new(&BOTH[..35]);
    assert_eq!(cut.next(), Some(Ok(Message { header: first, payload: &[0xaa] })));
    assert_eq!(cut.next(), Some(Err(Fault::FrameShort { size: 15, inside: false })));
    assert_eq!((cut.next(), cut.next()), (None, None));
    let error = Fault::FrameCut { size: 16, length: 17, inside: false };
    assert_eq!(Messages::new(&BOTH[..16]).next(), Some(Err(error)));
    let mut short = BOTH;
    short[0] = 15;
    assert_eq!(Messages::new(&short).next(), Some(Err(Fault::FrameLength { length: 15, inside: false })));
}

#[test]
fn a_message_has_attributes_after_its_fixed_header() {
    let message = |payload| Message { header: Header::default(), payload };
    let kinds = |payload, fixed| -> Result<Vec<u16>, Fault> {
        message(payload).attributes(fixed)?.map(|it| it.map(|it| it.kind)).collect()
    };
    assert_eq!((kinds(&TWO, 0), kinds(&TWO, 8), kinds(&TWO, 16)), (Ok(vec![1, 0x8002]), Ok(vec![0x8002]), Ok(vec![])));
    assert_eq!((kinds(&TWO, 5), kinds(&TWO, 7)), (Ok(vec![0x8002]), Ok(vec![0x8002])));
    assert_eq!((kinds(&TWO[..7], 5), kinds(&TWO[..7], 7), kinds(&[], 0)), (Ok(vec![]), Ok(vec![]), Ok(vec![])));
    for (payload, fixed) in [(&TWO[..], 17), (&TWO[..7], 8), (&[], 1), (&TWO[..], usize::MAX)] {
        assert_eq!(kinds(payload, fixed), Err(Fault::PayloadShort { size: payload.len(), fixed }));
    }
    assert_eq!(kinds(&TWO[..15], 8), Err(Fault::AttributeCut { size: 7, length: 8 }));
}

#[test]
fn bodies_are_read() {
    let refusal = [0xea, 0xff, 0xff, 0xff, 16, 0, 0, 0, 18, 0, 5, 0, 1, 0, 0, 0, 0, 0, 0, 0, 4, 0, 1, 0];
    let body = error_body(&refusal, 0x300).unwrap();
    assert_eq!((body.code, body.request, body.attributes), (-22, &refusal[4..20], &refusal[20..]));
    assert_eq!(error_body(&[], 0), Err(Fault::ErrorShort { size: 0, inside: false }));
    assert_eq!(done_body(&refusal), Ok(DoneBody { code: -22, rest: &refusal[4..] }));
    assert_eq!(done_body(&[]), Ok(DoneBody { code: 0, rest: &[] }));
    assert_eq!(done_body(&[1]), Err(Fault::DoneShort { size: 1, inside: false }));
}

#[test]
fn normal_forms() {
    let mut loose = TWO;
    loose[5] = 1;
    assert!(attributes_are_canonical(&TWO) && !attributes_are_canonical(&loose));
    assert_eq!(normalize_attributes(&loose).unwrap(), TWO);
    assert_eq!((normalize_attributes(&TWO[..5]).unwrap(), normalize_attributes(&[])), (TWO[..8].to_vec(), Ok(vec![])));
    assert_eq!(normalize_attributes(&TWO[..15]), Err(Fault::AttributeCut { size: 7, length: 8 }));
    assert_eq!(normalize_frame(&FRAME).unwrap(), FRAME[..24]);
    assert_eq!(normalize_frame(&[]), Err(Fault::FrameShort { size: 0, inside: true }));
    let mut refused = FRAME;
    refused[4] = 15;
    assert_eq!(normalize_frame(&refused), Err(Fault::Refused));
    assert_eq!((frame_is_canonical(&FRAME), frame_is_canonical(&FRAME[..24])), (Ok(false), Ok(true)));
    assert_eq!(write_value(&mut loose, 1, &[9, 9, 9, 9]), Ok(()));
    assert_eq!(loose[12..], [9, 9, 9, 9]);
    assert_eq!(write_value(&mut loose, 1, &[9]), Err(Refusal::NoPlace));
}

/// A message without a payload, from port 9.
fn empty(flags: u16, sequence_number: u32) -> Message<'static> {
    let header = Header { length: 16, message_type: 16, flags, sequence_number, port_number: 9 };
    Message { header, payload: &[] }
}

/// The header of a request with sequence number 7.
fn request(flags: u16) -> Header {
    Header { message_type: 18, flags, sequence_number: 7, ..Header::default() }
}

#[test]
fn a_dump_is_read_to_its_end() {
    /// A noop, a message with NLM_F_DUMP_INTR, a message with sequence number 6, and a done message.
    const DUMP: [u8; 68] = [
        16, 0, 0, 0, 1, 0, 2, 0, 7, 0, 0, 0, 9, 0, 0, 0, 16, 0, 0, 0, 16, 0, 0x12, 0, 7, 0, 0, 0, 9, 0, 0, 0, //
        16, 0, 0, 0, 16, 0, 2, 0, 6, 0, 0, 0, 9, 0, 0, 0, 20, 0, 0, 0, 3, 0, 2, 0, 7, 0, 0, 0, 9, 0, 0, 0, 0, 0, 0, 0,
    ];
    let none = ExtendedAck { attributes: &[] };
    let mut replies = Replies::dump(&request(0x301));
    let first = replies.read(&DUMP).next();
    assert_eq!(first, Some(Ok(Reply::Message(empty(0x12, 7)))));
    assert!(!replies.has_ended() && replies.is_interrupted());
    let rest: Vec<_> = replies.read(&DUMP[32..]).collect();
    assert_eq!(rest, [Ok(Reply::Other(empty(2, 6))), Ok(Reply::Done { code: 0, ack: none })]);
    assert!(replies.has_ended());
    assert_eq!(replies.read(&DUMP[16..32]).next(), Some(Ok(Reply::Other(empty(0x12, 7)))));
    let message = Message { header: header(&FRAME).unwrap(), payload: &FRAME[16..24] };
    assert_eq!(Replies::dump(&request(0x301)).read(&FRAME).next(), Some(Ok(Reply::Message(message))));
    let mut other = Replies::dump(&Header { port_number: 8, ..request(0x301) });
    assert_eq!(other.read(&DUMP[16..32]).next(), Some(Ok(Reply::Other(empty(0x12, 7)))));
}

#[test]
fn a_single_request_is_answered_once() {
    /// A message without NLM_F_MULTI; an acknowledgement, cut within its code.
    const ONE: [u8; 16] = [16, 0, 0, 0, 16, 0, 0, 0, 7, 0, 0, 0, 9, 0, 0, 0];
    const SHORT: [u8; 20] = [19, 0, 0, 0, 2, 0, 0, 0, 7, 0, 0, 0, 9, 0, 0, 0, 0, 0, 0, 0];
    let mut replies = Replies::single(&request(1));
    assert_eq!(replies.read(&SHORT).next(), Some(Err(Fault::ErrorShort { size: 3, inside: true })));
    assert_eq!(replies.read(&ONE[..12]).next(), Some(Err(Fault::FrameShort { size: 12, inside: false })));
    assert!(!replies.has_ended());
    assert_eq!(replies.read(&ONE).next(), Some(Ok(Reply::Message(empty(0, 7)))));
    assert!(replies.has_ended() && !replies.is_interrupted());
    let mut acknowledged = Replies::single(&request(5));
    assert_eq!(acknowledged.read(&ONE).next(), Some(Ok(Reply::Message(empty(0, 7)))));
    assert!(!acknowledged.has_ended());
    let mut dump = Replies::dump(&request(0x301));
    assert_eq!(dump.read(&ONE).next(), Some(Ok(Reply::Message(empty(0, 7)))));
    assert!(!dump.has_ended());
}

#[test]
fn an_overrun_and_an_acknowledgement() {
    const BOTH: [u8; 52] = [
        16, 0, 0, 0, 4, 0, 0, 0, 7, 0, 0, 0, 9, 0, 0, 0, 36, 0, 0, 0, 2, 0, 0, 1, 7, 0, 0, 0, 9, 0, 0, 0, //
        0, 0, 0, 0, 20, 0, 0, 0, 16, 0, 5, 0, 7, 0, 0, 0, 0, 0, 0, 0,
    ];
    let mut replies = Replies::single(&request(5));
    let none = ExtendedAck { attributes: &[] };
    let mut reading = replies.read(&BOTH);
    assert_eq!(reading.next(), Some(Ok(Reply::Overrun)));
    assert_eq!(reading.next(), Some(Ok(Reply::Acknowledged { ack: none })));
    assert_eq!((reading.next(), reading.next()), (None, None));
    assert!(replies.has_ended());
    let mut dump = Replies::dump(&request(0x305));
    assert_eq!((dump.read(&BOTH).count(), dump.has_ended()), (2, false));
}

#[test]
fn an_extended_acknowledgement_is_read() {
    /// EINVAL for a request that is capped, with the text "no", the offset 40, a cookie, a policy, and a kind and
    /// a nest that are missing.
    const REFUSAL: [u8; 84] = [
        84, 0, 0, 0, 2, 0, 0, 3, 7, 0, 0, 0, 9, 0, 0, 0, 0xea, 0xff, 0xff, 0xff, 48, 0, 0, 0, 16, 0, 5, 0, 7, 0, 0, 0,
        0, 0, 0, 0, 7, 0, 1, 0, b'n', b'o', 0, 0, 8, 0, 2, 0, 40, 0, 0, 0, 5, 0, 3, 0, 0xaa, 0, 0, 0, 8, 0, 4, 0x80, 4,
        0, 1, 0, 8, 0, 5, 0, 6, 0, 0, 0, 8, 0, 6, 0, 36, 0, 0, 0,
    ];
    /// A fixed header of 16 bytes, and the attribute (18 with the nested flag), which holds (1, "lo").
    const REQUEST: [u8; 44] = [
        44, 0, 0, 0, 16, 0, 5, 0, 7, 0, 0, 0, 0, 0, 0, 0, 0, 0, 0, 0, 0, 0, 0, 0, 0, 0, 0, 0, 0, 0, 0, 0, 12, 0, 18,
        0x80, 7, 0, 1, 0, b'l', b'o', 0, 0,
    ];
    let mut replies = Replies::single(&request(5));
    let Some(Ok(Reply::Rejected { code, request, ack })) = replies.read(&REFUSAL).next() else {
        panic!("the request is not rejected");
    };
    assert_eq!((code, request), (-22, &REFUSAL[20..36]));
    assert!(replies.has_ended());
    assert_eq!((ack.message(), ack.text(), ack.offset()), (Some(&b"no"[..]), Some("no"), Some(40)));
    assert_eq!((ack.cookie(), ack.policy()), (Some(&[0xaa][..]), Some(&[4, 0, 1, 0][..])));
    assert_eq!((ack.missing_type(), ack.missing_nest()), (Some(6), Some(36)));
    assert_eq!(ack.path(&REQUEST, 16), [18, 1]);
    assert_eq!(ack.path(&REQUEST, 24), []);
    let none = ExtendedAck { attributes: &[] };
    assert_eq!((none.message(), none.text(), none.offset()), (None, None, None));
    assert_eq!((none.cookie(), none.policy(), none.missing_type(), none.missing_nest()), (None, None, None, None));
}

#[test]
fn a_path_is_as_long_as_the_nests() {
    let mut bytes = vec![0; 16];
    for depth in 0..20u8 {
        bytes.extend_from_slice(&[4 * (20 - depth), 0, depth, 0x80]);
    }
    let ack = ExtendedAck { attributes: &[8, 0, 2, 0, 92, 0, 0, 0] };
    assert_eq!(ack.path(&bytes, 0), (0..20).collect::<Vec<u16>>());
}
