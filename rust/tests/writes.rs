//! Tests what is written, and what remains of it. The bytes are written by hand from linux/netlink.h.

use netlink_packet::{header, payload, Attribute, Attributes, Frames, Header, Refusal, Writer};

#[test]
fn what_is_written_is_walked() {
    let fields = Header { length: 99, message_type: 18, flags: 0x301, sequence_number: 7, port_number: 9 };
    let mut buffer = [0xff; 64];
    let mut writer = Writer::new(&mut buffer);
    let mut frame = writer.begin_frame(&fields, &[0; 4]).unwrap();
    let mut nest = frame.begin_nest(9).unwrap();
    nest.u8(1, 1).unwrap();
    nest.u16(2, 0x0202).unwrap();
    nest.u64(3, 3).unwrap();
    nest.end().unwrap();
    assert_eq!(frame.attribute(4, &[0; 9]), Err(Refusal::NoRoom));
    frame.end().unwrap();
    assert_eq!(header(writer.written()), Ok(Header { length: 52, ..fields }));
    let frames: Vec<_> = Frames::new(writer.written()).collect();
    assert_eq!(frames, [Ok(writer.written())]);
    let block = &payload(writer.written()).unwrap()[4..];
    let nest = Attributes::new(block).next().unwrap().unwrap();
    assert_eq!((nest.is_nested(), nest.number()), (true, 9));
    let sizes: Vec<_> = nest.inside().map(|a| a.unwrap().value.len()).collect();
    assert_eq!(sizes, [1, 2, 8]);
}

#[test]
fn attributes_have_these_bytes() {
    #[rustfmt::skip]
    const WANTED: [u8; 52] = [
        5, 0, 1, 0, 0x12, 0, 0, 0, 6, 0, 2, 0, 0x34, 0x12, 0, 0, 8, 0, 3, 0, 0x78, 0x56, 0x34, 0x12,
        12, 0, 4, 0, 8, 7, 6, 5, 4, 3, 2, 1, 7, 0, 5, 0, b'l', b'o', 0, 0, 6, 0, 6, 0x40, 1, 2, 0, 0,
    ];
    let mut buffer = [0xff; 52];
    let mut writer = Writer::new(&mut buffer);
    writer.u8(1, 0x12).unwrap();
    writer.u16(2, 0x1234).unwrap();
    writer.u32(3, 0x12345678).unwrap();
    writer.u64(4, 0x0102030405060708).unwrap();
    writer.text(5, "lo").unwrap();
    assert_eq!(writer.remaining(), 8);
    writer.attribute(0x4006, &[1, 2]).unwrap();
    assert_eq!((writer.written(), writer.remaining()), (&WANTED[..], 0));
}

#[test]
fn what_does_not_fit_changes_nothing() {
    let mut buffer = [0xff; 18];
    let mut writer = Writer::new(&mut buffer);
    assert!(writer.begin_frame(&Header::default(), &[0; 3]).is_err_and(|it| it == Refusal::NoRoom));
    let mut frame = writer.begin_frame(&Header::default(), &[]).unwrap();
    assert_eq!(
        (frame.u8(1, 1), frame.u16(1, 1), frame.u32(1, 1)),
        (Err(Refusal::NoRoom), Err(Refusal::NoRoom), Err(Refusal::NoRoom))
    );
    assert_eq!((frame.u64(1, 1), frame.text(1, "")), (Err(Refusal::NoRoom), Err(Refusal::NoRoom)));
    assert!(frame.begin_nest(1).is_err_and(|it| it == Refusal::NoRoom));
    assert_eq!(frame.remaining(), 2);
    frame.end().unwrap();
    assert_eq!(writer.written().len(), 16);
    let mut large = vec![0; 70000];
    assert_eq!(Writer::new(&mut large).attribute(1, &[0; 65532]), Err(Refusal::TooLong));
}

#[test]
fn a_nest_or_a_frame_is_cancelled() {
    let mut buffer = [0xff; 64];
    let mut writer = Writer::new(&mut buffer);
    let mut frame = writer.begin_frame(&Header::default(), &[]).unwrap();
    frame.u32(1, 1).unwrap();
    let mut nest = frame.begin_nest(2).unwrap();
    nest.u32(3, 3).unwrap();
    let inner = nest.begin_nest(4).unwrap();
    assert_eq!(inner.remaining(), 24);
    inner.end().unwrap();
    assert_eq!(nest.remaining(), 24);
    nest.cancel();
    assert_eq!(frame.remaining(), 40);
    drop(frame.begin_nest(5).unwrap());
    frame.end().unwrap();
    let one = Attribute { kind: 1, value: &[1, 0, 0, 0] };
    assert_eq!(Attributes::new(payload(writer.written()).unwrap()).collect::<Vec<_>>(), [Ok(one)]);
    writer.begin_frame(&Header::default(), &[]).unwrap().cancel();
    assert_eq!((writer.written().len(), writer.remaining()), (24, 40));
}

#[test]
fn a_nest_that_is_too_long_is_removed() {
    let mut buffer = vec![0; 70000];
    let mut writer = Writer::new(&mut buffer);
    writer.u32(1, 1).unwrap();
    let mut nest = writer.begin_nest(2).unwrap();
    nest.attribute(3, &[0; 65520]).unwrap();
    nest.attribute(4, &[0; 4]).unwrap();
    assert_eq!(nest.end(), Err(Refusal::TooLong));
    assert_eq!(writer.written().len(), 8);
}

#[test]
fn a_frame_may_be_longer_than_a_nest() {
    let mut buffer = vec![0; 100000];
    let mut writer = Writer::new(&mut buffer);
    let mut frame = writer.begin_frame(&Header::default(), &[]).unwrap();
    frame.attribute(1, &[0; 40000]).unwrap();
    frame.attribute(2, &[0; 40000]).unwrap();
    frame.end().unwrap();
    assert_eq!((header(writer.written()).unwrap().length, writer.written().len()), (80024, 80024));
}
