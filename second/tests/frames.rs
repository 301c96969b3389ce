//! Frames: their bytes, and what is not a frame.

use second::frames::{read, write, Data, Frame, Request};

const DATA_BYTES: [u8; 47] = [
    1, 0, 1, 1, // edition
    2, 0, 1, 1, // kind
    3, 0, 4, 0x12, 0x34, 0x56, 0x78, // CID
    4, 0, 1, 2, // SRC
    5, 0, 4, 0, 0, 1, 3, // SEQ
    6, 0, 8, 0, 0, 0, 9, 0, 0, 1, 3, // ACK
    7, 0, 2, 1, 16, // BUF
    10, 0, 2, b'h', b'i', // data
];

const REQUEST_BYTES: [u8; 41] = [
    1, 0, 1, 1, // edition
    2, 0, 1, 2, // kind
    3, 0, 4, 0, 0, 0, 1, // CID
    4, 0, 1, 1, // SRC
    6, 0, 8, 0, 0, 0, 5, 0, 0, 0, 6, // ACK
    8, 0, 1, 2, // LSRC
    9, 0, 4, 0xff, 0xff, 0xff, 0xff, // LSEQ
];

fn data_message(size: usize, data: &[u8]) -> Data<'_> {
    Data { cid: u32::MAX, src: 0, seq: u32::MAX - 1, ack: vec![u32::MAX; size], buf: 65_535, data }
}

fn request_message(size: usize) -> Request {
    Request { cid: 0, src: 255, ack: vec![1; size], lsrc: 0, lseq: 1 }
}

#[test]
fn data_frame_has_its_bytes() {
    let message =
        Data { cid: 0x1234_5678, src: 2, seq: 259, ack: vec![9, 259], buf: 272, data: b"hi" };
    assert_eq!(write(&Frame::Data(message.clone())), DATA_BYTES);
    assert_eq!(read(&DATA_BYTES), Some(Frame::Data(message)));
}

#[test]
fn request_frame_has_its_bytes() {
    let message = Request { cid: 1, src: 1, ack: vec![5, 6], lsrc: 2, lseq: u32::MAX };
    assert_eq!(write(&Frame::Request(message.clone())), REQUEST_BYTES);
    assert_eq!(read(&REQUEST_BYTES), Some(Frame::Request(message)));
}

#[test]
fn lengths_are_as_stated() {
    let bytes = [b'd'; 48];
    for size in 2..=8 {
        for length in 0..=48 {
            let frame = Frame::Data(data_message(size, &bytes[..length]));
            let written = write(&frame);
            assert_eq!(written.len(), 37 + 4 * size + length);
            assert_eq!(read(&written), Some(frame));
        }
        let frame = Frame::Request(request_message(size));
        let written = write(&frame);
        assert_eq!(written.len(), 33 + 4 * size);
        assert_eq!(read(&written), Some(frame));
    }
    assert_eq!(write(&Frame::Data(data_message(2, &[]))).len(), 45);
    assert_eq!(write(&Frame::Data(data_message(8, &bytes))).len(), 117);
}

#[test]
fn cut_or_continued_is_no_frame() {
    for whole in [&DATA_BYTES[..], &REQUEST_BYTES] {
        for length in 0..whole.len() {
            assert_eq!(read(&whole[..length]), None);
        }
        assert_eq!(read(&[whole, &[0]].concat()), None);
        assert_eq!(read(&[whole, &whole[whole.len() - 7..]].concat()), None);
    }
}

#[test]
fn wrong_tag_or_length_is_no_frame() {
    for (whole, field_starts) in [
        (&DATA_BYTES[..], &[0, 4, 8, 15, 19, 26, 37, 42][..]),
        (&REQUEST_BYTES, &[0, 4, 8, 15, 19, 30, 34]),
    ] {
        for start in field_starts {
            for offset in 0..3 {
                let mut damaged = whole.to_vec();
                damaged[start + offset] += 1;
                assert_eq!(read(&damaged), None, "byte {}", start + offset);
            }
        }
    }
}

fn reads_with(whole: &[u8], at: usize, value: &[u8]) -> bool {
    let mut changed = whole.to_vec();
    changed[at..at + value.len()].copy_from_slice(value);
    read(&changed).is_some()
}

#[test]
fn wrong_value_is_no_frame() {
    for (at, value) in [
        (3, &[2][..]),
        (7, &[3]),
        (7, &[2]),
        (22, &[0; 4]),
        (22, &[255; 4]),
        (29, &[0; 4]),
        (33, &[0; 4]),
    ] {
        assert!(!reads_with(&DATA_BYTES, at, value), "data, byte {at}");
    }
    for (at, value) in [(3, &[0][..]), (7, &[1]), (22, &[0; 4]), (26, &[0; 4]), (37, &[0; 4])] {
        assert!(!reads_with(&REQUEST_BYTES, at, value), "request, byte {at}");
    }
}

#[test]
fn values_at_the_ends_of_their_ranges_are_read() {
    for (at, value) in
        [(11, &[0; 4][..]), (18, &[0]), (18, &[255]), (22, &[255, 255, 255, 254]), (29, &[255; 4])]
    {
        assert!(reads_with(&DATA_BYTES, at, value), "byte {at}");
    }
}
