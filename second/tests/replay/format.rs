//! The bytes of records and replies.

use crate::common::{ask, open, record, told, CID, LONG};
use second::replay::{self, Call, Field, Opening, Record, Replay, Setting};

/// Opens the unit at 1 as unit 1 of 2, W = 2, CID 7, first numbers 1 and 258; the unit's byte is 9.
fn opening_bytes() -> [u8; 208] {
    let mut bytes = [0xee; 208];
    bytes[..8].copy_from_slice(&[0, 9, 0, 0, 0, 7, 0, 0]);
    bytes[8..19].copy_from_slice(&[1, 2, 2, 0, 0, 0, 1, 0, 0, 1, 2]);
    bytes
}

#[test]
fn opening_and_sending_have_their_bytes() {
    let mut send = [0xee; 208];
    send[..8].copy_from_slice(&[1, 1, 0xee, 0xee, 0xee, 0xee, 47, 2]);
    send[8..10].copy_from_slice(b"hi");
    let replies = replay::run(&[opening_bytes(), send].concat());
    let frame = [
        1, 0, 1, 1, // edition
        2, 0, 1, 1, // kind
        3, 0, 4, 0, 0, 0, 7, // CID
        4, 0, 1, 1, // SRC
        5, 0, 4, 0, 0, 0, 1, // SEQ
        6, 0, 8, 0, 0, 0, 1, 0, 0, 1, 2, // ACK
        7, 0, 2, 0, 16, // BUF
        10, 0, 2, b'h', b'i', // data
    ];
    let mut expected = [165; 544];
    expected[..16].fill(0);
    expected[272..288].copy_from_slice(&[0, 0, 0, 0, 1, 0, 0, 0, 47, 0, 0, 0, 0, 0, 0, 0]);
    expected[288..335].copy_from_slice(&frame);
    assert_eq!(replies, expected);
}

#[test]
fn last_record_that_is_not_whole_is_not_read() {
    let opening = opening_bytes();
    assert_eq!(replay::run(&[]), []);
    assert_eq!(replay::run(&opening[..207]), []);
    assert_eq!(replay::run(&[&opening[..], &opening[..207]].concat()).len(), 272);
    assert_eq!(replay::run(&[opening, opening].concat()).len(), 544);
}

#[test]
fn calls_come_back_from_their_records() {
    let opening = Opening {
        own: 3,
        size: 8,
        window: 4,
        cid: 1 << 31,
        firsts: [1, 2, 3, 4, 5, 6, 7, u32::MAX],
    };
    let setting = |field, value| Call::Set(Setting { field, k: 2, j: 8, value });
    let calls = [
        Call::Open(opening),
        Call::Send(b"data"),
        Call::Arrive(&[]),
        Call::Request(255),
        Call::Copy(u32::MAX),
        Call::Take,
        Call::Ready,
        Call::Free,
        Call::Kept,
        Call::Missing(3),
        Call::Waiting(0),
        Call::Sound,
        setting(Field::Pal, 1 << 24),
        setting(Field::SamePlace, 0),
        Call::Nothing,
    ];
    for call in &calls {
        let record = record(13, call, 7);
        assert_eq!(record.call(), *call);
        assert_eq!(record.slot(), 5);
        assert_eq!(Record::read(&record.written()), record);
    }
}

#[test]
fn no_more_than_200_bytes_count() {
    let mut record = record(0, &Call::Send(&[1; 255]), LONG);
    assert_eq!(record.count, 255);
    assert_eq!(record.counted(), [1; 200]);
    record.count = 200;
    assert_eq!(record.counted().len(), 200);
    record.count = 199;
    assert_eq!(record.counted().len(), 199);
}

#[test]
fn what_there_is_not_does_nothing() {
    let mut replay = Replay::default();
    open(&mut replay, 0, 1, 2, &[1, 1]);
    let before = replay.clone();
    for number in 13..=255 {
        let unknown = Record { number, ..record(0, &Call::Nothing, LONG) };
        assert_eq!(replay.carry_out(&unknown).answer, 0);
    }
    for what in 14..=255 {
        let mut unknown = record(0, &Call::Nothing, LONG);
        unknown.number = 12;
        unknown.bytes[0] = what;
        assert_eq!(replay.carry_out(&unknown).numbers, [0; 3]);
    }
    assert_eq!(replay, before);
}

#[test]
fn refused_opening_closes_the_unit() {
    let opening =
        Opening { own: 1, size: 2, window: 2, cid: CID, firsts: [1, 1, 0, 0, 0, 0, 0, 0] };
    for wrong in [
        Opening { size: 1, ..opening.clone() },
        Opening { size: 9, ..opening.clone() },
        Opening { window: 5, ..opening.clone() },
        Opening { own: 0, ..opening.clone() },
        Opening { own: 3, ..opening.clone() },
        Opening { firsts: [1, 0, 1, 1, 1, 1, 1, 1], ..opening.clone() },
    ] {
        let mut replay = Replay::default();
        open(&mut replay, 0, 1, 2, &[1, 1]);
        assert_eq!(told(&mut replay, 0, Call::Open(wrong)), (2, [0; 3]));
        assert_eq!(replay, Replay::default());
    }
}

#[test]
fn units_start_closed() {
    let mut replay = Replay::default();
    for slot in 0..8 {
        assert_eq!(told(&mut replay, slot, Call::Sound), (0, [0; 3]));
        for call in
            [Call::Ready, Call::Free, Call::Kept, Call::Missing(1), Call::Waiting(1), Call::Take]
        {
            assert_eq!(told(&mut replay, slot, call), (1, [0; 3]));
        }
        assert_eq!(ask(&mut replay, slot, Call::Send(&[0; 49])).answer, 1);
    }
}
