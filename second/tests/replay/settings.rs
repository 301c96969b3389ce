//! Settings: units that no run makes.

use crate::common::{ask, data, is_sound, open, set, told};
use second::replay::{Call, Field, Replay, Setting};

/// Unit 1 of 2 with two messages of its own ordered or confirmed, one of unit 2 ordered, and others waiting.
fn busy() -> Replay {
    let mut replay = Replay::default();
    open(&mut replay, 0, 1, 2, &[1, 1]);
    for seq in 1..=3 {
        assert_eq!(ask(&mut replay, 0, Call::Send(b"abcd")).answer, 0);
        let frame = data(2, seq, &[seq + 1, seq]);
        assert_eq!(ask(&mut replay, 0, Call::Arrive(&frame)).answer, 0);
    }
    let unit = &replay.units[0];
    assert!(unit.confirmed.len() + unit.ordered.len() >= 3);
    replay
}

/// What is set, k, j and the value that breaks a clause of a busy unit.
const BREAKINGS: [(Field, u8, u8, u32); 19] = [
    (Field::Own, 0, 0, 0),
    (Field::Own, 0, 0, 3),
    (Field::Size, 0, 0, 1),
    (Field::Size, 0, 0, 9),
    (Field::Window, 0, 0, 1),
    (Field::Window, 0, 0, 5),
    (Field::Seq, 0, 0, 0),
    (Field::Seq, 0, 0, 3),
    (Field::Req, 1, 0, 5),
    (Field::Req, 2, 0, 0),
    (Field::Heard, 2, 0, 0),
    (Field::Al, 2, 1, 0),
    (Field::Al, 1, 2, 1),
    (Field::Pal, 1, 2, 0),
    (Field::MessageSeq, 0, 0, 0),
    (Field::MessageSeq, 1, 0, u32::MAX),
    (Field::MessageLength, 2, 0, 49),
    (Field::MessageLength, 0, 0, 255),
    (Field::MessageAck, 1, 2, 0),
];

#[test]
fn each_clause_breaks_and_mends() {
    for (field, k, j, value) in BREAKINGS {
        let mut replay = busy();
        set(&mut replay, 0, Field::Cid, 0, 0, 8);
        let before = replay.clone();
        let setting = Setting { field, k, j, value };
        let mending = setting.undoing(&replay.units[0]).expect("it can be mended");
        set(&mut replay, 0, field, k, j, value);
        assert!(!is_sound(&mut replay, 0), "{setting:?}");
        let broken = replay.clone();
        for call in [
            Call::Take,
            Call::Ready,
            Call::Send(b"x"),
            Call::Arrive(&[]),
            Call::Request(2),
            Call::Copy(3),
        ] {
            assert_eq!(told(&mut replay, 0, call), (1, [0; 3]), "{setting:?}");
        }
        assert_eq!(replay, broken, "{setting:?}");
        set(&mut replay, 0, mending.field, mending.k, mending.j, mending.value);
        assert_eq!(replay, before, "{setting:?}");
        assert!(is_sound(&mut replay, 0), "{setting:?}");
    }
}

#[test]
fn place_that_stands_twice_is_not_sound() {
    let mut replay = busy();
    set(&mut replay, 0, Field::SamePlace, 1, 1, 0);
    assert!(is_sound(&mut replay, 0));
    set(&mut replay, 0, Field::SamePlace, 1, 0, 0);
    assert!(!is_sound(&mut replay, 0));
    open(&mut replay, 0, 1, 2, &[1, 1]);
    assert!(is_sound(&mut replay, 0));
}

#[test]
fn unused_places_of_a_lower_window_and_of_a_smaller_group_are_gone() {
    let mut replay = Replay::default();
    open(&mut replay, 0, 1, 4, &[1, 1, 1]);
    assert_eq!(told(&mut replay, 0, Call::Free), (0, [0, 48, 0]));
    set(&mut replay, 0, Field::Window, 0, 0, 2);
    assert_eq!(told(&mut replay, 0, Call::Free), (0, [0, 24, 0]));
    set(&mut replay, 0, Field::Size, 0, 0, 2);
    assert_eq!(told(&mut replay, 0, Call::Free), (0, [0, 16, 0]));
    assert_eq!(told(&mut replay, 0, Call::Missing(3)), (5, [0; 3]));
    assert_eq!(ask(&mut replay, 0, Call::Send(&[])).numbers, [1, 45, 0]);
    assert_eq!(told(&mut replay, 0, Call::Arrive(&data(2, 1, &[2, 1]))), (0, [0; 3]));
}

#[test]
fn more_places_of_one_sender_than_the_window_allows_are_not_sound() {
    let mut replay = Replay::default();
    open(&mut replay, 0, 1, 4, &[1, 1]);
    for seq in 1..=8 {
        assert_eq!(ask(&mut replay, 0, Call::Arrive(&data(2, seq, &[1, seq]))).answer, 0);
    }
    set(&mut replay, 0, Field::Window, 0, 0, 2);
    assert!(is_sound(&mut replay, 0));
    set(&mut replay, 0, Field::Window, 0, 0, 4);
    assert_eq!(ask(&mut replay, 0, Call::Arrive(&data(2, 9, &[1, 9]))).answer, 0);
    set(&mut replay, 0, Field::Window, 0, 0, 2);
    assert!(!is_sound(&mut replay, 0));
}

#[test]
fn shortened_data_is_taken_short() {
    let mut replay = busy();
    set(&mut replay, 0, Field::MessageLength, 0, 0, 0xff02);
    set(&mut replay, 0, Field::MessageSeq, 0, 0, 700);
    let taken = ask(&mut replay, 0, Call::Take);
    assert_eq!((taken.answer, taken.numbers), (0, [1, 700, 2]));
    assert_eq!(taken.output[..3], [b'a', b'b', 165]);
}

#[test]
fn numbers_of_the_closed_unit_are_0_until_they_are_set() {
    let mut replay = Replay::default();
    let byte = |field, value| (field, 0, 0, value);
    let next = |field, k, j| (field, k, j, 4);
    let settings = [
        byte(Field::Size, 2),
        byte(Field::Window, 3),
        byte(Field::Own, 2),
        next(Field::Seq, 0, 0),
        next(Field::Req, 1, 0),
        next(Field::Req, 2, 0),
        next(Field::Al, 1, 1),
        next(Field::Al, 1, 2),
        next(Field::Al, 2, 1),
        next(Field::Al, 2, 2),
        next(Field::Pal, 1, 1),
        next(Field::Pal, 1, 2),
        next(Field::Pal, 2, 1),
        next(Field::Pal, 2, 2),
        next(Field::Heard, 1, 0),
        next(Field::Heard, 2, 0),
    ];
    for (field, k, j, value) in settings {
        assert!(!is_sound(&mut replay, 3));
        set(&mut replay, 3, field, k, j, value);
    }
    assert!(is_sound(&mut replay, 3));
    assert_eq!(told(&mut replay, 3, Call::Free), (0, [0, 24, 0]));
    assert_eq!(told(&mut replay, 3, Call::Send(&[])), (15, [0; 3]));
    for k in 1..=2 {
        set(&mut replay, 3, Field::Buf, k, 0, 24);
    }
    assert_eq!(ask(&mut replay, 3, Call::Send(&[])).numbers, [4, 45, 0]);
}
