//! What calls give, worked out from the rules by hand.

use crate::common::{ask, ask_with_room, data, open, request, told};
use second::replay::{Call, Replay, BLANK, OUTPUT_LENGTH};

const LAST: u32 = 4_294_967_294;

#[test]
fn outputs_one_byte_too_short_are_left_alone() {
    let mut replay = Replay::default();
    open(&mut replay, 0, 1, 2, &[5, 9]);
    open(&mut replay, 1, 2, 2, &[5, 9]);
    let short = ask_with_room(&mut replay, 0, Call::Send(&[]), 44);
    assert_eq!((short.answer, short.numbers), (16, [0; 3]));
    assert_eq!(short.output, [BLANK; OUTPUT_LENGTH]);
    let sent = ask_with_room(&mut replay, 0, Call::Send(&[]), 45);
    assert_eq!((sent.answer, sent.numbers), (0, [5, 45, 0]));
    assert_eq!(sent.output[45..], [BLANK; OUTPUT_LENGTH - 45]);
    assert_eq!(ask_with_room(&mut replay, 0, Call::Copy(5), 44).answer, 16);
    let copied = ask_with_room(&mut replay, 0, Call::Copy(5), 45);
    assert_eq!((copied.answer, copied.numbers, copied.output), (0, [45, 0, 0], sent.output));
    assert_eq!(told(&mut replay, 0, Call::Copy(6)), (18, [0; 3]));
    assert_eq!(told(&mut replay, 0, Call::Copy(4)), (18, [0; 3]));
    assert_eq!(told(&mut replay, 1, Call::Arrive(&data(1, 6, &[6, 9]))), (9, [0; 3]));
    assert_eq!(ask_with_room(&mut replay, 1, Call::Request(1), 40).answer, 16);
    let asked = ask_with_room(&mut replay, 1, Call::Request(1), 41);
    assert_eq!((asked.answer, asked.numbers), (0, [41, 0, 0]));
    assert_eq!(asked.output[..41], request(2, &[5, 9], 1, 7));
}

#[test]
fn looks_tell_what_is_missing_and_what_is_kept() {
    let mut replay = Replay::default();
    open(&mut replay, 2, 3, 2, &[1, 1, 1]);
    assert_eq!(told(&mut replay, 2, Call::Kept), (0, [1, 0, 0]));
    assert_eq!(told(&mut replay, 2, Call::Free), (0, [0, 24, 0]));
    assert_eq!(told(&mut replay, 2, Call::Arrive(&data(2, 2, &[2, 2, 1]))), (9, [0; 3]));
    assert_eq!(told(&mut replay, 2, Call::Missing(1)), (0, [1, 1, 0]));
    assert_eq!(told(&mut replay, 2, Call::Missing(2)), (0, [1, 2, 0]));
    assert_eq!(told(&mut replay, 2, Call::Missing(3)), (0, [1, 0, 0]));
    for k in [0, 4, 255] {
        assert_eq!(told(&mut replay, 2, Call::Missing(k)), (5, [0; 3]));
        assert_eq!(told(&mut replay, 2, Call::Waiting(k)), (5, [0; 3]));
    }
    assert_eq!(ask(&mut replay, 2, Call::Request(3)).answer, 5);
}

#[test]
fn last_number_is_sent_and_kept() {
    let mut replay = Replay::default();
    open(&mut replay, 0, 1, 4, &[LAST, 1]);
    assert_eq!(ask(&mut replay, 0, Call::Send(b"x")).numbers, [LAST, 46, 0]);
    assert_eq!(told(&mut replay, 0, Call::Send(b"x")), (14, [0; 3]));
    assert_eq!(told(&mut replay, 0, Call::Kept), (0, [LAST, 1, 0]));
    assert_eq!(ask(&mut replay, 0, Call::Copy(LAST)).answer, 0);
    assert_eq!(told(&mut replay, 0, Call::Copy(u32::MAX)), (18, [0; 3]));
}

#[test]
fn request_is_answered_with_first_and_last() {
    let mut replay = Replay::default();
    open(&mut replay, 0, 1, 4, &[3, 1]);
    for _ in 3..=5 {
        ask(&mut replay, 0, Call::Send(b"x"));
    }
    let arrival = |lseq| request(2, &[2, 1], 1, lseq);
    assert_eq!(told(&mut replay, 0, Call::Arrive(&arrival(5))), (0, [3, 4, 0]));
    assert_eq!(told(&mut replay, 0, Call::Arrive(&arrival(7))), (7, [0; 3]));
    assert_eq!(told(&mut replay, 0, Call::Arrive(&arrival(3))), (18, [0; 3]));
}

/// The run of table 1 at unit 1: a, c, e and f are its own.
#[test]
fn looks_after_the_run_of_table_1() {
    let mut replay = Replay::default();
    open(&mut replay, 0, 1, 4, &[1, 1, 1]);
    let heard = [
        ("b", Some(data(3, 1, &[2, 1, 1]))),
        ("d", Some(data(2, 1, &[3, 1, 2]))),
        ("e", None),
        ("f", None),
        ("g", Some(data(2, 2, &[4, 2, 2]))),
        ("h", Some(data(3, 2, &[5, 3, 2]))),
    ];
    for _ in ["a", "c"] {
        assert_eq!(ask(&mut replay, 0, Call::Send(b"own")).answer, 0);
    }
    for (name, frame) in heard {
        let call = frame.as_ref().map_or(Call::Send(b"own"), |frame| Call::Arrive(frame));
        assert_eq!(ask(&mut replay, 0, call).answer, 0, "{name}");
    }
    assert_eq!(told(&mut replay, 0, Call::Ready), (0, [0, 1, 0]));
    assert_eq!(told(&mut replay, 0, Call::Free), (0, [0, 40, 0]));
    assert_eq!(told(&mut replay, 0, Call::Kept), (0, [4, 1, 0]));
    for k in 1..=3 {
        assert_eq!(told(&mut replay, 0, Call::Waiting(k)), (0, [0, 1, 0]));
    }
    assert_eq!(ask_with_room(&mut replay, 0, Call::Take, 2).answer, 16);
    let taken = ask_with_room(&mut replay, 0, Call::Take, 3);
    assert_eq!((taken.answer, taken.numbers), (0, [1, 1, 3]));
    assert_eq!(taken.output[..4], [b'o', b'w', b'n', BLANK]);
    assert_eq!(told(&mut replay, 0, Call::Take), (18, [0; 3]));
    assert_eq!(told(&mut replay, 0, Call::Free), (0, [0, 41, 0]));
}
