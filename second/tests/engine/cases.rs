//! The cases of the rules, one test for each.

use crate::common::{answer, arrive, data, opened, request, send, CID};
use second::engine::{Arrival, Message, Refusal, Unit};
use second::frames::{read, Frame};

fn opening(size: usize, window: usize) -> Result<(), Refusal> {
    Unit::closed().open(1, size, window, CID, &vec![1; size])
}

#[test]
fn opening_keeps_its_ranges() {
    assert_eq!(opening(1, 2), Err(Refusal::OutsideRanges));
    assert_eq!(opening(2, 2), Ok(()));
    assert_eq!(opening(2, 5), Err(Refusal::OutsideRanges));
}

#[test]
fn empty_input_is_no_frame() {
    assert_eq!(arrive(&mut opened(1, 2, &[1, 1]), &[]), 3);
}

#[test]
fn early_message_waits_for_its_cause() {
    let mut unit = opened(3, 2, &[1, 1, 1]);
    let p = data(1, 1, &[1, 1, 1]);
    let r = data(2, 1, &[2, 1, 1]);
    assert_eq!(arrive(&mut unit, &r), 10);
    assert_eq!(unit.heard, [2, 2, 1]);
    assert_eq!(arrive(&mut unit, &p), 0);
    assert_eq!(arrive(&mut unit, &r), 0);
}

#[test]
fn gap_goes_before_early() {
    let mut unit = opened(3, 2, &[1, 1, 1]);
    assert_eq!(arrive(&mut unit, &data(2, 2, &[2, 2, 1])), 9);
    assert_eq!(unit.heard, [2, 3, 1]);
}

#[test]
fn numbers_end() {
    let mut unit = opened(1, 4, &[4_294_967_294, 1]);
    assert_eq!(send(&mut unit), 0);
    assert_eq!(send(&mut unit), 14);
}

#[test]
fn request_is_answered_with_kept_numbers() {
    let mut unit = opened(1, 4, &[3, 1]);
    for _ in 3..=5 {
        assert_eq!(send(&mut unit), 0);
    }
    let before = unit.clone();
    let range = unit.arrive(&request(2, &[2, 1], 1, 5));
    assert_eq!(range, Ok(Arrival::Resend { first: 3, last: 4 }));
    assert_eq!(answer(unit.arrive(&request(2, &[2, 1], 1, 7))), 7);
    assert_eq!(unit, before);
}

const TABLE: [(char, u8, u32, [u32; 3]); 8] = [
    ('a', 1, 1, [1, 1, 1]),
    ('b', 3, 1, [2, 1, 1]),
    ('c', 1, 2, [2, 1, 1]),
    ('d', 2, 1, [3, 1, 2]),
    ('e', 1, 3, [3, 2, 2]),
    ('f', 1, 4, [4, 2, 2]),
    ('g', 2, 2, [4, 2, 2]),
    ('h', 3, 2, [5, 3, 2]),
];

fn name(message: &Message) -> char {
    let same = |entry: &&(char, u8, u32, [u32; 3])| {
        usize::from(entry.1) == message.sender && entry.2 == message.seq
    };
    TABLE.iter().find(same).expect("in the table").0
}

fn unit_one_after(names: &str) -> Unit {
    let mut unit = opened(1, 4, &[1, 1, 1]);
    for wanted in names.chars() {
        let &(_, src, seq, ack) =
            TABLE.iter().find(|entry| entry.0 == wanted).expect("in the table");
        if src == 1 {
            let mut output = [0; 117];
            let length = unit.send(b"", &mut output).expect("sent");
            let Some(Frame::Data(sent)) = read(&output[..length]) else { panic!("no data frame") };
            assert_eq!((sent.seq, &sent.ack[..]), (seq, &ack[..]));
        } else {
            assert_eq!(arrive(&mut unit, &data(src, seq, &ack)), 0, "{wanted}");
        }
    }
    unit
}

#[test]
fn table_after_d() {
    let unit = unit_one_after("acbd");
    assert_eq!(unit.req, [3, 2, 2]);
    assert_eq!(unit.ordered.iter().map(name).collect::<String>(), "a");
    assert!(unit.confirmed.is_empty());
}

#[test]
fn table_after_h() {
    let unit = unit_one_after("acbdefgh");
    assert_eq!(unit.al, [[4, 4, 5], [2, 2, 3], [2, 2, 2]]);
    let sequence = unit.confirmed.iter().chain(&unit.ordered);
    assert_eq!(sequence.map(name).collect::<String>(), "acbde");
    assert_eq!(unit.confirmed.iter().map(name).collect::<String>(), "a");
}
