//! Unsound units: every call answers 1 and leaves them as they were.

use crate::common::{answer, data, opened, send};
use second::engine::{Message, Unit};

fn busy() -> Unit {
    let mut unit = opened(1, 2, &[1, 1, 1]);
    assert_eq!(send(&mut unit), 0);
    assert_eq!(answer(unit.arrive(&data(2, 1, &[2, 1, 1]))), 0);
    assert!(unit.is_sound());
    unit
}

fn message(sender: usize) -> Message {
    Message { sender, seq: 1, ack: vec![1, 1, 1], data: Vec::new() }
}

fn refused_by_every_call(mut unit: Unit, why: &str) {
    let before = unit.clone();
    let mut output = [6; 117];
    let answers = [
        answer(unit.send(&[0; 49], &mut output)),
        answer(unit.arrive(&[])),
        answer(unit.request(9, &mut output)),
        answer(unit.copy_kept(1, &mut output)),
        answer(unit.take(&mut output)),
    ];
    assert_eq!(answers, [1; 5], "{why}");
    assert_eq!(unit, before, "{why}");
    assert_eq!(output, [6; 117], "{why}");
}

#[test]
fn closed_unit_answers_one() {
    refused_by_every_call(Unit::closed(), "closed");
}

#[test]
fn each_broken_rule_answers_one() {
    type Breaking = fn(&mut Unit);
    let breakings: [(&str, Breaking); 27] = [
        ("no own index", |unit| unit.own = 0),
        ("own index past the group", |unit| unit.own = 4),
        ("group too small", |unit| unit.size = 1),
        ("group too large", |unit| unit.size = 9),
        ("window too small", |unit| unit.window = 1),
        ("window too large", |unit| unit.window = 5),
        ("SEQ 0", |unit| unit.seq = 0),
        ("REQ 0", |unit| unit.req[2] = 0),
        ("AL 0", |unit| unit.al[1][2] = 0),
        ("PAL 0", |unit| unit.pal[2][1] = 0),
        ("HEARD 0", |unit| unit.heard[1] = 0),
        ("REQ of the own index is not SEQ", |unit| unit.req[0] = 3),
        ("SEQ below the own minAL", |unit| unit.al[0] = vec![3, 3, 3]),
        ("SEQ past the window", |unit| (unit.seq, unit.req[0]) = (4, 4)),
        ("REQ too short", |unit| unit.req.truncate(2)),
        ("AL row too short", |unit| unit.al[2].truncate(2)),
        ("BUF too short", |unit| unit.buf.truncate(2)),
        ("kept frame lacking", |unit| unit.kept.clear()),
        ("kept frame too many", |unit| unit.kept.push_back(vec![0; 49])),
        ("kept frame too long", |unit| unit.kept[0] = vec![0; 118]),
        ("stored number 0", |unit| unit.waiting[1][0].seq = 0),
        ("stored number too large", |unit| unit.waiting[1][0].seq = u32::MAX),
        ("stored ACK 0", |unit| unit.waiting[1][0].ack[0] = 0),
        ("stored ACK too short", |unit| unit.waiting[1][0].ack.truncate(2)),
        ("stored data too long", |unit| unit.waiting[1][0].data = vec![0; 49]),
        ("stored sender no unit", |unit| unit.ordered.push(message(4))),
        ("too many places", |unit| unit.confirmed.extend(vec![message(2); 8])),
    ];
    for (why, breaking) in breakings {
        let mut unit = busy();
        breaking(&mut unit);
        refused_by_every_call(unit, why);
    }
}

#[test]
fn ends_of_the_ranges_are_sound() {
    let mut unit = busy();
    unit.confirmed.extend(vec![message(2); 7]);
    unit.waiting[1][0].data = vec![0; 48];
    unit.waiting[1][0].seq = u32::MAX - 1;
    unit.heard = vec![u32::MAX; 3];
    unit.kept[0] = vec![0; 117];
    assert!(unit.is_sound());
}
