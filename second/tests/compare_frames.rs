//! The comparison of frame readers: it passes a reader that agrees and stops at one that does not.

use second::judge::{judge, own_reading, Reading, Tally};
use second::trials::Sort;

fn difference(wrong: impl Fn(&[u8], usize) -> Reading) -> String {
    judge(|bytes, room| Ok(wrong(bytes, room))).err().expect("a difference")
}

#[test]
fn same_reader_shows_no_difference() {
    let tally = judge(|bytes, room| Ok(own_reading(bytes, room))).expect("no difference");
    assert!(tally.weaknesses().is_empty(), "{tally}");
}

#[test]
fn nothing_tried_is_too_few() {
    assert_eq!(Tally::default().weaknesses(), Sort::ALL);
}

#[test]
fn byte_after_the_frame_is_found_and_shown() {
    let shown = difference(|bytes, room| {
        let read = own_reading(bytes, room);
        match bytes {
            [frame @ .., 0] if read.answer == 3 => own_reading(frame, room),
            _ => read,
        }
    });
    assert!(shown.starts_with("Trailing differs\nexported "), "{shown}");
    assert!(shown.contains("\nframe    010001010200010"), "{shown}");
}

#[test]
fn number_written_past_the_eighteenth_is_found() {
    let shown = difference(|bytes, room| {
        let mut read = own_reading(bytes, room);
        if let Some(after) = read.numbers.get_mut(18) {
            *after = 0;
        }
        read
    });
    assert!(shown.starts_with("Lawful differs\n"), "{shown}");
}

#[test]
fn room_for_17_numbers_is_not_enough() {
    let shown = difference(|bytes, room| own_reading(bytes, room.max(18)));
    assert!(shown.starts_with("Lawful differs\n"), "{shown}");
}
