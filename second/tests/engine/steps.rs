//! The steps of one unit: answers, their order, and what each leaves behind.

use crate::common::{answer, arrive, data, data_with_buf, opened, request, send, CID};
use second::engine::{Arrival, Refusal, Taken, Unit};
use second::frames::{self, Data, Frame};

const LAST: u32 = u32::MAX;

fn refuses(unit: &mut Unit, frame: &[u8], expected: u8) {
    let before = unit.clone();
    assert_eq!(arrive(unit, frame), expected);
    assert_eq!(*unit, before);
}

#[test]
fn opening_outside_its_ranges_closes_the_unit() {
    for (own, size, window, firsts) in [
        (0, 2, 2, &[1, 1][..]),
        (3, 2, 2, &[1, 1]),
        (1, 9, 2, &[1; 9]),
        (1, 2, 1, &[1, 1]),
        (1, 2, 2, &[1, 0]),
        (1, 2, 2, &[1, 1, 1]),
    ] {
        let mut unit = opened(1, 2, &[1, 1]);
        assert_eq!(unit.open(own, size, window, CID, firsts), Err(Refusal::OutsideRanges));
        assert_eq!(unit, Unit::closed());
    }
}

#[test]
fn opening_takes_the_ends_of_its_ranges() {
    for (own, window, firsts) in [(8, 4, &[LAST; 8][..]), (1, 2, &[1, 1])] {
        let unit = opened(own, window, firsts);
        assert!(unit.is_sound());
        assert_eq!(unit.buf, vec![(4 * window * firsts.len()) as u16; firsts.len()]);
    }
}

#[test]
fn send_is_written_kept_and_accepted() {
    let mut unit = opened(2, 2, &[5, 9]);
    let mut output = [77; 120];
    let length = unit.send(b"word", &mut output).expect("sent");
    let written = Data { cid: CID, src: 2, seq: 9, ack: vec![5, 9], buf: 16, data: b"word" };
    assert_eq!(output[..length], frames::write(&Frame::Data(written)));
    assert_eq!(output[length..], [77; 120][length..]);
    assert_eq!((unit.seq, &unit.req[..], &unit.heard[..]), (10, &[5, 10][..], &[5, 10][..]));
    assert_eq!((unit.places_taken_by(2), unit.kept.len()), (1, 1));
    assert_eq!(unit.al, [[5, 5], [9, 9]]);
}

#[test]
fn buf_counts_free_places_just_before_the_send() {
    let mut unit = opened(1, 2, &[1, 1]);
    assert_eq!(arrive(&mut unit, &data(2, 1, &[1, 1])), 0);
    assert_eq!(send(&mut unit), 0);
    assert_eq!(send(&mut unit), 0);
    assert_eq!(unit.buf, [14, 16]);
}

#[test]
fn send_refusals_stand_in_order() {
    let mut unit = opened(1, 2, &[LAST, 1]);
    assert_eq!(answer(unit.send(&[0; 49], &mut [])), 13);
    assert_eq!(answer(unit.send(&[0; 48], &mut [])), 14);
    let mut unit = opened(1, 2, &[1, 1]);
    let before = unit.clone();
    let mut output = [5; 92];
    assert_eq!(answer(unit.send(&[0; 48], &mut output)), 16);
    assert_eq!((&unit, output), (&before, [5; 92]));
    assert_eq!((send(&mut unit), send(&mut unit)), (0, 0));
    assert_eq!(answer(unit.send(&[], &mut [])), 15);
}

#[test]
fn window_sum_passes_32_bits() {
    let mut unit = opened(1, 4, &[LAST - 2, 1]);
    assert_eq!([send(&mut unit), send(&mut unit), send(&mut unit)], [0, 0, 14]);
}

#[test]
fn window_follows_the_least_buf() {
    let mut unit = opened(1, 2, &[1, 1]);
    assert_eq!(arrive(&mut unit, &data_with_buf(2, 1, &[1, 1], 1)), 0);
    assert_eq!(send(&mut unit), 15);
    assert_eq!(arrive(&mut unit, &data_with_buf(2, 2, &[1, 2], 2)), 0);
    assert_eq!([send(&mut unit), send(&mut unit)], [0, 15]);
}

#[test]
fn own_places_run_out() {
    let mut unit = opened(1, 4, &[1, 1]);
    let mut own_sends = 0;
    for (seq, burst) in (1..).zip([4; 4]) {
        for _ in 0..burst {
            assert_eq!(send(&mut unit), 0);
        }
        own_sends += burst;
        assert_eq!(send(&mut unit), 15);
        assert_eq!(arrive(&mut unit, &data_with_buf(2, seq, &[own_sends + 1, seq], 32)), 0);
    }
    assert_eq!(unit.places_taken_by(1), 16);
    let before = unit.clone();
    assert_eq!(answer(unit.send(b"", &mut [])), 12);
    assert_eq!(unit, before);
}

#[test]
fn places_of_another_sender_run_out() {
    let mut unit = opened(1, 2, &[1, 1]);
    for seq in 1..=8 {
        assert_eq!(arrive(&mut unit, &data(2, seq, &[1, seq])), 0);
    }
    let mut expected = unit.clone();
    expected.heard[1] = 10;
    assert_eq!(arrive(&mut unit, &data(2, 9, &[1, 9])), 12);
    assert_eq!(unit, expected);
}

#[test]
fn data_refusals_stand_in_order() {
    let mut unit = opened(1, 2, &[1, 3, 5]);
    let foreign = Data { cid: 8, src: 1, seq: 1, ack: vec![9, 9], buf: 99, data: b"" };
    refuses(&mut unit, &frames::write(&Frame::Data(foreign)), 4);
    refuses(&mut unit, &data_with_buf(1, 9, &[9, 9], 99), 5);
    refuses(&mut unit, &data_with_buf(0, 9, &[9, 9, 9], 99), 5);
    refuses(&mut unit, &data_with_buf(4, 9, &[9, 9, 9], 99), 5);
    refuses(&mut unit, &data_with_buf(1, 9, &[9, 9, 9], 99), 6);
    refuses(&mut unit, &data(2, 3, &[2, 3, 5]), 7);
    refuses(&mut unit, &data(2, 3, &[1, 2, 5]), 7);
    refuses(&mut unit, &data_with_buf(2, 3, &[1, 3, 5], 25), 7);
    refuses(&mut unit, &data(2, 2, &[1, 2, 9]), 8);
    refuses(&mut unit, &data(2, 3, &[1, 3, 4]), 11);
}

#[test]
fn backward_acknowledgement_goes_before_full_places() {
    let mut unit = opened(1, 2, &[1, 1]);
    assert_eq!(send(&mut unit), 0);
    for seq in 1..=8 {
        assert_eq!(arrive(&mut unit, &data(2, seq, &[2, seq])), 0);
    }
    refuses(&mut unit, &data(2, 9, &[1, 9]), 11);
}

#[test]
fn refusals_that_tell_of_missing_numbers_change_heard_alone() {
    let mut unit = opened(1, 2, &[1, 1, 1]);
    let mut expected = unit.clone();
    expected.heard = vec![1, 4, 6];
    assert_eq!(arrive(&mut unit, &data(2, 3, &[1, 3, 6])), 9);
    assert_eq!(unit, expected);
    expected.heard = vec![1, 4, 7];
    assert_eq!(arrive(&mut unit, &data(2, 1, &[1, 1, 7])), 10);
    assert_eq!(unit, expected);
    assert_eq!(arrive(&mut unit, &data(2, 2, &[1, 2, 2])), 9);
    assert_eq!(unit, expected);
}

#[test]
fn request_names_what_is_missing() {
    let mut unit = opened(1, 2, &[1, 1]);
    assert_eq!(answer(unit.request(1, &mut [])), 5);
    assert_eq!(answer(unit.request(0, &mut [])), 5);
    assert_eq!(answer(unit.request(3, &mut [])), 5);
    assert_eq!(answer(unit.request(2, &mut [])), 18);
    assert_eq!(arrive(&mut unit, &data(2, 3, &[1, 3])), 9);
    let mut output = [9; 42];
    assert_eq!(answer(unit.request(2, &mut output[..40])), 16);
    assert_eq!(output, [9; 42]);
    assert_eq!(unit.request(2, &mut output), Ok(41));
    assert_eq!(output[..41], request(1, &[1, 1], 2, 4));
    assert_eq!(output[41], 9);
}

#[test]
fn request_refusals_stand_in_order() {
    let mut unit = opened(1, 2, &[1, 1, 1]);
    assert_eq!(send(&mut unit), 0);
    refuses(&mut unit, &request(1, &[1, 1], 2, 9), 5);
    refuses(&mut unit, &request(1, &[1, 1, 1], 1, 9), 5);
    refuses(&mut unit, &request(2, &[1, 1, 1], 2, 9), 5);
    refuses(&mut unit, &request(1, &[1, 1, 1], 4, 9), 5);
    refuses(&mut unit, &request(2, &[1, 1, 1], 0, 9), 5);
    refuses(&mut unit, &request(1, &[1, 1, 1], 2, 9), 6);
    refuses(&mut unit, &request(2, &[9, 1, 1], 3, 9), 17);
    refuses(&mut unit, &request(2, &[3, 1, 1], 1, 9), 7);
    refuses(&mut unit, &request(2, &[1, 1, 1], 1, 3), 7);
    refuses(&mut unit, &request(2, &[2, 1, 1], 1, 2), 7);
    let range = unit.arrive(&request(2, &[1, 1, 1], 1, 2));
    assert_eq!(range, Ok(Arrival::Resend { first: 1, last: 1 }));
}

#[test]
fn frames_known_everywhere_are_not_kept() {
    let mut unit = opened(1, 4, &[1, 1, 1]);
    let sent: Vec<Vec<u8>> = (0..3)
        .map(|_| {
            let mut output = [0; 117];
            let length = unit.send(b"as first sent", &mut output).expect("sent");
            output[..length].to_vec()
        })
        .collect();
    assert_eq!(arrive(&mut unit, &data(2, 1, &[4, 1, 1])), 0);
    assert_eq!(unit.kept.len(), 3);
    assert_eq!(arrive(&mut unit, &data(3, 1, &[2, 1, 1])), 0);
    let mut output = [3; 117];
    assert_eq!(answer(unit.copy_kept(1, &mut output)), 18);
    assert_eq!(answer(unit.copy_kept(4, &mut output)), 18);
    assert_eq!(answer(unit.copy_kept(2, &mut output[..61])), 16);
    assert_eq!(output, [3; 117]);
    for number in [2, 3] {
        let length = unit.copy_kept(number, &mut output).expect("kept");
        assert_eq!(output[..length], sent[number as usize - 1]);
    }
    refuses(&mut unit, &request(2, &[1, 1, 1], 1, 2), 18);
}

#[test]
fn take_gives_the_oldest_confirmed_and_frees_its_place() {
    let mut unit = opened(1, 2, &[1, 1]);
    assert_eq!(answer(unit.take(&mut [])), 18);
    assert_eq!(answer(unit.send(b"taxi", &mut [0; 117])), 0);
    assert_eq!(arrive(&mut unit, &data(2, 1, &[2, 1])), 0);
    assert_eq!(send(&mut unit), 0);
    assert_eq!(arrive(&mut unit, &data(2, 2, &[3, 2])), 0);
    assert_eq!(answer(unit.take(&mut [])), 18);
    assert_eq!(send(&mut unit), 0);
    assert_eq!(answer(unit.take(&mut [0; 3])), 16);
    assert_eq!(unit.places_taken_by(1), 3);
    let mut output = [1; 6];
    assert_eq!(unit.take(&mut output), Ok(Taken { sender: 1, number: 1, length: 4 }));
    assert_eq!(&output, b"taxi\x01\x01");
    assert_eq!(unit.places_taken_by(1), 2);
    assert_eq!(answer(unit.take(&mut output)), 18);
}

#[test]
fn concurrent_message_goes_after_what_it_does_not_precede() {
    let mut unit = opened(1, 4, &[1, 1, 1]);
    let frames = [
        data(3, 1, &[1, 1, 1]),
        data(2, 1, &[1, 1, 1]),
        data(3, 2, &[1, 2, 2]),
        data(2, 2, &[1, 2, 2]),
    ];
    for frame in &frames {
        assert_eq!(arrive(&mut unit, frame), 0);
    }
    assert!(unit.ordered.is_empty());
    assert_eq!(send(&mut unit), 0);
    let order: Vec<_> = unit.ordered.iter().map(|message| (message.sender, message.seq)).collect();
    assert_eq!(order, [(2, 1), (3, 1)]);
}
