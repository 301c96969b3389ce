//! The comparison of calls: it passes a program that agrees and stops at one that does not.

use second::calls;
use second::comparison::{judge, Tally};
use second::engine::Unit;
use second::replay::{Call, Record, Replay, Reply, REPLY_LENGTH};
use std::process::{Command, Output};

const SEED: u64 = 1;
const GROUPS: u64 = 140;

/// What the comparison says of the first group in which it finds a difference.
fn difference(wrong: impl Fn(&mut Replay, &Record) -> Reply) -> String {
    let find = |index| {
        let group = calls::group(SEED, index);
        let mut replay = Replay::default();
        let replies: Vec<u8> =
            group.records.iter().flat_map(|record| wrong(&mut replay, record).written()).collect();
        judge(&group, "WRONG", &replies, &mut Tally::default()).err()
    };
    (0..GROUPS).find_map(find).expect("a difference")
}

/// An engine with a mistake: what a call does to its unit is changed afterwards, the unit before it being known.
fn mistaken(change: impl Fn(&Unit, &Record, &mut Unit, &mut Reply)) -> String {
    difference(|replay, record| {
        let before = replay.units[record.slot()].clone();
        let mut reply = replay.carry_out(record);
        change(&before, record, &mut replay.units[record.slot()], &mut reply);
        reply
    })
}

#[test]
fn streams_repeat_with_their_seed() {
    for index in [0, 9, 77] {
        assert_eq!(calls::group(SEED, index).stream(), calls::group(SEED, index).stream());
        assert_ne!(calls::group(SEED, index).stream(), calls::group(SEED + 1, index).stream());
    }
}

#[test]
fn same_engine_shows_no_difference_and_everything_is_reached() {
    let mut tally = Tally::default();
    for index in 0..GROUPS {
        let group = calls::group(SEED, index);
        let replies = second::replay::run(&group.stream());
        judge(&group, "own", &replies, &mut tally).expect("no difference");
    }
    assert_eq!(tally.weaknesses(), Vec::<String>::new(), "{tally}");
}

#[test]
fn nothing_compared_is_too_weak() {
    let weaknesses = Tally::default().weaknesses();
    for goal in ["50000 calls", "DataArrival with answer 11", "4 complete groups of 8 units"] {
        assert!(weaknesses.iter().any(|weakness| weakness == goal), "{goal}");
    }
}

#[test]
fn missing_and_additional_replies_are_differences() {
    let group = calls::group(SEED, 0);
    let replies = second::replay::run(&group.stream());
    let said = |replies: &[u8]| judge(&group, "WRONG", replies, &mut Tally::default()).err();
    assert_eq!(said(&replies), None);
    let short = said(&replies[..replies.len() - 1]).expect("a difference");
    assert!(short.ends_with("\nWRONG gave no reply"), "{short}");
    let long = said(&[&replies[..], &[0]].concat());
    assert_eq!(long.as_deref(), Some("WRONG gave 1 bytes too many"));
    let mut marked = replies.clone();
    marked[REPLY_LENGTH + 14] = 1;
    let marked = said(&marked).expect("a difference");
    assert!(marked.contains("\nbytes 13 to 15: 000100\n"), "{marked}");
}

#[test]
fn byte_written_past_the_frame_is_found_and_shown() {
    let shown = mistaken(|_, record, _, reply| {
        if matches!(record.call(), Call::Copy(_)) && reply.answer == 0 {
            reply.output[reply.numbers[0] as usize] = 0;
        }
    });
    assert!(shown.contains(" copies out kept number "), "{shown}");
    assert!(shown.contains(": 00\n--- own engine\nanswer 0"), "{shown}");
    assert!(shown.ends_with(": a5\n"), "{shown}");
}

#[test]
fn heard_not_raised_by_full_places_is_found() {
    mistaken(|before, _, after, reply| {
        if reply.answer == 12 {
            after.heard = before.heard.clone();
        }
    });
}

#[test]
fn heard_raised_by_a_backward_message_is_found() {
    mistaken(|_, _, after, reply| {
        if reply.answer == 11 {
            after.heard[0] = after.heard[0].saturating_add(1);
        }
    });
}

#[test]
fn unsound_unit_that_changes_is_found() {
    let shown = mistaken(|_, record, after, reply| {
        if matches!(record.call(), Call::Take) && reply.answer == 1 {
            after.confirmed.pop_front();
        }
    });
    assert!(shown.contains("--- WRONG\nanswer "), "{shown}");
}

#[test]
fn message_lost_by_a_short_output_is_found() {
    mistaken(|_, record, after, reply| {
        if matches!(record.call(), Call::Take) && reply.answer == 16 {
            after.confirmed.pop_front();
        }
    });
}

#[test]
fn opening_that_leaves_messages_is_found() {
    mistaken(|before, record, after, reply| {
        if matches!(record.call(), Call::Open(_)) && reply.answer == 0 {
            after.confirmed = before.confirmed.clone();
        }
    });
}

#[test]
fn order_of_two_messages_is_found() {
    mistaken(|before, _, after, _| {
        let last_two = after.ordered.len().saturating_sub(2);
        if after.ordered.len() > before.ordered.len() {
            after.ordered[last_two..].sort_by_key(|message| message.sender);
        }
    });
}

fn compare_calls(words: &[&str]) -> Output {
    Command::new(env!("CARGO_BIN_EXE_compare_calls")).args(words).output().expect("it runs")
}

#[test]
fn failing_program_is_a_difference() {
    let output = compare_calls(&["false", "--groups", "3"]);
    let shown = String::from_utf8_lossy(&output.stdout);
    assert!(shown.contains(" of seed 1 differs, n = "), "{shown}");
    assert!(shown.contains("false: exit status: 1"), "{shown}");
    assert_eq!(output.status.code(), Some(1));
}

#[test]
fn program_that_gives_the_calls_back_differs_at_the_first_call() {
    let output = compare_calls(&["cat", "--groups", "1"]);
    let shown = String::from_utf8_lossy(&output.stdout);
    assert!(shown.contains("\ncall 1 of "), "{shown}");
    assert!(shown.contains("\n--- cat\nanswer 0, numbers "), "{shown}");
    assert_eq!(output.status.code(), Some(1));
}

#[test]
fn stream_of_a_group_is_written() {
    let output = compare_calls(&["--write", "12", "--seed", "4"]);
    assert_eq!(output.stdout, calls::group(4, 12).stream());
    assert_eq!(compare_calls(&[]).status.code(), Some(2));
}
