//! The example scripts show what their names say.

use second::script::{self, Command, Outcome};
use std::fs;

/// Each later line of an example with its outcome.
fn played(name: &str) -> Vec<(String, Outcome)> {
    let path = format!("{}/../examples/{name}.script", env!("CARGO_MANIFEST_DIR"));
    let text = fs::read_to_string(path).expect("an example");
    let lines = script::read_lines(&mut text.as_bytes()).expect("read from memory");
    let outcomes = script::play(&lines).expect("a group").outcomes;
    text.lines().skip(1).map(str::to_owned).zip(outcomes).collect()
}

fn taken_by(unit: usize, steps: &[(String, Outcome)]) -> Vec<&str> {
    let word =
        |(line, outcome): &'_ (String, Outcome)| match (Command::read(line.as_bytes()), outcome) {
            (Some(Command::Take { unit: taker }), Outcome::Taken { .. }) => taker == unit,
            _ => false,
        };
    let words = steps.iter().filter(|step| word(step)).map(|(_, outcome)| match outcome {
        Outcome::Taken { word, .. } => word.as_str(),
        _ => "",
    });
    words.collect()
}

fn refusals(steps: &[(String, Outcome)]) -> Vec<(&str, u8)> {
    let answers = steps.iter().map(|(line, outcome)| (line.as_str(), outcome.answer()));
    answers
        .filter_map(|(line, answer)| Some((line, answer?)))
        .filter(|(_, answer)| *answer != 0)
        .collect()
}

#[test]
fn lost_frame_is_resent_and_everything_said_is_taken() {
    let steps = played("lost");
    assert_eq!(refusals(&steps), [("A 3 2", 9)]);
    assert_eq!(steps[6], ("A 1 3".to_owned(), Outcome::Resend { first: 1, last: 2 }));
    for unit in 1..=3 {
        assert_eq!(
            taken_by(unit, &steps),
            ["north-edge-2m", "gate-closed", "ditch-added", "corner-moved"]
        );
    }
}

#[test]
fn early_answer_waits_for_the_question() {
    let steps = played("early");
    assert_eq!(refusals(&steps), [("A 3 2", 10)]);
    assert_eq!(steps.iter().filter(|(line, _)| line == "A 3 2").count(), 2);
}

#[test]
fn window_shuts_until_the_other_cab_is_heard() {
    let shut = [("S 1 third-edit", 15), ("S 1 third-edit", 15), ("S 1 fifth-edit", 15)];
    assert_eq!(refusals(&played("window")), shut);
}

#[test]
fn two_cabs_take_what_they_said() {
    let steps = played("two");
    assert!(refusals(&steps).is_empty());
    for unit in 1..=2 {
        assert_eq!(taken_by(unit, &steps), ["north-edge-2m", "ditch-added"]);
    }
}
