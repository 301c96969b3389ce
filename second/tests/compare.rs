//! The comparison of scripts: it passes a program that agrees and stops at one that does not.

use std::process::{Command, Output};

const BENCH: &str = env!("CARGO_BIN_EXE_second");
const WRONG: &str = concat!(env!("CARGO_MANIFEST_DIR"), "/tests/programs/answers-18-for-17.sh");

fn compare(program: &str, scripts: &str) -> Output {
    Command::new(env!("CARGO_BIN_EXE_compare"))
        .env("BENCH", BENCH)
        .args([program, "--scripts", scripts, "--seed", "5"])
        .output()
        .expect("compare runs")
}

fn printed(output: &Output) -> String {
    String::from_utf8_lossy(&output.stdout).into_owned()
}

#[test]
fn same_engine_shows_no_difference() {
    let output = compare(BENCH, "3000");
    assert!(printed(&output).starts_with("3000 scripts of seed 5: no difference\n"));
    assert!(output.status.success(), "{}", printed(&output));
}

#[test]
fn few_scripts_are_too_weak() {
    let output = compare(BENCH, "10");
    assert!(printed(&output).contains("too weak: not reached: 1000 complete scripts"));
    assert_eq!(output.status.code(), Some(1));
}

#[test]
fn rare_difference_is_found_and_shown() {
    let output = compare(WRONG, "1000");
    let shown = printed(&output);
    assert_eq!(output.status.code(), Some(1));
    assert!(shown.contains(" differs\n--- script\nG "), "{shown}");
    assert!(shown.contains(" 18\n") && shown.contains(" 17\n"), "{shown}");
}

#[test]
fn failing_program_is_a_difference() {
    let output = compare("false", "10");
    assert!(printed(&output).contains("false: exit status: 1"));
    assert_eq!(output.status.code(), Some(1));
}
