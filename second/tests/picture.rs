//! What a picture is drawn from, and what stands in it.

use second::drawing::draw;
use second::script;
use second::trace::{Name, Trace};
use std::io::Write;
use std::process::{Command, Output, Stdio};

const TWO: &str = include_str!("../../examples/two.script");
const LOST: &str = include_str!("../../examples/lost.script");
const WRONG: &str = concat!(env!("CARGO_MANIFEST_DIR"), "/tests/programs/answers-18-for-17.sh");
const BENCH: &str = env!("CARGO_BIN_EXE_second");

fn trace(text: &str) -> Trace {
    let lines = script::read_lines(&mut text.as_bytes()).expect("read from memory");
    Trace::of(&lines).expect("a group")
}

fn names(pairs: &[(usize, u32)]) -> Vec<Name> {
    pairs.iter().map(|&(sender, number)| Name { sender, number }).collect()
}

#[test]
fn trace_tells_when_messages_move_on() {
    let steps = trace(TWO).steps;
    for (line, pre_acknowledged, confirmed) in [
        (5, &[][..], &[][..]),
        (6, &[(1, 1)], &[]),
        (8, &[(2, 1)], &[]),
        (10, &[(1, 2)], &[(1, 1)]),
        (12, &[(1, 2)], &[(1, 1)]),
        (13, &[(2, 2)], &[(2, 1)]),
        (14, &[], &[]),
        (16, &[(2, 2)], &[(2, 1)]),
    ] {
        let step = &steps[line - 2];
        assert_eq!(step.pre_acknowledged, names(pre_acknowledged), "line {line}");
        assert_eq!(step.confirmed, names(confirmed), "line {line}");
    }
}

#[test]
fn trace_knows_where_frames_were_written() {
    let frames = trace(LOST).frames;
    let written: Vec<_> = frames.iter().map(|frame| (frame.step + 2, frame.unit)).collect();
    assert_eq!(written[..5], [(2, 1), (4, 1), (7, 3), (11, 2), (14, 3)]);
}

#[test]
fn picture_has_a_dot_for_each_send_and_an_arrow_for_each_arrival() {
    let svg = draw(&trace(LOST));
    let legend_arrows = 3;
    assert_eq!(svg.matches("<circle").count(), 1 + LOST.matches("S ").count());
    assert_eq!(svg.matches("class=\"arrow\"").count(), legend_arrows + LOST.matches("A ").count());
    for text in ["9 gap", "ask for 1.1-2", "resend 1.1-2", "S 1 north-edge-2m"] {
        assert!(svg.contains(text), "{text}");
    }
}

#[test]
fn picture_of_odd_lines_stays_lawful() {
    let svg = draw(&trace("G 3 4\nS 1 <&>\nA 1 1\nA 2 9\nnonsense\nR 1 1\nT 2\nS 2 \u{e4}\n"));
    assert!(svg.contains("1.1 &lt;&amp;&gt;"));
    assert!(svg.contains("6 own frame"));
    assert!(svg.contains("5 not another cab"));
    assert!(svg.contains("18 nothing to take"));
    assert!(svg.is_ascii());
    assert_eq!(svg.matches("<svg").count(), svg.matches("</svg>").count());
    assert_eq!(svg.matches("<text").count(), svg.matches("</text>").count());
}

fn picture(words: &[&str], script: &str) -> Output {
    let mut child = Command::new(env!("CARGO_BIN_EXE_picture"))
        .args(words)
        .env("BENCH", BENCH)
        .stdin(Stdio::piped())
        .stdout(Stdio::piped())
        .stderr(Stdio::piped())
        .spawn()
        .expect("picture runs");
    let mut stdin = child.stdin.take().expect("piped");
    stdin.write_all(script.as_bytes()).expect("read by picture");
    drop(stdin);
    child.wait_with_output().expect("picture ends")
}

#[test]
fn picture_is_drawn_only_where_both_programs_agree() {
    let request_for_another = "G 3 2\nS 1 p\nS 1 q\nA 2 2\nR 2 1\nA 3 3\n";
    let agreeing = picture(&["--bench", BENCH], request_for_another);
    assert!(agreeing.status.success());
    assert_eq!(agreeing.stdout, picture(&[], request_for_another).stdout);
    let refused = picture(&["--bench", WRONG], request_for_another);
    assert_eq!(refused.status.code(), Some(1));
    assert!(refused.stdout.is_empty() && !refused.stderr.is_empty());
}

#[test]
fn no_group_gives_no_picture() {
    let refused = picture(&[], "G 9 9\n");
    assert_eq!(refused.status.code(), Some(1));
    assert!(refused.stdout.is_empty());
}
