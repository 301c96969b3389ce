//! The bench language.

fn printed(script: &[u8]) -> String {
    second::script::run(script).expect("read from memory")
}

fn answers(script: &str) -> String {
    let printed = printed(script.as_bytes());
    let answer = |line: &str| line.split(' ').nth(1).unwrap_or_default().to_owned();
    printed.lines().skip(1).map(answer).collect::<Vec<_>>().join(" ")
}

#[test]
fn listing() {
    assert_eq!(
        printed(b"G 2 2\nS 1 p\nS 1 q\nS 1 r\nA 2 2\nA 2 1\n"),
        "group 2 2\n2 0\n3 0\n4 15\n5 9\n6 0\n"
    );
}

#[test]
fn two_units_take_what_both_know() {
    assert_eq!(
        printed(
            b"G 2 2\nS 1 a\nA 2 1\nS 2 b\nA 1 2\nS 1 c\nA 2 3\nS 2 d\nA 1 4\nS 1 e\nT 1\nT 1\n\
              A 2 5\nS 2 g\nT 2\nT 2\nT 2\n"
        ),
        "group 2 2\n2 0\n3 0\n4 0\n5 0\n6 0\n7 0\n8 0\n9 0\n10 0\n11 0 1 1 a\n12 18\n\
         13 0\n14 0\n15 0 1 1 a\n16 0 2 1 b\n17 18\n"
    );
}

#[test]
fn lost_frame_is_asked_for_and_arrives_again() {
    let script = "G 3 2\nS 1 p\nS 1 q\nA 2 1\nA 2 2\nA 3 2\nR 3 1\nA 1 3\nA 2 3\nA 3 3\nA 3 1\nA 3 2\nA 3 2\nR 3 1\n";
    assert_eq!(answers(script), "0 0 0 0 9 0 0 17 6 0 0 8 18");
}

#[test]
fn requests_count_as_frames_and_refusals_do_not() {
    let script = "G 2 2\nS 1 p\nS 1 q\nS 1 r\nA 2 3\nA 2 2\nR 2 1\nA 1 3\nA 1 4\n";
    assert_eq!(answers(script), "0 0 15 ? 9 0 0 ?");
}

#[test]
fn first_line_out_of_range_or_unreadable_ends_the_run() {
    for first in [
        "",
        "\n",
        "G 1 2\n",
        "G 4 2\n",
        "G 2 1\n",
        "G 2 5\n",
        "G 02 2\n",
        "G 2  2\n",
        " G 2 2\n",
        "G 2 2 \n",
        "G 2\n",
        "G 2 2 2\n",
        "g 2 2\n",
        "G 2 2\r\n",
        "G 2 +2\n",
        "S 1 p\n",
        "G 99999999999999999999999999 2\n",
        "\nG 2 2\n",
    ] {
        assert_eq!(printed(format!("{first}S 1 p\n").as_bytes()), "group ?\n", "{first:?}");
    }
}

#[test]
fn first_line_needs_no_line_feed() {
    assert_eq!(printed(b"G 3 4"), "group 3 4\n");
    assert_eq!(printed(b""), "group ?\n");
}

#[test]
fn unreadable_lines_print_a_question_mark() {
    for line in [
        "",
        " ",
        "S 1 ",
        "S 1",
        "S  1 p",
        "S 1 p ",
        "S 1 p q",
        " S 1 p",
        "s 1 p",
        "S 01 p",
        "S x p",
        "S -1 p",
        "T",
        "T 1 1",
        "T 1\r",
        "A 1",
        "A 1 x",
        "A 1 01",
        "R 1",
        "R 1 02",
        "R 1 2 3",
        "X 1 1",
        "S 1 p\tq",
        "S 0 p",
        "S 3 p",
        "T 0",
        "T 99999999999999999999999999",
        "A 1 0",
        "A 1 1",
        "A 1 99999999999",
        "A 3 1",
        "R 0 1",
        "R 3 1",
        "G 2 2",
    ] {
        assert_eq!(answers(&format!("G 2 2\n{line}\n")), "?", "{line:?}");
    }
    assert_eq!(printed(b"G 2 2\nS 1 \xc3\xa4\n"), "group 2 2\n2 ?\n");
    assert_eq!(printed(b"G 2 2\nS 1 \x7f\n"), "group 2 2\n2 ?\n");
}

#[test]
fn request_for_no_unit_is_refused() {
    assert_eq!(answers("G 2 2\nR 1 0\nR 1 1\nR 1 3\nR 1 99999999999\nR 1 2\n"), "5 5 5 5 18");
}

#[test]
fn words_and_lines_have_their_longest() {
    let line = |length: usize| format!("S 1 {}\n", "w".repeat(length));
    let script = format!("G 2 2\n{}{}{}{}", line(48), line(49), line(76), line(77));
    assert_eq!(answers(&script), "0 13 13 ?");
    assert_eq!(answers(script.trim_end()), "0 13 13 ?");
    let huge = format!("G 2 2\n{}{}", line(100_000), line(1));
    assert_eq!(answers(&huge), "? 0");
}

#[test]
fn only_64_later_lines_are_read() {
    let script = format!("G 2 2\n{}", "T 1\n".repeat(70));
    assert_eq!(answers(&script), ["18"; 64].join(" "));
    assert!(printed(script.as_bytes()).ends_with("\n65 18\n"));
}

#[test]
fn last_line_needs_no_line_feed() {
    assert_eq!(answers("G 2 2\nS 1 p\nA 2 1"), "0 0");
}
