//! Lines and scripts at the edges of the language and past them.

use super::{conversation, joined, steps_at_random, word};
use crate::random::Random;
use crate::script::{LONGEST_LINE, MOST_LATER_LINES};

const ODD_LINES: [&[u8]; 44] = [
    b"",
    b" ",
    b"S",
    b"S 1",
    b"S 1 ",
    b"S  1 p",
    b"S 1  p",
    b"S 1 p ",
    b" S 1 p",
    b"S 1 p q",
    b"s 1 p",
    b"S1 p",
    b"S 01 p",
    b"S 0 p",
    b"S 4 p",
    b"S +1 p",
    b"S -1 p",
    b"S 1 p\r",
    b"S 1 p\tq",
    b"S\t1\tp",
    b"S 1 \x7f",
    b"S 1 \xff",
    b"S 1 na\xc3\xafve",
    b"S 1 p\0",
    b"\0",
    b"A",
    b"A 1",
    b"A 1 0",
    b"A 1 01",
    b"A 1 1 1",
    b"A 1 99999999999",
    b"A 1 18446744073709551617",
    b"A 18446744073709551617 1",
    b"R 1",
    b"R 1 02",
    b"R 1 2 3",
    b"R 1 4294967298",
    b"R 1 18446744073709551618",
    b"T",
    b"T 01",
    b"T 1 1",
    b"T 1\r",
    b"X 1 1",
    b"# p",
];

const BAD_FIRST_LINES: [&[u8]; 20] = [
    b"",
    b"G",
    b"G 2",
    b"G 2 ",
    b"G 2 2 ",
    b" G 2 2",
    b"G  2 2",
    b"G 2 2 2",
    b"g 2 2",
    b"G 02 2",
    b"G 2 02",
    b"G 1 2",
    b"G 4 2",
    b"G 8 2",
    b"G 2 1",
    b"G 2 5",
    b"G 2 2\r",
    b"G 4294967298 2",
    b"G 2 18446744073709551618",
    b"S 1 p",
];

pub fn line(random: &mut Random) -> Vec<u8> {
    match random.below(8) {
        0 => long_line(random),
        1 => bytes_at_random(random),
        _ => random.pick(&ODD_LINES).unwrap_or_default().to_vec(),
    }
}

fn long_line(random: &mut Random) -> Vec<u8> {
    let length = match random.below(40) {
        0 => 70_000,
        1..8 => 4_096,
        _ => random.between(LONGEST_LINE - 1, LONGEST_LINE + 2),
    };
    let start = random.pick(&["S 1 ", "R 1 ", "A 1 ", "T "]).unwrap_or_default();
    let filling = if start.starts_with('S') { "w" } else { "7" };
    (start.to_owned() + &filling.repeat(length - start.len())).into_bytes()
}

fn bytes_at_random(random: &mut Random) -> Vec<u8> {
    let length = random.below(12);
    (0..length).map(|_| random.byte()).collect()
}

/// A lawful script with one to four faults.
pub fn spoiled(random: &mut Random) -> Vec<u8> {
    let mut lines = if random.one_in(2) { conversation(random) } else { steps_at_random(random) };
    let mut last_feed = true;
    for _ in 0..random.between(1, 4) {
        match random.below(12) {
            0 => lines[0] = random.pick(&BAD_FIRST_LINES).unwrap_or_default().to_vec(),
            1 => lines.truncate(random.below(3)),
            2 => extend_past_the_last_line(random, &mut lines),
            3 => last_feed = false,
            4 => lines.iter_mut().for_each(|line| line.push(b'\r')),
            5..8 => change_byte(random, &mut lines),
            _ => insert_line(random, &mut lines),
        }
        if lines.is_empty() {
            return Vec::new();
        }
    }
    let mut script = joined(&lines);
    script.truncate(script.len() - usize::from(!last_feed));
    script
}

fn extend_past_the_last_line(random: &mut Random, lines: &mut Vec<Vec<u8>>) {
    let length = MOST_LATER_LINES + random.between(0, 4);
    while lines.len() < length {
        lines.push(format!("S {} {}", random.between(1, 3), word(random, 2)).into_bytes());
    }
}

fn change_byte(random: &mut Random, lines: &mut [Vec<u8>]) {
    let changed = random.below(lines.len());
    let line = &mut lines[changed];
    if !line.is_empty() {
        let at = random.below(line.len());
        line[at] = random.byte();
    }
}

fn insert_line(random: &mut Random, lines: &mut Vec<Vec<u8>>) {
    let at = random.between(1, lines.len());
    lines.insert(at, line(random));
}
