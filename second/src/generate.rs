//! Random scripts: conversations that get messages taken, steps at random, and nonsense.

mod conversation;
mod nonsense;

use crate::random::Random;
use crate::script::{LONGEST_LINE, MOST_LATER_LINES};
use conversation::Conversation;

/// The script of one index under a seed.
pub fn script(seed: u64, index: u64) -> Vec<u8> {
    let random = &mut Random::new(seed, index);
    match random.below(20) {
        0..12 => joined(&conversation(random)),
        12..14 => joined(&hoarding(random)),
        14..16 => joined(&steps_at_random(random)),
        _ => nonsense::spoiled(random),
    }
}

fn conversation(random: &mut Random) -> Vec<Vec<u8>> {
    let size = random.between(2, 3);
    let window = random.between(2, 4);
    let trouble = if size == 2 { random.below(50) } else { random.below(25) };
    let haste = random.between(3, 8);
    let length = random.between(12 * size + 20, MOST_LATER_LINES);
    Conversation::new(random, size, window).with_trouble(trouble).with_haste(haste).lines(length)
}

/// One unit talks, and some units never take what is confirmed, so that places run out.
fn hoarding(random: &mut Random) -> Vec<Vec<u8>> {
    let size = if random.one_in(5) { 3 } else { 2 };
    let window = random.between(2, 4);
    let talker = random.below(size);
    let hoarders = (0..size).map(|_| random.one_in(2)).collect();
    Conversation::new(random, size, window)
        .with_trouble(3)
        .with_talker(talker)
        .with_hoarders(hoarders)
        .lines(MOST_LATER_LINES)
}

fn steps_at_random(random: &mut Random) -> Vec<Vec<u8>> {
    let size = random.between(2, 3);
    let window = random.between(2, 4);
    let length = random.between(0, MOST_LATER_LINES);
    Conversation::new(random, size, window).with_trouble(100).lines(length)
}

fn joined(lines: &[Vec<u8>]) -> Vec<u8> {
    lines.iter().flat_map(|line| line.iter().copied().chain([b'\n'])).collect()
}

fn word(random: &mut Random, length: usize) -> String {
    (0..length).map(|_| random.between(33, 126) as u8 as char).collect()
}

fn word_past_the_data_limit(random: &mut Random) -> String {
    let length = random.between(49, LONGEST_LINE - "S 1 ".len());
    word(random, length)
}
