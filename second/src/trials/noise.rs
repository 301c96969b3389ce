//! Bytes that nobody wrote as a frame.

use crate::random::Random;

pub const COUNT: usize = 20_000;
const LONG_COUNT: usize = 400;
const LONGEST: usize = 65_535;
const LONGEST_OF_MOST: usize = 130;
const START: [u8; 11] = [1, 0, 1, 1, 2, 0, 1, 1, 3, 0, 4];
const KIND_AT: usize = 7;

/// Bytes at random, bytes of the values that headers have, or the start of a frame before such bytes.
pub fn bytes(random: &mut Random, index: usize) -> Vec<u8> {
    let length = length(random, index);
    let style = random.below(3);
    let mut bytes: Vec<u8> = (0..length)
        .map(|_| if style == 0 { random.byte() } else { random.below(11) as u8 })
        .collect();
    if style == 2 && length >= START.len() {
        bytes[..START.len()].copy_from_slice(&START);
        bytes[KIND_AT] = random.between(1, 2) as u8;
    }
    bytes
}

fn length(random: &mut Random, index: usize) -> usize {
    match index {
        0 => 0,
        1 => LONGEST,
        2..LONG_COUNT => random.between(0, LONGEST),
        _ => random.between(0, LONGEST_OF_MOST),
    }
}
