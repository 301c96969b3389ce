//! Lawful frames: every n and data length, with numbers at the ends of their ranges and within.

use crate::frames::{self, Data, Frame, Request};
use crate::random::Random;
use std::ops::RangeInclusive;

type Choice = fn(&mut Random, RangeInclusive<u32>) -> u32;

const CHOICES: [Choice; 4] = [least, greatest, either_end, within];
const ANY: RangeInclusive<u32> = 0..=u32::MAX;
const NEXT: RangeInclusive<u32> = 1..=u32::MAX;
const BYTE: RangeInclusive<u32> = 0..=u8::MAX as u32;
const SHORT: RangeInclusive<u32> = 0..=u16::MAX as u32;

/// For each n and data length a data frame and a request of each choice of numbers.
pub fn frames(random: &mut Random) -> Vec<Vec<u8>> {
    let mut frames = Vec::new();
    for size in frames::GROUP_SIZES {
        for length in 0..=frames::MOST_DATA {
            let bytes: Vec<u8> = (0..length).map(|_| random.byte()).collect();
            for choice in CHOICES {
                let mut choose = |range| choice(random, range);
                frames.push(frames::write(&Frame::Data(data(&mut choose, size, &bytes))));
                frames.push(frames::write(&Frame::Request(request(&mut choose, size))));
            }
        }
    }
    frames
}

fn data<'a>(
    choose: &mut impl FnMut(RangeInclusive<u32>) -> u32,
    size: usize,
    data: &'a [u8],
) -> Data<'a> {
    Data {
        cid: choose(ANY),
        src: choose(BYTE) as u8,
        seq: choose(frames::SENDABLE),
        ack: (0..size).map(|_| choose(NEXT)).collect(),
        buf: choose(SHORT) as u16,
        data,
    }
}

fn request(choose: &mut impl FnMut(RangeInclusive<u32>) -> u32, size: usize) -> Request {
    Request {
        cid: choose(ANY),
        src: choose(BYTE) as u8,
        ack: (0..size).map(|_| choose(NEXT)).collect(),
        lsrc: choose(BYTE) as u8,
        lseq: choose(NEXT),
    }
}

fn least(_: &mut Random, range: RangeInclusive<u32>) -> u32 {
    *range.start()
}

fn greatest(_: &mut Random, range: RangeInclusive<u32>) -> u32 {
    *range.end()
}

fn either_end(random: &mut Random, range: RangeInclusive<u32>) -> u32 {
    if random.one_in(2) {
        *range.start()
    } else {
        *range.end()
    }
}

fn within(random: &mut Random, range: RangeInclusive<u32>) -> u32 {
    random.between(*range.start() as usize, *range.end() as usize) as u32
}
