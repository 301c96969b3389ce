//! Bytes to try frame readers on: lawful frames, each damaged in one place, and noise.

pub(crate) mod damage;
mod lawful;
pub(crate) mod noise;

use crate::random::Random;

const SEED: u64 = 1;
const DAMAGED_EACH: usize = 3;

#[derive(Clone, Copy, Debug, PartialEq, Eq, PartialOrd, Ord)]
pub enum Sort {
    Lawful,
    Tag,
    Length,
    Order,
    Missing,
    Repeated,
    Trailing,
    Cut,
    Content,
    Noise,
}

impl Sort {
    pub const ALL: [Sort; 10] = [
        Sort::Lawful,
        Sort::Tag,
        Sort::Length,
        Sort::Order,
        Sort::Missing,
        Sort::Repeated,
        Sort::Trailing,
        Sort::Cut,
        Sort::Content,
        Sort::Noise,
    ];
}

/// Hands over every trial, the same ones and in the same order at each call, up to the first error.
pub fn each<E>(mut attempt: impl FnMut(Sort, &[u8]) -> Result<(), E>) -> Result<(), E> {
    let random = &mut Random::new(SEED, 0);
    for frame in lawful::frames(random) {
        attempt(Sort::Lawful, &frame)?;
        for (sort, damaged) in damage::all(&frame, random) {
            for _ in 0..DAMAGED_EACH {
                attempt(sort, &damaged[random.below(damaged.len())])?;
            }
        }
    }
    for index in 0..noise::COUNT {
        attempt(Sort::Noise, &noise::bytes(random, index))?;
    }
    Ok(())
}
