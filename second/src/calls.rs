//! Streams of calls, one for each group, chosen beside a running engine.
//!
//! Where the rules do not say what comes out, nothing is asked: which own frames are kept after AL of the own row was
//! set, what stands behind the data of a message, the order of waiting messages of different senders, places past 4W
//! after W was lowered, what a unit past n had before n was raised, BUF over 65,535.

mod broken;
mod caller;
mod forged;
mod manner;
mod odd;
mod opening;
mod useful;

use crate::random::Random;
use crate::replay::{Record, RECORD_LENGTH};
use caller::Caller;
use manner::Manner;

/// The calls of one group, and bytes after them that make no whole record.
pub struct Group {
    pub size: usize,
    pub window: usize,
    pub records: Vec<Record>,
    tail: Vec<u8>,
}

impl Group {
    pub fn stream(&self) -> Vec<u8> {
        let records = self.records.iter().flat_map(Record::written);
        records.chain(self.tail.iter().copied()).collect()
    }
}

/// The group of one index under a seed; every size meets every manner.
pub fn group(seed: u64, index: u64) -> Group {
    let mut random = Random::new(seed, index);
    let size = 2 + (index % 7) as usize;
    let window = random.between(2, 4);
    let manner = Manner::of(index / 7, size, &mut random);
    let episodes = manner.episodes;
    let mut caller = Caller::new(random, size, window, manner);
    for _ in 0..episodes {
        caller.episode();
    }
    let tail_length = caller.random.below(RECORD_LENGTH);
    let tail = caller.some_bytes(tail_length);
    Group { size, window, records: caller.records, tail }
}
