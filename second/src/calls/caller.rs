//! The caller: makes calls, and knows the frames that are on their way.

use super::Manner;
use crate::engine::Unit;
use crate::frames::{self, Frame};
use crate::random::Random;
use crate::replay::{Call, Record, Replay, Reply, MOST_BYTES, UNITS};
use std::collections::VecDeque;

const MOST_IDLE: usize = 60;

/// Member k of the group is the unit at k - 1; where there are fewer than eight, the last unit is a stranger.
pub struct Caller {
    pub random: Random,
    pub replay: Replay,
    pub records: Vec<Record>,
    pub size: usize,
    pub window: usize,
    pub manner: Manner,
    /// The frames on their way to each member.
    pub inboxes: Vec<VecDeque<Vec<u8>>>,
    pub written: Vec<Vec<u8>>,
    /// How many clauses of soundness were broken so far.
    pub broken: usize,
    /// How often there was nothing to carry on with since the group was opened.
    pub idle: usize,
}

impl Caller {
    pub fn new(mut random: Random, size: usize, window: usize, manner: Manner) -> Caller {
        let broken = random.below(1_000);
        Caller {
            random,
            replay: Replay::default(),
            records: Vec::new(),
            size,
            window,
            manner,
            inboxes: vec![VecDeque::new(); size],
            written: Vec::new(),
            broken,
            idle: 0,
        }
    }

    /// Opens the group and makes so many calls, or a few more.
    pub fn episode(&mut self) {
        self.inboxes = vec![VecDeque::new(); self.size];
        self.written.clear();
        self.idle = 0;
        self.open_all();
        let end = self.records.len() + self.manner.calls;
        while self.records.len() < end && self.idle < MOST_IDLE {
            self.step();
        }
        if self.manner.broken > 0 {
            self.give_places_away();
        }
    }

    fn step(&mut self) {
        let Manner { aimless, forged, spoiled, broken, odd, .. } = self.manner;
        let mut rest = self.random.below(100);
        let mut is = |weight: usize| {
            let chosen = rest < weight;
            rest = rest.wrapping_sub(weight);
            chosen
        };
        if is(aimless) {
            self.aimless();
        } else if is(forged) {
            self.forged();
        } else if is(spoiled) {
            self.spoiled();
        } else if is(broken) {
            self.break_and_mend();
        } else if is(odd) {
            self.make_odd();
        } else {
            self.useful();
        }
    }

    /// Makes the call, and sends a frame that it wrote on its way.
    pub fn call(&mut self, slot: usize, call: &Call, room: usize) -> Reply {
        let mut record = self.any_record(slot);
        record.room = room.min(u8::MAX.into()) as u8;
        call.put_in(&mut record);
        self.make(record)
    }

    pub fn make(&mut self, record: Record) -> Reply {
        let reply = self.replay.carry_out(&record);
        let length = match record.call() {
            Call::Send(_) => reply.numbers[1],
            Call::Request(_) => reply.numbers[0],
            _ => 0,
        };
        if length > 0 {
            self.spread(record.slot(), &reply.output[..length as usize]);
        }
        self.records.push(record);
        reply
    }

    /// A record for a unit that is random but for that.
    pub fn any_record(&mut self, slot: usize) -> Record {
        let mut bytes = [0; MOST_BYTES];
        for chunk in bytes.chunks_mut(8) {
            chunk.copy_from_slice(&self.random.number().to_be_bytes());
        }
        Record {
            number: 0,
            unit: (slot + UNITS * self.random.below(32)) as u8,
            x: self.random.number() as u32,
            room: self.random.byte(),
            count: self.random.byte(),
            bytes,
        }
    }

    fn spread(&mut self, from: usize, frame: &[u8]) {
        self.written.push(frame.to_vec());
        let asked = match frames::read(frame) {
            Some(Frame::Request(request)) => Some(usize::from(request.lsrc) - 1),
            _ => None,
        };
        for to in 0..self.size {
            let is_meant = asked.map_or(to != from, |asked| to == asked);
            let strays = self.random.one_in(25);
            let is_lost = self.random.below(100) < self.manner.loss;
            if is_meant && !is_lost || strays {
                self.inboxes[to].push_back(frame.to_vec());
            }
        }
    }

    pub fn unit(&self, slot: usize) -> &Unit {
        &self.replay.units[slot]
    }

    pub fn sound_members(&self) -> Vec<usize> {
        (0..self.size).filter(|&slot| self.unit(slot).is_sound()).collect()
    }

    /// A sound member, mostly the first where it is alone.
    pub fn some_sound_member(&mut self) -> Option<usize> {
        let members = self.sound_members();
        let first = members.first().copied().filter(|_| self.manner.alone);
        if self.random.one_in(6) { None } else { first }.or_else(|| self.random.pick(&members))
    }

    /// A room that is one byte too short, exactly right or longer.
    pub fn room_for(&mut self, length: usize) -> usize {
        match self.random.below(24) {
            0 => length.saturating_sub(1),
            1 => self.random.below(length + 1),
            2..14 => length,
            _ => self.random.between(length, u8::MAX.into()),
        }
    }

    /// Another number near a "next" one, and sometimes a far one; never 0.
    pub fn near(&mut self, number: u32) -> u32 {
        let other = match self.random.below(10) {
            0 => self.random.number() as u32,
            1 => u32::MAX - self.random.below(3) as u32,
            2..6 => number.saturating_add(self.random.between(1, 5) as u32),
            _ => number.saturating_sub(self.random.between(1, 5) as u32),
        };
        other.max(1)
    }

    pub fn some_bytes(&mut self, length: usize) -> Vec<u8> {
        (0..length).map(|_| self.random.byte()).collect()
    }
}
