//! Steps that carry a conversation on, and calls without regard to use.

use super::caller::Caller;
use crate::engine::Unit;
use crate::frames::{self, Frame, MOST_DATA, SENDABLE};
use crate::replay::{Call, UNITS};

/// Each step tells whether there was anything to do.
impl Caller {
    pub fn useful(&mut self) {
        let in_haste = self.random.one_in(self.manner.haste);
        let done = self.random.one_in(3) && self.take()
            || self.random.one_in(3) && self.ask()
            || in_haste && self.send()
            || self.deliver()
            || self.send()
            || self.take()
            || self.remind();
        if !done {
            self.idle += 1;
            self.aimless();
        }
    }

    fn take(&mut self) -> bool {
        let is_ready = |&slot: &usize| !self.unit(slot).confirmed.is_empty() && !self.hoards(slot);
        let ready: Vec<usize> = self.sound_members().into_iter().filter(is_ready).collect();
        let Some(slot) = self.random.pick(&ready) else { return false };
        let length = self.unit(slot).confirmed.front().map_or(0, |message| message.data.len());
        let room = self.room_for(length);
        self.call(slot, &Call::Take, room);
        true
    }

    fn hoards(&self, slot: usize) -> bool {
        self.manner.hoarding && slot.is_multiple_of(2)
    }

    /// Asks for what is known to be missing, mostly where no frame is on its way.
    fn ask(&mut self) -> bool {
        let mut missing = Vec::new();
        let patient = !self.random.one_in(12);
        for slot in self.sound_members() {
            let unit = self.unit(slot);
            if patient && !self.inboxes[slot].is_empty() {
                continue;
            }
            let lacks = |&k: &usize| k != unit.own && unit.heard[k - 1] > unit.req[k - 1];
            missing.extend((1..=unit.size).filter(lacks).map(|k| (slot, k)));
        }
        let Some((slot, k)) = self.random.pick(&missing) else { return false };
        let room = self.room_for(33 + 4 * self.unit(slot).size);
        self.call(slot, &Call::Request(k as u8), room);
        true
    }

    /// Of the units that may send, mostly one that keeps least; seldom one that may not. A unit waits with the last
    /// number of its window until it has heard what is on its way: where all are hasty, all windows stay shut.
    fn send(&mut self) -> bool {
        let dares = self.random.one_in(8);
        let mut ready = self.sound_members();
        ready.retain(|&slot| may_send(self.unit(slot)) != dares);
        if !dares {
            let is_patient = |unit: &Unit| unit.kept.len() + 1 >= unit.window;
            ready.retain(|&slot| self.inboxes[slot].is_empty() || !is_patient(self.unit(slot)));
        }
        let quietest = ready.iter().copied().min_by_key(|&slot| self.unit(slot).kept.len());
        let talks = self.manner.hoarding || self.manner.alone;
        let talker = ready.first().copied().filter(|&slot| slot == 0 && talks);
        let any = if self.random.one_in(3) { self.random.pick(&ready) } else { None };
        let chosen = talker.or(any).or(quietest);
        let Some(slot) = chosen else { return false };
        let length = match self.random.below(8) {
            0 | 1 => 0,
            2 => MOST_DATA,
            _ => self.random.between(1, 20),
        };
        let data = self.some_bytes(length);
        let room = self.room_for(37 + 4 * self.unit(slot).size + length);
        self.call(slot, &Call::Send(&data), room);
        true
    }

    /// Lets a frame on its way arrive, mostly the oldest; one that came too soon often comes again.
    fn deliver(&mut self) -> bool {
        let awaited: Vec<usize> =
            (0..self.size).filter(|&slot| !self.inboxes[slot].is_empty()).collect();
        let Some(slot) = self.random.pick(&awaited) else { return false };
        let overtakes = self.random.below(60) < self.manner.loss;
        let at = if overtakes { self.random.below(self.inboxes[slot].len()) } else { 0 };
        let Some(frame) = self.inboxes[slot].remove(at) else { return false };
        let answer = self.arrive(slot, &frame);
        let odds = if matches!(answer, 9 | 10 | 12) { 2 } else { 40 };
        if self.random.one_in(odds) {
            self.inboxes[slot].push_back(frame);
        }
        true
    }

    /// Lets a frame arrive; what a request asks for is copied out and sent on its way. Gives the answer.
    pub fn arrive(&mut self, slot: usize, frame: &[u8]) -> u8 {
        let reply = self.call(slot, &Call::Arrive(frame), 0);
        let [first, last, _] = reply.numbers;
        if let (0, Some(Frame::Request(request))) = (reply.answer, frames::read(frame)) {
            for number in first..=last {
                self.resend(slot, number, usize::from(request.src) - 1);
            }
        }
        reply.answer
    }

    fn resend(&mut self, slot: usize, number: u32, to: usize) {
        let unit = self.unit(slot);
        let place = (number - unit.min_al(unit.own)) as usize;
        let room = self.room_for(unit.kept[place].len());
        let reply = self.call(slot, &Call::Copy(number), room);
        if reply.answer == 0 && to < self.size {
            let length = reply.numbers[0] as usize;
            self.inboxes[to].push_front(reply.output[..length].to_vec());
        }
    }

    /// Sends a kept frame again to a unit that lacks it, although nobody asked.
    fn remind(&mut self) -> bool {
        let mut lacking = Vec::new();
        for from in self.sound_members() {
            let unit = self.unit(from);
            let kept = unit.min_al(unit.own)..unit.seq;
            let lacks = |to: &usize| {
                let next = self.unit(*to).req.get(unit.own - 1);
                *to != from && next.is_some_and(|next| kept.contains(next))
            };
            let members = self.sound_members().into_iter().filter(lacks);
            lacking.extend(members.map(|to| (from, to)));
        }
        let Some((from, to)) = self.random.pick(&lacking) else { return false };
        let number = self.unit(to).req[self.unit(from).own - 1];
        self.resend(from, number, to);
        true
    }

    pub fn aimless(&mut self) {
        let slot = match self.random.below(12) {
            0 => self.random.below(UNITS),
            1 => UNITS - 1,
            _ => self.random.below(self.size),
        };
        self.aimless_call(slot);
    }

    /// Looks at a unit, so that a change is seen soon.
    pub fn observe(&mut self, slot: usize) {
        let k = self.random.between(1, self.size) as u8;
        let looks = [Call::Ready, Call::Kept, Call::Missing(k), Call::Waiting(k), Call::Waiting(k)];
        let look = &looks[self.random.below(looks.len())];
        self.call(slot, look, 0);
    }

    /// Any call but an opening and a setting.
    pub fn aimless_call(&mut self, slot: usize) {
        let any_k = self.random.byte();
        let k = if self.random.one_in(12) { any_k } else { self.random.below(self.size + 2) as u8 };
        let near = self.near(self.unit(slot).seq);
        let any_length = self.random.below(256);
        let length = self.random.pick(&[0, 48, 49, any_length]).unwrap_or(0);
        let data = self.some_bytes(length);
        let call = match self.random.below(16) {
            0 => Call::Ready,
            1 => Call::Free,
            2 => Call::Kept,
            3 | 4 => Call::Missing(k),
            5 | 6 => Call::Waiting(k),
            7 => Call::Sound,
            8 => Call::Request(k),
            9 | 10 => Call::Copy(near),
            11 => Call::Take,
            12 => Call::Send(&data),
            13 => return self.ask_for_nothing(slot),
            _ => return self.arrive_again(slot),
        };
        let room = self.random.byte().into();
        self.call(slot, &call, room);
    }

    /// Any frame that was written in this group arrives.
    fn arrive_again(&mut self, slot: usize) {
        let frame = self.random.pick(&self.written).unwrap_or_default();
        self.arrive(slot, &frame);
    }

    /// A call that there is not, or a setting of what there is not.
    fn ask_for_nothing(&mut self, slot: usize) {
        let mut record = self.any_record(slot);
        record.number = self.random.between(12, 255) as u8;
        record.bytes[0] = self.random.between(14, 255) as u8;
        self.make(record);
    }
}

fn may_send(unit: &Unit) -> bool {
    let has_place = unit.places_taken_by(unit.own) < 4 * unit.window;
    unit.window_is_open() && SENDABLE.contains(&unit.seq) && has_place
}
