//! Frames that nobody wrote: lawful ones with numbers near those of the unit, damaged ones, and noise.

use super::caller::Caller;
use crate::engine::Unit;
use crate::frames::{self, Data, Frame, Request, MOST_DATA};
use crate::replay::MOST_BYTES;
use crate::trials::{damage, noise};

impl Caller {
    pub fn forged(&mut self) {
        let Some(slot) = self.some_sound_member() else { return self.aimless() };
        let frame = self.forged_frame(&self.unit(slot).clone());
        self.arrive(slot, &frame);
        if self.random.one_in(5) {
            self.observe(slot);
        }
    }

    pub fn spoiled(&mut self) {
        let slot = self.random.below(self.size);
        let unit = self.unit(slot).clone();
        let frame = match self.random.below(4) {
            0 => noise::bytes(&mut self.random, noise::COUNT),
            1 if unit.is_sound() => self.forged_frame(&unit),
            _ => self.random.pick(&self.written).unwrap_or_default(),
        };
        let bytes = if frames::read(&frame).is_some() {
            let sorts = damage::all(&frame, &mut self.random);
            let (_, damaged) = self.random.pick(&sorts).unwrap_or_else(|| sorts[0].clone());
            self.random.pick(&damaged).unwrap_or_default()
        } else {
            frame
        };
        self.arrive(slot, &bytes[..bytes.len().min(MOST_BYTES)]);
    }

    /// A frame for a sound unit, lawful as a frame; about half of the data would be accepted.
    pub fn forged_frame(&mut self, unit: &Unit) -> Vec<u8> {
        if self.random.one_in(6) {
            let mut request = self.forged_request(unit);
            if self.random.one_in(2) {
                self.spoil_request(unit, &mut request);
            }
            return frames::write(&Frame::Request(request));
        }
        let length = self.random.pick(&[0, 1, 7, MOST_DATA]).unwrap_or(0);
        let bytes = self.some_bytes(length);
        let mut data = self.forged_data(unit, &bytes);
        let mistakes = self.random.pick(&[0, 0, 0, 0, 1, 1, 1, 2, 3]).unwrap_or(0);
        for _ in 0..mistakes {
            self.spoil_data(unit, &mut data);
        }
        frames::write(&Frame::Data(data))
    }

    fn other_member(&mut self, unit: &Unit) -> usize {
        let j = self.random.between(1, unit.size - 1);
        if j < unit.own {
            j
        } else {
            j + 1
        }
    }

    /// The next message of another unit, which acknowledges no less than before and no more than there is.
    fn forged_data<'d>(&mut self, unit: &Unit, bytes: &'d [u8]) -> Data<'d> {
        let j = self.other_member(unit);
        let mut ack: Vec<u32> = unit.req[..unit.size].to_vec();
        for (k, next) in ack.iter_mut().enumerate().filter(|(k, _)| k + 1 != j) {
            let known = unit.al[k][j - 1];
            if known < *next && self.random.one_in(3) {
                *next -= self.random.below((*next - known).min(4) as usize + 1) as u32;
            }
        }
        let places = 4 * unit.window * unit.size;
        let few = self.random.between(0, places);
        let buf = if self.random.one_in(8) { few } else { places };
        Data {
            cid: unit.cid,
            src: j as u8,
            seq: unit.req[j - 1].min(u32::MAX - 1),
            ack,
            buf: buf as u16,
            data: bytes,
        }
    }

    fn spoil_data(&mut self, unit: &Unit, data: &mut Data) {
        let k = self.random.below(data.ack.len());
        let sender = usize::from(data.src).wrapping_sub(1);
        let by = self.random.between(1, 3) as u32;
        match self.random.below(12) {
            0 => data.cid ^= 1 << self.random.below(32),
            1 => self.spoil_count(&mut data.ack),
            2 => data.src = self.some_source(unit),
            3 => {
                data.buf = (4 * unit.window * unit.size) as u16
                    + self.random.pick(&[1, 9_999]).unwrap_or(1)
            }
            4 => data.seq = data.seq.saturating_add(by).min(u32::MAX - 1),
            5..8 => {
                let up = self.random.one_in(2);
                let seq =
                    if up { data.seq.saturating_add(by) } else { data.seq.saturating_sub(by) };
                data.seq = seq.clamp(1, u32::MAX - 1);
                if let Some(ack) = data.ack.get_mut(sender) {
                    *ack = data.seq;
                }
            }
            8 | 9 => data.ack[k] = data.ack[k].saturating_add(by),
            10 => data.ack[k] = data.ack[k].saturating_sub(by).max(1),
            _ => data.ack[k] = self.near(data.ack[k]),
        }
    }

    fn spoil_count(&mut self, ack: &mut Vec<u32>) {
        let too_many = ack.len() < 8 && (ack.len() == 2 || self.random.one_in(2));
        if too_many {
            ack.push(1);
        } else if ack.len() > 2 {
            ack.pop();
        }
    }

    fn some_source(&mut self, unit: &Unit) -> u8 {
        let any = self.random.byte();
        let own = unit.own as u8;
        self.random.pick(&[0, own, own, unit.size as u8 + 1, any]).unwrap_or(any)
    }

    /// Another unit asks for own numbers that are kept or not far from those.
    fn forged_request(&mut self, unit: &Unit) -> Request {
        let oldest = unit.min_al(unit.own);
        let from = oldest.saturating_sub(self.random.below(3) as u32).max(1);
        let expected = from.saturating_add(self.random.below(4) as u32).min(unit.seq);
        let mut ack: Vec<u32> = unit.req[..unit.size].to_vec();
        ack[unit.own - 1] = expected;
        let length = self.random.between(1, 4) as u32;
        Request {
            cid: unit.cid,
            src: self.other_member(unit) as u8,
            ack,
            lsrc: unit.own as u8,
            lseq: expected.saturating_add(length).min(unit.seq),
        }
    }

    fn spoil_request(&mut self, unit: &Unit, request: &mut Request) {
        let own = unit.own - 1;
        let by = self.random.between(1, 3) as u32;
        match self.random.below(9) {
            0 => request.cid ^= 1 << self.random.below(32),
            1 => self.spoil_count(&mut request.ack),
            2 => request.src = self.some_source(unit),
            3 => request.lsrc = self.some_source(unit),
            4 => request.lsrc = self.other_member(unit) as u8,
            5 => request.lsrc = request.src,
            6 => request.lseq = self.near(unit.seq),
            7 => request.lseq = request.lseq.saturating_sub(by).max(1),
            _ => {
                if let Some(ack) = request.ack.get_mut(own) {
                    *ack = ack.saturating_add(by);
                }
            }
        }
    }
}
