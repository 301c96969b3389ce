//! Arrival of a frame: the tests in the order of their answers, and acceptance.

use super::{Message, Refusal, Unit};
use crate::frames::{self, Data, Frame, Request};
use std::cmp::Ordering;

#[derive(Clone, Copy, Debug, PartialEq, Eq)]
pub enum Arrival {
    Accepted,
    /// The kept numbers that a request asks for.
    Resend {
        first: u32,
        last: u32,
    },
}

impl Unit {
    pub fn arrive(&mut self, frame: &[u8]) -> Result<Arrival, Refusal> {
        self.require_sound()?;
        match frames::read(frame).ok_or(Refusal::NotAFrame)? {
            Frame::Data(data) => self.arrive_data(&data),
            Frame::Request(request) => self.answer_request(&request),
        }
    }

    fn arrive_data(&mut self, data: &Data) -> Result<Arrival, Refusal> {
        match self.judge_data(data) {
            Ok(()) => {
                self.accept(data);
                Ok(Arrival::Accepted)
            }
            Err(refusal) => {
                if matches!(refusal, Refusal::Gap | Refusal::Early | Refusal::PlacesTaken) {
                    self.hear_of(data);
                }
                Err(refusal)
            }
        }
    }

    fn judge_data(&self, data: &Data) -> Result<(), Refusal> {
        self.require_own_group(data.cid)?;
        self.require_members(&data.ack, &[data.src])?;
        self.require_other(data.src)?;
        self.require_plausible(data)?;
        self.require_next(data)
    }

    fn require_own_group(&self, cid: u32) -> Result<(), Refusal> {
        (cid == self.cid).then_some(()).ok_or(Refusal::OtherGroup)
    }

    fn require_members(&self, ack: &[u32], named: &[u8]) -> Result<(), Refusal> {
        let in_group = |&k: &u8| (1..=self.size).contains(&usize::from(k));
        let all_members = ack.len() == self.size && named.iter().all(in_group);
        all_members.then_some(()).ok_or(Refusal::NotInGroup)
    }

    fn require_other(&self, src: u8) -> Result<(), Refusal> {
        (usize::from(src) != self.own).then_some(()).ok_or(Refusal::FromOneself)
    }

    fn require_plausible(&self, data: &Data) -> Result<(), Refusal> {
        let plausible = data.ack[self.own - 1] <= self.seq
            && data.ack[usize::from(data.src) - 1] == data.seq
            && usize::from(data.buf) <= self.all_places();
        plausible.then_some(()).ok_or(Refusal::Contradiction)
    }

    fn require_next(&self, data: &Data) -> Result<(), Refusal> {
        let sender = usize::from(data.src);
        let j = sender - 1;
        match data.seq.cmp(&self.req[j]) {
            Ordering::Less => return Err(Refusal::Repeat),
            Ordering::Greater => return Err(Refusal::Gap),
            Ordering::Equal => {}
        }
        if (0..self.size).any(|k| k != j && data.ack[k] > self.req[k]) {
            return Err(Refusal::Early);
        }
        if (0..self.size).any(|k| data.ack[k] < self.al[k][j]) {
            return Err(Refusal::Backward);
        }
        if self.places_taken_by(sender) >= self.places_per_sender() {
            return Err(Refusal::PlacesTaken);
        }
        Ok(())
    }

    fn hear_of(&mut self, data: &Data) {
        let j = usize::from(data.src) - 1;
        for (k, heard) in self.heard.iter_mut().enumerate().take(self.size) {
            let next = if k == j { data.seq + 1 } else { data.ack[k] };
            *heard = next.max(*heard);
        }
    }

    fn answer_request(&self, request: &Request) -> Result<Arrival, Refusal> {
        let Request { cid, src, ref ack, lsrc, lseq } = *request;
        self.require_own_group(cid)?;
        self.require_members(ack, &[src, lsrc])?;
        if lsrc == src {
            return Err(Refusal::NotInGroup);
        }
        self.require_other(src)?;
        if usize::from(lsrc) != self.own {
            return Err(Refusal::ForAnother);
        }
        let expected = ack[self.own - 1];
        if expected > self.seq || lseq > self.seq || lseq <= expected {
            return Err(Refusal::Contradiction);
        }
        let first = expected.max(self.min_al(self.own));
        if first >= lseq {
            return Err(Refusal::Nothing);
        }
        Ok(Arrival::Resend { first, last: lseq - 1 })
    }

    /// Takes a place for a message, own or arrived, and moves on what it acknowledges.
    pub(super) fn accept(&mut self, data: &Data) {
        let sender = usize::from(data.src);
        let j = sender - 1;
        self.req[j] = data.seq + 1;
        for (row, &ack) in self.al.iter_mut().zip(&data.ack) {
            row[j] = ack;
        }
        self.buf[j] = data.buf;
        self.heard[j] = self.heard[j].max(self.req[j]);
        self.waiting[j].push_back(Message {
            sender,
            seq: data.seq,
            ack: data.ack.clone(),
            data: data.data.to_vec(),
        });
        self.drop_known_everywhere();
        self.pre_acknowledge();
        self.confirm();
    }

    fn drop_known_everywhere(&mut self) {
        let still_kept = (self.seq - self.min_al(self.own)) as usize;
        let dropped = self.kept.len() - still_kept;
        self.kept.drain(..dropped);
    }
}
