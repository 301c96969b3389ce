//! One unit of the group: what it holds, and its steps.

mod arrival;
mod delivery;
mod looks;
mod refusal;
mod soundness;

use crate::frames::{self, Data, Frame, Request, GROUP_SIZES, MOST_DATA, SENDABLE};
use std::collections::VecDeque;
use std::ops::RangeInclusive;

pub use arrival::Arrival;
pub use looks::Look;
pub use refusal::Refusal;

pub const WINDOWS: RangeInclusive<usize> = 2..=4;

#[derive(Clone, Debug, PartialEq, Eq)]
pub struct Message {
    pub sender: usize,
    pub seq: u32,
    pub ack: Vec<u32>,
    pub data: Vec<u8>,
}

#[derive(Clone, Copy, Debug, PartialEq, Eq)]
pub struct Taken {
    pub sender: usize,
    pub number: u32,
    pub length: usize,
}

/// Units count from 1, vectors from 0: what belongs to unit k stands at k - 1, and `al[k - 1][j - 1]` is AL_kj.
/// Of each vector the first n numbers count. A message holds one of its sender's places for as long as it stands in
/// a list.
#[derive(Clone, Debug, Default, PartialEq, Eq)]
pub struct Unit {
    pub own: usize,
    pub size: usize,
    pub window: usize,
    pub cid: u32,
    pub seq: u32,
    pub req: Vec<u32>,
    pub al: Vec<Vec<u32>>,
    pub pal: Vec<Vec<u32>>,
    pub buf: Vec<u16>,
    pub heard: Vec<u32>,
    /// The frames of the own numbers minAL_i up to SEQ - 1, oldest first.
    pub kept: VecDeque<Vec<u8>>,
    pub waiting: Vec<VecDeque<Message>>,
    pub ordered: Vec<Message>,
    pub confirmed: VecDeque<Message>,
    /// Whether two messages hold one place, which no call brings about.
    pub doubled: bool,
}

impl Unit {
    pub fn closed() -> Unit {
        Unit::default()
    }

    /// Opens this unit, or closes it where the opening is refused.
    pub fn open(
        &mut self,
        own: usize,
        size: usize,
        window: usize,
        cid: u32,
        firsts: &[u32],
    ) -> Result<(), Refusal> {
        let in_range = GROUP_SIZES.contains(&size)
            && WINDOWS.contains(&window)
            && (1..=size).contains(&own)
            && firsts.len() == size
            && !firsts.contains(&0);
        *self = if in_range { Unit::fresh(own, window, cid, firsts) } else { Unit::closed() };
        in_range.then_some(()).ok_or(Refusal::OutsideRanges)
    }

    fn fresh(own: usize, window: usize, cid: u32, firsts: &[u32]) -> Unit {
        let size = firsts.len();
        let rows: Vec<Vec<u32>> = firsts.iter().map(|&first| vec![first; size]).collect();
        Unit {
            own,
            size,
            window,
            cid,
            seq: firsts[own - 1],
            req: firsts.to_vec(),
            al: rows.clone(),
            pal: rows,
            buf: vec![(4 * window * size) as u16; size],
            heard: firsts.to_vec(),
            kept: VecDeque::new(),
            waiting: vec![VecDeque::new(); size],
            ordered: Vec::new(),
            confirmed: VecDeque::new(),
            doubled: false,
        }
    }

    /// Writes the next own message and accepts it at once; gives the length of its frame.
    pub fn send(&mut self, data: &[u8], output: &mut [u8]) -> Result<usize, Refusal> {
        self.require_sound()?;
        if data.len() > MOST_DATA {
            return Err(Refusal::TooMuchData);
        }
        if !SENDABLE.contains(&self.seq) {
            return Err(Refusal::NumbersUsedUp);
        }
        if !self.window_is_open() {
            return Err(Refusal::WindowShut);
        }
        if self.places_taken_by(self.own) >= self.places_per_sender() {
            return Err(Refusal::PlacesTaken);
        }
        let message = Data {
            cid: self.cid,
            src: self.own as u8,
            seq: self.seq,
            ack: self.req[..self.size].to_vec(),
            buf: self.free_places() as u16,
            data,
        };
        let frame = frames::write(&Frame::Data(message.clone()));
        copy_out(&frame, output)?;
        let length = frame.len();
        self.kept.push_back(frame);
        self.seq += 1;
        self.accept(&message);
        Ok(length)
    }

    /// Writes a request to unit `about` for what is missing of its messages; gives the length of the frame.
    pub fn request(&self, about: usize, output: &mut [u8]) -> Result<usize, Refusal> {
        self.require_sound()?;
        if about == self.own || !(1..=self.size).contains(&about) {
            return Err(Refusal::NotInGroup);
        }
        if self.heard[about - 1] <= self.req[about - 1] {
            return Err(Refusal::Nothing);
        }
        let request = Request {
            cid: self.cid,
            src: self.own as u8,
            ack: self.req[..self.size].to_vec(),
            lsrc: about as u8,
            lseq: self.heard[about - 1],
        };
        copy_out(&frames::write(&Frame::Request(request)), output)
    }

    /// Copies out the frame of a kept own number as it was first sent; gives its length.
    pub fn copy_kept(&self, number: u32, output: &mut [u8]) -> Result<usize, Refusal> {
        self.require_sound()?;
        let place = number.checked_sub(self.min_al(self.own)).ok_or(Refusal::Nothing)?;
        let frame = self.kept.get(place as usize).ok_or(Refusal::Nothing)?;
        copy_out(frame, output)
    }

    /// Hands the oldest confirmed message to the application and frees its place.
    pub fn take(&mut self, output: &mut [u8]) -> Result<Taken, Refusal> {
        self.require_sound()?;
        let message = self.confirmed.front().ok_or(Refusal::Nothing)?;
        let length = copy_out(&message.data, output)?;
        let taken = Taken { sender: message.sender, number: message.seq, length };
        self.confirmed.pop_front();
        Ok(taken)
    }

    pub fn min_al(&self, k: usize) -> u32 {
        least(&self.al[k - 1][..self.size])
    }

    pub fn min_pal(&self, k: usize) -> u32 {
        least(&self.pal[k - 1][..self.size])
    }

    pub fn places_taken_by(&self, sender: usize) -> usize {
        self.stored().filter(|message| message.sender == sender).count()
    }

    fn stored(&self) -> impl Iterator<Item = &Message> {
        self.waiting.iter().flatten().chain(&self.ordered).chain(&self.confirmed)
    }

    fn places_per_sender(&self) -> usize {
        4 * self.window
    }

    fn all_places(&self) -> usize {
        self.places_per_sender() * self.size
    }

    fn free_places(&self) -> usize {
        self.all_places() - self.stored().count()
    }

    pub fn window_is_open(&self) -> bool {
        let least_buf = self.buf[..self.size].iter().min().map_or(0, |&buf| usize::from(buf));
        let width = self.window.min(least_buf / self.size);
        u64::from(self.seq) < u64::from(self.min_al(self.own)) + width as u64
    }

    fn require_sound(&self) -> Result<(), Refusal> {
        (cfg!(feature = "trusting") || self.is_sound()).then_some(()).ok_or(Refusal::NotSound)
    }
}

fn least(row: &[u32]) -> u32 {
    row.iter().copied().min().unwrap_or(0)
}

fn copy_out(bytes: &[u8], output: &mut [u8]) -> Result<usize, Refusal> {
    let room = output.get_mut(..bytes.len()).ok_or(Refusal::OutputTooShort)?;
    room.copy_from_slice(bytes);
    Ok(bytes.len())
}
