//! The soundness test of a unit.

use super::{Message, Unit, WINDOWS};
use crate::frames::{GROUP_SIZES, LONGEST_FRAME, MOST_DATA, SENDABLE};

impl Unit {
    pub fn is_sound(&self) -> bool {
        self.keeps_the_rules() && self.has_sound_kept_frames()
    }

    /// Soundness but for the kept frames, of which the rules only say which numbers they have.
    pub fn keeps_the_rules(&self) -> bool {
        self.is_in_range()
            && self.has_rows_for_each_unit()
            && self.has_no_zero_next()
            && self.has_sound_window()
            && self.has_sound_places()
    }

    fn is_in_range(&self) -> bool {
        GROUP_SIZES.contains(&self.size)
            && WINDOWS.contains(&self.window)
            && (1..=self.size).contains(&self.own)
    }

    fn has_rows_for_each_unit(&self) -> bool {
        let square = |rows: &[Vec<u32>]| {
            rows.len() >= self.size && rows.iter().all(|row| row.len() >= self.size)
        };
        let lengths = [self.req.len(), self.heard.len(), self.buf.len(), self.waiting.len()];
        lengths.iter().all(|&length| length >= self.size) && square(&self.al) && square(&self.pal)
    }

    fn has_no_zero_next(&self) -> bool {
        let counts = |row: &[u32]| !row[..self.size].contains(&0);
        let mut rows = self.al[..self.size].iter().chain(&self.pal[..self.size]);
        self.seq != 0 && counts(&self.req) && counts(&self.heard) && rows.all(|row| counts(row))
    }

    fn has_sound_window(&self) -> bool {
        let oldest = self.min_al(self.own);
        self.req[self.own - 1] == self.seq
            && oldest <= self.seq
            && u64::from(self.seq) <= u64::from(oldest) + self.window as u64
    }

    fn has_sound_kept_frames(&self) -> bool {
        self.kept.len() == (self.seq - self.min_al(self.own)) as usize
            && self.kept.iter().all(|frame| frame.len() <= LONGEST_FRAME)
    }

    fn has_sound_places(&self) -> bool {
        !self.doubled
            && self.stored().all(|message| self.keeps_frame_limits(message))
            && (1..=self.size)
                .all(|k| self.waiting[k - 1].iter().all(|message| message.sender == k))
            && (1..=self.size).all(|k| self.places_taken_by(k) <= self.places_per_sender())
    }

    fn keeps_frame_limits(&self, message: &Message) -> bool {
        (1..=self.size).contains(&message.sender)
            && SENDABLE.contains(&message.seq)
            && message.ack.len() == self.size
            && !message.ack.contains(&0)
            && message.data.len() <= MOST_DATA
    }
}
