//! What a unit tells about itself without changing.

use super::{Refusal, Unit};

/// A range of numbers; where only a count is told, `first` is 0.
#[derive(Clone, Copy, Debug, PartialEq, Eq)]
pub struct Look {
    pub first: u32,
    pub count: u32,
}

impl Unit {
    /// How many messages can be taken.
    pub fn look_ready(&self) -> Result<Look, Refusal> {
        self.require_sound()?;
        Ok(Look { first: 0, count: self.confirmed.len() as u32 })
    }

    /// How many places are free.
    pub fn look_free(&self) -> Result<Look, Refusal> {
        self.require_sound()?;
        Ok(Look { first: 0, count: self.free_places() as u32 })
    }

    /// The own numbers whose frames are kept.
    pub fn look_kept(&self) -> Result<Look, Refusal> {
        self.require_sound()?;
        let first = self.min_al(self.own);
        Ok(Look { first, count: self.seq - first })
    }

    /// The numbers of unit k that were heard of and not accepted.
    pub fn look_missing(&self, k: usize) -> Result<Look, Refusal> {
        self.require_sound()?;
        self.require_member(k)?;
        let first = self.req[k - 1];
        Ok(Look { first, count: self.heard[k - 1].saturating_sub(first) })
    }

    /// How many of unit k's messages wait.
    pub fn look_waiting(&self, k: usize) -> Result<Look, Refusal> {
        self.require_sound()?;
        self.require_member(k)?;
        Ok(Look { first: 0, count: self.waiting[k - 1].len() as u32 })
    }

    fn require_member(&self, k: usize) -> Result<(), Refusal> {
        (1..=self.size).contains(&k).then_some(()).ok_or(Refusal::NotInGroup)
    }
}
