//! Setting one number of a unit, so that there are units that no run of calls makes.

use super::UNITS;
use crate::engine::{Message, Unit};
use std::collections::VecDeque;

#[derive(Clone, Copy, Debug, PartialEq, Eq)]
pub enum Field {
    Seq,
    Req,
    Heard,
    Buf,
    Al,
    Pal,
    Own,
    Size,
    Window,
    Cid,
    MessageSeq,
    MessageLength,
    MessageAck,
    SamePlace,
}

impl Field {
    pub const ALL: [Field; 14] = [
        Field::Seq,
        Field::Req,
        Field::Heard,
        Field::Buf,
        Field::Al,
        Field::Pal,
        Field::Own,
        Field::Size,
        Field::Window,
        Field::Cid,
        Field::MessageSeq,
        Field::MessageLength,
        Field::MessageAck,
        Field::SamePlace,
    ];

    pub(super) fn of(number: u8) -> Option<Field> {
        Field::ALL.get(usize::from(number)).copied()
    }
}

/// Units k and j count from 1, positions from 0. Where there is no such k, j or position, nothing is set.
#[derive(Clone, Copy, Debug, PartialEq, Eq)]
pub struct Setting {
    pub field: Field,
    pub k: u8,
    pub j: u8,
    pub value: u32,
}

impl Setting {
    pub fn apply(&self, unit: &mut Unit) {
        make_room(unit);
        let Setting { field, value, .. } = *self;
        let (k, j) = (usize::from(self.k), usize::from(self.j));
        let low_byte = usize::from(value as u8);
        match field {
            Field::Seq => unit.seq = value,
            Field::Req => set(number(&mut unit.req, k), value),
            Field::Heard => set(number(&mut unit.heard, k), value),
            Field::Buf => set(number(&mut unit.buf, k), value as u16),
            Field::Al => set(cell(&mut unit.al, k, j), value),
            Field::Pal => set(cell(&mut unit.pal, k, j), value),
            Field::Own => unit.own = low_byte,
            Field::Size => unit.size = low_byte,
            Field::Window => unit.window = low_byte,
            Field::Cid => unit.cid = value,
            Field::MessageSeq => set(message(unit, k).map(|message| &mut message.seq), value),
            Field::MessageLength => {
                if let Some(message) = message(unit, k) {
                    message.data.resize(low_byte, 0);
                }
            }
            Field::MessageAck => {
                set(message(unit, k).and_then(|message| number(&mut message.ack, j)), value);
            }
            Field::SamePlace => unit.doubled |= k != j,
        }
    }

    /// Whether only the last byte of the value counts.
    pub(super) fn is_of_a_byte(&self) -> bool {
        matches!(self.field, Field::Own | Field::Size | Field::Window | Field::MessageLength)
    }

    /// The setting that puts back what this one changes; none where a place is given away.
    pub fn undoing(&self, unit: &Unit) -> Option<Setting> {
        let mut unit = unit.clone();
        make_room(&mut unit);
        let (k, j) = (usize::from(self.k), usize::from(self.j));
        let value = match self.field {
            Field::Seq => unit.seq,
            Field::Req => *number(&mut unit.req, k)?,
            Field::Heard => *number(&mut unit.heard, k)?,
            Field::Buf => (*number(&mut unit.buf, k)?).into(),
            Field::Al => *cell(&mut unit.al, k, j)?,
            Field::Pal => *cell(&mut unit.pal, k, j)?,
            Field::Own => unit.own as u32,
            Field::Size => unit.size as u32,
            Field::Window => unit.window as u32,
            Field::Cid => unit.cid,
            Field::MessageSeq => message(&mut unit, k)?.seq,
            Field::MessageLength => message(&mut unit, k)?.data.len() as u32,
            Field::MessageAck => *number(&mut message(&mut unit, k)?.ack, j)?,
            Field::SamePlace => return None,
        };
        Some(Setting { value, ..*self })
    }
}

fn set<T>(place: Option<&mut T>, value: T) {
    if let Some(place) = place {
        *place = value;
    }
}

/// Makes each vector long enough for every n; the numbers that come in are 0, as those of the closed unit are.
fn make_room(unit: &mut Unit) {
    unit.req.resize(UNITS, 0);
    unit.heard.resize(UNITS, 0);
    unit.buf.resize(UNITS, 0);
    unit.waiting.resize(UNITS, VecDeque::new());
    for rows in [&mut unit.al, &mut unit.pal] {
        rows.resize(UNITS, Vec::new());
        for row in rows {
            row.resize(UNITS, 0);
        }
    }
}

fn number<T>(numbers: &mut [T], k: usize) -> Option<&mut T> {
    numbers.get_mut(k.checked_sub(1)?)
}

fn cell(rows: &mut [Vec<u32>], k: usize, j: usize) -> Option<&mut u32> {
    number(number(rows, k)?, j)
}

/// The message at a position of the confirmed and ordered lists; the order of the waiting ones is nobody's business.
fn message(unit: &mut Unit, position: usize) -> Option<&mut Message> {
    unit.confirmed.iter_mut().chain(&mut unit.ordered).nth(position)
}
