//! The record of a call: its bytes, before they are understood.

use super::{Call, UNITS};

pub const RECORD_LENGTH: usize = 208;
pub const MOST_BYTES: usize = 200;

#[derive(Clone, Debug, PartialEq, Eq)]
pub struct Record {
    /// Which call.
    pub number: u8,
    pub unit: u8,
    pub x: u32,
    /// How many bytes of output are lent.
    pub room: u8,
    /// How many of the bytes count.
    pub count: u8,
    pub bytes: [u8; MOST_BYTES],
}

impl Record {
    pub fn read(record: &[u8; RECORD_LENGTH]) -> Record {
        let [number, unit, x @ .., room, count] =
            record.first_chunk::<8>().expect("the record is longer");
        Record {
            number: *number,
            unit: *unit,
            x: u32::from_be_bytes(*x),
            room: *room,
            count: *count,
            bytes: *record.last_chunk().expect("the record is longer"),
        }
    }

    pub fn written(&self) -> [u8; RECORD_LENGTH] {
        let mut record = [0; RECORD_LENGTH];
        record[0] = self.number;
        record[1] = self.unit;
        record[2..6].copy_from_slice(&self.x.to_be_bytes());
        record[6] = self.room;
        record[7] = self.count;
        record[8..].copy_from_slice(&self.bytes);
        record
    }

    /// Which of the eight units, counted from 0.
    pub fn slot(&self) -> usize {
        usize::from(self.unit) % UNITS
    }

    pub fn counted(&self) -> &[u8] {
        &self.bytes[..MOST_BYTES.min(self.count.into())]
    }

    pub fn call(&self) -> Call<'_> {
        Call::of(self)
    }
}
