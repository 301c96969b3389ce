//! Calls: what a record asks for, and the record that asks for it.

use super::{Field, Record, Setting, MOST_BYTES, UNITS};

#[derive(Clone, Debug, PartialEq, Eq)]
pub enum Call<'a> {
    Open(Opening),
    Send(&'a [u8]),
    Arrive(&'a [u8]),
    Request(u8),
    Copy(u32),
    Take,
    Ready,
    Free,
    Kept,
    Missing(u8),
    Waiting(u8),
    Sound,
    Set(Setting),
    Nothing,
}

#[derive(Clone, Debug, PartialEq, Eq)]
pub struct Opening {
    pub own: u8,
    pub size: u8,
    pub window: u8,
    pub cid: u32,
    /// Those of the units 1 to n count.
    pub firsts: [u32; UNITS],
}

const FIRSTS_AT: usize = 3;
const NO_CALL: u8 = 13;

impl Call<'_> {
    pub(super) fn of(record: &Record) -> Call<'_> {
        let low_byte = record.x as u8;
        match record.number {
            0 => Call::Open(opening(record)),
            1 => Call::Send(record.counted()),
            2 => Call::Arrive(record.counted()),
            3 => Call::Request(low_byte),
            4 => Call::Copy(record.x),
            5 => Call::Take,
            6 => Call::Ready,
            7 => Call::Free,
            8 => Call::Kept,
            9 => Call::Missing(low_byte),
            10 => Call::Waiting(low_byte),
            11 => Call::Sound,
            12 => setting(record).map_or(Call::Nothing, Call::Set),
            _ => Call::Nothing,
        }
    }

    /// Asks for the call in a record that had other contents; what the call does not look at stays.
    pub fn put_in(&self, record: &mut Record) {
        record.number = self.number();
        record.x = self.x(record.x);
        let bytes = self.bytes();
        let counted = bytes.len().min(MOST_BYTES);
        record.bytes[..counted].copy_from_slice(&bytes[..counted]);
        if matches!(self, Call::Send(_) | Call::Arrive(_)) {
            record.count = bytes.len().min(u8::MAX.into()) as u8;
        }
    }

    fn number(&self) -> u8 {
        match self {
            Call::Open(_) => 0,
            Call::Send(_) => 1,
            Call::Arrive(_) => 2,
            Call::Request(_) => 3,
            Call::Copy(_) => 4,
            Call::Take => 5,
            Call::Ready => 6,
            Call::Free => 7,
            Call::Kept => 8,
            Call::Missing(_) => 9,
            Call::Waiting(_) => 10,
            Call::Sound => 11,
            Call::Set(_) => 12,
            Call::Nothing => NO_CALL,
        }
    }

    fn x(&self, old: u32) -> u32 {
        let with_low_byte = |low_byte: u32| old & !0xff | low_byte & 0xff;
        match self {
            Call::Open(opening) => opening.cid,
            Call::Copy(number) => *number,
            Call::Set(setting) if setting.is_of_a_byte() => with_low_byte(setting.value),
            Call::Set(setting) => setting.value,
            Call::Request(k) | Call::Missing(k) | Call::Waiting(k) => with_low_byte((*k).into()),
            _ => old,
        }
    }

    fn bytes(&self) -> Vec<u8> {
        match self {
            Call::Open(opening) => opening_bytes(opening),
            Call::Send(bytes) | Call::Arrive(bytes) => bytes.to_vec(),
            Call::Set(setting) => vec![setting.field as u8, setting.k, setting.j],
            _ => Vec::new(),
        }
    }
}

fn opening(record: &Record) -> Opening {
    let [own, size, window, ..] = record.bytes;
    let (firsts, _) = record.bytes[FIRSTS_AT..].as_chunks();
    Opening {
        own,
        size,
        window,
        cid: record.x,
        firsts: std::array::from_fn(|at| u32::from_be_bytes(firsts[at])),
    }
}

fn opening_bytes(opening: &Opening) -> Vec<u8> {
    let firsts = opening.firsts.iter().flat_map(|first| first.to_be_bytes());
    [opening.own, opening.size, opening.window].into_iter().chain(firsts).collect()
}

fn setting(record: &Record) -> Option<Setting> {
    let [field, k, j, ..] = record.bytes;
    Some(Setting { field: Field::of(field)?, k, j, value: record.x })
}
