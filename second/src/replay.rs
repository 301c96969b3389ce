//! Calls as bytes: records of calls are carried out on eight units, and what each gave is written down.

mod call;
mod record;
mod reply;
mod setting;
mod words;

use crate::engine::{Arrival, Look, Refusal, Unit};
pub use call::{Call, Opening};
pub use record::{Record, MOST_BYTES, RECORD_LENGTH};
pub use reply::{Reply, BLANK, OUTPUT_LENGTH, REPLY_LENGTH};
pub use setting::{Field, Setting};
pub use words::{describe_call, describe_replies};

pub const UNITS: usize = 8;

/// What a call gives besides its answer and its output.
type Numbers = [u32; 3];

/// The eight units that the records act on.
#[derive(Clone, Debug, Default, PartialEq, Eq)]
pub struct Replay {
    pub units: [Unit; UNITS],
}

impl Replay {
    pub fn carry_out(&mut self, record: &Record) -> Reply {
        let mut output = [BLANK; OUTPUT_LENGTH];
        let room = &mut output[..record.room.into()];
        let unit = &mut self.units[record.slot()];
        let outcome = match record.call() {
            Call::Open(opening) => open(unit, &opening),
            Call::Send(data) => send(unit, data, room),
            Call::Arrive(frame) => arrive(unit, frame),
            Call::Request(k) => unit.request(k.into(), room).map(|length| [length as u32, 0, 0]),
            Call::Copy(number) => unit.copy_kept(number, room).map(|length| [length as u32, 0, 0]),
            Call::Take => take(unit, room),
            Call::Ready => unit.look_ready().map(shown),
            Call::Free => unit.look_free().map(shown),
            Call::Kept => unit.look_kept().map(shown),
            Call::Missing(k) => unit.look_missing(k.into()).map(shown),
            Call::Waiting(k) => unit.look_waiting(k.into()).map(shown),
            Call::Sound => Ok([unit.is_sound().into(), 0, 0]),
            Call::Set(setting) => {
                setting.apply(unit);
                Ok([0; 3])
            }
            Call::Nothing => Ok([0; 3]),
        };
        Reply::of(outcome, output)
    }
}

/// The replies to a stream; a last record that is not whole is not read.
pub fn run(stream: &[u8]) -> Vec<u8> {
    let mut replay = Replay::default();
    let (records, _) = stream.as_chunks();
    records.iter().flat_map(|bytes| replay.carry_out(&Record::read(bytes)).written()).collect()
}

fn open(unit: &mut Unit, opening: &Opening) -> Result<Numbers, Refusal> {
    let Opening { own, size, window, cid, firsts } = opening;
    let size = usize::from(*size);
    let firsts = &firsts[..size.min(UNITS)];
    unit.open((*own).into(), size, (*window).into(), *cid, firsts).map(|()| [0; 3])
}

fn send(unit: &mut Unit, data: &[u8], room: &mut [u8]) -> Result<Numbers, Refusal> {
    let seq = unit.seq;
    unit.send(data, room).map(|length| [seq, length as u32, 0])
}

fn arrive(unit: &mut Unit, frame: &[u8]) -> Result<Numbers, Refusal> {
    unit.arrive(frame).map(|arrival| match arrival {
        Arrival::Accepted => [0; 3],
        Arrival::Resend { first, last } => [first, last, 0],
    })
}

fn take(unit: &mut Unit, room: &mut [u8]) -> Result<Numbers, Refusal> {
    unit.take(room).map(|taken| [taken.sender as u32, taken.number, taken.length as u32])
}

fn shown(look: Look) -> Numbers {
    [look.first, look.count, 0]
}
