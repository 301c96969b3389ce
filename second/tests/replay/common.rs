//! Records and replies that several tests need.

use second::frames::{self, Data, Frame, Request};
use second::replay::{Call, Field, Opening, Record, Replay, Reply, Setting, BLANK, OUTPUT_LENGTH};

pub const CID: u32 = 7;
pub const LONG: u8 = 255;

/// A record whose unused bytes hold noise.
pub fn record(slot: u8, call: &Call, room: u8) -> Record {
    let mut record =
        Record { number: 99, unit: slot, x: 0xaabb_ccdd, room, count: 77, bytes: [0xee; 200] };
    call.put_in(&mut record);
    record
}

pub fn ask(replay: &mut Replay, slot: u8, call: Call) -> Reply {
    ask_with_room(replay, slot, call, LONG)
}

pub fn ask_with_room(replay: &mut Replay, slot: u8, call: Call, room: u8) -> Reply {
    replay.carry_out(&record(slot, &call, room))
}

/// The answer and the numbers; the output has to be as before.
pub fn told(replay: &mut Replay, slot: u8, call: Call) -> (u8, [u32; 3]) {
    let reply = ask(replay, slot, call);
    assert_eq!(reply.output, [BLANK; OUTPUT_LENGTH]);
    (reply.answer, reply.numbers)
}

pub fn open(replay: &mut Replay, slot: u8, own: u8, window: u8, firsts: &[u32]) {
    let mut eight = [0; 8];
    eight[..firsts.len()].copy_from_slice(firsts);
    let size = firsts.len() as u8;
    let opening = Opening { own, size, window, cid: CID, firsts: eight };
    assert_eq!(told(replay, slot, Call::Open(opening)), (0, [0; 3]));
}

pub fn set(replay: &mut Replay, slot: u8, field: Field, k: u8, j: u8, value: u32) {
    let setting = Setting { field, k, j, value };
    assert_eq!(told(replay, slot, Call::Set(setting)), (0, [0; 3]));
}

pub fn is_sound(replay: &mut Replay, slot: u8) -> bool {
    let (answer, [sound, ..]) = told(replay, slot, Call::Sound);
    assert_eq!(answer, 0);
    sound == 1
}

pub fn data(src: u8, seq: u32, ack: &[u32]) -> Vec<u8> {
    let message = Data { cid: CID, src, seq, ack: ack.to_vec(), buf: 16, data: b"xyz" };
    frames::write(&Frame::Data(message))
}

pub fn request(src: u8, ack: &[u32], lsrc: u8, lseq: u32) -> Vec<u8> {
    frames::write(&Frame::Request(Request { cid: CID, src, ack: ack.to_vec(), lsrc, lseq }))
}
