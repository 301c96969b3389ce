//! Frames and units that several tests need.

use second::engine::Unit;
use second::frames::{self, Data, Frame, Request};

pub const CID: u32 = 7;

pub fn opened(own: usize, window: usize, firsts: &[u32]) -> Unit {
    let mut unit = Unit::closed();
    unit.open(own, firsts.len(), window, CID, firsts).expect("in range");
    unit
}

pub fn data(src: u8, seq: u32, ack: &[u32]) -> Vec<u8> {
    data_with_buf(src, seq, ack, 16)
}

pub fn data_with_buf(src: u8, seq: u32, ack: &[u32], buf: u16) -> Vec<u8> {
    frames::write(&Frame::Data(Data { cid: CID, src, seq, ack: ack.to_vec(), buf, data: b"x" }))
}

pub fn request(src: u8, ack: &[u32], lsrc: u8, lseq: u32) -> Vec<u8> {
    frames::write(&Frame::Request(Request { cid: CID, src, ack: ack.to_vec(), lsrc, lseq }))
}

pub fn send(unit: &mut Unit) -> u8 {
    answer(unit.send(b"x", &mut [0; 117]))
}

pub fn arrive(unit: &mut Unit, frame: &[u8]) -> u8 {
    answer(unit.arrive(frame))
}

pub fn answer<T>(result: Result<T, second::engine::Refusal>) -> u8 {
    result.map_or_else(|refusal| refusal.number(), |_| 0)
}
