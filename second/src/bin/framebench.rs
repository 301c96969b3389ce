//! Writes and reads back as many data frames as standard input says, and prints the sum of what was read.

use second::frames::{self, Data, Frame};
use std::error::Error;
use std::io;

fn main() -> Result<(), Box<dyn Error>> {
    let rounds: u32 = io::read_to_string(io::stdin())?.parse()?;
    let total = (0..rounds).fold(0, |total: u32, index| total.wrapping_add(back(index)));
    println!("{total}");
    Ok(())
}

/// The sum of message `index`, written and read back: n goes round 2 to 8 and the data round 0 to 48 bytes.
fn back(index: u32) -> u32 {
    let seq = index % 4_294_967_294 + 1;
    let message = Data {
        cid: index,
        src: index as u8,
        seq,
        ack: vec![seq; index as usize % 7 + 2],
        buf: index as u16,
        data: &[b'x'; 48][..index as usize % 49],
    };
    match frames::read(&frames::write(&Frame::Data(message))) {
        Some(Frame::Data(data)) => sum(&data),
        _ => 0,
    }
}

/// CID, SRC, SEQ, n, the first ACK, BUF and the length of the data, added modulo 2^32.
fn sum(data: &Data) -> u32 {
    let lengths = (data.ack.len() + data.data.len()) as u32;
    [data.cid, data.src.into(), data.seq, data.ack[0], data.buf.into(), lengths]
        .into_iter()
        .fold(0, u32::wrapping_add)
}
