//! Compares the exported frame reader with the own one on every trial.

mod tally;

use crate::frames::{self, Frame};
use crate::trials::{self, Sort};
use std::io;
use std::process::ExitCode;
pub use tally::Tally;

/// How many numbers are lent for each of the three readings of a trial: too few, just enough, and more.
pub const ROOMS: [usize; 3] = [17, 18, 20];
/// What each of the lent numbers is before a reading.
pub const MARK: u64 = 0xa5a5_a5a5_a5a5_a5a5;

const DONE: u32 = 0;
const NO_FRAME: u32 = 3;
const SHORT_OUTPUT: u32 = 16;
const NUMBERS: usize = 18;
const MOST_ACKS: usize = 8;

/// What a reader answered, and the lent numbers afterwards.
#[derive(Debug, PartialEq, Eq)]
pub struct Reading {
    pub answer: u32,
    pub numbers: Vec<u64>,
}

/// Asks for the reading of each trial with each room, up to the first difference.
pub fn judge(mut ask: impl FnMut(&[u8], usize) -> io::Result<Reading>) -> Result<Tally, String> {
    let mut tally = Tally::default();
    trials::each(|sort, bytes| {
        let mut answers = Vec::new();
        for room in ROOMS {
            let own = own_reading(bytes, room);
            let exported = ask(bytes, room).map_err(|error| error.to_string())?;
            if exported != own {
                return Err(difference(sort, bytes, &exported, &own));
            }
            answers.push(own.answer);
        }
        tally.count(sort, &answers);
        Ok(())
    })?;
    Ok(tally)
}

/// Prints the outcome; a failure where there is a difference, or where too little was tried.
pub fn report(outcome: Result<Tally, String>) -> ExitCode {
    match outcome {
        Ok(tally) => {
            print!("{tally}");
            let weaknesses = tally.weaknesses();
            if weaknesses.is_empty() {
                println!("0 differences");
                return ExitCode::SUCCESS;
            }
            println!("too few frames: {weaknesses:?}");
        }
        Err(difference) => println!("{difference}"),
    }
    ExitCode::FAILURE
}

/// What the exported reader has to answer by the own one, and to leave in the lent numbers.
pub fn own_reading(bytes: &[u8], room: usize) -> Reading {
    let mut numbers = vec![MARK; room];
    let answer = match frames::read(bytes) {
        None => NO_FRAME,
        Some(_) if room < NUMBERS => SHORT_OUTPUT,
        Some(frame) => {
            numbers[..NUMBERS].copy_from_slice(&numbers_of(&frame, bytes));
            DONE
        }
    };
    Reading { answer, numbers }
}

/// Kind, CID, SRC, SEQ, n, the eight ACK, BUF, LSRC, LSEQ, data start, data length; 0 where the kind has none.
fn numbers_of(frame: &Frame, bytes: &[u8]) -> [u64; NUMBERS] {
    let (start, ack, end) = match frame {
        Frame::Data(data) => (
            [1, data.cid.into(), data.src.into(), data.seq.into()],
            &data.ack,
            [data.buf.into(), 0, 0, (bytes.len() - data.data.len()) as u64, data.data.len() as u64],
        ),
        Frame::Request(request) => (
            [2, request.cid.into(), request.src.into(), 0],
            &request.ack,
            [0, request.lsrc.into(), request.lseq.into(), 0, 0],
        ),
    };
    let mut numbers = [0; NUMBERS];
    numbers[..4].copy_from_slice(&start);
    numbers[4] = ack.len() as u64;
    for (number, &ack) in numbers[5..5 + MOST_ACKS].iter_mut().zip(ack) {
        *number = ack.into();
    }
    numbers[5 + MOST_ACKS..].copy_from_slice(&end);
    numbers
}

fn difference(sort: Sort, bytes: &[u8], exported: &Reading, own: &Reading) -> String {
    let frame: String = bytes.iter().map(|byte| format!("{byte:02x}")).collect();
    format!("{sort:?} differs\nexported {exported:x?}\nown      {own:x?}\nframe    {frame}")
}
