//! Compares the exported frame reader with the own one, by way of a program that calls it.
//!
//! `compare_frames frames` writes every trial, each after its length in two bytes, high byte first. The program writes,
//! for each trial and each room, the answer in four bytes and the lent numbers in eight each, low bytes first, and
//! `compare_frames judge` reads that.

use second::judge::{self, Reading, Tally};
use second::trials;
use std::env;
use std::io::{self, BufReader, BufWriter, Read, Write};
use std::process::ExitCode;

fn main() -> ExitCode {
    match env::args().nth(1).as_deref() {
        Some("frames") => match write_trials(BufWriter::new(io::stdout().lock())) {
            Ok(()) => ExitCode::SUCCESS,
            Err(error) => {
                eprintln!("compare_frames: {error}");
                ExitCode::FAILURE
            }
        },
        Some("judge") => judge::report(judge_readings(BufReader::new(io::stdin().lock()))),
        _ => {
            eprintln!("usage: compare_frames frames | compare_frames judge");
            ExitCode::from(2)
        }
    }
}

fn write_trials(mut to: impl Write) -> io::Result<()> {
    trials::each(|_, bytes| {
        let length = u16::try_from(bytes.len()).map_err(io::Error::other)?;
        to.write_all(&length.to_be_bytes())?;
        to.write_all(bytes)
    })?;
    to.flush()
}

fn judge_readings(mut from: impl Read) -> Result<Tally, String> {
    let tally = judge::judge(|_, room| read_reading(&mut from, room))?;
    match from.read(&mut [0]) {
        Ok(0) => Ok(tally),
        _ => Err("more readings than trials".to_owned()),
    }
}

fn read_reading(from: &mut impl Read, room: usize) -> io::Result<Reading> {
    let mut answer = [0; 4];
    from.read_exact(&mut answer)?;
    let mut numbers = vec![[0; 8]; room];
    for number in &mut numbers {
        from.read_exact(number)?;
    }
    Ok(Reading {
        answer: u32::from_le_bytes(answer),
        numbers: numbers.into_iter().map(u64::from_le_bytes).collect(),
    })
}
