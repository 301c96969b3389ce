//! The bench language: scripts in, answers out.

use crate::engine::{Arrival, Refusal, Unit};
use crate::frames::{LONGEST_FRAME, MOST_DATA};
use std::fmt;
use std::io::{self, BufRead, Read};

pub const LONGEST_LINE: usize = 80;
pub const MOST_LATER_LINES: usize = 64;
pub const MOST_BENCH_UNITS: usize = 3;

const BENCH_CID: u32 = 1;
const FIRST_NUMBER: u32 = 1;

/// What the bench program prints for a script.
pub fn run(mut input: impl BufRead) -> io::Result<String> {
    Ok(print(&play(&read_lines(&mut input)?)))
}

/// A group and the outcome of each later line.
pub struct Play {
    pub size: usize,
    pub window: usize,
    pub outcomes: Vec<Outcome>,
}

/// Nothing where the first line asks for no group.
pub fn play(lines: &[Vec<u8>]) -> Option<Play> {
    let (mut bench, later) = Bench::start(lines)?;
    let outcomes = later.iter().map(|line| bench.act_on(line)).collect();
    Some(Play { size: bench.size(), window: bench.window(), outcomes })
}

pub fn print(play: &Option<Play>) -> String {
    let Some(Play { size, window, outcomes }) = play else {
        return "group ?\n".to_owned();
    };
    let mut printed = format!("group {size} {window}\n");
    for (outcome, number) in outcomes.iter().zip(2..) {
        printed += &format!("{number} {outcome}\n");
    }
    printed
}

/// The lines that are read, each cut after the first byte too many.
pub fn read_lines(input: &mut impl BufRead) -> io::Result<Vec<Vec<u8>>> {
    let mut lines = Vec::new();
    while lines.len() <= MOST_LATER_LINES {
        match read_line(input)? {
            Some(line) => lines.push(line),
            None => break,
        }
    }
    Ok(lines)
}

fn read_line(input: &mut impl BufRead) -> io::Result<Option<Vec<u8>>> {
    let mut line = Vec::new();
    let longest_with_feed = LONGEST_LINE as u64 + 1;
    let read = input.by_ref().take(longest_with_feed).read_until(b'\n', &mut line)?;
    if line.last() == Some(&b'\n') {
        line.pop();
    } else if line.len() > LONGEST_LINE {
        input.skip_until(b'\n')?;
    }
    Ok((read > 0).then_some(line))
}

/// Bytes that are not printable ASCII show as `\x` and two digits.
pub fn printable(bytes: &[u8]) -> String {
    let show = |&byte: &u8| match byte {
        b' '..=b'~' => char::from(byte).to_string(),
        _ => format!("\\x{byte:02x}"),
    };
    bytes.iter().map(show).collect()
}

#[derive(Clone, Copy, Debug, PartialEq, Eq)]
pub enum Command<'a> {
    Send { unit: usize, word: &'a [u8] },
    Arrive { unit: usize, frame: usize },
    Request { unit: usize, about: usize },
    Take { unit: usize },
}

impl Command<'_> {
    pub fn read(line: &[u8]) -> Option<Command<'_>> {
        match items(line)?[..] {
            [b"S", unit, word] => {
                Some(Command::Send { unit: number(unit)?, word: readable(word)? })
            }
            [b"A", unit, frame] => {
                Some(Command::Arrive { unit: number(unit)?, frame: number(frame)? })
            }
            [b"R", unit, about] => {
                Some(Command::Request { unit: number(unit)?, about: number(about)? })
            }
            [b"T", unit] => Some(Command::Take { unit: number(unit)? }),
            _ => None,
        }
    }

    pub fn unit(&self) -> usize {
        match *self {
            Command::Send { unit, .. }
            | Command::Arrive { unit, .. }
            | Command::Request { unit, .. }
            | Command::Take { unit } => unit,
        }
    }
}

fn items(line: &[u8]) -> Option<Vec<&[u8]>> {
    (line.len() <= LONGEST_LINE).then(|| line.split(|&byte| byte == b' ').collect())
}

/// A number past the largest machine number stands for the largest: both are beyond any unit and frame.
fn number(item: &[u8]) -> Option<usize> {
    let plain = match item {
        [] => false,
        [b'0', rest @ ..] => rest.is_empty(),
        digits => digits.iter().all(u8::is_ascii_digit),
    };
    let value = |digit: &u8| usize::from(digit - b'0');
    plain.then(|| {
        item.iter().fold(0, |sum: usize, digit| sum.saturating_mul(10).saturating_add(value(digit)))
    })
}

fn readable(word: &[u8]) -> Option<&[u8]> {
    (!word.is_empty() && word.iter().all(u8::is_ascii_graphic)).then_some(word)
}

#[derive(Clone, Debug, PartialEq, Eq)]
pub enum Outcome {
    Unreadable,
    Refused(Refusal),
    Done,
    Resend { first: u32, last: u32 },
    Taken { sender: usize, number: u32, word: String },
}

impl Outcome {
    pub fn answer(&self) -> Option<u8> {
        match self {
            Outcome::Unreadable => None,
            Outcome::Refused(refusal) => Some(refusal.number()),
            Outcome::Done | Outcome::Resend { .. } | Outcome::Taken { .. } => Some(0),
        }
    }
}

impl fmt::Display for Outcome {
    fn fmt(&self, to: &mut fmt::Formatter) -> fmt::Result {
        match self {
            Outcome::Unreadable => write!(to, "?"),
            Outcome::Refused(refusal) => write!(to, "{}", refusal.number()),
            Outcome::Done | Outcome::Resend { .. } => write!(to, "0"),
            Outcome::Taken { sender, number, word } => write!(to, "0 {sender} {number} {word}"),
        }
    }
}

/// The units of a script and the frames written so far.
#[derive(Clone, Debug)]
pub struct Bench {
    units: Vec<Unit>,
    frames: Vec<Vec<u8>>,
}

impl Bench {
    /// The bench that the first line asks for, and the later lines.
    pub fn start(lines: &[Vec<u8>]) -> Option<(Bench, &[Vec<u8>])> {
        let (first, later) = lines.split_first()?;
        match items(first)?[..] {
            [b"G", size, window] => Some((Bench::open(number(size)?, number(window)?)?, later)),
            _ => None,
        }
    }

    pub fn open(size: usize, window: usize) -> Option<Bench> {
        if size > MOST_BENCH_UNITS {
            return None;
        }
        let firsts = vec![FIRST_NUMBER; size];
        let mut units = vec![Unit::closed(); size];
        for (unit, own) in units.iter_mut().zip(1..) {
            unit.open(own, size, window, BENCH_CID, &firsts).ok()?;
        }
        (!units.is_empty()).then_some(Bench { units, frames: Vec::new() })
    }

    pub fn size(&self) -> usize {
        self.units.len()
    }

    pub fn window(&self) -> usize {
        self.units[0].window
    }

    pub fn units(&self) -> &[Unit] {
        &self.units
    }

    pub fn frames(&self) -> &[Vec<u8>] {
        &self.frames
    }

    pub fn act_on(&mut self, line: &[u8]) -> Outcome {
        let acted = Command::read(line).and_then(|command| self.act(command));
        match acted {
            None => Outcome::Unreadable,
            Some(Err(refusal)) => Outcome::Refused(refusal),
            Some(Ok(outcome)) => outcome,
        }
    }

    fn act(&mut self, command: Command) -> Option<Result<Outcome, Refusal>> {
        let unit = self.units.get_mut(command.unit().checked_sub(1)?)?;
        let mut output = [0; LONGEST_FRAME];
        let written = match command {
            Command::Send { word, .. } => unit.send(word, &mut output),
            Command::Request { about, .. } => unit.request(about, &mut output),
            Command::Arrive { frame, .. } => {
                let frame = self.frames.get(frame.checked_sub(1)?)?;
                return Some(unit.arrive(frame).map(Outcome::from));
            }
            Command::Take { .. } => return Some(take(unit)),
        };
        Some(written.map(|length| {
            self.frames.push(output[..length].to_vec());
            Outcome::Done
        }))
    }
}

impl From<Arrival> for Outcome {
    fn from(arrival: Arrival) -> Outcome {
        match arrival {
            Arrival::Accepted => Outcome::Done,
            Arrival::Resend { first, last } => Outcome::Resend { first, last },
        }
    }
}

fn take(unit: &mut Unit) -> Result<Outcome, Refusal> {
    let mut data = [0; MOST_DATA];
    let taken = unit.take(&mut data)?;
    let word = String::from_utf8_lossy(&data[..taken.length]).into_owned();
    Ok(Outcome::Taken { sender: taken.sender, number: taken.number, word })
}
