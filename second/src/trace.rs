//! A run of a script, with what each line did to its unit.

use crate::engine::{Message, Unit};
use crate::frames::{self, Frame};
use crate::script::{printable, Bench, Command, Outcome};
use std::fmt;

/// A message by its sender and number.
#[derive(Clone, Copy, Debug, PartialEq, Eq, Hash)]
pub struct Name {
    pub sender: usize,
    pub number: u32,
}

impl fmt::Display for Name {
    fn fmt(&self, to: &mut fmt::Formatter) -> fmt::Result {
        write!(to, "{}.{}", self.sender, self.number)
    }
}

pub enum Content {
    Message { name: Name, word: String },
    Request { about: usize, first: u32, last: u32 },
}

/// A written frame, and the step that wrote it.
pub struct Written {
    pub step: usize,
    pub unit: usize,
    pub content: Content,
}

pub enum Act {
    Unreadable,
    Send { wrote: Option<usize> },
    Request { wrote: Option<usize> },
    Arrive { frame: usize },
    Take,
}

pub struct Step {
    pub text: String,
    pub unit: usize,
    pub act: Act,
    pub outcome: Outcome,
    pub pre_acknowledged: Vec<Name>,
    pub confirmed: Vec<Name>,
}

pub struct Trace {
    pub size: usize,
    pub window: usize,
    pub steps: Vec<Step>,
    pub frames: Vec<Written>,
}

impl Trace {
    /// Nothing where the first line asks for no group.
    pub fn of(lines: &[Vec<u8>]) -> Option<Trace> {
        let (mut bench, later) = Bench::start(lines)?;
        let mut trace = Trace {
            size: bench.size(),
            window: bench.window(),
            steps: Vec::new(),
            frames: Vec::new(),
        };
        for line in later {
            let step = trace.follow(&mut bench, line);
            trace.steps.push(step);
        }
        Some(trace)
    }

    fn follow(&mut self, bench: &mut Bench, line: &[u8]) -> Step {
        let before = bench.units().to_vec();
        let outcome = bench.act_on(line);
        let command = Command::read(line).filter(|_| outcome != Outcome::Unreadable);
        let unit = command.map_or(0, |command| command.unit());
        let wrote = bench.frames().get(self.frames.len()).map(|_| self.frames.len());
        if let Some(content) = wrote.and_then(|frame| content_of(&bench.frames()[frame])) {
            self.frames.push(Written { step: self.steps.len(), unit, content });
        }
        let (pre_acknowledged, confirmed) = match command {
            Some(_) => moves(&before[unit - 1], &bench.units()[unit - 1]),
            None => Default::default(),
        };
        Step {
            text: printable(line),
            unit,
            act: act_of(command, wrote),
            outcome,
            pre_acknowledged,
            confirmed,
        }
    }
}

fn act_of(command: Option<Command>, wrote: Option<usize>) -> Act {
    match command {
        None => Act::Unreadable,
        Some(Command::Send { .. }) => Act::Send { wrote },
        Some(Command::Request { .. }) => Act::Request { wrote },
        Some(Command::Arrive { frame, .. }) => Act::Arrive { frame: frame - 1 },
        Some(Command::Take { .. }) => Act::Take,
    }
}

fn content_of(frame: &[u8]) -> Option<Content> {
    match frames::read(frame)? {
        Frame::Data(data) => Some(Content::Message {
            name: Name { sender: data.src.into(), number: data.seq },
            word: printable(data.data),
        }),
        Frame::Request(request) => Some(Content::Request {
            about: request.lsrc.into(),
            first: request.ack[usize::from(request.lsrc) - 1],
            last: request.lseq - 1,
        }),
    }
}

/// The messages that became pre-acknowledged and those that became confirmed.
fn moves(before: &Unit, after: &Unit) -> (Vec<Name>, Vec<Name>) {
    let ordered_before: Vec<&Message> = before.confirmed.iter().chain(&before.ordered).collect();
    let ordered_after = after.confirmed.iter().chain(&after.ordered);
    let newly_ordered = ordered_after.filter(|message| !ordered_before.contains(message));
    let newly_confirmed =
        after.confirmed.iter().filter(|message| !before.confirmed.contains(message));
    (newly_ordered.map(name_of).collect(), newly_confirmed.map(name_of).collect())
}

fn name_of(message: &Message) -> Name {
    Name { sender: message.sender, number: message.seq }
}
