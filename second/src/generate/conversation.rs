//! Conversations: the engine runs beside the generator, so that useful steps can be chosen.

use super::{nonsense, word, word_past_the_data_limit};
use crate::engine::Unit;
use crate::frames::{self, Frame};
use crate::random::Random;
use crate::script::Bench;

/// What the choice of steps needs to know of a written frame.
struct Written {
    sender: usize,
    kind: Kind,
}

enum Kind {
    Data { seq: u32, ack: Vec<u32> },
    Request { about: usize, answered: bool },
}

impl Written {
    fn of(frame: &[u8]) -> Option<Written> {
        let (sender, kind) = match frames::read(frame)? {
            Frame::Data(data) => (data.src, Kind::Data { seq: data.seq, ack: data.ack }),
            Frame::Request(request) => {
                (request.src, Kind::Request { about: request.lsrc.into(), answered: false })
            }
        };
        Some(Written { sender: sender.into(), kind })
    }

    fn is_welcome_at(&self, unit: &Unit) -> bool {
        match &self.kind {
            Kind::Data { .. } => self.is_next_at(unit) && !self.tells_of_more_than(unit),
            Kind::Request { about, answered } => unit.own == *about && !answered,
        }
    }

    /// Early, and not yet heard of.
    fn is_early_at(&self, unit: &Unit) -> bool {
        let next = unit.req[self.sender - 1];
        let unheard = unit.heard[self.sender - 1] == next;
        unheard && self.is_next_at(unit) && self.tells_of_more_than(unit)
    }

    fn is_next_at(&self, unit: &Unit) -> bool {
        matches!(self.kind, Kind::Data { seq, .. } if seq == unit.req[self.sender - 1])
    }

    fn is_past_a_gap_at(&self, unit: &Unit) -> bool {
        matches!(self.kind, Kind::Data { seq, .. } if seq > unit.req[self.sender - 1])
    }

    fn tells_of_more_than(&self, unit: &Unit) -> bool {
        match &self.kind {
            Kind::Data { ack, .. } => {
                let mut pairs = ack.iter().zip(&unit.req).zip(1..);
                pairs.any(|((ack, req), k)| k != self.sender && ack > req)
            }
            Kind::Request { .. } => false,
        }
    }
}

pub struct Conversation<'a> {
    random: &'a mut Random,
    bench: Bench,
    written: Vec<Written>,
    lines: Vec<Vec<u8>>,
    trouble: usize,
    haste: usize,
    talker: Option<usize>,
    hoarders: Vec<bool>,
}

impl<'a> Conversation<'a> {
    pub fn new(random: &'a mut Random, size: usize, window: usize) -> Conversation<'a> {
        Conversation {
            random,
            bench: Bench::open(size, window).expect("a group that the bench takes"),
            written: Vec::new(),
            lines: vec![format!("G {size} {window}").into_bytes()],
            trouble: 0,
            haste: 4,
            talker: None,
            hoarders: vec![false; size],
        }
    }

    /// Out of a hundred lines, how many are chosen without regard to use.
    pub fn with_trouble(self, trouble: usize) -> Self {
        Conversation { trouble, ..self }
    }

    /// One time in how many a unit sends although frames could arrive.
    pub fn with_haste(self, haste: usize) -> Self {
        Conversation { haste, ..self }
    }

    /// The unit, counted from 0, that sends whenever it can.
    pub fn with_talker(self, talker: usize) -> Self {
        Conversation { talker: Some(talker), ..self }
    }

    pub fn with_hoarders(self, hoarders: Vec<bool>) -> Self {
        Conversation { hoarders, ..self }
    }

    pub fn lines(mut self, later_lines: usize) -> Vec<Vec<u8>> {
        while self.lines.len() <= later_lines {
            let line = self.next_line(later_lines + 1 - self.lines.len());
            self.say(line);
        }
        self.lines
    }

    fn say(&mut self, line: Vec<u8>) {
        self.bench.act_on(&line);
        self.lines.push(line);
        let new_frames = &self.bench.frames()[self.written.len()..];
        self.written.extend(new_frames.iter().filter_map(|frame| Written::of(frame)));
    }

    fn next_line(&mut self, lines_left: usize) -> Vec<u8> {
        if self.random.below(100) < self.trouble {
            return self.troublesome_line();
        }
        let soon_over = lines_left <= 4 * self.bench.size();
        let take = if soon_over || self.random.one_in(2) { self.take() } else { None };
        let early =
            if self.random.one_in(3) { self.deliver_if(Written::is_early_at) } else { None };
        let ask = if self.random.one_in(4) { self.ask() } else { None };
        let useful = take.or(early).or(ask).or_else(|| self.deliver_or_send());
        useful.map_or_else(|| self.troublesome_line(), String::into_bytes)
    }

    fn deliver_or_send(&mut self) -> Option<String> {
        if self.random.one_in(self.haste) {
            self.send().or_else(|| self.deliver_if(Written::is_welcome_at))
        } else {
            self.deliver_if(Written::is_welcome_at).or_else(|| self.send())
        }
    }

    fn take(&mut self) -> Option<String> {
        let ready = |&u: &usize| !self.hoarders[u] && !self.bench.units()[u].confirmed.is_empty();
        let takers: Vec<usize> = self.indices().filter(ready).collect();
        let u = self.random.pick(&takers)?;
        Some(format!("T {}", u + 1))
    }

    fn ask(&mut self) -> Option<String> {
        let units = self.bench.units();
        let pairs = self.indices().flat_map(|u| self.indices().map(move |k| (u, k)));
        let missing: Vec<_> = pairs.filter(|&(u, k)| units[u].heard[k] > units[u].req[k]).collect();
        let (u, k) = self.random.pick(&missing)?;
        Some(format!("R {} {}", u + 1, k + 1))
    }

    fn deliver_if(&mut self, fits: fn(&Written, &Unit) -> bool) -> Option<String> {
        let mut arrivals = Vec::new();
        for (u, unit) in self.bench.units().iter().enumerate() {
            let fitting = self.written.iter().enumerate().filter(|(_, frame)| fits(frame, unit));
            arrivals.extend(fitting.map(|(f, _)| (u, f)));
        }
        let (u, f) = self.random.pick(&arrivals)?;
        if let Kind::Request { answered, .. } = &mut self.written[f].kind {
            *answered = true;
        }
        Some(format!("A {} {}", u + 1, f + 1))
    }

    fn send(&mut self) -> Option<String> {
        let units = self.bench.units();
        let open: Vec<usize> = self.indices().filter(|&u| units[u].window_is_open()).collect();
        let most_silent = open.iter().copied().min_by_key(|&u| units[u].seq);
        let talker = self.talker.filter(|talker| open.contains(talker));
        let sender = match talker {
            Some(talker) => Some(talker),
            None if self.random.one_in(4) => self.random.pick(&open),
            None => most_silent,
        }?;
        let length = if self.random.one_in(30) { 48 } else { self.random.between(1, 6) };
        Some(format!("S {} {}", sender + 1, word(self.random, length)))
    }

    fn troublesome_line(&mut self) -> Vec<u8> {
        let size = self.bench.size();
        let u = self.random.between(1, size);
        let any_frame = self.random.between(1, self.written.len().max(1));
        let line = match self.random.below(16) {
            0..4 => self.deliver_if(Written::is_past_a_gap_at),
            4..6 => self.deliver_if(Written::is_early_at),
            6..8 => self.ask(),
            8 => Some(format!("R {u} {}", self.random.between(0, size + 1))),
            9 => Some(format!("T {u}")),
            10..12 => Some(format!("S {u} {}", word(self.random, 3))),
            12 => Some(format!("S {u} {}", word_past_the_data_limit(self.random))),
            13 => return nonsense::line(self.random),
            _ => None,
        };
        line.unwrap_or_else(|| format!("A {u} {any_frame}")).into_bytes()
    }

    fn indices(&self) -> std::ops::Range<usize> {
        0..self.bench.size()
    }
}
