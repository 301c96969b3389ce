//! What the compared calls reached.

use crate::frames::{self, Frame};
use crate::replay::{Call, Field, Reply};
use std::collections::{BTreeMap, BTreeSet};
use std::fmt;

const FEWEST_CALLS: usize = 50_000;
const LARGEST: usize = 8;
const FEWEST_COMPLETE_OF_LARGEST: usize = 4;

#[derive(Clone, Copy, Debug, PartialEq, Eq, PartialOrd, Ord)]
enum Kind {
    Opening,
    Sending,
    DataArrival,
    RequestArrival,
    Requesting,
    Copying,
    Taking,
    LookReady,
    LookFree,
    LookKept,
    LookMissing,
    LookWaiting,
    Soundness,
    Setting,
    NoCall,
}

/// The answers of each call; of soundness 1 for yes and 0 for no.
const REACHABLE: [(Kind, &[u32]); 15] = [
    (Kind::Opening, &[0, 2]),
    (Kind::Sending, &[0, 1, 13, 14, 15, 12, 16]),
    (Kind::DataArrival, &[0, 1, 3, 4, 5, 6, 7, 8, 9, 10, 11, 12]),
    (Kind::RequestArrival, &[0, 1, 3, 4, 5, 6, 17, 7, 18]),
    (Kind::Requesting, &[0, 1, 5, 18, 16]),
    (Kind::Copying, &[0, 1, 18, 16]),
    (Kind::Taking, &[0, 1, 18, 16]),
    (Kind::LookReady, &[0, 1]),
    (Kind::LookFree, &[0, 1]),
    (Kind::LookKept, &[0, 1]),
    (Kind::LookMissing, &[0, 1, 5]),
    (Kind::LookWaiting, &[0, 1, 5]),
    (Kind::Soundness, &[0, 1]),
    (Kind::Setting, &[0]),
    (Kind::NoCall, &[0]),
];

/// What no setting of it alone makes unsound, and what no setting of it alone leaves sound.
const NEVER_BREAKS: [Field; 2] = [Field::Buf, Field::Cid];
const ALWAYS_BREAKS: [Field; 1] = [Field::Seq];

/// A group is complete when every unit takes a message of every sender.
#[derive(Default)]
pub struct Tally {
    calls: usize,
    answers: BTreeMap<(Kind, u32), usize>,
    /// Of settings on sound units, by the byte that names what is set and by whether the unit stayed sound.
    settings: BTreeMap<(u8, bool), usize>,
    groups: BTreeMap<usize, usize>,
    complete: BTreeMap<usize, usize>,
}

/// Who took a message of whom.
#[derive(Default)]
pub(super) struct Takes {
    pairs: BTreeSet<(usize, u32)>,
}

impl Takes {
    pub fn follow(&mut self, slot: usize, call: &Call, reply: &Reply) {
        match call {
            Call::Open(_) => self.pairs.retain(|(taker, _)| *taker != slot),
            Call::Take if reply.answer == 0 => {
                self.pairs.insert((slot, reply.numbers[0]));
            }
            _ => {}
        }
    }
}

impl Tally {
    pub(super) fn count(&mut self, call: &Call, reply: &Reply) {
        let kind = kind_of(call);
        let answer = if kind == Kind::Soundness { reply.numbers[0] } else { reply.answer.into() };
        self.calls += 1;
        *self.answers.entry((kind, answer)).or_default() += 1;
    }

    pub(super) fn count_setting(&mut self, field: Field, stayed_sound: bool) {
        *self.settings.entry((field as u8, stayed_sound)).or_default() += 1;
    }

    pub(super) fn count_group(&mut self, size: usize, takes: &Takes) {
        *self.groups.entry(size).or_default() += 1;
        let members = takes.pairs.iter().filter(|(taker, _)| *taker < size);
        if members.count() == size * size {
            *self.complete.entry(size).or_default() += 1;
        }
    }

    pub fn plus(mut self, other: Tally) -> Tally {
        self.calls += other.calls;
        add_all(&mut self.answers, other.answers);
        add_all(&mut self.settings, other.settings);
        add_all(&mut self.groups, other.groups);
        add_all(&mut self.complete, other.complete);
        self
    }

    /// What the calls should have reached and did not.
    pub fn weaknesses(&self) -> Vec<String> {
        let mut found = Vec::new();
        let mut require = |reached: bool, goal: String| {
            if !reached {
                found.push(goal);
            }
        };
        require(self.calls >= FEWEST_CALLS, format!("{FEWEST_CALLS} calls"));
        for (kind, answers) in REACHABLE {
            for &answer in answers {
                let reached = self.answers.contains_key(&(kind, answer));
                require(reached, format!("{kind:?} with answer {answer}"));
            }
        }
        for field in Field::ALL {
            let seen = |stayed_sound| self.settings.contains_key(&(field as u8, stayed_sound));
            let breaks = seen(false) || NEVER_BREAKS.contains(&field);
            require(breaks, format!("a unit made unsound by {field:?}"));
            let keeps = seen(true) || ALWAYS_BREAKS.contains(&field);
            require(keeps, format!("a unit that stays sound with another {field:?}"));
        }
        let complete = self.complete.get(&LARGEST).copied().unwrap_or(0);
        let goal = format!("{FEWEST_COMPLETE_OF_LARGEST} complete groups of {LARGEST} units");
        require(complete >= FEWEST_COMPLETE_OF_LARGEST, goal);
        found
    }
}

fn kind_of(call: &Call) -> Kind {
    match call {
        Call::Open(_) => Kind::Opening,
        Call::Send(_) => Kind::Sending,
        Call::Arrive(frame) if is_request(frame) => Kind::RequestArrival,
        Call::Arrive(_) => Kind::DataArrival,
        Call::Request(_) => Kind::Requesting,
        Call::Copy(_) => Kind::Copying,
        Call::Take => Kind::Taking,
        Call::Ready => Kind::LookReady,
        Call::Free => Kind::LookFree,
        Call::Kept => Kind::LookKept,
        Call::Missing(_) => Kind::LookMissing,
        Call::Waiting(_) => Kind::LookWaiting,
        Call::Sound => Kind::Soundness,
        Call::Set(_) => Kind::Setting,
        Call::Nothing => Kind::NoCall,
    }
}

/// A frame that is a request, or bytes that start as one and are no frame.
fn is_request(bytes: &[u8]) -> bool {
    match frames::read(bytes) {
        Some(frame) => matches!(frame, Frame::Request(_)),
        None => bytes.starts_with(&[1, 0, 1, 1, 2, 0, 1, 2]),
    }
}

fn add_all<K: Ord>(sums: &mut BTreeMap<K, usize>, more: BTreeMap<K, usize>) {
    for (key, count) in more {
        *sums.entry(key).or_default() += count;
    }
}

impl fmt::Display for Tally {
    fn fmt(&self, to: &mut fmt::Formatter) -> fmt::Result {
        for (kind, _) in REACHABLE {
            write!(to, "{:<15}", format!("{kind:?}"))?;
            for ((_, answer), count) in self.answers.iter().filter(|((of, _), _)| *of == kind) {
                write!(to, " {answer}: {count} ")?;
            }
            writeln!(to)?;
        }
        for field in Field::ALL {
            let seen = |stayed| self.settings.get(&(field as u8, stayed)).copied().unwrap_or(0);
            let (sound, unsound) = (seen(true), seen(false));
            writeln!(
                to,
                "set {:<14} {sound} stayed sound, {unsound} did not",
                format!("{field:?}")
            )?;
        }
        for (size, count) in &self.groups {
            let complete = self.complete.get(size).copied().unwrap_or(0);
            writeln!(to, "groups of {size}: {count}, complete {complete}")?;
        }
        writeln!(to, "{} calls", self.calls)
    }
}
