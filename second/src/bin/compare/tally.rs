//! What the compared scripts reached.

use second::engine::Refusal::{Early, Gap, Repeat};
use second::script::{Command, Outcome, Play};
use std::collections::{BTreeMap, BTreeSet};
use std::fmt;

const REACHABLE: [u8; 11] = [0, 5, 6, 8, 9, 10, 12, 13, 15, 17, 18];
const TROUBLES: [&str; 4] = ["repeats", "gaps", "early arrivals", "answered requests"];
const SIZES: [usize; 2] = [2, 3];
const FEWEST_COMPLETE: usize = 1_000;
const FEWEST_COMPLETE_OF_SIZE: usize = 300;
const FEWEST_TROUBLED: usize = 100;

/// A script is complete when every unit takes a message of every sender.
#[derive(Default)]
pub struct Tally {
    answers: BTreeMap<u8, usize>,
    unreadable: usize,
    groups_refused: usize,
    complete_by_size: BTreeMap<usize, usize>,
    complete_by_trouble: BTreeMap<&'static str, usize>,
}

impl Tally {
    pub fn count(&mut self, lines: &[Vec<u8>], play: Option<Play>) {
        let Some(play) = play else {
            self.groups_refused += 1;
            return;
        };
        for outcome in &play.outcomes {
            match outcome.answer() {
                Some(answer) => *self.answers.entry(answer).or_default() += 1,
                None => self.unreadable += 1,
            }
        }
        let steps = || lines[1..].iter().map(|line| Command::read(line)).zip(&play.outcomes);
        let takes: BTreeSet<(usize, usize)> = steps().filter_map(take).collect();
        if takes.len() == play.size * play.size {
            *self.complete_by_size.entry(play.size).or_default() += 1;
            let troubles: BTreeSet<&str> = steps().filter_map(trouble).collect();
            for trouble in troubles {
                *self.complete_by_trouble.entry(trouble).or_default() += 1;
            }
        }
    }

    pub fn plus(mut self, other: Tally) -> Tally {
        self.unreadable += other.unreadable;
        self.groups_refused += other.groups_refused;
        add_all(&mut self.answers, other.answers);
        add_all(&mut self.complete_by_size, other.complete_by_size);
        add_all(&mut self.complete_by_trouble, other.complete_by_trouble);
        self
    }

    /// What the scripts should have reached and did not.
    pub fn weaknesses(&self) -> Vec<String> {
        let complete: usize = self.complete_by_size.values().sum();
        let complete_of = |size| self.complete_by_size.get(&size).copied().unwrap_or(0);
        let troubled_by = |trouble| self.complete_by_trouble.get(trouble).copied().unwrap_or(0);
        let mut found = Vec::new();
        let mut require = |reached: bool, goal: String| {
            if !reached {
                found.push(goal);
            }
        };
        require(self.unreadable > 0, "a line that prints ?".to_owned());
        for answer in REACHABLE {
            require(self.answers.contains_key(&answer), format!("answer {answer}"));
        }
        require(complete >= FEWEST_COMPLETE, format!("{FEWEST_COMPLETE} complete scripts"));
        for size in SIZES {
            let goal = format!("{FEWEST_COMPLETE_OF_SIZE} complete scripts with n = {size}");
            require(complete_of(size) >= FEWEST_COMPLETE_OF_SIZE, goal);
        }
        for trouble in TROUBLES {
            let goal = format!("{FEWEST_TROUBLED} complete scripts with {trouble}");
            require(troubled_by(trouble) >= FEWEST_TROUBLED, goal);
        }
        found
    }
}

impl fmt::Display for Tally {
    fn fmt(&self, to: &mut fmt::Formatter) -> fmt::Result {
        writeln!(to, "group ?: {}", self.groups_refused)?;
        writeln!(to, "answer ?: {}", self.unreadable)?;
        for (answer, count) in &self.answers {
            writeln!(to, "answer {answer}: {count}")?;
        }
        for (size, count) in &self.complete_by_size {
            writeln!(to, "complete scripts, n = {size}: {count}")?;
        }
        for (trouble, count) in &self.complete_by_trouble {
            writeln!(to, "complete scripts with {trouble}: {count}")?;
        }
        Ok(())
    }
}

fn add_all<K: Ord>(sums: &mut BTreeMap<K, usize>, more: BTreeMap<K, usize>) {
    for (key, count) in more {
        *sums.entry(key).or_default() += count;
    }
}

/// Who took a message of whom.
fn take((command, outcome): (Option<Command>, &Outcome)) -> Option<(usize, usize)> {
    match (command?, outcome) {
        (Command::Take { unit }, Outcome::Taken { sender, .. }) => Some((unit, *sender)),
        _ => None,
    }
}

fn trouble((command, outcome): (Option<Command>, &Outcome)) -> Option<&'static str> {
    match (command?, outcome) {
        (Command::Arrive { .. }, Outcome::Refused(Repeat)) => Some("repeats"),
        (Command::Arrive { .. }, Outcome::Refused(Gap)) => Some("gaps"),
        (Command::Arrive { .. }, Outcome::Refused(Early)) => Some("early arrivals"),
        (Command::Arrive { .. }, Outcome::Resend { .. }) => Some("answered requests"),
        _ => None,
    }
}
