//! Random runs: units stay sound, and what is taken keeps the causal order of the run.

use second::generate;
use second::script::{self, Bench, Outcome};
use second::trace::{Act, Content, Name, Step, Trace};
use std::collections::{HashMap, HashSet};

const SEED: u64 = 11;
const SCRIPTS: u64 = 2_000;

fn lines(index: u64) -> Vec<Vec<u8>> {
    script::read_lines(&mut &generate::script(SEED, index)[..]).expect("read from memory")
}

#[test]
fn scripts_repeat_with_their_seed() {
    for index in 0..50 {
        assert_eq!(generate::script(SEED, index), generate::script(SEED, index));
    }
    assert_ne!(lines(3), lines(4));
}

#[test]
fn every_step_leaves_sound_units() {
    for index in 0..SCRIPTS {
        let lines = lines(index);
        let Some((mut bench, later)) = Bench::start(&lines) else { continue };
        for line in later {
            bench.act_on(line);
            assert!(bench.units().iter().all(|unit| unit.is_sound()), "script {index}");
        }
    }
}

/// For each unit the messages it sent or accepted and those it took, and for each message what precedes it.
struct Run {
    known: Vec<Vec<Name>>,
    taken: Vec<Vec<Name>>,
    past: HashMap<Name, HashSet<Name>>,
}

impl Run {
    fn follow(&mut self, step: &Step, trace: &Trace) {
        match (&step.act, &step.outcome) {
            (Act::Send { wrote: Some(frame) }, _) => self.send(step.unit, message(trace, *frame)),
            (Act::Arrive { frame }, Outcome::Done) => {
                self.known[step.unit - 1].extend(message(trace, *frame));
            }
            (Act::Take, Outcome::Taken { sender, number, .. }) => {
                self.take(step.unit, Name { sender: *sender, number: *number });
            }
            _ => {}
        }
    }

    fn send(&mut self, unit: usize, name: Option<Name>) {
        let known = &mut self.known[unit - 1];
        let name = name.expect("a sent frame is a message");
        let indirect = known.iter().flat_map(|earlier| self.past[earlier].iter().copied());
        let past = known.iter().copied().chain(indirect).collect();
        self.past.insert(name, past);
        known.push(name);
    }

    fn take(&mut self, unit: usize, name: Name) {
        assert!(
            self.known.iter().all(|known| known.contains(&name)),
            "{name} taken before all know it"
        );
        let taken = &mut self.taken[unit - 1];
        assert!(!taken.contains(&name), "{name} taken twice");
        assert!(
            self.past[&name].iter().all(|earlier| taken.contains(earlier)),
            "{name} taken early"
        );
        taken.push(name);
    }
}

fn message(trace: &Trace, frame: usize) -> Option<Name> {
    match trace.frames[frame].content {
        Content::Message { name, .. } => Some(name),
        Content::Request { .. } => None,
    }
}

#[test]
fn takes_keep_the_causal_order() {
    let mut takes = 0;
    for index in 0..SCRIPTS {
        let Some(trace) = Trace::of(&lines(index)) else { continue };
        let none = vec![Vec::new(); trace.size];
        let mut run = Run { known: none.clone(), taken: none, past: HashMap::new() };
        for step in &trace.steps {
            run.follow(step, &trace);
        }
        takes += run.taken.concat().len();
    }
    assert!(takes > 10_000, "only {takes} takes");
}
