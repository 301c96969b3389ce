//! How many trials of each sort were read, and with which answers.

use super::{NO_FRAME, SHORT_OUTPUT};
use crate::trials::Sort;
use std::collections::BTreeMap;
use std::fmt;

const FEWEST_LAWFUL: usize = 2_000;
const FEWEST_REFUSED: usize = 4_000;

#[derive(Default)]
pub struct Tally {
    counts: BTreeMap<Sort, Count>,
}

#[derive(Clone, Copy, Default)]
struct Count {
    lawful: usize,
    refused: usize,
    answers_16: usize,
}

impl Tally {
    pub(super) fn count(&mut self, sort: Sort, answers: &[u32]) {
        let count = self.counts.entry(sort).or_default();
        let refused = answers.contains(&NO_FRAME);
        count.lawful += usize::from(!refused);
        count.refused += usize::from(refused);
        count.answers_16 += answers.iter().filter(|&&answer| answer == SHORT_OUTPUT).count();
    }

    /// The sorts of which too few were tried.
    pub fn weaknesses(&self) -> Vec<Sort> {
        let enough = |sort: &Sort| {
            let count = self.counts.get(sort).copied().unwrap_or_default();
            match sort {
                Sort::Lawful => count.lawful >= FEWEST_LAWFUL,
                _ => count.refused >= FEWEST_REFUSED,
            }
        };
        Sort::ALL.into_iter().filter(|sort| !enough(sort)).collect()
    }
}

impl fmt::Display for Tally {
    fn fmt(&self, to: &mut fmt::Formatter) -> fmt::Result {
        let mut sum = Count::default();
        for (sort, count) in &self.counts {
            write_line(to, &format!("{sort:?}"), count)?;
            sum.lawful += count.lawful;
            sum.refused += count.refused;
            sum.answers_16 += count.answers_16;
        }
        write_line(to, "All", &sum)
    }
}

fn write_line(to: &mut fmt::Formatter, sort: &str, count: &Count) -> fmt::Result {
    let Count { lawful, refused, answers_16 } = count;
    let tried = lawful + refused;
    writeln!(
        to,
        "{sort:<9}{tried:>7} frames: {lawful:>5} lawful, {refused:>5} refused, {answers_16:>5} answers 16"
    )
}
