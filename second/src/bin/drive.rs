//! A lossless group: everyone sends in turn, each frame arrives at all the others, and everything is taken.
//! Standard input: n, W and the number of messages, as `3 4 100`. Prints a sum over what was taken, and on standard
//! error how many calls on units that took.

use second::engine::{Refusal, Unit};
use second::frames::LONGEST_FRAME;
use std::error::Error;
use std::io;

const DATA: usize = 16;

fn main() -> Result<(), Box<dyn Error>> {
    let text = io::read_to_string(io::stdin())?;
    let numbers = text.split(' ').map(str::parse).collect::<Result<Vec<usize>, _>>()?;
    let &[size, window, messages] = numbers.as_slice() else {
        return Err("n, W and the number of messages, please".into());
    };
    let mut group = Group::open(size, window).map_err(describe)?;
    group.run(messages).map_err(describe)?;
    println!("{}", group.sum);
    eprintln!("{}", group.calls);
    Ok(())
}

fn describe(refusal: Refusal) -> String {
    format!("{refusal:?}")
}

struct Group {
    units: Vec<Unit>,
    sum: u32,
    calls: u64,
}

impl Group {
    fn open(size: usize, window: usize) -> Result<Group, Refusal> {
        let mut units = vec![Unit::closed(); size];
        for (index, unit) in units.iter_mut().enumerate() {
            unit.open(index + 1, size, window, 1, &vec![1; size])?;
        }
        Ok(Group { units, sum: 0, calls: 0 })
    }

    fn run(&mut self, messages: usize) -> Result<(), Refusal> {
        let size = self.units.len();
        let mut text = [0; DATA];
        let mut frame = [0; LONGEST_FRAME];
        for message in 0..messages {
            let sender = message % size;
            text[message % DATA] = message as u8;
            let length = self.units[sender].send(&text, &mut frame)?;
            self.take_all(sender);
            for step in 1..size {
                let receiver = (sender + step) % size;
                self.units[receiver].arrive(&frame[..length])?;
                self.take_all(receiver);
            }
            self.calls += size as u64;
        }
        Ok(())
    }

    fn take_all(&mut self, index: usize) {
        let mut data = [0; DATA];
        self.calls += 1;
        while let Ok(taken) = self.units[index].take(&mut data) {
            self.add([taken.sender as u32, taken.number, taken.length as u32]);
            self.add(data.map(u32::from));
            self.calls += 1;
        }
    }

    fn add<const N: usize>(&mut self, numbers: [u32; N]) {
        let mixed = |sum: u32, number| sum.wrapping_mul(3).wrapping_add(number);
        self.sum = numbers.into_iter().fold(self.sum, mixed);
    }
}
