//! Opening the group: refused openings, openings, and units put together number by number.

use super::caller::Caller;
use crate::replay::{Call, Field, Opening, Setting, UNITS};

impl Caller {
    pub fn open_all(&mut self) {
        let cid = self.some_cid();
        let firsts = self.some_firsts();
        for slot in 0..self.size {
            let opening = Opening {
                own: slot as u8 + 1,
                size: self.size as u8,
                window: self.window as u8,
                cid,
                firsts,
            };
            if self.random.one_in(3) {
                self.refused_opening(slot, &opening);
            }
            if self.random.one_in(8 * self.size) {
                self.put_together(slot, &opening);
            } else {
                self.call(slot, &Call::Open(opening), 0);
            }
        }
        if self.size < UNITS {
            self.open_stranger(cid, firsts);
        }
    }

    fn some_cid(&mut self) -> u32 {
        let any = self.random.number() as u32;
        self.random.pick(&[0, 1, u32::MAX, any, any, any]).unwrap_or(any)
    }

    /// Those past n are numbers of no unit, and may be anything.
    fn some_firsts(&mut self) -> [u32; UNITS] {
        let style = self.random.below(4);
        let is_short = self.manner.episodes > 1;
        let margin = if is_short { self.random.pick(&[2, 8]).unwrap_or(2) } else { 30 };
        std::array::from_fn(|at| {
            let any = self.random.number() as u32;
            let late = u32::MAX - self.random.between(margin / 2, margin) as u32;
            let first = match style {
                _ if self.manner.late => late,
                0 => 1,
                1 => any,
                2 => self.random.between(1, 9) as u32,
                _ => self.random.pick(&[1, any, u32::MAX / 2]).unwrap_or(any),
            };
            if at < self.size {
                first.max(1)
            } else {
                self.random.pick(&[0, first]).unwrap_or(0)
            }
        })
    }

    /// One number outside its range; afterwards the unit is closed.
    fn refused_opening(&mut self, slot: usize, opening: &Opening) {
        let mut wrong = opening.clone();
        match self.random.below(4) {
            0 => wrong.own = self.random.pick(&[0, wrong.size + 1, 9, 255]).unwrap_or(0),
            1 => wrong.size = self.random.pick(&[0, 1, 9, 255]).unwrap_or(0),
            2 => wrong.window = self.random.pick(&[0, 1, 5, 255]).unwrap_or(0),
            _ => wrong.firsts[self.random.below(self.size)] = 0,
        }
        self.call(slot, &Call::Open(wrong), 0);
        for _ in 0..self.random.between(1, 3) {
            self.aimless_call(slot);
        }
    }

    /// Makes the closed unit into an opened one by setting its numbers, in any order.
    fn put_together(&mut self, slot: usize, opening: &Opening) {
        self.call(slot, &Call::Open(Opening { window: 0, ..opening.clone() }), 0);
        self.set(slot, Field::Size, 0, 0, opening.size.into());
        let mut settings = numbers_of(opening);
        while !settings.is_empty() {
            let next = settings.swap_remove(self.random.below(settings.len()));
            self.call(slot, &Call::Set(next), 0);
            if self.random.one_in(30) {
                self.aimless_call(slot);
            }
        }
        self.call(slot, &Call::Sound, 0);
    }

    pub fn set(&mut self, slot: usize, field: Field, k: usize, j: usize, value: u32) {
        let setting = Setting { field, k: k as u8, j: j as u8, value };
        self.call(slot, &Call::Set(setting), 0);
    }

    /// The last unit is of another group, which may have the same CID and another n.
    fn open_stranger(&mut self, cid: u32, firsts: [u32; UNITS]) {
        let same_cid = self.random.one_in(3);
        let size = self.size + 1;
        let opening = Opening {
            own: self.random.between(1, size) as u8,
            size: size as u8,
            window: self.window as u8,
            cid: if same_cid { cid } else { cid.wrapping_add(1) },
            firsts: firsts.map(|first| first.max(1)),
        };
        self.call(UNITS - 1, &Call::Open(opening), 0);
    }
}

/// Every number of an opened unit but n.
fn numbers_of(opening: &Opening) -> Vec<Setting> {
    let Opening { own, size, window, cid, firsts } = *opening;
    let places = 4 * u32::from(window) * u32::from(size);
    let set = |field, k, j, value| Setting { field, k, j, value };
    let mut settings = vec![
        set(Field::Own, 0, 0, own.into()),
        set(Field::Window, 0, 0, window.into()),
        set(Field::Cid, 0, 0, cid),
        set(Field::Seq, 0, 0, firsts[usize::from(own) - 1]),
    ];
    for (k, first) in (1..=size).zip(firsts) {
        settings.push(set(Field::Req, k, 0, first));
        settings.push(set(Field::Heard, k, 0, first));
        settings.push(set(Field::Buf, k, 0, places));
        for j in 1..=size {
            settings.push(set(Field::Al, k, j, first));
            settings.push(set(Field::Pal, k, j, first));
        }
    }
    settings
}
