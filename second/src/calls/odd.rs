//! Sound units that no run makes: numbers set to others, after which the unit goes on being used.

use super::caller::Caller;
use crate::engine::Unit;
use crate::replay::{Call, Field, Setting};

impl Caller {
    pub fn make_odd(&mut self) {
        let Some(slot) = self.some_sound_member() else { return self.aimless() };
        let unit = self.unit(slot).clone();
        let settings = if unit.kept.is_empty() && self.random.one_in(6) {
            self.jump(&unit)
        } else if self.random.one_in(2) {
            expect_no_more(&unit).into_iter().collect()
        } else {
            self.odd_setting(&unit).into_iter().collect()
        };
        if !settings.is_empty() && leaves_known(&unit, &settings) {
            for setting in settings {
                self.call(slot, &Call::Set(setting), 0);
            }
            self.call(slot, &Call::Sound, 0);
        }
    }

    /// Where nothing is stored, mostly another i, n or W: what is stored would mostly stand in the way.
    fn odd_setting(&mut self, unit: &Unit) -> Option<Setting> {
        let k = self.random.between(1, unit.size);
        let j = if self.random.one_in(4) { unit.own } else { self.random.between(1, unit.size) };
        let kinds = if is_empty(unit) && self.random.one_in(2) { 15..18 } else { 0..24 };
        let (field, value) = match self.random.between(kinds.start, kinds.end - 1) {
            0..3 => (Field::Heard, self.near(unit.heard[k - 1])),
            3..6 => (Field::Req, self.near(unit.req[k - 1])),
            6..9 => (Field::Al, self.near(unit.al[k - 1][j - 1])),
            9..12 => (Field::Pal, self.near(unit.pal[k - 1][j - 1])),
            12..14 => (Field::Buf, self.some_buf(unit)),
            14 => (Field::Cid, self.near(unit.cid)),
            15 => (Field::Window, self.random.between(2, 4) as u32),
            16 => (Field::Own, k as u32),
            17 => (Field::Size, self.random.between(2, unit.size) as u32),
            _ => return self.odd_message(unit),
        };
        Some(Setting { field, k: k as u8, j: j as u8, value })
    }

    fn some_buf(&mut self, unit: &Unit) -> u32 {
        let places = 4 * unit.window * unit.size;
        let any = self.random.between(0, places);
        let edges = [0, unit.size - 1, unit.size, 2 * unit.size - 1, places + 1, 65_535, any, any];
        self.random.pick(&edges).unwrap_or(any) as u32
    }

    /// Another number in a confirmed or ordered message; its data may only become shorter.
    fn odd_message(&mut self, unit: &Unit) -> Option<Setting> {
        let k = self.some_position(unit)?;
        let j = self.random.between(1, unit.size);
        let message = unit.confirmed.iter().chain(&unit.ordered).nth(k)?;
        let (field, value) = match self.random.below(3) {
            0 => (Field::MessageSeq, self.near(message.seq)),
            1 => (Field::MessageLength, self.random.below(message.data.len() + 1) as u32),
            _ => (Field::MessageAck, self.near(message.ack[j - 1])),
        };
        Some(Setting { field, k: k as u8, j: j as u8, value })
    }

    /// The own numbers of a unit that keeps nothing, set to another one all together.
    fn jump(&mut self, unit: &Unit) -> Vec<Setting> {
        let number = self.near(unit.seq);
        let own = unit.own as u8;
        let set = |field, j| Setting { field, k: own, j, value: number };
        let row = (1..=unit.size as u8).map(|j| set(Field::Al, j));
        [set(Field::Seq, 0), set(Field::Req, 0)].into_iter().chain(row).collect()
    }
}

/// Lets another unit expect no more than there is, so that its messages do not go backward for ever.
fn expect_no_more(unit: &Unit) -> Option<Setting> {
    let pairs = (1..=unit.size).flat_map(|k| (1..=unit.size).map(move |j| (k, j)));
    let mut stuck =
        pairs.filter(|&(k, j)| j != unit.own && unit.al[k - 1][j - 1] > unit.req[k - 1]);
    let (k, j) = stuck.next()?;
    Some(Setting { field: Field::Al, k: k as u8, j: j as u8, value: unit.req[k - 1] })
}

/// Whether the rules say all about the unit after the settings: it is sound, the kept frames are those of before, and
/// no place or number of the old group is left outside the new one.
fn leaves_known(unit: &Unit, settings: &[Setting]) -> bool {
    let mut after = unit.clone();
    for setting in settings {
        setting.apply(&mut after);
    }
    let kept_numbers = |unit: &Unit| (unit.own, unit.min_al(unit.own), unit.seq);
    let shrinks = after.size < unit.size || after.window < unit.window;
    after.is_sound()
        && (unit.kept.is_empty() || kept_numbers(&after) == kept_numbers(unit))
        && (!shrinks || is_empty(unit))
}

fn is_empty(unit: &Unit) -> bool {
    (1..=unit.size).all(|k| unit.places_taken_by(k) == 0)
}
