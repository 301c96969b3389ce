//! Units that are not sound: one clause broken, everything asked, and the unit mended.

use super::caller::Caller;
use crate::engine::Unit;
use crate::replay::{Call, Field, Setting, UNITS};

type Breaking = fn(&mut Caller, &Unit) -> Vec<Setting>;

/// For each clause settings after which it does not hold; none where the unit has nothing to break it with.
const BREAKINGS: [Breaking; 16] = [
    Caller::index_out_of_range,
    Caller::size_out_of_range,
    Caller::window_out_of_range,
    Caller::seq_0,
    Caller::req_0,
    Caller::heard_0,
    Caller::al_0,
    Caller::pal_0,
    Caller::own_req_not_seq,
    Caller::seq_below_min_al,
    Caller::seq_past_the_window,
    Caller::stored_number_out_of_range,
    Caller::stored_length_out_of_range,
    Caller::stored_ack_0,
    Caller::stored_sender_no_unit,
    Caller::places_past_the_window,
];

fn set(field: Field, k: usize, j: usize, value: u32) -> Setting {
    Setting { field, k: k as u8, j: j as u8, value }
}

impl Caller {
    pub fn break_and_mend(&mut self) {
        let Some(slot) = self.some_sound_member() else { return self.aimless() };
        let unit = self.unit(slot).clone();
        let clauses = BREAKINGS.iter().cycle().skip(self.broken % BREAKINGS.len());
        for breaking in clauses.take(BREAKINGS.len()) {
            self.broken += 1;
            let settings = breaking(self, &unit);
            if !settings.is_empty() {
                return self.break_by(slot, &unit, &settings);
            }
        }
    }

    fn break_by(&mut self, slot: usize, unit: &Unit, settings: &[Setting]) {
        let mending: Vec<Setting> = settings.iter().filter_map(|set| set.undoing(unit)).collect();
        for setting in settings {
            self.call(slot, &Call::Set(*setting), 0);
        }
        assert!(!self.unit(slot).keeps_the_rules(), "{settings:?}");
        self.ask_everything(slot, unit);
        for setting in mending {
            self.call(slot, &Call::Set(setting), 0);
        }
        assert!(self.unit(slot).is_sound(), "{settings:?}");
    }

    /// Every call, with what the unit could do if it were sound.
    fn ask_everything(&mut self, slot: usize, sound: &Unit) {
        let room = u8::MAX.into();
        let k = self.random.between(1, sound.size) as u8;
        let frame = self.forged_frame(sound);
        let next = self.inboxes[slot].front().cloned().unwrap_or_default();
        let data = self.some_bytes(3);
        let calls = [
            Call::Sound,
            Call::Send(&data),
            Call::Arrive(&frame),
            Call::Arrive(&next),
            Call::Request(k),
            Call::Copy(sound.min_al(sound.own)),
            Call::Take,
            Call::Ready,
            Call::Free,
            Call::Kept,
            Call::Missing(k),
            Call::Waiting(k),
        ];
        for call in &calls {
            self.call(slot, call, room);
        }
    }

    /// For each unit with two confirmed or ordered messages: both get one place, for which there is no mending.
    pub fn give_places_away(&mut self) {
        for slot in self.sound_members() {
            let unit = self.unit(slot).clone();
            let positions = unit.confirmed.len() + unit.ordered.len();
            if positions >= 2 {
                let k = self.random.below(positions);
                let j = (k + self.random.between(1, positions - 1)) % positions;
                self.call(slot, &Call::Set(set(Field::SamePlace, k, k, 0)), 0);
                self.call(slot, &Call::Sound, 0);
                self.call(slot, &Call::Set(set(Field::SamePlace, k, j, 0)), 0);
                self.ask_everything(slot, &unit);
            }
        }
    }

    fn index_out_of_range(&mut self, unit: &Unit) -> Vec<Setting> {
        let index = self.random.pick(&[0, unit.size as u32 + 1, 9, 255]);
        index.map(|index| set(Field::Own, 0, 0, index)).into_iter().collect()
    }

    /// Out of the range of n, or so small that the own index is out of its range.
    fn size_out_of_range(&mut self, unit: &Unit) -> Vec<Setting> {
        let below_own = if unit.own > 2 { unit.own as u32 - 1 } else { 1 };
        let size = self.random.pick(&[0, 1, UNITS as u32 + 1, 255, below_own]);
        size.map(|size| set(Field::Size, 0, 0, size)).into_iter().collect()
    }

    fn window_out_of_range(&mut self, _: &Unit) -> Vec<Setting> {
        let window = self.random.pick(&[0, 1, 5, 255]);
        window.map(|window| set(Field::Window, 0, 0, window)).into_iter().collect()
    }

    fn some_member(&mut self, unit: &Unit) -> usize {
        self.random.between(1, unit.size)
    }

    fn seq_0(&mut self, unit: &Unit) -> Vec<Setting> {
        let with_req = self.random.one_in(2);
        let req = with_req.then(|| set(Field::Req, unit.own, 0, 0));
        [set(Field::Seq, 0, 0, 0)].into_iter().chain(req).collect()
    }

    fn req_0(&mut self, unit: &Unit) -> Vec<Setting> {
        vec![set(Field::Req, self.some_member(unit), 0, 0)]
    }

    fn heard_0(&mut self, unit: &Unit) -> Vec<Setting> {
        vec![set(Field::Heard, self.some_member(unit), 0, 0)]
    }

    fn al_0(&mut self, unit: &Unit) -> Vec<Setting> {
        vec![set(Field::Al, self.some_member(unit), self.some_member(unit), 0)]
    }

    fn pal_0(&mut self, unit: &Unit) -> Vec<Setting> {
        vec![set(Field::Pal, self.some_member(unit), self.some_member(unit), 0)]
    }

    fn own_req_not_seq(&mut self, unit: &Unit) -> Vec<Setting> {
        let other = self.near(unit.seq);
        let field = self.random.pick(&[Field::Req, Field::Seq]).unwrap_or(Field::Req);
        let broken = set(field, unit.own, 0, other);
        if other == unit.seq {
            Vec::new()
        } else {
            vec![broken]
        }
    }

    /// SEQ lowered, or the whole own row of AL raised.
    fn seq_below_min_al(&mut self, unit: &Unit) -> Vec<Setting> {
        let oldest = unit.min_al(unit.own);
        if oldest > 1 && self.random.one_in(2) {
            return own_numbers(unit, oldest - 1);
        }
        let Some(past) = unit.seq.checked_add(self.random.between(1, 3) as u32) else {
            return Vec::new();
        };
        (1..=unit.size).map(|j| set(Field::Al, unit.own, j, past)).collect()
    }

    /// SEQ raised, or one number of the own row of AL lowered, to just past the window.
    fn seq_past_the_window(&mut self, unit: &Unit) -> Vec<Setting> {
        let width = unit.window as u32 + self.random.pick(&[1, 1, 2, 1_000]).unwrap_or(1);
        let past = unit.min_al(unit.own).checked_add(width);
        let below = unit.seq.checked_sub(width).filter(|&below| below > 0);
        let lowered =
            below.map(|below| vec![set(Field::Al, unit.own, self.some_member(unit), below)]);
        let raised = past.map(|past| own_numbers(unit, past));
        let first = if self.random.one_in(2) { &raised } else { &lowered };
        first.clone().or(raised).or(lowered).unwrap_or_default()
    }

    /// A position among the confirmed and ordered messages.
    pub fn some_position(&mut self, unit: &Unit) -> Option<usize> {
        let positions = unit.confirmed.len() + unit.ordered.len();
        (positions > 0).then(|| self.random.below(positions))
    }

    fn stored_number_out_of_range(&mut self, unit: &Unit) -> Vec<Setting> {
        let number = if self.random.one_in(2) { 0 } else { u32::MAX };
        let position = self.some_position(unit);
        position.map(|k| set(Field::MessageSeq, k, 0, number)).into_iter().collect()
    }

    fn stored_length_out_of_range(&mut self, unit: &Unit) -> Vec<Setting> {
        let length = self.random.pick(&[49, 49, 50, 128, 255]).unwrap_or(49);
        let position = self.some_position(unit);
        position.map(|k| set(Field::MessageLength, k, 0, length)).into_iter().collect()
    }

    fn stored_ack_0(&mut self, unit: &Unit) -> Vec<Setting> {
        let j = self.some_member(unit);
        let position = self.some_position(unit);
        position.map(|k| set(Field::MessageAck, k, j, 0)).into_iter().collect()
    }

    /// n lowered so that a stored message is of no unit, though the own index still is in range.
    fn stored_sender_no_unit(&mut self, unit: &Unit) -> Vec<Setting> {
        let is_sender = |k: usize| unit.places_taken_by(k) > 0;
        let cuts = unit.own.max(2)..unit.size;
        let sizes: Vec<usize> =
            cuts.filter(|&size| (size + 1..=unit.size).any(is_sender)).collect();
        let size = self.random.pick(&sizes);
        size.map(|size| set(Field::Size, 0, 0, size as u32)).into_iter().collect()
    }

    /// W lowered so that a sender has more than 4W places.
    fn places_past_the_window(&mut self, unit: &Unit) -> Vec<Setting> {
        let most = (1..=unit.size).map(|k| unit.places_taken_by(k)).max().unwrap_or(0);
        let windows: Vec<usize> = (2..unit.window).filter(|window| most > 4 * window).collect();
        let window = self.random.pick(&windows);
        window.map(|window| set(Field::Window, 0, 0, window as u32)).into_iter().collect()
    }
}

fn own_numbers(unit: &Unit, seq: u32) -> Vec<Setting> {
    vec![set(Field::Seq, 0, 0, seq), set(Field::Req, unit.own, 0, seq)]
}
