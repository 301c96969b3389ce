//! Pre-acknowledging and confirming.

use super::{Message, Unit};

impl Message {
    /// Whether this message causally precedes the other, by their numbers alone.
    pub fn precedes(&self, other: &Message) -> bool {
        if self.sender == other.sender {
            self.seq < other.seq
        } else {
            self.seq < other.ack[self.sender - 1]
        }
    }
}

impl Unit {
    pub(super) fn pre_acknowledge(&mut self) {
        for j in 1..=self.size {
            let known_everywhere = self.min_al(j);
            while let Some(message) =
                self.waiting[j - 1].pop_front_if(|oldest| oldest.seq < known_everywhere)
            {
                self.insert_in_order(message);
            }
        }
    }

    fn insert_in_order(&mut self, message: Message) {
        for (row, &ack) in self.pal.iter_mut().zip(&message.ack) {
            row[message.sender - 1] = ack;
        }
        let place = self.ordered.iter().position(|later| message.precedes(later));
        self.ordered.insert(place.unwrap_or(self.ordered.len()), message);
    }

    pub(super) fn confirm(&mut self) {
        let ready = |unit: &Unit, head: &Message| head.seq < unit.min_pal(head.sender);
        while self.ordered.first().is_some_and(|head| ready(self, head)) {
            let message = self.ordered.remove(0);
            self.confirmed.push_back(message);
        }
    }
}
