//! How the calls of a group are chosen.

use crate::random::Random;

/// Out of a hundred steps, how many are of each kind; the rest carry the conversation on.
#[derive(Clone, Default)]
pub struct Manner {
    /// Calls without regard to use.
    pub aimless: usize,
    /// Arrivals of frames that nobody wrote, with numbers near those of the unit.
    pub forged: usize,
    /// Arrivals of frames that were damaged, and of noise.
    pub spoiled: usize,
    /// Units made unsound, asked for everything, and mended.
    pub broken: usize,
    /// Units made such as no run makes them, and sound.
    pub odd: usize,
    /// Out of a hundred arrivals, how many frames are lost.
    pub loss: usize,
    /// One time in how many a unit sends although frames could arrive.
    pub haste: usize,
    /// Whether half of the units never take.
    pub hoarding: bool,
    /// Whether what is not useful mostly befalls the first unit.
    pub alone: bool,
    /// Whether first numbers are near the last one.
    pub late: bool,
    /// How often the group is opened.
    pub episodes: usize,
    /// How many calls are made for each opening.
    pub calls: usize,
}

impl Manner {
    pub fn of(kind: u64, size: usize, random: &mut Random) -> Manner {
        let talk = Manner {
            aimless: 5,
            haste: random.between(4, 20),
            episodes: 1,
            calls: 8 * size * size + 70 * size + 100,
            ..Manner::default()
        };
        let short = Manner { episodes: 2, calls: 150, aimless: 10, ..talk.clone() };
        let alone = Manner { alone: true, forged: 70, calls: 220, ..short.clone() };
        match kind % 10 {
            0 => talk,
            1 => Manner { late: true, ..talk },
            2 => {
                let loss = random.between(1, 16 / size);
                Manner { loss, spoiled: 1, calls: talk.calls + 60 * size, ..talk }
            }
            3 => Manner { hoarding: true, ..talk },
            4 => alone,
            5 => Manner { hoarding: true, late: true, ..alone },
            6 => Manner { forged: 10, spoiled: 25, loss: 10, ..short },
            7 => Manner { broken: 6, calls: 60 * size + 250, ..talk },
            8 => Manner { odd: 12, forged: 55, calls: 350, ..alone },
            _ => Manner { odd: 4, forged: 20, spoiled: 4, broken: 2, late: true, ..short },
        }
    }
}
