//! The answer numbers other than 0.

#[derive(Clone, Copy, Debug, PartialEq, Eq)]
pub enum Refusal {
    NotSound = 1,
    OutsideRanges = 2,
    NotAFrame = 3,
    OtherGroup = 4,
    NotInGroup = 5,
    FromOneself = 6,
    Contradiction = 7,
    Repeat = 8,
    Gap = 9,
    Early = 10,
    Backward = 11,
    PlacesTaken = 12,
    TooMuchData = 13,
    NumbersUsedUp = 14,
    WindowShut = 15,
    OutputTooShort = 16,
    ForAnother = 17,
    Nothing = 18,
}

impl Refusal {
    pub fn number(self) -> u8 {
        self as u8
    }
}
