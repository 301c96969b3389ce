//! What a call gave, as bytes.

use super::Numbers;
use crate::engine::Refusal;

pub const REPLY_LENGTH: usize = 272;
pub const OUTPUT_LENGTH: usize = 256;
/// What each byte of the output is before a call.
pub const BLANK: u8 = 165;

const NUMBERS_AT: usize = 1;
const OUTPUT_AT: usize = REPLY_LENGTH - OUTPUT_LENGTH;

#[derive(Clone, Debug, PartialEq, Eq)]
pub struct Reply {
    pub answer: u8,
    pub numbers: Numbers,
    pub output: [u8; OUTPUT_LENGTH],
}

impl Reply {
    pub(super) fn of(outcome: Result<Numbers, Refusal>, output: [u8; OUTPUT_LENGTH]) -> Reply {
        let (answer, numbers) = match outcome {
            Ok(numbers) => (0, numbers),
            Err(refusal) => (refusal.number(), [0; 3]),
        };
        Reply { answer, numbers, output }
    }

    pub fn written(&self) -> [u8; REPLY_LENGTH] {
        let mut reply = [0; REPLY_LENGTH];
        reply[0] = self.answer;
        let places = reply[NUMBERS_AT..].chunks_mut(4);
        for (place, number) in places.zip(self.numbers) {
            place.copy_from_slice(&number.to_be_bytes());
        }
        reply[OUTPUT_AT..].copy_from_slice(&self.output);
        reply
    }

    /// The bytes of a reply as they are to be understood; the three bytes that are always 0 are not looked at.
    pub fn read(reply: &[u8; REPLY_LENGTH]) -> Reply {
        let (numbers, _) = reply[NUMBERS_AT..].as_chunks();
        Reply {
            answer: reply[0],
            numbers: [0, 1, 2].map(|at| u32::from_be_bytes(numbers[at])),
            output: *reply.last_chunk().expect("the reply is longer"),
        }
    }
}
