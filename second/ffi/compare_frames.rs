//! Compares the exported frame reader with the own one, linked with its archive.

use second::judge::{self, Reading, MARK};
use std::process::ExitCode;

extern "C" {
    fn co_read_frame(
        frame: *const u8,
        frame_len: usize,
        numbers: *mut u64,
        numbers_len: usize,
    ) -> u32;
}

fn main() -> ExitCode {
    judge::report(judge::judge(|bytes, room| Ok(read(bytes, room))))
}

fn read(bytes: &[u8], room: usize) -> Reading {
    let mut numbers = vec![MARK; room];
    // SAFETY: each pointer is to live memory of the length given, and the two do not overlap.
    let answer = unsafe {
        co_read_frame(bytes.as_ptr(), bytes.len(), numbers.as_mut_ptr(), numbers.len())
    };
    Reading { answer, numbers }
}
