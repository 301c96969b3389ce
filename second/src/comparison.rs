//! Compares what a program gave for the calls of a group with what the own engine gives.

mod tally;

use crate::calls::Group;
use crate::replay::{describe_call, describe_replies, Call, Replay, REPLY_LENGTH};
pub use tally::Tally;

/// Goes through the replies call by call, up to the first difference.
pub fn judge(
    group: &Group,
    program: &str,
    replies: &[u8],
    tally: &mut Tally,
) -> Result<(), String> {
    let mut replay = Replay::default();
    let mut takes = tally::Takes::default();
    let (theirs, rest) = replies.as_chunks::<REPLY_LENGTH>();
    for (at, record) in group.records.iter().enumerate() {
        let place =
            || format!("call {} of {}: {}", at + 1, group.records.len(), describe_call(record));
        let was_sound = replay.units[record.slot()].is_sound();
        let own = replay.carry_out(record);
        match theirs.get(at) {
            None => return Err(format!("{}\n{program} gave no reply", place())),
            Some(theirs) if *theirs != own.written() => {
                let replies = describe_replies(program, theirs, &own.written());
                return Err(format!("{}\n{replies}", place()));
            }
            Some(_) => {}
        }
        let call = record.call();
        let unit = &replay.units[record.slot()];
        if let (Call::Set(setting), true) = (&call, was_sound) {
            tally.count_setting(setting.field, unit.is_sound());
        }
        takes.follow(record.slot(), &call, &own);
        tally.count(&call, &own);
    }
    if theirs.len() > group.records.len() || !rest.is_empty() {
        return Err(format!(
            "{program} gave {} bytes too many",
            replies.len() - REPLY_LENGTH * group.records.len()
        ));
    }
    tally.count_group(group.size, &takes);
    Ok(())
}
