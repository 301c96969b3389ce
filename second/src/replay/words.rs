//! Calls and replies in words.

use super::{Call, Field, Record, Reply, Setting, OUTPUT_LENGTH, REPLY_LENGTH};
use crate::frames::{self, Frame};
use std::ops::Range;

const ALWAYS_0: Range<usize> = 13..16;

pub fn describe_call(record: &Record) -> String {
    let slot = record.slot();
    let lent = format!("{} bytes of output lent", record.room);
    let what = match record.call() {
        Call::Open(opening) => format!("opens: {opening:?}"),
        Call::Send(data) => format!("sends {} bytes {}, {lent}", data.len(), hex(data)),
        Call::Arrive(frame) => format!("hears {}\nframe {}", describe_frame(frame), hex(frame)),
        Call::Request(k) => format!("makes a request for unit {k}, {lent}"),
        Call::Copy(number) => format!("copies out kept number {number}, {lent}"),
        Call::Take => format!("takes, {lent}"),
        Call::Ready => "tells how many messages can be taken".to_owned(),
        Call::Free => "tells how many places are free".to_owned(),
        Call::Kept => "tells the kept numbers".to_owned(),
        Call::Missing(k) => format!("tells the missing numbers of unit {k}"),
        Call::Waiting(k) => format!("tells how many of unit {k}'s messages wait"),
        Call::Sound => "tells whether it is sound".to_owned(),
        Call::Set(setting) => describe_setting(&setting),
        Call::Nothing => format!("is asked for nothing, by call {}", record.number),
    };
    format!("unit at {slot} {what}")
}

fn describe_setting(setting: &Setting) -> String {
    let Setting { field, k, j, value } = setting;
    let what = match field {
        Field::Req | Field::Heard | Field::Buf => format!("{field:?} of {k}"),
        Field::Al | Field::Pal => format!("{field:?} of {k}, {j}"),
        Field::MessageSeq | Field::MessageLength => format!("{field:?} at position {k}"),
        Field::MessageAck => format!("ACK of {j} at position {k}"),
        Field::SamePlace => return format!("has position {k} share the place of position {j}"),
        Field::Seq | Field::Own | Field::Size | Field::Window | Field::Cid => format!("{field:?}"),
    };
    format!("has its {what} set to {value}")
}

fn describe_frame(bytes: &[u8]) -> String {
    match frames::read(bytes) {
        None => format!("{} bytes that are no frame", bytes.len()),
        Some(Frame::Data(data)) => {
            let frames::Data { cid, src, seq, ack, buf, data } = data;
            let length = data.len();
            format!("data: CID {cid} SRC {src} SEQ {seq} ACK {ack:?} BUF {buf}, {length} bytes")
        }
        Some(Frame::Request(request)) => {
            let frames::Request { cid, src, ack, lsrc, lseq } = request;
            format!("a request: CID {cid} SRC {src} ACK {ack:?} LSRC {lsrc} LSEQ {lseq}")
        }
    }
}

/// Both replies; of the output only the part that differs.
pub fn describe_replies(
    program: &str,
    theirs: &[u8; REPLY_LENGTH],
    own: &[u8; REPLY_LENGTH],
) -> String {
    let part = difference(theirs, own);
    let theirs = describe_reply(theirs, part.clone());
    let own = describe_reply(own, part);
    format!("--- {program}\n{theirs}--- own engine\n{own}")
}

fn describe_reply(bytes: &[u8; REPLY_LENGTH], part: Option<Range<usize>>) -> String {
    let Reply { answer, numbers: [first, second, third], output } = Reply::read(bytes);
    let mut words = format!("answer {answer}, numbers {first} {second} {third}\n");
    if bytes[ALWAYS_0] != [0; 3] {
        words += &format!("bytes 13 to 15: {}\n", hex(&bytes[ALWAYS_0]));
    }
    if let Some(part) = part {
        let (start, last) = (part.start, part.end - 1);
        words += &format!("output, bytes {start} to {last}: {}\n", hex(&output[part]));
    }
    words
}

/// From the first to the last byte of output that differs.
fn difference(theirs: &[u8; REPLY_LENGTH], own: &[u8; REPLY_LENGTH]) -> Option<Range<usize>> {
    let (theirs, own) = (Reply::read(theirs).output, Reply::read(own).output);
    let differs = |at: &usize| theirs[*at] != own[*at];
    let first = (0..OUTPUT_LENGTH).find(differs)?;
    let last = (0..OUTPUT_LENGTH).rfind(differs)?;
    Some(first..last + 1)
}

fn hex(bytes: &[u8]) -> String {
    bytes.iter().map(|byte| format!("{byte:02x}")).collect()
}
