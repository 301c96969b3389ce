//! A frame damaged in one place.

use super::Sort;
use crate::random::Random;

const HEADER: usize = 3;

/// The frame with one thing wrong, for each thing and each place; never the frame itself.
pub fn all(frame: &[u8], random: &mut Random) -> [(Sort, Vec<Vec<u8>>); 8] {
    let fields = &split(frame);
    let mut damaged = [
        (Sort::Tag, headers_changed(fields, 0..1, random)),
        (Sort::Length, headers_changed(fields, 1..HEADER, random)),
        (Sort::Order, exchanged(fields)),
        (Sort::Missing, missing(fields)),
        (Sort::Repeated, repeated(fields)),
        (Sort::Trailing, continued(frame, random)),
        (Sort::Cut, (0..frame.len()).map(|length| frame[..length].to_vec()).collect()),
        (Sort::Content, [resized(fields), refilled(fields)].concat()),
    ];
    for (_, frames) in &mut damaged {
        frames.retain(|damaged| damaged != frame);
    }
    damaged
}

fn split(mut frame: &[u8]) -> Vec<&[u8]> {
    let mut fields = Vec::new();
    while let [_, high, low, ..] = frame {
        let length = HEADER + usize::from(u16::from_be_bytes([*high, *low]));
        let (field, rest) = frame.split_at(length);
        fields.push(field);
        frame = rest;
    }
    fields
}

/// Each byte of each header at these places, changed in several ways.
fn headers_changed(
    fields: &[&[u8]],
    places: std::ops::Range<usize>,
    random: &mut Random,
) -> Vec<Vec<u8>> {
    let mut damaged = Vec::new();
    for (at, field) in fields.iter().enumerate() {
        for place in places.clone() {
            let old = field[place];
            for new in [old ^ 1, old.wrapping_add(1), old.wrapping_sub(1), 0, 255, random.byte()] {
                let mut changed = field.to_vec();
                changed[place] = new;
                damaged.push(with_field(fields, at, &changed));
            }
        }
    }
    damaged
}

/// Each two fields exchanged.
fn exchanged(fields: &[&[u8]]) -> Vec<Vec<u8>> {
    let pairs = (0..fields.len()).flat_map(|at| (0..at).map(move |other| (at, other)));
    let exchange = |(at, other)| {
        let mut exchanged = fields.to_vec();
        exchanged.swap(at, other);
        exchanged.concat()
    };
    pairs.map(exchange).collect()
}

fn missing(fields: &[&[u8]]) -> Vec<Vec<u8>> {
    (0..fields.len()).map(|at| with_field(fields, at, &[])).collect()
}

/// Each field repeated next to itself, at the front and at the end.
fn repeated(fields: &[&[u8]]) -> Vec<Vec<u8>> {
    let repeat = |at: usize| {
        let whole = fields.concat();
        [
            with_field(fields, at, &[fields[at], fields[at]].concat()),
            [fields[at], &whole].concat(),
            [&whole, fields[at]].concat(),
        ]
    };
    (0..fields.len()).flat_map(repeat).collect()
}

fn continued(frame: &[u8], random: &mut Random) -> Vec<Vec<u8>> {
    let noise = [random.byte(), random.byte(), random.byte(), random.byte()];
    let endings: [&[u8]; 7] =
        [&[0], &[10], &[0, 0, 0], &[10, 0, 0], &[11, 0, 0], &[11, 0, 1, 1], &noise];
    endings.iter().map(|ending| [frame, ending].concat()).collect()
}

/// Each field with content of another length, its length bytes telling the truth.
fn resized(fields: &[&[u8]]) -> Vec<Vec<u8>> {
    let mut damaged = Vec::new();
    for (at, field) in fields.iter().enumerate() {
        let length = field.len() - HEADER;
        let shorter = [0, length.saturating_sub(1), length.saturating_sub(4), length / 2];
        let longer = [length + 1, length + 4, length + 256, 36, 49, 304];
        for new_length in shorter.into_iter().chain(longer) {
            let mut content = field[HEADER..].to_vec();
            content.resize(new_length, 1);
            damaged.push(with_content(fields, at, &content));
        }
    }
    damaged
}

/// Each field with content of one value, and with each group of four bytes zero or greatest.
fn refilled(fields: &[&[u8]]) -> Vec<Vec<u8>> {
    let mut damaged = Vec::new();
    for (at, field) in fields.iter().enumerate() {
        let content = &field[HEADER..];
        for value in [0, 1, 2, 3, 254, 255] {
            damaged.push(with_content(fields, at, &vec![value; content.len()]));
        }
        for start in (0..content.len()).step_by(4) {
            for value in [0, 255] {
                let mut changed = content.to_vec();
                changed[start..content.len().min(start + 4)].fill(value);
                damaged.push(with_content(fields, at, &changed));
            }
        }
    }
    damaged
}

fn with_content(fields: &[&[u8]], at: usize, content: &[u8]) -> Vec<u8> {
    let length = (content.len() as u16).to_be_bytes();
    with_field(fields, at, &[&fields[at][..1], &length, content].concat())
}

fn with_field(fields: &[&[u8]], at: usize, field: &[u8]) -> Vec<u8> {
    [&fields[..at].concat(), field, &fields[at + 1..].concat()].concat()
}
