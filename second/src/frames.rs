//! House fields and the two kinds of frame: reading and writing.

use std::ops::RangeInclusive;

pub const GROUP_SIZES: RangeInclusive<usize> = 2..=8;
pub const MOST_DATA: usize = 48;
pub const SENDABLE: RangeInclusive<u32> = 1..=u32::MAX - 1;
pub const LONGEST_FRAME: usize = 117;

const EDITION: u8 = 1;
const DATA_KIND: u8 = 1;
const REQUEST_KIND: u8 = 2;

#[derive(Clone, Copy)]
enum Tag {
    Edition = 1,
    Kind,
    Cid,
    Src,
    Seq,
    Ack,
    Buf,
    Lsrc,
    Lseq,
    Data,
}

/// Least and greatest content length of tags 1 to 10.
const CONTENT_LENGTHS: [RangeInclusive<usize>; 10] = [
    1..=1,
    1..=1,
    4..=4,
    1..=1,
    4..=4,
    4 * *GROUP_SIZES.start()..=4 * *GROUP_SIZES.end(),
    2..=2,
    1..=1,
    4..=4,
    0..=MOST_DATA,
];

#[derive(Clone, Debug, PartialEq, Eq)]
pub struct Data<'a> {
    pub cid: u32,
    pub src: u8,
    pub seq: u32,
    pub ack: Vec<u32>,
    pub buf: u16,
    pub data: &'a [u8],
}

#[derive(Clone, Debug, PartialEq, Eq)]
pub struct Request {
    pub cid: u32,
    pub src: u8,
    pub ack: Vec<u32>,
    pub lsrc: u8,
    pub lseq: u32,
}

#[derive(Clone, Debug, PartialEq, Eq)]
pub enum Frame<'a> {
    Data(Data<'a>),
    Request(Request),
}

/// The message of a frame, or nothing where the bytes are not a frame.
pub fn read(bytes: &[u8]) -> Option<Frame<'_>> {
    let mut fields = Fields { rest: bytes };
    if fields.bytes(Tag::Edition)? != [EDITION] {
        return None;
    }
    let frame = match fields.bytes(Tag::Kind)? {
        [DATA_KIND] => Frame::Data(read_data(&mut fields)?),
        [REQUEST_KIND] => Frame::Request(read_request(&mut fields)?),
        _ => return None,
    };
    fields.rest.is_empty().then_some(frame)
}

fn read_data<'a>(fields: &mut Fields<'a>) -> Option<Data<'a>> {
    let data = Data {
        cid: fields.number(Tag::Cid)?,
        src: fields.byte(Tag::Src)?,
        seq: fields.number(Tag::Seq)?,
        ack: fields.numbers(Tag::Ack)?,
        buf: fields.short(Tag::Buf)?,
        data: fields.bytes(Tag::Data)?,
    };
    (SENDABLE.contains(&data.seq) && !data.ack.contains(&0)).then_some(data)
}

fn read_request(fields: &mut Fields) -> Option<Request> {
    let request = Request {
        cid: fields.number(Tag::Cid)?,
        src: fields.byte(Tag::Src)?,
        ack: fields.numbers(Tag::Ack)?,
        lsrc: fields.byte(Tag::Lsrc)?,
        lseq: fields.number(Tag::Lseq)?,
    };
    (request.lseq != 0 && !request.ack.contains(&0)).then_some(request)
}

struct Fields<'a> {
    rest: &'a [u8],
}

impl<'a> Fields<'a> {
    fn bytes(&mut self, tag: Tag) -> Option<&'a [u8]> {
        let (&[found, high, low], after) = self.rest.split_first_chunk()?;
        let length = usize::from(u16::from_be_bytes([high, low]));
        if found != tag as u8 || !CONTENT_LENGTHS[tag as usize - 1].contains(&length) {
            return None;
        }
        let (content, rest) = after.split_at_checked(length)?;
        self.rest = rest;
        Some(content)
    }

    fn byte(&mut self, tag: Tag) -> Option<u8> {
        self.bytes(tag)?.first().copied()
    }

    fn short(&mut self, tag: Tag) -> Option<u16> {
        Some(u16::from_be_bytes(self.bytes(tag)?.try_into().ok()?))
    }

    fn number(&mut self, tag: Tag) -> Option<u32> {
        Some(u32::from_be_bytes(self.bytes(tag)?.try_into().ok()?))
    }

    fn numbers(&mut self, tag: Tag) -> Option<Vec<u32>> {
        let (chunks, remainder) = self.bytes(tag)?.as_chunks();
        remainder
            .is_empty()
            .then(|| chunks.iter().map(|&chunk| u32::from_be_bytes(chunk)).collect())
    }
}

/// The bytes of a frame whose values keep the limits that reading checks.
pub fn write(frame: &Frame) -> Vec<u8> {
    let mut bytes = Vec::with_capacity(LONGEST_FRAME);
    put(&mut bytes, Tag::Edition, &[EDITION]);
    match frame {
        Frame::Data(data) => write_data(&mut bytes, data),
        Frame::Request(request) => write_request(&mut bytes, request),
    }
    bytes
}

fn write_data(bytes: &mut Vec<u8>, data: &Data) {
    put(bytes, Tag::Kind, &[DATA_KIND]);
    put(bytes, Tag::Cid, &data.cid.to_be_bytes());
    put(bytes, Tag::Src, &[data.src]);
    put(bytes, Tag::Seq, &data.seq.to_be_bytes());
    put(bytes, Tag::Ack, &joined(&data.ack));
    put(bytes, Tag::Buf, &data.buf.to_be_bytes());
    put(bytes, Tag::Data, data.data);
}

fn write_request(bytes: &mut Vec<u8>, request: &Request) {
    put(bytes, Tag::Kind, &[REQUEST_KIND]);
    put(bytes, Tag::Cid, &request.cid.to_be_bytes());
    put(bytes, Tag::Src, &[request.src]);
    put(bytes, Tag::Ack, &joined(&request.ack));
    put(bytes, Tag::Lsrc, &[request.lsrc]);
    put(bytes, Tag::Lseq, &request.lseq.to_be_bytes());
}

fn joined(numbers: &[u32]) -> Vec<u8> {
    numbers.iter().flat_map(|number| number.to_be_bytes()).collect()
}

fn put(bytes: &mut Vec<u8>, tag: Tag, content: &[u8]) {
    debug_assert!(CONTENT_LENGTHS[tag as usize - 1].contains(&content.len()));
    let length = content.len() as u16;
    bytes.push(tag as u8);
    bytes.extend(length.to_be_bytes());
    bytes.extend(content);
}
