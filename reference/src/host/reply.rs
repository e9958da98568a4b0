//! A reply read from its bytes, and written again.

use super::layout::{layout, size_of, Field, Layout};
use super::put;
use crate::device::numbers::{number, opcode, Refusal, LABEL_AREA, MAILBOX};
use crate::device::{Config, Fault};

/// What a field of a reply holds.
#[derive(Clone, Debug, PartialEq, Eq)]
pub enum Value {
    Number(u64),
    Bytes(Vec<u8>),
}

/// The fields of a reply in the order of document 01; an address and its type are
/// two values, and what is reserved is none.
#[derive(Clone, Debug, PartialEq, Eq)]
pub struct Reply {
    pub code: u16,
    /// The fields before the records.
    pub head: Vec<Value>,
    /// The fields of each record.
    pub records: Vec<Vec<Value>>,
}

/// Why a reply is not read, in the order in which it is found out.
#[derive(Clone, Copy, Debug, PartialEq, Eq)]
pub enum Unread {
    /// "0016h for ... a reply not as long as its count, its fixed size or, for Get
    /// Log, the length asked says"
    Length,
    /// "then 0002h with the place of the first byte with a reserved bit set", from 0
    Reserved(usize),
}

impl Unread {
    pub fn refusal(self) -> Refusal {
        match self {
            Unread::Length => Refusal::InvalidPayloadLength,
            Unread::Reserved(_) => Refusal::InvalidInput,
        }
    }
}

/// Reads the reply of a command. `asked` is the length that a Get Log asked for;
/// the others do not look at it. None if the opcode is none of the twelve.
pub fn read(code: u16, asked: u32, bytes: &[u8], config: Config) -> Option<Result<Reply, Unread>> {
    let layout = layout(code)?;
    if config.fault.is_some() {
        return Some(faulty_read(code, layout, asked, bytes, config));
    }
    Some(match said_length(layout, asked, bytes, config) {
        Some(length) if length == bytes.len() as u64 => fields(code, layout, bytes, config),
        _ => Err(Unread::Length),
    })
}

/// The reading with a planted fault.
fn faulty_read(
    code: u16,
    layout: Layout,
    asked: u32,
    bytes: &[u8],
    config: Config,
) -> Result<Reply, Unread> {
    if let (Layout::Counted(head, _), true) = (layout, config.has(Fault::ReservedBeforeLength)) {
        if let Some(head_bytes) = bytes.get(..size_of(head)) {
            values(head, head_bytes, 0, config)?;
        }
    }
    let length = said_length(layout, asked, bytes, config).ok_or(Unread::Length)? as usize;
    let bytes = match config.has(Fault::SurplusBytesTaken) {
        true => bytes.get(..length).ok_or(Unread::Length)?,
        false => bytes,
    };
    let over_mailbox = bytes.len() > MAILBOX && config.has(Fault::ReplyOverMailboxRefused);
    if length != bytes.len() || over_mailbox {
        return Err(Unread::Length);
    }
    let reserved_flags = [opcode::GET_EVENT_RECORDS, opcode::GET_POISON_LIST].contains(&code);
    if reserved_flags && config.has(Fault::FlagBitsReserved) && bytes[0] & !3 != 0 {
        return Err(Unread::Reserved(0));
    }
    if code == opcode::IDENTIFY && config.has(Fault::IdentifyZerosReserved) {
        // Alignment, "0 in 2" and "two zero bytes".
        let mut zeros = (40..48).chain(63..67);
        if let Some(place) = zeros.find(|place| bytes[*place] != 0) {
            return Err(Unread::Reserved(place));
        }
    }
    if code == opcode::IDENTIFY && config.has(Fault::IdentifyLabelSizeJudged) {
        // The device's own label size (W-206).
        if number(&bytes[56..60]) != LABEL_AREA as u64 {
            return Err(Unread::Reserved(56));
        }
    }
    let mut reply = fields(code, layout, bytes, config).map_err(|unread| match unread {
        Unread::Reserved(place) if config.has(Fault::PlaceFrom1) => Unread::Reserved(place + 1),
        unread => unread,
    })?;
    if code == opcode::IDENTIFY && config.has(Fault::IdentifyLastSizeEarly) {
        reply.head.pop();
        reply.head.push(Value::Number(number(&bytes[65..67])));
    }
    Ok(reply)
}

/// The length that the reply's count, its fixed size or the length asked says; None
/// where the reply ends before its count.
fn said_length(layout: Layout, asked: u32, bytes: &[u8], config: Config) -> Option<u64> {
    Some(match layout {
        Layout::Fixed(fields) => size_of(fields) as u64,
        Layout::Counted(head, each) => {
            let mut count = count_in(head, bytes)?;
            if config.has(Fault::CountInOneByte) {
                count %= 256;
            }
            size_of(head) as u64 + count * size_of(each) as u64
        }
        Layout::Asked if config.has(Fault::AskedIgnored) => bytes.len() as u64,
        Layout::Asked => asked.into(),
    })
}

/// The count that the bytes hold.
fn count_in(head: &[Field], bytes: &[u8]) -> Option<u64> {
    let before = head.iter().take_while(|field| **field != Field::Count);
    let at: usize = before.map(|field| field.size()).sum();
    bytes.get(at..at + Field::Count.size()).map(number)
}

/// The fields of a reply of the right length.
fn fields(code: u16, layout: Layout, bytes: &[u8], config: Config) -> Result<Reply, Unread> {
    let (head, each) = match layout {
        Layout::Fixed(fields) => (fields, [].as_slice()),
        Layout::Counted(head, each) => (head, each),
        Layout::Asked => {
            return Ok(Reply {
                code,
                head: vec![Value::Bytes(bytes.to_vec())],
                records: Vec::new(),
            })
        }
    };
    let begin = size_of(head);
    let mut records = Vec::new();
    let first = values(head, &bytes[..begin], 0, config)?;
    if !each.is_empty() {
        for (at, record) in bytes[begin..].chunks(size_of(each)).enumerate() {
            records.push(values(each, record, begin + at * size_of(each), config)?);
        }
    }
    Ok(Reply {
        code,
        head: first,
        records,
    })
}

/// The values of these fields in `bytes`, of which the first is the reply's byte
/// `place`.
fn values(
    fields: &[Field],
    bytes: &[u8],
    mut place: usize,
    config: Config,
) -> Result<Vec<Value>, Unread> {
    let mut values = Vec::new();
    let mut rest = bytes;
    for field in fields {
        let (own, others) = rest.split_at(field.size());
        match field {
            Field::Number(_) | Field::Count => values.push(Value::Number(number(own))),
            Field::Bytes(_) => values.push(Value::Bytes(own.to_vec())),
            Field::Zero(_) if unseen_zeros(place, fields, config) => {}
            Field::Zero(_) => {
                if let Some(at) = own.iter().position(|byte| *byte != 0) {
                    return Err(Unread::Reserved(place + at));
                }
            }
            Field::AddressAndType => {
                if own[0] & RESERVED != 0 && !config.has(Fault::AddressBitsIgnored) {
                    return Err(Unread::Reserved(place));
                }
                let both = number(own);
                values.push(Value::Number(both - both % 64));
                values.push(Value::Number(both % 8));
            }
        }
        place += field.size();
        rest = others;
    }
    Ok(values)
}

/// Whether a planted fault does not look at these zero bytes: those of a record, or
/// the second zero byte of a reply.
fn unseen_zeros(place: usize, fields: &[Field], config: Config) -> bool {
    match config.fault {
        Some(Fault::RecordZerosIgnored) => fields[0] == Field::AddressAndType,
        Some(Fault::ByteAfterFlagsIgnored) => place == 1,
        _ => false,
    }
}

/// "bits 3 to 5 of a record's address", which are in its lowest byte.
const RESERVED: u8 = 0b0011_1000;

impl Reply {
    /// The reply's bytes, out of its fields alone.
    pub fn bytes(&self) -> Vec<u8> {
        let mut out = Vec::new();
        match layout(self.code) {
            Some(Layout::Fixed(fields)) => lay_out(fields, &self.head, &mut out),
            Some(Layout::Counted(head, each)) => {
                lay_out(head, &self.head, &mut out);
                for record in &self.records {
                    lay_out(each, record, &mut out);
                }
            }
            Some(Layout::Asked) => {
                if let [Value::Bytes(bytes)] = self.head.as_slice() {
                    out.extend(bytes);
                }
            }
            None => {}
        }
        out
    }

    /// All values, the records after the fields before them.
    pub fn values(&self) -> impl Iterator<Item = &Value> {
        self.head.iter().chain(self.records.iter().flatten())
    }
}

/// Appends the bytes of these fields with these values; what is reserved is zero.
fn lay_out(fields: &[Field], values: &[Value], out: &mut Vec<u8>) {
    let mut values = values.iter();
    let mut next = || match values.next() {
        Some(Value::Number(number)) => number.to_le_bytes().to_vec(),
        Some(Value::Bytes(bytes)) => bytes.clone(),
        None => Vec::new(),
    };
    for field in fields {
        let mut own = match field {
            Field::Zero(_) => Vec::new(),
            Field::AddressAndType => {
                let (address, kind) = (next(), next());
                address.iter().zip(kind).map(|(a, k)| a | k).collect()
            }
            _ => next(),
        };
        own.resize(field.size(), 0);
        out.extend(own);
    }
}

/// A reply read, and written again to the caller's room: the return number and the
/// length. The reading comes first, since without it there is no reply to write;
/// then 0100h for the room.
pub fn write_again(
    code: u16,
    asked: u32,
    bytes: &[u8],
    room: &mut [u8],
    config: Config,
) -> Option<(u16, usize)> {
    let mut written = match read(code, asked, bytes, config)? {
        Ok(reply) => Ok(reply.bytes()),
        Err(unread) => Err(unread.refusal()),
    };
    if config.has(Fault::RoomBeforeReading) && bytes.len() > room.len() {
        written = Err(Refusal::ReplyBufferTooSmall);
    }
    if let (Ok([flags, ..]), true) = (
        written.as_deref_mut(),
        code == opcode::GET_POISON_LIST && config.has(Fault::FlagBitsNotWritten),
    ) {
        *flags &= 3;
    }
    Some(put(written, room, config))
}
