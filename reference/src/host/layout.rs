//! The replies as document 01 lays them out, field by field in the order of their
//! bytes. Reading and writing both go along these tables.

use crate::device::numbers::{opcode, RECORD};
use Field::*;

/// A field of a reply.
#[derive(Clone, Copy, Debug, PartialEq, Eq)]
pub enum Field {
    /// A number of so many bytes, read and kept whatever it holds.
    Number(usize),
    /// So many bytes, kept as they are.
    Bytes(usize),
    /// The number of records after the head, in two bytes.
    Count,
    /// So many bytes called zero: "Reserved in replies are the bytes called zero in
    /// 0100h, 0400h and 4300h".
    Zero(usize),
    /// "address with the type in bits 0 to 2"; reserved are "bits 3 to 5 of a
    /// record's address".
    AddressAndType,
}

impl Field {
    /// How many bytes it takes.
    pub fn size(self) -> usize {
        match self {
            Number(size) | Bytes(size) | Zero(size) => size,
            Count => 2,
            AddressAndType => 8,
        }
    }
}

/// The bytes that some fields take together.
pub fn size_of(fields: &[Field]) -> usize {
    fields.iter().map(|field| field.size()).sum()
}

/// What a reply consists of.
#[derive(Clone, Copy, Debug, PartialEq, Eq)]
pub enum Layout {
    /// Fields of one size together.
    Fixed(&'static [Field]),
    /// Fields with a count among them, then as many records of these fields.
    Counted(&'static [Field], &'static [Field]),
    /// As many bytes as the request asked for.
    Asked,
}

/// "flags 1, zero 1, overflow count 2, first time 8, last time 8, record count 2,
/// zero 10, then records"
const EVENT_RECORDS: Layout = Layout::Counted(
    &[
        Number(1),
        Zero(1),
        Number(2),
        Number(8),
        Number(8),
        Count,
        Zero(10),
    ],
    &[Bytes(RECORD)],
);

/// "count 1 in 2 bytes, 6 zero, identifier, size in 4"
const SUPPORTED_LOGS: Layout = Layout::Counted(&[Count, Zero(6)], &[Bytes(16), Number(4)]);

/// Identify, 69 bytes. Its alignment, label size, "0 in 2" and "two zero bytes" are
/// fields with a value and not reserved: reserved bytes are those of the three
/// replies that document 01 names.
const IDENTITY: Layout = Layout::Fixed(&[
    Bytes(16),
    Number(8),
    Number(8),
    Number(8),
    Number(8),
    Number(2),
    Number(2),
    Number(2),
    Number(2),
    Number(4),
    Number(3),
    Number(2),
    Number(2),
    Number(2),
]);

/// "flags 1, zero 1, overflow time 8, count 2, zero 20, then ... records of 16:
/// address with the type in bits 0 to 2, length 4, zero 4"
const POISON_LIST: Layout = Layout::Counted(
    &[Number(1), Zero(1), Number(8), Count, Zero(20)],
    &[AddressAndType, Number(4), Zero(4)],
);

/// The layout of a command's reply; None for an opcode that is none of the twelve.
pub fn layout(code: u16) -> Option<Layout> {
    Some(match code {
        opcode::GET_EVENT_RECORDS => EVENT_RECORDS,
        opcode::GET_POLICY => Layout::Fixed(&[Number(1); 5]),
        opcode::GET_TIMESTAMP => Layout::Fixed(&[Number(8)]),
        opcode::GET_SUPPORTED_LOGS => SUPPORTED_LOGS,
        opcode::GET_LOG => Layout::Asked,
        opcode::IDENTIFY => IDENTITY,
        opcode::GET_POISON_LIST => POISON_LIST,
        // "Commands for which no reply is named reply length 0."
        code if opcode::HOST.contains(&code) => Layout::Fixed(&[]),
        _ => return None,
    })
}

/// The reserved bits of a reply with so many records, by number: bit N is bit N mod 8
/// of byte N / 8.
pub fn reserved_bits(layout: Layout, records: usize) -> Vec<usize> {
    let (head, each) = match layout {
        Layout::Counted(head, each) => (head, each),
        _ => return Vec::new(),
    };
    let all = (0..records).fold(head.to_vec(), |fields, _| [&fields, each].concat());
    let mut bits = Vec::new();
    let mut place = 0;
    for field in all {
        match field {
            Zero(size) => bits.extend(place * 8..(place + size) * 8),
            AddressAndType => bits.extend(place * 8 + 3..place * 8 + 6),
            _ => {}
        }
        place += field.size();
    }
    bits
}
