//! The replies of the commands as document 01 lays them out: one table, out of
//! which a reply is taken apart and the names of its fields are known.

use super::words::identifier_words;
use crate::bench::push_hex;
use crate::device::numbers::{number, opcode};

/// Where a named field of a reply stands and how it is written.
pub enum Part {
    /// A number: first byte, length.
    Number(usize, usize),
    /// A bit: byte, bit.
    Bit(usize, u32),
    /// A number of each record: the place of the first record, a record's length,
    /// the number's first byte in it and length, the bits that count.
    Each(usize, usize, usize, usize, u64),
    /// Every byte as a number.
    EachByte,
    /// Text: first byte, length; zeros at its end left out, blanks as `-`. In hex if
    /// it is no text.
    Text(usize, usize),
    /// A log identifier of 16 bytes at the begin of each record: the place of the
    /// first record, a record's length.
    EachIdentifier(usize, usize),
    /// All bytes from this one on in hex.
    HexFrom(usize),
    /// Entries of the Command Effects Log, opcode and effect.
    Effects,
}

use Part::*;

const ALL: u64 = u64::MAX;

const GET_EVENT_RECORDS: &[(&str, Part)] = &[
    ("flags", Number(0, 1)),
    ("overflow", Bit(0, 0)),
    ("more", Bit(0, 1)),
    ("overflow-count", Number(2, 2)),
    ("first-time", Number(4, 8)),
    ("last-time", Number(12, 8)),
    ("count", Number(20, 2)),
    ("handles", Each(32, 128, 20, 2, ALL)),
    ("times", Each(32, 128, 24, 8, ALL)),
    ("records", HexFrom(32)),
];
const GET_SUPPORTED_LOGS: &[(&str, Part)] = &[
    ("count", Number(0, 2)),
    ("id", EachIdentifier(8, 20)),
    ("size", Each(8, 20, 16, 4, ALL)),
];
const IDENTIFY: &[(&str, Part)] = &[
    ("firmware", Text(0, 16)),
    ("total", Number(16, 8)),
    ("volatile", Number(24, 8)),
    ("persistent", Number(32, 8)),
    ("alignment", Number(40, 8)),
    ("log-0-size", Number(48, 2)),
    ("log-1-size", Number(50, 2)),
    ("log-2-size", Number(52, 2)),
    ("log-3-size", Number(54, 2)),
    ("label-size", Number(56, 4)),
    ("poison-entries", Number(60, 3)),
    ("inject-limit", Number(63, 2)),
    ("last-zeros", Number(65, 2)),
    ("log-4-size", Number(67, 2)),
];
const GET_POISON_LIST: &[(&str, Part)] = &[
    ("flags", Number(0, 1)),
    ("more", Bit(0, 0)),
    ("overflow", Bit(0, 1)),
    ("overflow-time", Number(2, 8)),
    ("count", Number(10, 2)),
    ("addresses", Each(32, 16, 0, 8, !7)),
    ("types", Each(32, 16, 0, 8, 7)),
    ("lengths", Each(32, 16, 8, 4, ALL)),
];
/// The walk's records are those of the reply without the fields before them.
pub const WALK: &[(&str, Part)] = &[
    ("addresses", Each(0, 16, 0, 8, !7)),
    ("types", Each(0, 16, 0, 8, 7)),
    ("lengths", Each(0, 16, 8, 4, ALL)),
];

/// The named fields of a command's reply.
pub fn layout(code: u16) -> &'static [(&'static str, Part)] {
    match code {
        opcode::GET_EVENT_RECORDS => GET_EVENT_RECORDS,
        opcode::GET_POLICY => &[("settings", EachByte)],
        opcode::GET_TIMESTAMP => &[("timestamp", Number(0, 8))],
        opcode::GET_SUPPORTED_LOGS => GET_SUPPORTED_LOGS,
        opcode::GET_LOG => &[("data", HexFrom(0)), ("entries", Effects)],
        opcode::IDENTIFY => IDENTIFY,
        opcode::GET_LSA => &[("data", HexFrom(0))],
        opcode::GET_POISON_LIST => GET_POISON_LIST,
        _ => &[],
    }
}

impl Part {
    /// The field's value; None if the reply is too short for it, or if its
    /// bytes are not whole effects log entries.
    pub fn value(&self, payload: &[u8], reply: &[u8]) -> Option<String> {
        let at = |from: usize, length: usize| reply.get(from..from + length);
        Some(match *self {
            Number(from, length) => number(at(from, length)?).to_string(),
            Bit(byte, bit) => (reply.get(byte)? >> bit & 1).to_string(),
            Each(begin, size, from, length, bits) => {
                let records = reply.get(begin..)?.chunks_exact(size);
                list(records.map(|record| number(&record[from..from + length]) & bits))
            }
            EachByte => list(reply.iter()),
            Text(from, length) => {
                let bytes = at(from, length)?;
                let end = bytes.iter().rposition(|byte| *byte != 0);
                let text = &bytes[..end.map_or(0, |last| last + 1)];
                match text.iter().all(|byte| (b' '..=b'~').contains(byte)) {
                    true => String::from_utf8_lossy(text).replace(' ', "-"),
                    false => hex(bytes),
                }
            }
            EachIdentifier(begin, size) => {
                let records = reply.get(begin..)?.chunks_exact(size);
                list(records.map(|record| identifier_words(&record[..16])))
            }
            HexFrom(from) => hex(reply.get(from..)?),
            // Whole entries can be named only from such an offset.
            Effects if payload.len() == 24 && payload[16] % 4 == 0 => {
                list(reply.chunks_exact(4).map(|entry| {
                    let (opcode, effect) = (number(&entry[..2]), number(&entry[2..]));
                    format!("{opcode:04x}h:{effect}")
                }))
            }
            Effects => return None,
        })
    }
}

fn hex(bytes: &[u8]) -> String {
    let mut out = String::new();
    push_hex(&mut out, bytes);
    out
}

/// Values joined by commas.
fn list(values: impl Iterator<Item = impl ToString>) -> String {
    let texts: Vec<String> = values.map(|value| value.to_string()).collect();
    texts.join(",")
}
