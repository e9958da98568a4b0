//! Bench records (document 01 "Bench program"): their bytes, and a reader that
//! holds one record at a time and says where a stream is bad.

use crate::device::numbers::{number, MAILBOX, RECORD};
use crate::source::{self, Source};
use std::io::{self, BufRead};

/// One record of a bench stream.
#[derive(Clone, Debug, PartialEq, Eq)]
pub enum Record {
    New {
        volatile: u16,
        persistent: u16,
    },
    Command {
        time: u64,
        opcode: u16,
        payload: Vec<u8>,
    },
    Event {
        time: u64,
        log: u8,
        record: Vec<u8>,
    },
    Media {
        time: u64,
        address: u64,
        lines: u32,
        kind: u8,
    },
    Line {
        address: u64,
    },
}

impl Record {
    /// The two-byte mark.
    pub fn mark(&self) -> &'static str {
        match self {
            Record::New { .. } => "NW",
            Record::Command { .. } => "CM",
            Record::Event { .. } => "EV",
            Record::Media { .. } => "MD",
            Record::Line { .. } => "LT",
        }
    }

    /// The record's bytes, mark first, appended to `out`.
    pub fn encode(&self, out: &mut Vec<u8>) {
        out.extend(self.mark().as_bytes());
        match self {
            Record::New {
                volatile,
                persistent,
            } => {
                out.extend(volatile.to_le_bytes());
                out.extend(persistent.to_le_bytes());
            }
            Record::Command {
                time,
                opcode,
                payload,
            } => {
                out.extend(time.to_le_bytes());
                out.extend(opcode.to_le_bytes());
                out.extend((payload.len() as u16).to_le_bytes());
                out.extend(payload);
            }
            Record::Event { time, log, record } => {
                out.extend(time.to_le_bytes());
                out.push(*log);
                out.extend(record);
            }
            Record::Media {
                time,
                address,
                lines,
                kind,
            } => {
                out.extend(time.to_le_bytes());
                out.extend(address.to_le_bytes());
                out.extend(lines.to_le_bytes());
                out.push(*kind);
            }
            Record::Line { address } => out.extend(address.to_le_bytes()),
        }
    }

    /// The record's bytes, mark first.
    pub fn bytes(&self) -> Vec<u8> {
        let mut out = Vec::new();
        self.encode(&mut out);
        out
    }
}

/// What the reader found next.
pub type Next = source::Next<Record>;

/// Reads records one by one.
pub struct Reader<R> {
    source: Source<R>,
}

impl<R: BufRead> Reader<R> {
    pub fn new(input: R) -> Self {
        Reader {
            source: Source::new(input),
        }
    }

    /// The next record. After `Bad` or `End` the caller stops.
    pub fn next_record(&mut self) -> io::Result<Next> {
        self.source.record(|source, mark, at| {
            // NW comes "first and once": at offset 0 it must be NW and
            // elsewhere it must not.
            if (mark == *b"NW") != (at == 0) {
                return Ok(None);
            }
            match &mark {
                b"CM" => command(source),
                b"EV" => {
                    let fields = source.fields::<{ 9 + RECORD }>()?;
                    Ok(fields.map(|b| Record::Event {
                        time: number(&b[..8]),
                        log: b[8],
                        record: b[9..].to_vec(),
                    }))
                }
                _ => fixed(source, mark),
            }
        })
    }
}

/// A record of fixed size after its mark, alike in both formats: NW, MD or LT.
/// None if it is cut or the mark is another.
pub fn fixed<R: BufRead>(source: &mut Source<R>, mark: [u8; 2]) -> io::Result<Option<Record>> {
    Ok(match &mark {
        b"NW" => source.fields::<4>()?.map(|b| Record::New {
            volatile: number(&b[..2]) as u16,
            persistent: number(&b[2..]) as u16,
        }),
        b"MD" => source.fields::<21>()?.map(|b| Record::Media {
            time: number(&b[..8]),
            address: number(&b[8..16]),
            lines: number(&b[16..20]) as u32,
            kind: b[20],
        }),
        b"LT" => source.fields::<8>()?.map(|b| Record::Line {
            address: number(&b),
        }),
        _ => None,
    })
}

/// A CM record after its mark, or None if cut or longer than 2,048.
fn command<R: BufRead>(source: &mut Source<R>) -> io::Result<Option<Record>> {
    let Some(head) = source.fields::<12>()? else {
        return Ok(None);
    };
    let length = number(&head[10..]) as usize;
    if length > MAILBOX {
        return Ok(None);
    }
    let payload = source.block(length)?;
    Ok(payload.map(|payload| Record::Command {
        time: number(&head[..8]),
        opcode: number(&head[8..10]) as u16,
        payload,
    }))
}
