//! Probe records (document 10 "Records of the base", and those of the landed
//! requests): their bytes, and a reader that holds one record at a time and says
//! where a stream is bad.

use super::host;
use crate::device::numbers::{number, MAILBOX, RECORD};
use crate::host::request::Request;
use crate::source::{self, Source};
use crate::stream;
use std::io::{self, BufRead};

/// "Limits: room, payload length and record length at most 4,096 each."
pub const MOST: usize = 4096;
/// "a store of 8,192 bytes": the most that `AR` lends and where `AB` ends (W-206).
pub const LABEL_STORE: usize = 8192;

/// The fields of `CM`, and of `PC`, which are "as `CM`" (W-208).
#[derive(Clone, Debug, PartialEq, Eq)]
pub struct Call {
    pub time: u64,
    pub opcode: u16,
    pub room: u16,
    pub fill: u8,
    pub payload: Vec<u8>,
}

impl Call {
    fn encode(&self, out: &mut Vec<u8>) {
        out.extend(self.time.to_le_bytes());
        out.extend(self.opcode.to_le_bytes());
        out.extend(self.room.to_le_bytes());
        out.push(self.fill);
        sized(&self.payload, out);
    }

    /// The buffer lent: "`room` bytes, each of them `fill` before the call".
    pub fn buffer(&self) -> Vec<u8> {
        vec![self.fill; self.room.into()]
    }
}

/// One record of a probe stream.
#[derive(Clone, Debug, PartialEq, Eq)]
pub enum Record {
    New {
        volatile: u16,
        persistent: u16,
    },
    Command(Call),
    Event {
        time: u64,
        log: u8,
        record: Vec<u8>,
    },
    Media {
        time: u64,
        address: u64,
        lines: u32,
        kind: u8,
    },
    Line {
        address: u64,
    },
    Status,
    Total,
    /// W-202: a request built.
    Request {
        room: u16,
        fill: u8,
        request: Request,
    },
    /// W-202: a reply read.
    Reply {
        opcode: u16,
        asked: u32,
        reply: Vec<u8>,
    },
    /// W-202: a reply read and written again.
    Rewrite {
        opcode: u16,
        asked: u32,
        room: u16,
        fill: u8,
        reply: Vec<u8>,
    },
    /// W-202: the walk of the poison list.
    Walk {
        address: u64,
        lines: u64,
        room: u32,
        fill: u8,
    },
    /// W-206: how many bytes of the label store are lent from now on.
    LabelArea {
        size: u32,
    },
    /// W-206: bytes of the label store.
    LabelBytes {
        offset: u16,
        length: u16,
    },
    /// W-208: a command through the pool manager's mailbox.
    Pool(Call),
}

impl Record {
    /// The two-byte mark.
    pub fn mark(&self) -> &'static str {
        match self {
            Record::New { .. } => "NW",
            Record::Command(_) => "CM",
            Record::Event { .. } => "EV",
            Record::Media { .. } => "MD",
            Record::Line { .. } => "LT",
            Record::Status => "ES",
            Record::Total => "DT",
            Record::Request { .. } => "RQ",
            Record::Reply { .. } => "RP",
            Record::Rewrite { .. } => "RW",
            Record::Walk { .. } => "WK",
            Record::LabelArea { .. } => "AR",
            Record::LabelBytes { .. } => "AB",
            Record::Pool(_) => "PC",
        }
    }

    /// The record's bytes, mark first, appended to `out`.
    pub fn encode(&self, out: &mut Vec<u8>) {
        if let Some(fixed) = self.fixed() {
            return fixed.encode(out);
        }
        out.extend(self.mark().as_bytes());
        match self {
            Record::Command(call) | Record::Pool(call) => call.encode(out),
            Record::Event { time, log, record } => {
                out.extend(time.to_le_bytes());
                out.push(*log);
                sized(record, out);
            }
            Record::Request {
                room,
                fill,
                request,
            } => host::encode_request(*room, *fill, request, out),
            Record::Reply {
                opcode,
                asked,
                reply,
            } => host::encode_reply(*opcode, *asked, None, reply, out),
            Record::Rewrite {
                opcode,
                asked,
                room,
                fill,
                reply,
            } => host::encode_reply(*opcode, *asked, Some((*room, *fill)), reply, out),
            Record::Walk {
                address,
                lines,
                room,
                fill,
            } => {
                out.extend(address.to_le_bytes());
                out.extend(lines.to_le_bytes());
                out.extend(room.to_le_bytes());
                out.push(*fill);
            }
            Record::LabelArea { size } => out.extend(size.to_le_bytes()),
            Record::LabelBytes { offset, length } => {
                out.extend(offset.to_le_bytes());
                out.extend(length.to_le_bytes());
            }
            _ => {}
        }
    }

    /// The record's bytes, mark first.
    pub fn bytes(&self) -> Vec<u8> {
        let mut out = Vec::new();
        self.encode(&mut out);
        out
    }

    /// The bench record of the same bytes: NW, MD and LT are alike there.
    fn fixed(&self) -> Option<stream::Record> {
        match self {
            Record::New { .. } | Record::Media { .. } | Record::Line { .. } => self.bench(),
            _ => None,
        }
    }

    /// The bench record of the same call, without room and fill; a payload may
    /// be over bench's limit. None where bench has no such record: a call
    /// without a mark there, or an event record of another size.
    pub fn bench(&self) -> Option<stream::Record> {
        match self.clone() {
            Record::New {
                volatile,
                persistent,
            } => Some(stream::Record::New {
                volatile,
                persistent,
            }),
            Record::Command(Call {
                time,
                opcode,
                payload,
                ..
            }) => Some(stream::Record::Command {
                time,
                opcode,
                payload,
            }),
            Record::Event { time, log, record } => {
                (record.len() == RECORD).then_some(stream::Record::Event { time, log, record })
            }
            Record::Media {
                time,
                address,
                lines,
                kind,
            } => Some(stream::Record::Media {
                time,
                address,
                lines,
                kind,
            }),
            Record::Line { address } => Some(stream::Record::Line { address }),
            _ => None,
        }
    }
}

/// A length of two bytes and as many bytes.
pub fn sized(bytes: &[u8], out: &mut Vec<u8>) {
    out.extend((bytes.len() as u16).to_le_bytes());
    out.extend(bytes);
}

/// What the reader found next.
pub type Next = source::Next<Record>;

/// Reads records one by one.
pub struct Reader<R> {
    source: Source<R>,
}

impl<R: BufRead> Reader<R> {
    pub fn new(input: R) -> Self {
        Reader {
            source: Source::new(input),
        }
    }

    /// The next record. After `Bad` or `End` the caller stops.
    pub fn next_record(&mut self) -> io::Result<Next> {
        self.source.record(|source, mark, at| {
            // "The first record must be a make; otherwise `BAD 0`."
            if at == 0 && mark != *b"NW" {
                return Ok(None);
            }
            match &mark {
                b"CM" => Ok(call(source)?.map(Record::Command)),
                b"PC" => Ok(call(source)?.map(Record::Pool)),
                b"EV" => event(source),
                b"ES" => Ok(Some(Record::Status)),
                b"DT" => Ok(Some(Record::Total)),
                b"RQ" => host::request(source),
                b"RP" => host::reply(source),
                b"RW" => host::rewrite(source),
                b"WK" => host::walk(source),
                b"AR" => label_area(source),
                b"AB" => label_bytes(source),
                _ => Ok(stream::fixed(source, mark)?.map(Record::from)),
            }
        })
    }
}

/// The probe record of a bench record: a whole mailbox is lent, of zeros.
impl From<stream::Record> for Record {
    fn from(record: stream::Record) -> Record {
        match record {
            stream::Record::New {
                volatile,
                persistent,
            } => Record::New {
                volatile,
                persistent,
            },
            stream::Record::Command {
                time,
                opcode,
                payload,
            } => Record::Command(Call {
                time,
                opcode,
                room: MAILBOX as u16,
                fill: 0,
                payload,
            }),
            stream::Record::Event { time, log, record } => Record::Event { time, log, record },
            stream::Record::Media {
                time,
                address,
                lines,
                kind,
            } => Record::Media {
                time,
                address,
                lines,
                kind,
            },
            stream::Record::Line { address } => Record::Line { address },
        }
    }
}

/// A CM or PC record after its mark, or None if cut or with a size over its limit: "every room
/// but `WK`'s and the payload length of `PC` at most 4,096".
fn call<R: BufRead>(source: &mut Source<R>) -> io::Result<Option<Call>> {
    let Some(head) = source.fields::<15>()? else {
        return Ok(None);
    };
    let room = number(&head[10..12]) as u16;
    if usize::from(room) > MOST {
        return Ok(None);
    }
    let payload = block_of(source, &head[13..])?;
    Ok(payload.map(|payload| Call {
        time: number(&head[..8]),
        opcode: number(&head[8..10]) as u16,
        room,
        fill: head[12],
        payload,
    }))
}

/// An EV record after its mark, or None if cut or with a size over its limit.
fn event<R: BufRead>(source: &mut Source<R>) -> io::Result<Option<Record>> {
    let Some(head) = source.fields::<11>()? else {
        return Ok(None);
    };
    let record = block_of(source, &head[9..])?;
    Ok(record.map(|record| Record::Event {
        time: number(&head[..8]),
        log: head[8],
        record,
    }))
}

/// AR after its mark, or None if cut or over its limit: "sizes of `AR` at most 8,192".
fn label_area<R: BufRead>(source: &mut Source<R>) -> io::Result<Option<Record>> {
    let size = source.fields::<4>()?.map(|b| number(&b));
    let size = size.filter(|size| *size <= LABEL_STORE as u64);
    Ok(size.map(|size| Record::LabelArea { size: size as u32 }))
}

/// AB after its mark, or None if cut or over its limit: "offset plus length of `AB` at most
/// 8,192".
fn label_bytes<R: BufRead>(source: &mut Source<R>) -> io::Result<Option<Record>> {
    let fields = source.fields::<4>()?;
    let fields = fields.map(|b| (number(&b[..2]), number(&b[2..])));
    let fields = fields.filter(|(offset, length)| offset + length <= LABEL_STORE as u64);
    Ok(fields.map(|(offset, length)| Record::LabelBytes {
        offset: offset as u16,
        length: length as u16,
    }))
}

/// As many bytes as the number `length` says, or None if cut or over the limit.
pub fn block_of<R: BufRead>(source: &mut Source<R>, length: &[u8]) -> io::Result<Option<Vec<u8>>> {
    match number(length) as usize {
        length if length <= MOST => source.block(length),
        _ => Ok(None),
    }
}
