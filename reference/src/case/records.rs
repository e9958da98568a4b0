//! The records of both formats, as the case tool has them: it knows probe's only,
//! and bench's are those with a whole mailbox lent (document 10: "`bench` stays
//! exactly as document 01 has it"), so that a later request adds its records to
//! probe alone.

use super::host_lines;
use crate::device::numbers::MAILBOX;
use crate::format::Format;
use crate::probe::record::{self as probe, Record, MOST};
use crate::source::Next;
use crate::stream;
use std::io;

/// A record at its offset; None where the stream is bad.
pub type At = (u64, Option<Record>);

impl Format {
    /// The first words of the lines that are records of this program.
    pub fn kinds(self) -> &'static [&'static str] {
        let all = &[
            "new",
            "command",
            "event",
            "media",
            "line",
            "status",
            "total",
            "label-area",
            "label-bytes",
            "pool",
            host_lines::KINDS[0],
            host_lines::KINDS[1],
            host_lines::KINDS[2],
            host_lines::KINDS[3],
        ];
        match self {
            Format::Bench => &all[..5],
            Format::Probe => all,
        }
    }

    /// The longest payload that a record carries.
    pub fn most_payload(self) -> usize {
        match self {
            Format::Bench => MAILBOX,
            Format::Probe => MOST,
        }
    }

    /// The bytes of a record; None if the program has no such record.
    pub fn bytes(self, record: &Record) -> Option<Vec<u8>> {
        match self {
            Format::Bench => record.bench().map(|record| record.bytes()),
            Format::Probe => Some(record.bytes()),
        }
    }

    /// The records of a stream; the last is None if the stream is bad there.
    pub fn records(self, stream: &[u8]) -> Vec<At> {
        match self {
            Format::Bench => {
                let mut reader = stream::Reader::new(stream);
                all(|| reader.next_record(), Record::from)
            }
            Format::Probe => {
                let mut reader = probe::Reader::new(stream);
                all(|| reader.next_record(), |record| record)
            }
        }
    }
}

fn all<T>(mut next: impl FnMut() -> io::Result<Next<T>>, of: impl Fn(T) -> Record) -> Vec<At> {
    let mut out = Vec::new();
    loop {
        match next().expect("reading from memory does not fail") {
            Next::Record(at, record) => out.push((at, Some(of(record)))),
            Next::Bad(at) => {
                out.push((at, None));
                return out;
            }
            Next::End => return out,
        }
    }
}
