//! Document 01 "Bench program": records in, a line for each out.

use crate::device::numbers::{number_of, LABEL_AREA};
use crate::device::sanitize::Untimed;
use crate::device::{Config, Device};
pub use crate::line::push_hex;
use crate::line::Line;
use crate::source;
use crate::stream::{Reader, Record};
use std::io::{self, BufRead, Write};

/// Runs a stream and writes the lines. One record is in memory at a time.
pub fn run(input: impl BufRead, output: &mut impl Write, config: Config) -> io::Result<()> {
    let mut reader = Reader::new(input);
    let mut bench = Bench::new(config);
    source::each(
        || reader.next_record(),
        output,
        |record, output| {
            // "A refused NW prints and stops."
            let going = bench.step(&record);
            output.write_all(bench.line.as_bytes())?;
            Ok(going)
        },
    )
}

/// The lines a stream gives, as one text.
pub fn lines_of(stream: &[u8], config: Config) -> Vec<u8> {
    let mut output = Vec::new();
    run(stream, &mut output, config).expect("reading from memory does not fail");
    output
}

/// The device under the bench and the line of the last record.
pub struct Bench {
    config: Config,
    device: Device,
    /// "an area starts as zeros and is kept"
    labels: Vec<u8>,
    /// The line of the last step, with its line end.
    pub line: Line,
}

impl Bench {
    /// A bench that waits for its NW record.
    pub fn new(config: Config) -> Self {
        Bench {
            config,
            device: Device::make(1, 0, config).1,
            labels: vec![0; LABEL_AREA],
            line: Line::default(),
        }
    }

    /// Runs one record and sets `line`; false after a refused NW.
    pub fn step(&mut self, record: &Record) -> bool {
        self.line.begin(record.mark());
        let mut going = true;
        match record {
            Record::New {
                volatile,
                persistent,
            } => {
                let (answer, device) = Device::make(*volatile, *persistent, self.config);
                self.device = device;
                going = answer.is_ok();
                self.line.number(number_of(&answer));
            }
            Record::Command {
                time,
                opcode,
                payload,
            } => {
                let labels = &mut self.labels;
                match self.device.run(*opcode, payload, *time, labels) {
                    // "for CM the length and lower-case hex (none if length 0)"
                    Ok(done) => {
                        let length = done.reply.len() as u128;
                        self.line.numbers([done.number.into(), length]);
                        if !done.reply.is_empty() {
                            self.line.hex(&done.reply);
                        }
                    }
                    Err(refusal) => self.line.numbers([refusal.number().into(), 0]),
                }
            }
            // "A refused EV, MD or LT prints mark and code only."
            Record::Event { time, log, record } => {
                match self.device.event_report(*log, record, *time) {
                    Ok(reported) => self.line.numbers([0, u128::from(reported.stored)]),
                    Err(refusal) => self.line.number(refusal.number()),
                }
            }
            Record::Media {
                time,
                address,
                lines,
                kind,
            } => {
                let lines = u64::from(*lines);
                match self.device.media_report(*address, lines, *kind, *time) {
                    Ok((stored, dropped)) => self.line.numbers([0, stored, dropped]),
                    Err(refusal) => self.line.number(refusal.number()),
                }
            }
            Record::Line { address } => {
                match self.device.line_test(*address) {
                    Ok(answer) => {
                        let (answer, kind) = answer.numbers();
                        self.line.numbers([0, answer.into(), kind.into()]);
                    }
                    Err(refusal) => self.line.number(refusal.number()),
                }
                self.device.after_untimed(Untimed::Line);
            }
        }
        self.line.end();
        going
    }
}
