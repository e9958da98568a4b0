//! Document 10: records in, a line for each out, every answer whole.

use super::record::{Call, Reader, Record, LABEL_STORE};
use crate::device::fault::pool::WrongPool;
use crate::device::fault::sanitize::WrongDisabled;
use crate::device::logs::Reported;
use crate::device::numbers::{number_of, Refusal, LABEL_AREA};
use crate::device::sanitize::Untimed;
use crate::device::{Config, Device, Fault, LineAnswer};
use crate::host::reply::{read, write_again, Unread, Value};
use crate::host::walk::walk;
use crate::line::Line;
use crate::source;
use std::io::{self, BufRead, Write};

/// Runs a stream and writes the lines. One record is in memory at a time.
pub fn run(input: impl BufRead, output: &mut impl Write, config: Config) -> io::Result<()> {
    let mut reader = Reader::new(input);
    let mut probe = Probe::new(config);
    source::each(
        || reader.next_record(),
        output,
        |record, output| {
            probe.step(&record);
            output.write_all(probe.line.as_bytes())?;
            Ok(true)
        },
    )
}

/// The lines a stream gives, as one text.
pub fn lines_of(stream: &[u8], config: Config) -> Vec<u8> {
    let mut output = Vec::new();
    run(stream, &mut output, config).expect("reading from memory does not fail");
    output
}

/// The device under the probe, the label store beside it and the line of the last record.
pub struct Probe {
    config: Config,
    device: Device,
    labels: Store,
    /// The line of the last step, with its line end.
    pub line: Line,
}

impl Probe {
    /// A probe that waits for its first make.
    pub fn new(config: Config) -> Self {
        Probe {
            config,
            device: Device::make(1, 0, config).1,
            labels: Store::default(),
            line: Line::default(),
        }
    }

    /// The device as it is.
    pub fn device(&self) -> &Device {
        &self.device
    }

    /// The label store as it is.
    pub fn labels(&self) -> &Store {
        &self.labels
    }

    /// Runs one record and sets `line`.
    pub fn step(&mut self, record: &Record) {
        self.line.begin(record.mark());
        match record {
            Record::New {
                volatile,
                persistent,
            } => self.make(*volatile, *persistent),
            Record::Command(call) => {
                let mut buffer = call.buffer();
                let labels = self.labels.lent_mut(self.config);
                let device = &mut self.device;
                let answer =
                    device.command(call.opcode, &call.payload, call.time, labels, &mut buffer);
                if self.config.has(Fault::AreaForOneCommand) {
                    self.labels.size = LABEL_AREA;
                }
                self.answer((answer.number, answer.length), &buffer, call.fill);
                self.vector(answer.vector);
            }
            Record::Pool(call) => self.pool_command(call),
            Record::Event { time, log, record } => self.event(*time, *log, record),
            Record::Media {
                time,
                address,
                lines,
                kind,
            } => self.media(*time, *address, *lines, *kind),
            Record::Line { address } => self.line_test(*address),
            Record::Status => {
                let (bits, waiting, highest) = self.device.event_status();
                self.line.numbers([bits, waiting, highest].map(u128::from));
                self.device.after_untimed(Untimed::Status);
            }
            Record::Total => {
                self.line.number(self.device.damage_total());
                self.device.after_untimed(Untimed::Total);
            }
            Record::Request {
                room,
                fill,
                request,
            } => {
                let mut buffer = vec![*fill; usize::from(*room)];
                let answer = request.build(&mut buffer, self.config);
                self.answer(answer, &buffer, *fill);
            }
            Record::Reply {
                opcode,
                asked,
                reply,
            } => self.read(*opcode, *asked, reply),
            Record::Rewrite {
                opcode,
                asked,
                room,
                fill,
                reply,
            } => {
                let mut buffer = vec![*fill; usize::from(*room)];
                let answer = write_again(*opcode, *asked, reply, &mut buffer, self.config);
                self.answer(answer.expect("a known opcode"), &buffer, *fill);
            }
            Record::LabelArea { size } => self.labels.lend(*size as usize, self.config),
            Record::LabelBytes { offset, length } => {
                let bytes = self.labels.shown(*offset, *length, self.config);
                self.bytes(&bytes);
            }
            // "`WK` carries no time, is not touched by `AR` .. and leaves the device as it
            // is."
            Record::Walk {
                address,
                lines,
                room,
                fill,
            } => {
                let mut buffer = vec![*fill; *room as usize];
                let faulty = self.config.has(Fault::WalkInLentArea);
                let answer = match faulty && self.labels.size != LABEL_AREA {
                    true => (Refusal::ReplyBufferTooSmall.number(), 0),
                    false => walk(&self.device, *address, *lines, &mut buffer, self.config),
                };
                self.device.after_untimed(Untimed::Walk);
                self.answer(answer, &buffer, *fill);
            }
        }
        self.line.end();
    }

    /// "A later make puts a new device in the place of the old one. A refused
    /// make prints its number, and the device that came beside it is used from
    /// then on." "A make leaves the label store, the size lent .. as they are."
    fn make(&mut self, volatile: u16, persistent: u16) {
        let (answer, device) = self.device.clone().make_again(volatile, persistent);
        self.device = device;
        match self.config.fault {
            Some(Fault::MakeClearsStore) => self.labels.bytes.fill(0),
            Some(Fault::RefusedMakeClearsStore) if answer.is_err() => self.labels.bytes.fill(0),
            Some(Fault::MakeLends4096) => self.labels.size = LABEL_AREA,
            _ => {}
        }
        self.line.number(number_of(&answer));
    }

    /// "`PC code length bytes kept`: the second mailbox", which is lent no label area and
    /// leaves the device as it is (W-208). "`PC` has no vector column."
    fn pool_command(&mut self, call: &Call) {
        let mut buffer = call.buffer();
        let answer = match self.pool_is(WrongPool::ByLentArea) && self.labels.size != LABEL_AREA {
            true => (Refusal::ReplyBufferTooSmall.number(), 0),
            false => self
                .device
                .pool_command(call.opcode, &call.payload, call.time, &mut buffer),
        };
        self.answer(answer, &buffer, call.fill);
        if let Some(Fault::Pool(wrong)) = self.config.fault {
            self.after_pool(wrong, call, answer.0);
        }
    }

    /// The planted faults of what a pool command leaves behind, and of its line.
    fn after_pool(&mut self, wrong: WrongPool, call: &Call, number: u16) {
        match wrong {
            WrongPool::HasVectorColumn => self.vector(None),
            WrongPool::ClearsStore => self.labels.bytes.fill(0),
            WrongPool::Lends4096 => self.labels.size = LABEL_AREA,
            _ => self
                .device
                .after_pool(wrong, call.opcode, &call.payload, call.time, number),
        }
    }

    /// Whether this planted fault of the pool's mailbox is on.
    fn pool_is(&self, wrong: WrongPool) -> bool {
        self.config.has(Fault::Pool(wrong))
    }

    /// "the length answered, the first `length` bytes of the buffer, and 1 if
    /// every other byte of the buffer is still `fill`, else 0"
    fn answer(&mut self, (number, length): (u16, usize), buffer: &[u8], fill: u8) {
        self.line.numbers([number.into(), length as u128]);
        let (reply, rest) = buffer.split_at(length);
        self.bytes(reply);
        // All bits that differ, without a way out on the first: most rooms are whole.
        let altered = rest.iter().fold(0, |bits, byte| bits | (byte ^ fill));
        self.line.number(altered == 0);
    }

    /// "`CM` and `EV` end in one more column: the vector, 0 for none" (W-204)
    fn vector(&mut self, vector: Option<u8>) {
        self.line.number(vector.unwrap_or(0));
    }

    /// "bytes lower-case hex, `-` if there are none"
    fn bytes(&mut self, bytes: &[u8]) {
        match bytes.is_empty() {
            true => self.line.word("-"),
            false => self.line.hex(bytes),
        }
    }

    /// "`RP 0` and the fields read; refused `RP code`, for 0002h `RP 2 place`"
    fn read(&mut self, code: u16, asked: u32, reply: &[u8]) {
        match read(code, asked, reply, self.config).expect("a known opcode") {
            Ok(reply) => {
                self.line.number(0u8);
                for value in reply.values() {
                    match value {
                        Value::Number(number) => self.line.number(*number),
                        // Get Log's "one column is always there"; the others' bytes
                        // are of a fixed size.
                        Value::Bytes(bytes) => self.bytes(bytes),
                    }
                }
            }
            Err(unread) => {
                self.line.number(unread.refusal().number());
                if let Unread::Reserved(place) = unread {
                    self.line.number(place as u128);
                }
            }
        }
    }

    /// "Every answer is printed whole, also of a refused call: not stored, 0
    /// lines, Unknown with type 0."
    fn event(&mut self, time: u64, log: u8, record: &[u8]) {
        let answer = self.device.event_report(log, record, time);
        let refused = Reported {
            stored: self.config.has(Fault::RefusedEventIsStored),
            vector: self.config.has(Fault::RefusedEventHasVector).then_some(2),
        };
        let reported = *answer.as_ref().unwrap_or(&refused);
        let number = number_of(&answer).into();
        self.line.numbers([number, reported.stored.into()]);
        self.vector(reported.vector);
    }

    fn media(&mut self, time: u64, address: u64, lines: u32, kind: u8) {
        let lines = u64::from(lines);
        let answer = self.device.media_report(address, lines, kind, time);
        let refused = match self.config.has(Fault::RefusedMediaIsDropped) {
            true => (0, lines.into()),
            false => (0, 0),
        };
        let (stored, dropped) = *answer.as_ref().unwrap_or(&refused);
        let number = number_of(&answer).into();
        self.line.numbers([number, stored, dropped]);
    }

    fn line_test(&mut self, address: u64) {
        let answer = self.device.line_test(address);
        let refused = match self.config.fault {
            Some(Fault::RefusedLineIsClean) => LineAnswer::Clean,
            Some(Fault::Disabled(WrongDisabled::RefusedLineIsDisabled))
                if self.device.media_disabled() =>
            {
                LineAnswer::Disabled
            }
            _ => LineAnswer::Unknown,
        };
        let (said, kind) = answer.as_ref().unwrap_or(&refused).numbers();
        let number = number_of(&answer).into();
        self.line.numbers([number, said.into(), kind.into()]);
        self.device.after_untimed(Untimed::Line);
    }
}

/// The label store: "the first ones of a store of 8,192 bytes, zero at first and kept
/// whatever is lent of it. Before any `AR` 4,096 are lent".
#[derive(Clone, Debug, PartialEq, Eq)]
pub struct Store {
    bytes: Vec<u8>,
    size: usize,
}

impl Default for Store {
    fn default() -> Self {
        Store {
            bytes: vec![0; LABEL_STORE],
            size: LABEL_AREA,
        }
    }
}

impl Store {
    /// All bytes of the store.
    pub fn bytes(&self) -> &[u8] {
        &self.bytes
    }

    /// The bytes that are lent with a command.
    pub fn lent(&self) -> &[u8] {
        &self.bytes[..self.size]
    }

    fn lent_mut(&mut self, config: Config) -> &mut [u8] {
        match config.has(Fault::AreaOfLastBytes) {
            true => &mut self.bytes[LABEL_STORE - self.size..],
            false => &mut self.bytes[..self.size],
        }
    }

    /// "from now on the label area lent has that many bytes"
    fn lend(&mut self, size: usize, config: Config) {
        self.size = size;
        match config.fault {
            Some(Fault::AreaClearsStore) => self.bytes.fill(0),
            Some(Fault::AreaClearsRest) => self.bytes[size..].fill(0),
            _ => {}
        }
    }

    /// "those bytes of the store"
    fn shown(&self, offset: u16, length: u16, config: Config) -> Vec<u8> {
        let (from, length) = (usize::from(offset), usize::from(length));
        let mut bytes = self.bytes.clone();
        if config.has(Fault::LabelBytesOfLentAlone) {
            bytes[self.size..].fill(0);
        }
        bytes[from..from + length].to_vec()
    }
}
