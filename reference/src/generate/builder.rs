//! The stream under construction. It runs the model beside the stream, so that
//! a profile can choose handles and lines by the state they will meet.

use super::labels::{get_payload, set_payload, wrong_size};
use super::pool::some_pool_call;
use super::reserved::spoil_clear;
use crate::device::numbers::{opcode, MAILBOX, RECORD};
use crate::device::poison::Entry;
use crate::device::{Config, Device};
use crate::format::Format;
use crate::probe::record::{Call, Record, MOST};
use crate::probe::{Probe, Store};
use crate::random::Random;

/// The payload of Clear Event Records: "log, flags, count n (one byte each), three
/// reserved, n handles of two bytes", the reserved bytes 0.
pub fn clear_payload(log: u8, flags: u8, handles: &[u16]) -> Vec<u8> {
    let mut payload = vec![log, flags, handles.len() as u8, 0, 0, 0];
    payload.extend(handles.iter().flat_map(|handle| handle.to_le_bytes()));
    payload
}

/// A stream under construction. Records are those of probe; in a bench stream
/// the bench record of the same call is written.
pub struct Builder {
    pub random: Random,
    format: Format,
    /// Chooses what a probe stream has more: rooms, fills and records between.
    /// It is apart, so that a profile makes the same calls in both formats.
    extras: Random,
    /// A probe stream asks event status and damage total after one call of so
    /// many.
    asking: u64,
    /// A probe stream has a command of the pool manager's mailbox after one call of so many.
    between: u64,
    probe: Probe,
    out: Vec<u8>,
    time: u64,
    records: usize,
    /// The records a looping profile makes; a given limit also ends the others.
    target: usize,
    limited: bool,
}

impl Builder {
    /// An empty stream. The generator's model has no planted fault.
    pub fn new(format: Format, seed: u64, limit: Option<usize>) -> Self {
        Builder {
            random: Random::new(seed),
            format,
            extras: Random::new(!seed),
            asking: 10,
            between: 16,
            probe: Probe::new(Config::default()),
            out: Vec::new(),
            time: 0,
            records: 0,
            target: limit.unwrap_or(600),
            limited: limit.is_some(),
        }
    }

    /// The stream's bytes.
    pub fn finish(self) -> Vec<u8> {
        self.out
    }

    /// The greatest payload that the format takes.
    pub fn most_payload(&self) -> usize {
        match self.format {
            Format::Bench => MAILBOX,
            Format::Probe => MOST,
        }
    }

    /// Event status and damage total are asked after every call from now on.
    pub fn ask_always(&mut self) {
        self.asking = 1;
    }

    /// A command of the pool manager's mailbox comes after every second call from now on.
    pub fn pool_often(&mut self) {
        self.between = 2;
    }

    /// Sets the number of records of a looping profile, unless one was given.
    pub fn set_target(&mut self, records: usize) {
        if !self.limited {
            self.target = records;
        }
    }

    /// Whether a looping profile goes on.
    pub fn more(&self) -> bool {
        self.records < self.target
    }

    /// Whether a given limit is reached, so that nothing more is appended.
    fn ended(&self) -> bool {
        self.limited && !self.more()
    }

    /// The model's device after the records so far.
    pub fn device(&self) -> &Device {
        self.probe.device()
    }

    /// The label store after the records so far.
    pub fn labels(&self) -> &Store {
        self.probe.labels()
    }

    /// The reply that the model's device gives now; none if it refuses.
    pub fn reply(&self, code: u16, payload: &[u8]) -> Vec<u8> {
        let labels = &mut self.labels().lent().to_vec();
        let done = self.device().clone().run(code, payload, 0, labels);
        done.map(|done| done.reply).unwrap_or_default()
    }

    /// Appends a record and runs it. Past a given limit nothing is appended.
    pub fn push(&mut self, record: Record) {
        if self.ended() {
            return;
        }
        self.append(&record);
        self.records += 1;
        if self.extras.one_in(self.asking) {
            self.ask();
        }
        if self.extras.one_in(self.between) {
            self.pool_between();
        }
    }

    /// A command of the pool manager's mailbox, in a probe stream. W-208: "any number of them, put
    /// between the first mailbox's calls, alter no answer of those".
    fn pool_between(&mut self) {
        let call = some_pool_call(&mut self.extras, self.probe.device(), self.time);
        self.append_extra(&Record::Pool(call));
    }

    /// Event status and damage total, in a probe stream.
    fn ask(&mut self) {
        self.append_extra(&Record::Status);
        self.append_extra(&Record::Total);
    }

    /// Appends a record that is not counted, in a probe stream alone.
    fn append_extra(&mut self, record: &Record) {
        if self.format == Format::Probe && !self.ended() {
            self.append(record);
        }
    }

    fn append(&mut self, record: &Record) {
        let bytes = self.bytes_of(record);
        self.out.extend(bytes);
        self.probe.step(record);
    }

    /// A record's bytes in the stream's format.
    pub fn bytes_of(&self, record: &Record) -> Vec<u8> {
        match self.format {
            Format::Bench => record.bench().expect("a call that bench has").bytes(),
            Format::Probe => record.bytes(),
        }
    }

    /// Appends bytes that are no whole record; nothing may follow them.
    pub fn push_bytes(&mut self, bytes: &[u8]) {
        self.out.extend(bytes);
    }

    /// The caller's time from which on the work that runs is due, if one runs and a call can
    /// have that time.
    pub fn due(&self) -> Option<u64> {
        let work = self.device().work()?;
        u64::try_from(work.due_time()).ok()
    }

    /// The caller's time for the next record: it mostly goes on, sometimes
    /// stands still and sometimes goes back. While media is disabled it soon comes to the end
    /// of the work.
    pub fn tick(&mut self) -> u64 {
        if let Some(due) = self.due().filter(|_| self.random.one_in(8)) {
            self.time = due;
            return due;
        }
        self.time = match self.random.below(24) {
            0 => self.random.bits(),
            1 => self.time.saturating_sub(self.random.below(1000)),
            2..=5 => self.time,
            _ => self.time.saturating_add(self.random.below(1000)),
        };
        self.time
    }

    /// Sets the caller's time.
    pub fn set_time(&mut self, time: u64) {
        self.time = time;
    }

    pub fn new_device(&mut self, volatile: u16, persistent: u16) {
        self.push(Record::New {
            volatile,
            persistent,
        });
    }

    /// A device of a small or large size.
    pub fn any_device(&mut self) {
        let total = self.random.pick(&[1, 1, 2, 3, 511, 1022, 1023]);
        let volatile = self.random.below(u64::from(total) + 1) as u16;
        self.new_device(volatile, total - volatile);
    }

    pub fn command(&mut self, opcode: u16, payload: Vec<u8>) {
        let time = self.tick();
        self.command_at(time, opcode, payload);
    }

    pub fn command_at(&mut self, time: u64, opcode: u16, payload: Vec<u8>) {
        let fill = self.any_fill();
        // First at times in a room that is too small: refused, and the device
        // is as it was.
        let command = |room: u16| {
            Record::Command(Call {
                time,
                opcode,
                room,
                fill,
                payload: payload.clone(),
            })
        };
        if self.extras.one_in(12) {
            let room = self.extras.pick(&[0, 1, 2046, 2047]);
            self.append_extra(&command(room));
        }
        // ... or with a label area of a wrong size (W-206).
        if self.extras.one_in(30) {
            let size = self.labels().lent().len() as u32;
            let wrong = wrong_size(&mut self.extras);
            self.label_area(wrong);
            self.pool_between();
            self.append_extra(&command(MAILBOX as u16));
            self.label_area(size);
        }
        let any = self.extras.between(2048, 4096) as u16;
        let room = self.extras.pick(&[2048, 2048, 2049, 2050, 4096, any]);
        self.push(command(room));
    }

    /// A command with this room and fill, once.
    pub fn command_in(&mut self, room: u16, fill: u8, opcode: u16, payload: Vec<u8>) {
        let time = self.tick();
        self.command_in_at(time, room, fill, opcode, payload);
    }

    pub fn command_in_at(&mut self, time: u64, room: u16, fill: u8, opcode: u16, payload: Vec<u8>) {
        self.push(Record::Command(Call {
            time,
            opcode,
            room,
            fill,
            payload,
        }));
    }

    /// A command of the pool manager's mailbox at this time, once.
    pub fn pool_at(&mut self, time: u64, room: u16, fill: u8, opcode: u16, payload: Vec<u8>) {
        self.push(Record::Pool(Call {
            time,
            opcode,
            room,
            fill,
            payload,
        }));
    }

    /// A fill: 0, 255 or any.
    pub fn any_fill(&mut self) -> u8 {
        let any = self.extras.bits() as u8;
        self.extras.pick(&[0, 255, any, any])
    }

    /// An event report with random bytes, those the device sets included.
    pub fn event(&mut self, log: u8) {
        let time = self.tick();
        self.event_at(time, log);
    }

    pub fn event_at(&mut self, time: u64, log: u8) {
        self.event_of_at(time, log, RECORD);
    }

    /// An event report with a record of any size.
    pub fn event_of(&mut self, log: u8, size: usize) {
        let time = self.tick();
        self.event_of_at(time, log, size);
    }

    pub fn event_of_at(&mut self, time: u64, log: u8, size: usize) {
        let record = self.random.bytes(size);
        self.push(Record::Event { time, log, record });
    }

    /// Clear Event Records with these handles, well formed.
    pub fn clear_events(&mut self, log: u8, flags: u8, handles: &[u16]) {
        let payload = clear_payload(log, flags, handles);
        // First at times with something reserved set: refused, and the device is as it
        // was (W-205).
        if self.random.one_in(16) {
            let mut spoilt = payload.clone();
            spoil_clear(self, &mut spoilt);
            self.command(opcode::CLEAR_EVENT_RECORDS, spoilt);
        }
        self.command(opcode::CLEAR_EVENT_RECORDS, payload);
    }

    pub fn get_events(&mut self, log: u8) {
        self.command(opcode::GET_EVENT_RECORDS, vec![log]);
    }

    pub fn set_timestamp(&mut self, value: u64) {
        self.command(opcode::SET_TIMESTAMP, value.to_le_bytes().to_vec());
    }

    pub fn media(&mut self, address: u64, lines: u32, kind: u8) {
        let time = self.tick();
        self.media_at(time, address, lines, kind);
    }

    pub fn media_at(&mut self, time: u64, address: u64, lines: u32, kind: u8) {
        self.push(Record::Media {
            time,
            address,
            lines,
            kind,
        });
    }

    pub fn line(&mut self, address: u64) {
        self.push(Record::Line { address });
    }

    pub fn inject(&mut self, address: u64) {
        self.command(opcode::INJECT_POISON, address.to_le_bytes().to_vec());
    }

    pub fn clear(&mut self, address: u64) {
        let mut payload = address.to_le_bytes().to_vec();
        payload.extend(self.random.bytes(64));
        self.command(opcode::CLEAR_POISON, payload);
    }

    pub fn get_poison(&mut self, address: u64, lines: u64) {
        let mut payload = address.to_le_bytes().to_vec();
        payload.extend(lines.to_le_bytes());
        self.command(opcode::GET_POISON_LIST, payload);
    }

    pub fn get_labels(&mut self, offset: u32, length: u32) {
        self.command(opcode::GET_LSA, get_payload(offset, length));
    }

    pub fn set_labels(&mut self, offset: u32, data: &[u8]) {
        self.command(opcode::SET_LSA, set_payload(offset, [0; 4], data));
    }

    /// So many bytes of the label store are lent from now on, in a probe stream.
    pub fn label_area(&mut self, size: u32) {
        self.append_extra(&Record::LabelArea { size });
    }

    /// Bytes of the label store, in a probe stream.
    pub fn label_bytes(&mut self, offset: u16, length: u16) {
        self.append_extra(&Record::LabelBytes { offset, length });
    }

    /// The device's lines.
    pub fn device_lines(&self) -> u64 {
        self.device().lines() as u64
    }

    /// The entries held.
    pub fn entries(&self) -> Vec<Entry> {
        self.device().poison_list().entries().collect()
    }

    /// Makes events, policy and clock visible.
    pub fn show_events(&mut self) {
        for log in 0..5 {
            self.get_events(log);
        }
        self.command(opcode::GET_POLICY, vec![]);
        self.command(opcode::GET_TIMESTAMP, vec![]);
        self.ask();
    }

    /// Makes the whole poison list visible: every entry, and lines at edges.
    pub fn show_poison(&mut self) {
        let lines = self.device_lines();
        self.get_poison(0, lines);
        let entries = self.entries();
        for first in [126, 252] {
            if let Some(entry) = entries.get(first) {
                let start = entry.start as u64;
                self.get_poison(start * 64, lines - start);
            }
        }
        for _ in 0..3 {
            let line = self.edge_line();
            self.line(line * 64);
        }
        // Flag and time are those of the list, also where the range is empty.
        let line = self.edge_line();
        let few = self.random.below(3).min(lines - line);
        self.get_poison(line * 64, few);
        self.get_poison(lines * 64, 0);
        self.ask();
    }

    /// Makes the label area visible, in reads of as much as a reply carries.
    pub fn show_labels(&mut self) {
        for offset in [0, MAILBOX as u32] {
            self.get_labels(offset, MAILBOX as u32);
        }
    }

    /// Makes everything visible. A work that runs is ended first, since line tests and label
    /// reads show nothing while media is disabled; the logs are shown before that too.
    pub fn show(&mut self) {
        if let Some(due) = self.due() {
            self.show_events();
            self.command_at(due, opcode::GET_TIMESTAMP, vec![]);
            self.set_time(due);
        }
        self.show_events();
        self.show_poison();
        self.show_labels();
    }

    /// A line at or beside an edge of an entry, inside the device.
    pub fn edge_line(&mut self) -> u64 {
        let last = self.device_lines() - 1;
        let entries = self.entries();
        if entries.is_empty() {
            return self.random.pick(&[0, 1, last / 2, last]);
        }
        let entry = self.random.pick(&entries);
        let (start, end) = (entry.start as u64, (entry.start + entry.lines) as u64);
        let line = match self.random.below(7) {
            0 => start.saturating_sub(1),
            1 => start,
            2 => start + 1,
            3 => self.random.between(start, end - 1),
            4 => end - 1,
            5 => end,
            _ => end.saturating_sub(2),
        };
        line.min(last)
    }

    /// A type that media report takes.
    pub fn media_type(&mut self) -> u8 {
        self.random.pick(&[0, 1, 2, 7])
    }
}
