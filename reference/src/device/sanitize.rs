//! Document 02, W-207: how long the work of a Sanitize takes, when it is due, which calls end
//! it and what is refused while it runs. What its end does to the logs stands in `logs.rs`.

use super::clock::Clock;
use super::fault::sanitize::{WrongDisabled, WrongEnding, WrongRow, WrongStart, WrongTime};
use super::numbers::{opcode, Refusal, LOGS, STARTED, SUCCESS};
use super::{Config, Device, Done, Fault, LineAnswer, INJECTION_LOG};

/// "4 seconds up to 512 MiB, 8 to 1 GiB, 15 to 2, 30 to 4, 60 to 8, 120 to 16, 240 to 32, 480
/// to 64, 900 to 128, 1,800 to 256 GiB": the most units of a row, 256 MiB each, and its
/// seconds. No device is past the last row.
const ROWS: [(u64, u64); 10] = [
    (2, 4),
    (4, 8),
    (8, 15),
    (16, 30),
    (32, 60),
    (64, 120),
    (128, 240),
    (256, 480),
    (512, 900),
    (1024, 1800),
];

/// The caller's time is in nanoseconds (document 01).
const SECOND: u64 = 1_000_000_000;

/// The nanoseconds of the work on a device of so many units.
fn duration(volatile: u64, persistent: u64, config: Config) -> u64 {
    let units = match config.fault {
        Some(Fault::SanitizeTime(WrongTime::ByVolatile)) => volatile,
        Some(Fault::SanitizeTime(WrongTime::ByPersistent)) => persistent,
        _ => volatile + persistent,
    };
    let mut rows = ROWS;
    match config.fault {
        Some(Fault::SanitizeRow(row, WrongRow::OneUnitLess)) => rows[row].0 -= 1,
        Some(Fault::SanitizeRow(row, WrongRow::OneUnitMore)) => rows[row].0 += 1,
        Some(Fault::SanitizeRow(row, WrongRow::OneSecondMore)) => rows[row].1 += 1,
        _ => {}
    }
    let row = rows.iter().find(|(most, _)| units <= *most);
    let (_, seconds) = row.expect("1,023 units are in the table");
    match config.fault {
        Some(Fault::SanitizeTime(WrongTime::InMicroseconds)) => seconds * 1_000_000,
        Some(Fault::SanitizeTime(WrongTime::In32Bits)) => (seconds * SECOND) & 0xffff_ffff,
        _ => seconds * SECOND,
    }
}

/// A work that runs. "The device now records whether media is disabled, since when and for how
/// long": media is disabled while the device has one.
#[derive(Clone, Copy, Debug, PartialEq, Eq)]
pub struct Work {
    /// The caller's time of the command.
    begun: u64,
    /// Nanoseconds.
    duration: u64,
    /// The work is ended and kept all the same (a planted fault).
    over: bool,
}

impl Work {
    /// A work of so many nanoseconds that begins at the caller's `time`.
    fn new(time: u64, duration: u64) -> Work {
        Work {
            begun: time,
            duration,
            over: false,
        }
    }

    /// The caller's time of the command that began it.
    pub fn begun(&self) -> u64 {
        self.begun
    }

    /// The caller's time from which on the work is due, a sum of whole numbers: past 2^64-1
    /// no call has it.
    pub fn due_time(&self) -> u128 {
        u128::from(self.begun) + u128::from(self.duration)
    }

    /// "whose time is at least that far past the beginning"
    pub fn due(&self, time: u64, config: Config) -> bool {
        let Some(Fault::SanitizeTime(wrong)) = config.fault else {
            return u128::from(time) >= self.due_time();
        };
        match wrong {
            WrongTime::Later => u128::from(time) > self.due_time(),
            WrongTime::Earlier => u128::from(time) + 1 >= self.due_time(),
            WrongTime::AtNextCall => true,
            WrongTime::Wraps => time >= self.begun.wrapping_add(self.duration),
            WrongTime::StaysAtMost => time >= self.begun.saturating_add(self.duration),
            WrongTime::ElapsedWraps => time.wrapping_sub(self.begun) >= self.duration,
            _ => u128::from(time) >= self.due_time(),
        }
    }

    /// Whether the work runs; one that does not is kept by a planted fault only.
    pub fn runs(&self) -> bool {
        !self.over
    }

    /// This work as one that does not run (a planted fault).
    pub fn ended(self) -> Work {
        Work { over: true, ..self }
    }

    /// This work with another beginning (planted faults).
    pub fn begun_at(self, time: u64) -> Work {
        Work {
            begun: time,
            ..self
        }
    }

    /// This work with an earlier beginning if `time` is one (a planted fault).
    pub fn begun_by(self, time: u64) -> Work {
        self.begun_at(time.min(self.begun))
    }
}

/// "Refusals, after the length check: Sanitize while one runs, 0006h; Inject, Clear Poison,
/// Get LSA and Set LSA while disabled, 0007h."
fn refusal(code: u16) -> Option<Refusal> {
    match code {
        opcode::SANITIZE => Some(Refusal::Busy),
        opcode::INJECT_POISON | opcode::CLEAR_POISON | opcode::GET_LSA | opcode::SET_LSA => {
            Some(Refusal::MediaDisabled)
        }
        _ => None,
    }
}

/// A call that carries a time. Line test, event status and damage total carry none.
#[derive(Clone, Copy, Debug, PartialEq, Eq)]
pub(super) enum Call {
    /// By its opcode.
    Command(u16),
    Event,
    Media,
}

/// A call that carries no time, so that it ends no work.
#[derive(Clone, Copy, Debug, PartialEq, Eq)]
pub enum Untimed {
    Line,
    Status,
    Total,
    Walk,
}

impl Device {
    /// The nanoseconds that a work takes on this device.
    pub fn work_length(&self) -> u64 {
        duration(self.volatile, self.persistent, self.config)
    }

    /// The work that runs, if one does.
    pub fn work(&self) -> Option<&Work> {
        self.work.as_ref().filter(|work| work.runs())
    }

    /// "The device now records whether media is disabled": while a work runs (W-207).
    pub fn media_disabled(&self) -> bool {
        self.work().is_some()
    }

    /// A call that carries a time: one that is due "first ends the work", so before any check,
    /// and "the ending is kept even if the call is then refused" (W-207).
    pub(super) fn timed<T>(
        &mut self,
        call: Call,
        time: u64,
        does: impl FnOnce(&mut Device) -> Result<T, Refusal>,
    ) -> Result<T, Refusal> {
        if let Some(Fault::Ending(wrong)) = self.config.fault {
            return self.wrongly_timed(wrong, call, time, does);
        }
        self.end_if_due(time);
        does(self)
    }

    /// A command, which is lent the label area. The ending wipes nothing of it: "The caller wipes
    /// the memory and the label area".
    pub(super) fn timed_command(
        &mut self,
        code: u16,
        time: u64,
        labels: &mut [u8],
        does: impl FnOnce(&mut Device, &mut [u8]) -> Result<Done, Refusal>,
    ) -> Result<Done, Refusal> {
        let due = self.work.is_some_and(|work| work.due(time, self.config));
        let loses_vector = self.loses_vector(INJECTION_LOG);
        let answer = self.timed(Call::Command(code), time, |device| does(device, labels));
        if due && self.config.has(Fault::Ending(WrongEnding::LabelsCleared)) {
            labels.fill(0);
        }
        answer.map(|done| Done {
            vector: done.vector.filter(|_| !loses_vector),
            ..done
        })
    }

    /// The planted faults about the calls that end a work.
    fn wrongly_timed<T>(
        &mut self,
        wrong: WrongEnding,
        call: Call,
        time: u64,
        does: impl FnOnce(&mut Device) -> Result<T, Refusal>,
    ) -> Result<T, Refusal> {
        let ends = match wrong {
            WrongEnding::NotByEvents => call != Call::Event,
            WrongEnding::NotByMedia => call != Call::Media,
            WrongEnding::ByCommandsOnly => matches!(call, Call::Command(_)),
            WrongEnding::NotByReads => !matches!(call, Call::Command(code) if only_replies(code)),
            WrongEnding::NotBySanitize => call != Call::Command(opcode::SANITIZE),
            WrongEnding::AfterCall => false,
            _ => true,
        };
        let before = self.clone();
        if ends {
            self.end_if_due(time);
        }
        let ended = before.work.is_some() && self.work.is_none();
        let answer = does(self);
        let lost = match (wrong, &answer) {
            (WrongEnding::OnSuccessOnly, Err(_)) => true,
            (WrongEnding::NotOnRefusal(lost), Err(refusal)) => lost == *refusal,
            (WrongEnding::NotByRefusedEvents, Err(_)) => call == Call::Event,
            (WrongEnding::NotByRefusedMedia, Err(_)) => call == Call::Media,
            _ => false,
        };
        if lost {
            *self = before;
        }
        match wrong {
            WrongEnding::AfterCall => self.end_if_due(time),
            WrongEnding::LogsAfterCall if ended => self.logs.empty(Config::default()),
            _ => {}
        }
        answer
    }

    /// Whether an event to this log loses its vector by a planted fault: the log holds records
    /// before the call, though an ending may take them.
    pub(super) fn loses_vector(&self, log: u8) -> bool {
        let wrong = Fault::Ending(WrongEnding::VectorByOldLog);
        let held = |log: usize| log < LOGS && !self.log(log).is_empty();
        self.config.has(wrong) && held(log.into())
    }

    /// Ends the work if it is due at the caller's `time`. Set Timestamp moves nothing in this:
    /// "whose time" is the caller's.
    pub(super) fn end_if_due(&mut self, time: u64) {
        let looked_at = match self
            .config
            .has(Fault::SanitizeTime(WrongTime::ByDeviceClock))
        {
            true => self.device_time(time),
            false => time,
        };
        let Some(work) = self.work else {
            return;
        };
        if work.due(looked_at, self.config) {
            return self.end_work(time);
        }
        let moves = Fault::SanitizeTime(WrongTime::EarlierCallIsBegin);
        if self.config.has(moves) {
            self.work = Some(work.begun_by(time));
        }
    }

    /// The ending: "all five logs are emptied with their overflow counts and times, next
    /// handles go on, and media is enabled". All else stays.
    fn end_work(&mut self, time: u64) {
        self.logs.empty(self.config);
        let work = self.work.take();
        let Some(Fault::Ending(wrong)) = self.config.fault else {
            return;
        };
        match wrong {
            WrongEnding::MediaStaysDisabled => self.work = work,
            WrongEnding::HappensAgain => self.work = work.map(Work::ended),
            WrongEnding::ListEmptied => self.poison = self.poison.clone().without_entries(),
            WrongEnding::FlagCleared => self.poison.clear_flag(),
            WrongEnding::ClockReset => self.clock = Clock::default(),
            WrongEnding::ReportsEvent => drop(self.injection_event(0, time)),
            _ => {}
        }
    }

    /// The refusal of a command while media is disabled, if it has one (W-207).
    pub(super) fn refused_by_media(&self, code: u16) -> Option<Refusal> {
        if !self.media_disabled() {
            return None;
        }
        match self
            .config
            .has(Fault::Disabled(WrongDisabled::AlsoRefused(code)))
        {
            true => Some(Refusal::MediaDisabled),
            false => refusal(code),
        }
    }

    /// The planted faults about commands that are refused while media is disabled.
    pub(super) fn wrongly_disabled(
        &mut self,
        wrong: WrongDisabled,
        refusal: Refusal,
        code: u16,
        payload: &[u8],
        time: u64,
        labels: &mut [u8],
    ) -> Result<Done, Refusal> {
        let mut next = self.clone();
        let mut written = labels.to_vec();
        let answer = next.own_part(code, payload, time, &mut written);
        let sanitizes = code == opcode::SANITIZE;
        let (passes, changes) = match wrong {
            WrongDisabled::NotRefused(own) => (own == code, own == code),
            WrongDisabled::AfterOwnChecks(own) => (own == code && answer.is_err(), false),
            WrongDisabled::RefusedButDone(own) => (false, own == code),
            WrongDisabled::CoveredInjected => {
                let covered = code == opcode::INJECT_POISON && next == *self;
                (covered && answer.is_ok(), false)
            }
            WrongDisabled::SanitizeBeginsAgain => (sanitizes, sanitizes),
            WrongDisabled::SanitizeStartedAgain => (sanitizes, false),
            WrongDisabled::Is6h => return Err(Refusal::Busy),
            WrongDisabled::SanitizeIs7h => return Err(Refusal::MediaDisabled),
            _ => (false, false),
        };
        if changes {
            *self = next;
            labels.copy_from_slice(&written);
        }
        match passes {
            true => answer,
            false => Err(refusal),
        }
    }

    /// Sanitize after its checks: "answers 0001h, started, with no reply", and media is
    /// disabled from the caller's time on.
    pub(super) fn start_work(&mut self, time: u64, labels: &mut [u8]) -> Done {
        let work = Work::new(time, self.work_length());
        self.work = Some(work);
        let started = Done {
            number: STARTED,
            reply: Vec::new(),
            vector: None,
        };
        match self.config.fault {
            Some(Fault::SanitizeStart(wrong)) => self.wrongly_started(wrong, started, time, labels),
            Some(Fault::SanitizeTime(WrongTime::ByDeviceClock)) => {
                let device_time = self.device_time(time);
                self.work = Some(work.begun_at(device_time));
                started
            }
            _ => started,
        }
    }

    /// The planted faults of a Sanitize that is taken.
    fn wrongly_started(
        &mut self,
        wrong: WrongStart,
        started: Done,
        time: u64,
        labels: &mut [u8],
    ) -> Done {
        let mut done = started;
        match wrong {
            WrongStart::IsSuccess => done.number = SUCCESS,
            WrongStart::ChangesNothing => self.work = None,
            WrongStart::HasReply => done.reply = time.to_le_bytes().to_vec(),
            WrongStart::EmptiesLogs => self.logs.empty(self.config),
            WrongStart::ClearsLabels => labels.fill(0),
            WrongStart::ReportsEvent => drop(self.injection_event(0, time)),
            WrongStart::HasVector => done.vector = Some(2),
            _ => {}
        }
        done
    }

    /// Whether Sanitize has this planted fault.
    pub(super) fn started_wrong(&self, wrong: WrongStart) -> bool {
        self.config.has(Fault::SanitizeStart(wrong))
    }

    /// The planted faults of a Set Timestamp that is taken while a work runs.
    pub(super) fn faulty_set_timestamp(&mut self, time: u64) {
        match self.config.fault {
            Some(Fault::SanitizeTime(WrongTime::SetTimestampEnds)) if self.media_disabled() => {
                self.end_work(time);
            }
            Some(Fault::SanitizeTime(WrongTime::SetTimestampBegins)) => {
                self.work = self.work.map(|work| work.begun_at(time));
            }
            _ => {}
        }
    }

    /// Whether this planted fault about disabled media is on.
    pub(super) fn disabled_wrong(&self, wrong: WrongDisabled) -> bool {
        self.config.has(Fault::Disabled(wrong))
    }

    /// The device after a call that carries no time, which leaves it as it is but for a planted
    /// fault.
    pub fn after_untimed(&mut self, call: Untimed) {
        if self.media_disabled() && self.disabled_wrong(WrongDisabled::EndedBy(call)) {
            self.end_work(0);
        }
    }
}

/// The planted faults about the line test of a line inside the device while media is
/// disabled, out of what it would answer if media were enabled.
pub(super) fn wrong_line(wrong: WrongDisabled, enabled: LineAnswer) -> LineAnswer {
    match (wrong, enabled) {
        (WrongDisabled::LineAsEnabled, enabled) => enabled,
        (WrongDisabled::LineIsUnknown, _) => LineAnswer::Unknown,
        (WrongDisabled::DamagedFirst, LineAnswer::Damaged(_)) => enabled,
        (WrongDisabled::UnknownFirst, LineAnswer::Unknown) => enabled,
        (WrongDisabled::LineWithType, LineAnswer::Damaged(kind)) => {
            LineAnswer::DisabledOfType(kind)
        }
        _ => LineAnswer::Disabled,
    }
}

/// Whether a command only replies and changes neither device nor area (for planted faults).
fn only_replies(code: u16) -> bool {
    matches!(
        code,
        opcode::GET_EVENT_RECORDS
            | opcode::GET_POLICY
            | opcode::GET_TIMESTAMP
            | opcode::GET_SUPPORTED_LOGS
            | opcode::GET_LOG
            | opcode::IDENTIFY
            | opcode::GET_LSA
            | opcode::GET_POISON_LIST
    )
}
