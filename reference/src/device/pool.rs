//! Document 02, W-208: "A second mailbox for the pool manager". It has seven of the device's
//! commands, with the checks and the replies that stand in `mod.rs` for both mailboxes. It is
//! lent no label area, so that nothing of one is looked at, and no call here ends a work that
//! is due: "on the device as it stands, a due Sanitize not ended first".

use super::fault::pool::WrongPool;
use super::numbers::opcode::{Command, COMMANDS};
use super::numbers::{number, opcode, Refusal, LABEL_AREA, MAILBOX, SUCCESS};
use super::{Check, Device, Done, Fault, EFFECTS_IDENTIFIER};

/// A mailbox of the device.
#[derive(Clone, Copy, Debug, PartialEq, Eq)]
pub enum Mailbox {
    /// That of document 01, which has every command.
    First,
    /// The pool manager's.
    Pool,
}

impl Mailbox {
    /// The commands that it has, ascending.
    pub fn commands(self) -> impl Iterator<Item = Command> {
        let all = COMMANDS.into_iter();
        all.filter(move |row| self == Mailbox::First || row.pool)
    }

    /// Whether it has the command of this opcode.
    pub fn has(self, code: u16) -> bool {
        self.commands().any(|row| row.code == code)
    }
}

impl Device {
    /// A command through the pool manager's mailbox with the reply buffer lent: the return
    /// number and the reply length. "Its commands change nothing and never end a Sanitize."
    pub fn pool_command(
        &self,
        code: u16,
        payload: &[u8],
        time: u64,
        reply: &mut [u8],
    ) -> (u16, usize) {
        let answer = self.pool_answer(reply.len(), code, payload, time);
        let answer = answer.map(|reply| Done::success(reply, None));
        let answered = self.hand_back(code, answer, reply);
        if let Some(Fault::Pool(wrong)) = self.config.fault {
            wrongly_written(wrong, answered.number, answered.length, reply);
        }
        (answered.number, answered.length)
    }

    /// The reply for a buffer of `room` bytes: "Demands 1 and 2 hold for it."
    fn pool_answer(
        &self,
        room: usize,
        code: u16,
        payload: &[u8],
        time: u64,
    ) -> Result<Vec<u8>, Refusal> {
        if let Some(Fault::Pool(wrong)) = self.config.fault {
            return self.wrong_pool_answer(wrong, room, code, payload, time);
        }
        if !self.room_fits(room) {
            return Err(Refusal::ReplyBufferTooSmall);
        }
        self.checked(Mailbox::Pool, code, payload)?;
        self.shown(Mailbox::Pool, code, payload, time)
    }

    /// The same with a planted fault: the checks in an order that the fault may change, each of
    /// them as it is with the fault, then the reply as it is with the fault.
    fn wrong_pool_answer(
        &self,
        wrong: WrongPool,
        room: usize,
        code: u16,
        payload: &[u8],
        time: u64,
    ) -> Result<Vec<u8>, Refusal> {
        let code = match wrong {
            WrongPool::OpcodeIn15Bits => code & 0x7fff,
            _ => code,
        };
        let mut reply = Vec::new();
        for check in wrong_order(wrong) {
            if check == Check::Own {
                reply = self.wrong_reply(wrong, code, payload, time)?;
            } else if let Some(refusal) = self.wrong_check(wrong, check, room, code, payload) {
                return Err(refusal);
            }
        }
        match wrong {
            WrongPool::RoomByReply if reply.len() > room => Err(Refusal::ReplyBufferTooSmall),
            _ => Ok(reply),
        }
    }

    /// What a check says with a planted fault.
    fn wrong_check(
        &self,
        wrong: WrongPool,
        check: Check,
        room: usize,
        code: u16,
        payload: &[u8],
    ) -> Option<Refusal> {
        let refused = |refused: bool, refusal| refused.then_some(refusal);
        let others = Mailbox::First.has(code) && !Mailbox::Pool.has(code);
        match (check, wrong) {
            (Check::Room, WrongPool::RoomByReply) => None,
            (Check::Room, WrongPool::Room2048Refused) => {
                refused(room <= MAILBOX, Refusal::ReplyBufferTooSmall)
            }
            (Check::Room, _) => refused(!self.room_fits(room), Refusal::ReplyBufferTooSmall),
            (Check::PayloadLimit, WrongPool::PayloadOf2048Refused) => {
                refused(payload.len() >= MAILBOX, Refusal::InvalidPayloadLength)
            }
            (Check::PayloadLimit, WrongPool::PayloadOf2049Taken) => {
                refused(payload.len() > MAILBOX + 1, Refusal::InvalidPayloadLength)
            }
            (Check::Opcode, WrongPool::UnknownIs15h) => {
                refused(!Mailbox::First.has(code), Refusal::UnsupportedMailbox)
            }
            (Check::Mailbox, WrongPool::OthersAre3h) => refused(others, Refusal::Unsupported),
            (Check::Mailbox, WrongPool::MediaBeforeMailbox) => self
                .refused_by_media(code)
                .or(refused(others, Refusal::UnsupportedMailbox)),
            (Check::Mailbox, WrongPool::Taken(own)) => {
                refused(others && own != code, Refusal::UnsupportedMailbox)
            }
            (Check::Mailbox, WrongPool::Refused(own)) => {
                refused(others || own == code, Refusal::UnsupportedMailbox)
            }
            (Check::Length, WrongPool::RefusedWhileDisabled(own)) => {
                let length = self.refused_at(check, Mailbox::Pool, code, payload);
                let disabled = own == code && self.media_disabled();
                length.or(refused(disabled, Refusal::MediaDisabled))
            }
            _ => self.refused_at(check, Mailbox::Pool, code, payload),
        }
    }

    /// The reply with a planted fault, after the checks before the command's own.
    fn wrong_reply(
        &self,
        wrong: WrongPool,
        code: u16,
        payload: &[u8],
        time: u64,
    ) -> Result<Vec<u8>, Refusal> {
        let own = || self.shown(Mailbox::Pool, code, payload, time);
        let first = || self.shown(Mailbox::First, code, payload, time);
        match (wrong, code) {
            _ if !Mailbox::Pool.has(code) => {
                let labels = &mut [0; LABEL_AREA];
                let done = self.clone().run_lent(code, payload, time, labels);
                done.map(|done| done.reply)
            }
            (WrongPool::EndsWork | WrongPool::RepliesAfterEnding, _) => {
                let mut ended = self.clone();
                ended.end_if_due(time);
                ended.shown(Mailbox::Pool, code, payload, time)
            }
            (WrongPool::LogsEmptyWhileDisabled, opcode::GET_EVENT_RECORDS) => {
                let mut emptied = self.clone();
                if self.media_disabled() {
                    emptied.logs.empty(self.config);
                }
                emptied.shown(Mailbox::Pool, code, payload, time)
            }
            (WrongPool::SizeOfFirst, opcode::GET_SUPPORTED_LOGS) => first(),
            (WrongPool::LogOfFirst, opcode::GET_LOG) => first(),
            (WrongPool::EndOfFirst, opcode::GET_LOG) => {
                first().map(|reply| self.past_the_end(payload, reply.len()))
            }
            (WrongPool::BytesOfFirst, opcode::GET_LOG) => own().map(|reply| {
                let from = number(&payload[16..20]) as usize;
                self.effects_log(Mailbox::First)[from..from + reply.len()].to_vec()
            }),
            (WrongPool::EndIn32Bits, opcode::GET_LOG) => own().or_else(|refusal| {
                let (offset, length) = (number(&payload[16..20]), number(&payload[20..]));
                let wraps = (offset + length) & 0xffff_ffff <= 28 && length <= MAILBOX as u64;
                match wraps && refusal == Refusal::InvalidInput {
                    true => Ok(self.past_the_end(payload, length as usize)),
                    false => Err(refusal),
                }
            }),
            (WrongPool::IdentifierIgnored, opcode::GET_LOG) => {
                self.shown(Mailbox::Pool, code, &with_identifier(payload), time)
            }
            (WrongPool::RangeBeforeIdentifier, opcode::GET_LOG) => self
                .shown(Mailbox::Pool, code, &with_identifier(payload), time)
                .and_then(|_| own()),
            (WrongPool::LabelSizeIs0, opcode::IDENTIFY) => own().map(|mut reply| {
                reply[56..60].fill(0);
                reply
            }),
            (WrongPool::TimeIsCallers, opcode::GET_TIMESTAMP) => Ok(time.to_le_bytes().to_vec()),
            (WrongPool::TimeIs0, opcode::GET_TIMESTAMP) => {
                self.shown(Mailbox::Pool, code, payload, 0)
            }
            _ => own(),
        }
    }

    /// So many bytes of this mailbox's effects log, zeros past its end (planted faults).
    fn past_the_end(&self, payload: &[u8], length: usize) -> Vec<u8> {
        let from = number(&payload[16..20]) as usize;
        let log = self.effects_log(Mailbox::Pool);
        let byte = |at: usize| log.get(from + at).copied().unwrap_or(0);
        (0..length).map(byte).collect()
    }

    /// What a planted fault does to the device after a command of the pool manager's mailbox,
    /// which leaves it as it is otherwise.
    pub fn after_pool(
        &mut self,
        wrong: WrongPool,
        code: u16,
        payload: &[u8],
        time: u64,
        number: u16,
    ) {
        let taken = number == SUCCESS;
        match wrong {
            WrongPool::EndsWork | WrongPool::EndsWorkAfterwards => self.end_if_due(time),
            WrongPool::RefusedEndsWork if !taken => self.end_if_due(time),
            WrongPool::BeginsWorkAgain => {
                self.work = self.work.map(|work| work.begun_at(time));
            }
            WrongPool::EarlierIsBegin => self.work = self.work.map(|work| work.begun_by(time)),
            WrongPool::Taken(own) | WrongPool::RefusedButDone(own) if own == code => {
                let labels = &mut [0; LABEL_AREA];
                drop(self.run_lent(code, payload, time, labels));
            }
            WrongPool::OthersReported if number == Refusal::UnsupportedMailbox.number() => {
                self.injection_event(0, time);
            }
            _ if taken => self.after_shown(wrong, code, payload, time),
            _ => {}
        }
    }

    /// The same after one of the seven that is taken.
    fn after_shown(&mut self, wrong: WrongPool, code: u16, payload: &[u8], time: u64) {
        match (wrong, code) {
            (WrongPool::SetsClock, opcode::GET_TIMESTAMP) => {
                let value = self.device_time(time);
                self.clock.set(value, time);
            }
            (WrongPool::ClearsRecords, opcode::GET_EVENT_RECORDS) => {
                let log = self.logs.named(payload[0]).expect("a log that was read");
                *log = log.without_records();
            }
            (WrongPool::ClearsOverflow, opcode::GET_EVENT_RECORDS) => {
                let log = self.logs.named(payload[0]).expect("a log that was read");
                *log = log.without_overflow();
            }
            (WrongPool::DisablesInterrupts, opcode::GET_POLICY) => {
                let disabled = self.logs.set_policy(&[0; 5], self.config);
                disabled.expect("a policy that is taken");
            }
            (WrongPool::ClearsFlag, opcode::GET_POISON_LIST) => self.poison.clear_flag(),
            _ => {}
        }
    }
}

/// The rows of a mailbox's effects log with a planted fault.
pub(super) fn wrong_rows(wrong: WrongPool, mailbox: Mailbox) -> Vec<Command> {
    let all = COMMANDS.into_iter();
    match (wrong, mailbox) {
        (WrongPool::FirstListsSeven, Mailbox::First) => Mailbox::Pool.commands().collect(),
        (WrongPool::ListsEighth(eighth), Mailbox::Pool) => {
            all.filter(|row| row.pool || row.code == eighth).collect()
        }
        (WrongPool::ListsSix(left_out), Mailbox::Pool) => {
            all.filter(|row| row.pool && row.code != left_out).collect()
        }
        _ => mailbox.commands().collect(),
    }
}

/// The order of all checks with a planted fault.
fn wrong_order(wrong: WrongPool) -> Vec<Check> {
    let mut order = vec![Check::Room];
    order.extend(super::ORDER);
    order.push(Check::Own);
    match wrong {
        WrongPool::After(check, other) => {
            order.retain(|kept| *kept != check);
            let place = order.iter().position(|kept| *kept == other);
            order.insert(place.map_or(0, |place| place + 1), check);
        }
        WrongPool::Without(check) => order.retain(|kept| *kept != check),
        _ => {}
    }
    order
}

/// The payload of a Get Log with the effects log's identifier (planted faults).
fn with_identifier(payload: &[u8]) -> Vec<u8> {
    [&EFFECTS_IDENTIFIER[..], &payload[16..]].concat()
}

/// What a planted fault does to the lent buffer.
fn wrongly_written(wrong: WrongPool, number: u16, length: usize, buffer: &mut [u8]) {
    let rest = &mut buffer[length..];
    match wrong {
        WrongPool::BytePastReply if number == SUCCESS && !rest.is_empty() => rest[0] ^= 1,
        WrongPool::RestCleared if number == SUCCESS => rest.fill(0),
        WrongPool::WritesOnRefusal if number != SUCCESS => rest.fill(0),
        _ => {}
    }
}
