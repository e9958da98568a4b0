//! The requests of the twelve commands, built from their fields.

use super::{fits, put};
use crate::device::numbers::{opcode, Refusal};
use crate::device::{Config, Fault};

/// A request with the fields that document 01 names in its payload.
#[derive(Clone, Debug, PartialEq, Eq)]
pub enum Request {
    GetEventRecords {
        log: u8,
    },
    ClearEventRecords {
        log: u8,
        flags: u8,
        handles: Vec<u16>,
    },
    GetPolicy,
    /// Four or five settings.
    SetPolicy {
        settings: Vec<u8>,
    },
    GetTimestamp,
    SetTimestamp {
        value: u64,
    },
    GetSupportedLogs,
    GetLog {
        identifier: [u8; 16],
        offset: u32,
        length: u32,
    },
    Identify,
    GetPoisonList {
        address: u64,
        lines: u64,
    },
    InjectPoison {
        address: u64,
    },
    ClearPoison {
        address: u64,
        data: [u8; 64],
    },
}

/// The count of Clear Event Records is one byte: "0016h for over 255 handles".
pub const MOST_HANDLES: usize = 255;

impl Request {
    /// The opcode of its command.
    pub fn code(&self) -> u16 {
        match self {
            Request::GetEventRecords { .. } => opcode::GET_EVENT_RECORDS,
            Request::ClearEventRecords { .. } => opcode::CLEAR_EVENT_RECORDS,
            Request::GetPolicy => opcode::GET_POLICY,
            Request::SetPolicy { .. } => opcode::SET_POLICY,
            Request::GetTimestamp => opcode::GET_TIMESTAMP,
            Request::SetTimestamp { .. } => opcode::SET_TIMESTAMP,
            Request::GetSupportedLogs => opcode::GET_SUPPORTED_LOGS,
            Request::GetLog { .. } => opcode::GET_LOG,
            Request::Identify => opcode::IDENTIFY,
            Request::GetPoisonList { .. } => opcode::GET_POISON_LIST,
            Request::InjectPoison { .. } => opcode::INJECT_POISON,
            Request::ClearPoison { .. } => opcode::CLEAR_POISON,
        }
    }

    /// The payload, whatever the number of handles: its length is what the request
    /// needs, "6 + 2n bytes, also for n over 255" (document 10).
    pub fn payload(&self) -> Vec<u8> {
        let mut out = Vec::new();
        match self {
            Request::GetPolicy
            | Request::GetTimestamp
            | Request::GetSupportedLogs
            | Request::Identify => {}
            Request::GetEventRecords { log } => out.push(*log),
            // "log, flags, count n (one byte each), three reserved, n handles of two
            // bytes"
            Request::ClearEventRecords {
                log,
                flags,
                handles,
            } => {
                out.extend([*log, *flags, handles.len() as u8, 0, 0, 0]);
                out.extend(handles.iter().flat_map(|handle| handle.to_le_bytes()));
            }
            Request::SetPolicy { settings } => out.extend(settings),
            Request::SetTimestamp { value } => out.extend(value.to_le_bytes()),
            Request::GetLog {
                identifier,
                offset,
                length,
            } => {
                out.extend(identifier);
                out.extend(offset.to_le_bytes());
                out.extend(length.to_le_bytes());
            }
            Request::GetPoisonList { address, lines } => {
                out.extend(address.to_le_bytes());
                out.extend(lines.to_le_bytes());
            }
            Request::InjectPoison { address } => out.extend(address.to_le_bytes()),
            Request::ClearPoison { address, data } => {
                out.extend(address.to_le_bytes());
                out.extend(data);
            }
        }
        out
    }

    /// Builds the payload in the caller's room: the return number and the length.
    /// 0100h for the room first, "then 0016h for over 255 handles". Flags and modes that
    /// the device refuses (W-205) are built as given.
    pub fn build(&self, room: &mut [u8], config: Config) -> (u16, usize) {
        let payload = match config.fault {
            Some(fault) => self.faulty_payload(fault, room),
            None => self.payload(),
        };
        let enough = fits(payload.len(), room.len(), config);
        let too_many = match self {
            Request::ClearEventRecords { handles, .. } => handles.len() > MOST_HANDLES,
            _ => false,
        };
        let counted = too_many && !config.has(Fault::HandlesOver255Taken);
        if config.has(Fault::RequestReservedJudged) && enough && self.refused_when_sent() {
            return put(Err(Refusal::InvalidInput), room, config);
        }
        match counted && (enough || config.has(Fault::HandlesBeforeRoom)) {
            true => put(Err(Refusal::InvalidPayloadLength), room, config),
            false => put(Ok(payload), room, config),
        }
    }

    /// Whether W-205 has the device refuse it for its flags or modes (for a planted fault).
    fn refused_when_sent(&self) -> bool {
        match self {
            Request::ClearEventRecords { flags, .. } => *flags > 1,
            Request::SetPolicy { settings } => settings.iter().any(|setting| setting & 2 != 0),
            _ => false,
        }
    }

    /// The payload with the planted faults about the reserved places of a Clear Event
    /// Records.
    fn faulty_payload(&self, fault: Fault, room: &[u8]) -> Vec<u8> {
        let mut payload = self.payload();
        if self.code() == opcode::CLEAR_EVENT_RECORDS {
            match fault {
                Fault::RequestFlagsMasked => payload[1] &= 1,
                Fault::RequestReservedNotWritten if room.len() >= payload.len() => {
                    payload[3..6].copy_from_slice(&room[3..6]);
                }
                _ => {}
            }
        }
        payload
    }
}
