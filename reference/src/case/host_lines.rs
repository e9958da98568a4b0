//! The case lines of the host's side (document 02, W-202) and their records: a
//! request, a reply read, a reply written again, a walk.

use super::encode::{identifier, name_of, opcode_of};
use super::fields::{hex_groups, Fields};
use super::words::{hex_pieces, identifier_words, joined};
use crate::device::numbers::{opcode, MAILBOX};
use crate::host::request::Request;
use crate::probe::host::MOST_WALK;
use crate::probe::record::{Record, MOST};

/// The first words of these lines.
pub const KINDS: [&str; 4] = ["request", "reply", "write-again", "walk"];

/// The record of a line of these; None of another.
pub fn record(first: &str, fields: &mut Fields) -> Result<Option<Record>, String> {
    Ok(Some(match first {
        "request" => {
            let (room, fill) = lent(fields, MOST as u64, MAILBOX as u64)?;
            Record::Request {
                room: room as u16,
                fill,
                request: request(fields)?,
            }
        }
        "reply" => {
            let (opcode, asked, reply) = captured(fields)?;
            Record::Reply {
                opcode,
                asked,
                reply,
            }
        }
        "write-again" => {
            // A reply "may be longer than a mailbox", so the greatest room is lent.
            let (room, fill) = lent(fields, MOST as u64, MOST as u64)?;
            let (opcode, asked, reply) = captured(fields)?;
            Record::Rewrite {
                opcode,
                asked,
                room: room as u16,
                fill,
                reply,
            }
        }
        "walk" => {
            let (room, fill) = lent(fields, MOST_WALK.into(), MOST_WALK.into())?;
            Record::Walk {
                address: fields.number("address", u64::MAX)?,
                lines: fields.number("lines", u64::MAX)?,
                room: room as u32,
                fill,
            }
        }
        _ => return Ok(None),
    }))
}

/// `room=` and `fill=`, with the room and 00 if not given.
fn lent(fields: &mut Fields, most: u64, other: u64) -> Result<(u64, u8), String> {
    let room = fields.number_or("room", most, other)?;
    Ok((room, fields.fill()?.unwrap_or(0)))
}

/// The request that a line names, with the fields of a `command` line.
fn request(fields: &mut Fields) -> Result<Request, String> {
    if fields.bare.is_empty() {
        return Err("expected one command name (see `bytes`)".to_string());
    }
    let byte = |fields: &mut Fields, name| fields.number(name, 255).map(|n| n as u8);
    Ok(match opcode_of(fields)? {
        opcode::GET_EVENT_RECORDS => Request::GetEventRecords {
            log: byte(fields, "log")?,
        },
        opcode::CLEAR_EVENT_RECORDS => {
            let handles = fields.list("handles", 65_535)?;
            if handles.len() > usize::from(u16::MAX) {
                return Err("expected at most 65535 handles".to_string());
            }
            Request::ClearEventRecords {
                log: byte(fields, "log")?,
                flags: fields.number_or("flags", 255, 0)? as u8,
                handles: handles.iter().map(|handle| *handle as u16).collect(),
            }
        }
        opcode::GET_POLICY => Request::GetPolicy,
        opcode::SET_POLICY => {
            let settings = fields.list("settings", 255)?;
            if settings.len() > 255 {
                return Err("expected at most 255 settings".to_string());
            }
            Request::SetPolicy {
                settings: settings.iter().map(|setting| *setting as u8).collect(),
            }
        }
        opcode::GET_TIMESTAMP => Request::GetTimestamp,
        opcode::SET_TIMESTAMP => Request::SetTimestamp {
            value: fields.number("value", u64::MAX)?,
        },
        opcode::GET_SUPPORTED_LOGS => Request::GetSupportedLogs,
        opcode::GET_LOG => Request::GetLog {
            identifier: identifier(fields)?,
            offset: fields.number("offset", u32::MAX.into())? as u32,
            length: fields.number("length", u32::MAX.into())? as u32,
        },
        opcode::IDENTIFY => Request::Identify,
        opcode::GET_POISON_LIST => Request::GetPoisonList {
            address: fields.number("address", u64::MAX)?,
            lines: fields.number("lines", u64::MAX)?,
        },
        opcode::INJECT_POISON => Request::InjectPoison {
            address: fields.number("address", u64::MAX)?,
        },
        opcode::CLEAR_POISON => {
            let address = fields.number("address", u64::MAX)?;
            let data = fields.hex_or("data", 64, 0)?;
            let data = data.try_into().map_err(|_| "expected data= of 64 bytes")?;
            Request::ClearPoison { address, data }
        }
        // "`RQ`, `RP` and `RW` know the twelve opcodes of document 01, whatever has landed."
        _ => return Err("expected a command of document 01 (see `bytes`)".to_string()),
    })
}

/// Opcode, length asked and bytes of a captured reply. `cut=` keeps so many of its
/// first bytes and `bit=` sets bits of what is left: bit N is bit N mod 8 of byte
/// N / 8.
fn captured(fields: &mut Fields) -> Result<(u16, u32, Vec<u8>), String> {
    let code = opcode_of(fields)?;
    let most = u32::MAX.into();
    let asked = match code {
        opcode::GET_LOG => fields.number("asked", most)?,
        _ => fields.number_or("asked", most, 0)?,
    };
    let mut reply = hex_groups(&fields.take("hex").unwrap_or_default())?;
    let length = reply.len();
    if length > MOST {
        return Err(format!(
            "expected a reply of at most {MOST} bytes (see `bytes`)"
        ));
    }
    let cut = fields.number_or("cut", length as u64, length as u64)?;
    reply.truncate(cut as usize);
    for bit in fields.list("bit", u64::MAX)? {
        let byte = reply.get_mut((bit / 8) as usize);
        let byte = byte.ok_or(format!("expected bit= inside the {cut} bytes, not {bit}"))?;
        *byte |= 1 << (bit % 8);
    }
    Ok((code, asked as u32, reply))
}

/// Where the count or length field of such a record stands, and its bytes.
pub fn length_place(record: &Record) -> Option<(usize, usize)> {
    match record {
        Record::Request {
            request: Request::ClearEventRecords { .. },
            ..
        } => Some((9, 2)),
        Record::Request {
            request: Request::SetPolicy { .. },
            ..
        } => Some((7, 1)),
        Record::Reply { .. } => Some((8, 2)),
        Record::Rewrite { .. } => Some((11, 2)),
        _ => None,
    }
}

/// The case text of such a record; empty of another.
pub fn words(record: &Record) -> String {
    match record {
        Record::Request {
            room,
            fill,
            request,
        } => {
            let name = name_of(request.code());
            let fields = request_words(request);
            format!("request room={room} fill={fill:02x} {name}{fields}")
        }
        Record::Reply {
            opcode,
            asked,
            reply,
        } => format!("reply {}", captured_words(*opcode, *asked, reply)),
        Record::Rewrite {
            opcode,
            asked,
            room,
            fill,
            reply,
        } => {
            let captured = captured_words(*opcode, *asked, reply);
            format!("write-again room={room} fill={fill:02x} {captured}")
        }
        Record::Walk {
            address,
            lines,
            room,
            fill,
        } => format!("walk address={address} lines={lines} room={room} fill={fill:02x}"),
        _ => String::new(),
    }
}

fn captured_words(code: u16, asked: u32, reply: &[u8]) -> String {
    format!("{} asked={asked} hex={}", name_of(code), hex_pieces(reply))
}

/// The fields of a request, each after a blank.
fn request_words(request: &Request) -> String {
    match request {
        Request::GetPolicy
        | Request::GetTimestamp
        | Request::GetSupportedLogs
        | Request::Identify => String::new(),
        Request::GetEventRecords { log } => format!(" log={log}"),
        Request::ClearEventRecords {
            log,
            flags,
            handles,
        } => format!(" log={log} flags={flags} handles={}", joined(handles)),
        Request::SetPolicy { settings } => format!(" settings={}", joined(settings)),
        Request::SetTimestamp { value } => format!(" value={value}"),
        Request::GetLog {
            identifier,
            offset,
            length,
        } => {
            let id = identifier_words(identifier);
            format!(" id={id} offset={offset} length={length}")
        }
        Request::GetPoisonList { address, lines } => format!(" address={address} lines={lines}"),
        Request::InjectPoison { address } => format!(" address={address}"),
        Request::ClearPoison { address, data } => {
            format!(" address={address} data={}", hex_pieces(data))
        }
    }
}
