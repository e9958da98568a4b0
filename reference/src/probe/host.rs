//! The records of W-202 (document 10 "Records that a request brings"): RQ, RP, RW and
//! WK after their marks, read and laid out.

use super::record::{block_of, sized, Record, MOST};
use crate::device::numbers::{number, opcode};
use crate::host::layout::layout;
use crate::host::request::Request;
use crate::source::Source;
use std::io::{self, BufRead};

/// "room of `WK` at most 65,536"
pub const MOST_WALK: u32 = 65_536;
/// "n at most 1,000"
pub const MOST_COUNTED: usize = 1000;

/// RQ after its mark: "opcode 2, room 2, fill 1, then the request's fields". None if
/// cut, with a size over its limit or of an opcode that is none of the twelve.
pub fn request<R: BufRead>(source: &mut Source<R>) -> io::Result<Option<Record>> {
    let Some(head) = source.fields::<5>()? else {
        return Ok(None);
    };
    let room = number(&head[2..4]) as u16;
    if usize::from(room) > MOST {
        return Ok(None);
    }
    let request = request_fields(source, number(&head[..2]) as u16)?;
    Ok(request.map(|request| Record::Request {
        room,
        fill: head[4],
        request,
    }))
}

/// Document 10 "Fields of a request".
fn request_fields<R: BufRead>(source: &mut Source<R>, code: u16) -> io::Result<Option<Request>> {
    Ok(match code {
        opcode::GET_EVENT_RECORDS => {
            let fields = source.fields::<1>()?;
            fields.map(|[log]| Request::GetEventRecords { log })
        }
        opcode::CLEAR_EVENT_RECORDS => return clear_event_records(source),
        opcode::GET_POLICY => Some(Request::GetPolicy),
        opcode::SET_POLICY => {
            let n = source.fields::<1>()?;
            // "n 1 (4 or 5, else `BAD`), n bytes"
            let Some([n @ 4..=5]) = n else {
                return Ok(None);
            };
            let settings = source.block(n.into())?;
            settings.map(|settings| Request::SetPolicy { settings })
        }
        opcode::GET_TIMESTAMP => Some(Request::GetTimestamp),
        opcode::SET_TIMESTAMP => source
            .fields::<8>()?
            .map(|b| Request::SetTimestamp { value: number(&b) }),
        opcode::GET_SUPPORTED_LOGS => Some(Request::GetSupportedLogs),
        opcode::GET_LOG => {
            let (identifier, rest) = (source.fields::<16>()?, source.fields::<8>()?);
            identifier.zip(rest).map(|(identifier, b)| Request::GetLog {
                identifier,
                offset: number(&b[..4]) as u32,
                length: number(&b[4..]) as u32,
            })
        }
        opcode::IDENTIFY => Some(Request::Identify),
        opcode::GET_POISON_LIST => source.fields::<16>()?.map(|b| Request::GetPoisonList {
            address: number(&b[..8]),
            lines: number(&b[8..]),
        }),
        opcode::INJECT_POISON => source.fields::<8>()?.map(|b| Request::InjectPoison {
            address: number(&b),
        }),
        opcode::CLEAR_POISON => {
            let (address, data) = (source.fields::<8>()?, source.fields::<64>()?);
            address.zip(data).map(|(b, data)| Request::ClearPoison {
                address: number(&b),
                data,
            })
        }
        _ => None,
    })
}

/// "log 1, flags 1, n 2, n handles of 2 (n at most 1,000 ..)"
fn clear_event_records<R: BufRead>(source: &mut Source<R>) -> io::Result<Option<Request>> {
    let Some([log, flags, low, high]) = source.fields::<4>()? else {
        return Ok(None);
    };
    let n = usize::from(u16::from_le_bytes([low, high]));
    if n > MOST_COUNTED {
        return Ok(None);
    }
    let handles = source.block(2 * n)?;
    Ok(handles.map(|bytes| Request::ClearEventRecords {
        log,
        flags,
        handles: bytes.chunks(2).map(|b| number(b) as u16).collect(),
    }))
}

/// The fields of RQ, after the mark.
pub fn encode_request(room: u16, fill: u8, request: &Request, out: &mut Vec<u8>) {
    out.extend(request.code().to_le_bytes());
    out.extend(room.to_le_bytes());
    out.push(fill);
    match request {
        Request::ClearEventRecords {
            log,
            flags,
            handles,
        } => {
            out.extend([*log, *flags]);
            out.extend((handles.len() as u16).to_le_bytes());
            out.extend(handles.iter().flat_map(|handle| handle.to_le_bytes()));
        }
        Request::SetPolicy { settings } => {
            out.push(settings.len() as u8);
            out.extend(settings);
        }
        // The others' fields are those of the payload, in its order.
        _ => out.extend(request.payload()),
    }
}

/// RP after its mark: "opcode 2, asked 4, length 2, reply".
pub fn reply<R: BufRead>(source: &mut Source<R>) -> io::Result<Option<Record>> {
    let Some(head) = source.fields::<8>()? else {
        return Ok(None);
    };
    let code = number(&head[..2]) as u16;
    let reply = match layout(code) {
        Some(_) => block_of(source, &head[6..])?,
        None => None,
    };
    Ok(reply.map(|reply| Record::Reply {
        opcode: code,
        asked: number(&head[2..6]) as u32,
        reply,
    }))
}

/// RW after its mark: "opcode 2, asked 4, room 2, fill 1, length 2, reply".
pub fn rewrite<R: BufRead>(source: &mut Source<R>) -> io::Result<Option<Record>> {
    let Some(head) = source.fields::<11>()? else {
        return Ok(None);
    };
    let code = number(&head[..2]) as u16;
    let room = number(&head[6..8]) as u16;
    if usize::from(room) > MOST || layout(code).is_none() {
        return Ok(None);
    }
    let reply = block_of(source, &head[9..])?;
    Ok(reply.map(|reply| Record::Rewrite {
        opcode: code,
        asked: number(&head[2..6]) as u32,
        room,
        fill: head[8],
        reply,
    }))
}

/// The fields of RP, and of RW with its room and fill, after the mark.
pub fn encode_reply(
    code: u16,
    asked: u32,
    lent: Option<(u16, u8)>,
    reply: &[u8],
    out: &mut Vec<u8>,
) {
    out.extend(code.to_le_bytes());
    out.extend(asked.to_le_bytes());
    if let Some((room, fill)) = lent {
        out.extend(room.to_le_bytes());
        out.push(fill);
    }
    sized(reply, out);
}

/// WK after its mark: "address 8, lines 8, room 4, fill 1".
pub fn walk<R: BufRead>(source: &mut Source<R>) -> io::Result<Option<Record>> {
    let fields = source.fields::<21>()?.map(|b| Record::Walk {
        address: number(&b[..8]),
        lines: number(&b[8..16]),
        room: number(&b[16..20]) as u32,
        fill: b[20],
    });
    Ok(fields.filter(|record| matches!(record, Record::Walk { room, .. } if *room <= MOST_WALK)))
}
