//! Profiles of the host's side (document 02, W-202), for probe alone: requests,
//! replies read and written again, and walks of the poison list.

use super::builder::Builder;
use super::commands::plausible_payload;
use super::poison::{poison_step, Region};
use super::probe::busy_device;
use super::reserved::some_settings;
use crate::device::numbers::{number, opcode};
use crate::device::{Config, EFFECTS_IDENTIFIER};
use crate::host::layout::{layout, reserved_bits, size_of, Field, Layout};
use crate::host::request::Request;
use crate::host::walk::walk;
use crate::probe::host::MOST_WALK;
use crate::probe::record::{Record, MOST};

/// Every request in rooms about its need, at times with the command of the same
/// payload after it.
pub fn requests(b: &mut Builder) {
    b.any_device();
    for log in 0..5 {
        b.event(log);
    }
    while b.more() {
        let request = any_request(b);
        push_request(b, &request);
        let payload = request.payload();
        if payload.len() < 100 && b.random.one_in(3) {
            b.command(request.code(), payload);
        }
    }
    b.show();
}

/// A request with any fields.
fn any_request(b: &mut Builder) -> Request {
    let (address, lines) = (any_address(b), any_number(b));
    match b.random.pick(&opcode::HOST) {
        opcode::GET_EVENT_RECORDS => Request::GetEventRecords {
            log: b.random.pick(&[0, 1, 2, 3, 4, 5, 255]),
        },
        opcode::CLEAR_EVENT_RECORDS => {
            let log = b.random.below(6) as u8;
            let about = [0, 1, 1, 2, 8, 127, 128, 254, 255, 256, 257, 511, 512, 1000];
            let handles = match (b.random.one_in(2), usize::from(log)) {
                (true, log @ 0..=4) => b.device().log(log).handles(),
                _ => {
                    let n = b.random.pick(&about);
                    (0..n).map(|_| b.random.bits() as u16).collect()
                }
            };
            Request::ClearEventRecords {
                log,
                flags: b.random.pick(&[0, 0, 0, 0, 1, 0xff, 0xfe]),
                handles,
            }
        }
        opcode::GET_POLICY => Request::GetPolicy,
        opcode::SET_POLICY => {
            let n = b.random.pick(&[4, 5]);
            Request::SetPolicy {
                settings: some_settings(b, n),
            }
        }
        opcode::GET_TIMESTAMP => Request::GetTimestamp,
        opcode::SET_TIMESTAMP => Request::SetTimestamp { value: lines },
        opcode::GET_SUPPORTED_LOGS => Request::GetSupportedLogs,
        opcode::GET_LOG => {
            let mut identifier = EFFECTS_IDENTIFIER;
            if b.random.one_in(3) {
                identifier.copy_from_slice(&b.random.bytes(16));
            }
            let few = b.random.below(50) as u32;
            Request::GetLog {
                identifier,
                offset: b.random.pick(&[0, few, lines as u32]),
                length: b.random.pick(&[0, few, address as u32]),
            }
        }
        opcode::IDENTIFY => Request::Identify,
        opcode::GET_POISON_LIST => Request::GetPoisonList {
            address,
            lines: b.random.pick(&[0, 1, 2, lines]),
        },
        opcode::INJECT_POISON => Request::InjectPoison { address },
        _ => {
            let mut data = [0; 64];
            data.copy_from_slice(&b.random.bytes(64));
            Request::ClearPoison { address, data }
        }
    }
}

/// An address: of a line of the device, or any number.
fn any_address(b: &mut Builder) -> u64 {
    match b.random.one_in(3) {
        true => any_number(b),
        false => b.edge_line() * 64,
    }
}

/// A number of any size.
fn any_number(b: &mut Builder) -> u64 {
    b.random.bits() >> b.random.below(64)
}

/// A request in one room about its need.
fn push_request(b: &mut Builder, request: &Request) {
    let room = about(b, request.payload().len(), MOST) as u16;
    let fill = b.any_fill();
    b.push(Record::Request {
        room,
        fill,
        request: request.clone(),
    });
}

/// A room about what is needed, or any.
fn about(b: &mut Builder, need: usize, most: usize) -> usize {
    let any = b.random.below(most as u64 + 1) as usize;
    let near = [
        need,
        need,
        need + 1,
        need.saturating_sub(1),
        need.saturating_sub(16),
        0,
        most,
        any,
    ];
    b.random.pick(&near).min(most)
}

/// Made-up replies: well formed, cut, longer, with wrong counts, with reserved bits set,
/// and arbitrary bytes.
pub fn replies(b: &mut Builder) {
    b.any_device();
    every_reserved_bit(b);
    b.set_target(1000);
    while b.more() {
        let code = b.random.pick(&opcode::HOST);
        let (mut asked, mut reply) = well_formed(b, code);
        let change = b.random.below(12);
        match change {
            0..=2 => {}
            3 => {
                let length = b.random.below(reply.len() as u64 + 1) as usize;
                reply.truncate(length);
            }
            4 => {
                let surplus = b.random.pick(&[1, 1, 16, 20, 128]);
                reply.resize((reply.len() + surplus).min(MOST), 0);
            }
            5 => wrong_count(b, code, &mut asked, &mut reply),
            6..=8 => {
                // Two reserved bits at times with a wrong length.
                for _ in 0..b.random.pick(&[1, 2]) {
                    set_reserved(b, code, &mut reply);
                }
                if change == 8 {
                    reply.pop();
                }
            }
            9 => set_any(b, &mut reply),
            10 => {
                let length = b.random.below(200) as usize;
                reply = b.random.bytes(length);
            }
            _ => asked = any_number(b) as u32,
        }
        push_reply(b, code, asked, &reply);
    }
}

/// Each reserved bit alone, in a reply of each kind that has some.
fn every_reserved_bit(b: &mut Builder) {
    for (code, records) in [
        (opcode::GET_EVENT_RECORDS, 1),
        (opcode::GET_SUPPORTED_LOGS, 2),
        (opcode::GET_POISON_LIST, 2),
    ] {
        let (_, reply) = reply_of(b, code, records);
        for bit in layout(code).map_or(Vec::new(), |layout| reserved_bits(layout, records)) {
            let mut reply = reply.clone();
            reply[bit / 8] |= 1 << (bit % 8);
            b.push(Record::Reply {
                opcode: code,
                asked: 0,
                reply,
            });
        }
    }
}

/// A reply that is read: few records, at times as many as the record carries.
fn well_formed(b: &mut Builder, code: u16) -> (u32, Vec<u8>) {
    let most = match layout(code) {
        Some(Layout::Counted(head, each)) => (MOST - size_of(head)) / size_of(each),
        Some(Layout::Asked) => MOST,
        _ => 0,
    };
    let few = b.random.below(4) as usize;
    let records = match b.random.one_in(30) {
        true => b.random.below(most as u64 + 1) as usize,
        false => few.min(most),
    };
    reply_of(b, code, records)
}

/// A reply with so many records, or of so many bytes asked, and any values.
fn reply_of(b: &mut Builder, code: u16, records: usize) -> (u32, Vec<u8>) {
    let mut out = Vec::new();
    match layout(code) {
        Some(Layout::Fixed(fields)) => put_any(b, fields, 0, &mut out),
        Some(Layout::Counted(head, each)) => {
            put_any(b, head, records, &mut out);
            for _ in 0..records {
                put_any(b, each, records, &mut out);
            }
        }
        _ => out = b.random.bytes(records),
    }
    let asked = match code {
        opcode::GET_LOG => records as u32,
        _ => b.random.pick(&[0, 0, 0, 1]),
    };
    (asked, out)
}

/// Fields with any values, the count being `records`.
fn put_any(b: &mut Builder, fields: &[Field], records: usize, out: &mut Vec<u8>) {
    for field in fields {
        let any = any_number(b).to_le_bytes();
        match field {
            Field::Number(size) => out.extend(&any[..*size]),
            Field::Bytes(size) => out.extend(b.random.bytes(*size)),
            Field::Count => out.extend((records as u16).to_le_bytes()),
            Field::Zero(size) => out.extend(vec![0; *size]),
            Field::AddressAndType => {
                out.push(any[0] & 0xc7);
                out.extend(&any[1..]);
            }
        }
    }
}

/// Another count, or another length asked.
fn wrong_count(b: &mut Builder, code: u16, asked: &mut u32, reply: &mut [u8]) {
    let at = match code {
        opcode::GET_EVENT_RECORDS => 20,
        opcode::GET_SUPPORTED_LOGS => 0,
        opcode::GET_POISON_LIST => 10,
        _ => {
            let more = b.random.pick(&[1, u32::MAX, 256, 65_536]);
            *asked = asked.wrapping_add(more);
            return;
        }
    };
    let more = b.random.pick(&[1, u16::MAX, 256, 512, 4096]);
    let count = number(&reply[at..at + 2]) as u16;
    reply[at..at + 2].copy_from_slice(&count.wrapping_add(more).to_le_bytes());
}

/// Sets a reserved bit, if the reply has one.
fn set_reserved(b: &mut Builder, code: u16, reply: &mut [u8]) {
    let Some(Layout::Counted(head, each)) = layout(code) else {
        return;
    };
    let records = (reply.len() - size_of(head)) / size_of(each);
    let bits = reserved_bits(Layout::Counted(head, each), records);
    let bit = b.random.pick(&bits);
    reply[bit / 8] |= 1 << (bit % 8);
}

/// Alters any bit, if there is one.
fn set_any(b: &mut Builder, reply: &mut [u8]) {
    if !reply.is_empty() {
        let byte = b.random.below(reply.len() as u64) as usize;
        reply[byte] ^= 1 << b.random.below(8);
    }
}

/// A reply read, written again, or both.
fn push_reply(b: &mut Builder, code: u16, asked: u32, reply: &[u8]) {
    let choice = b.random.below(3);
    if choice != 0 {
        b.push(Record::Reply {
            opcode: code,
            asked,
            reply: reply.to_vec(),
        });
    }
    if choice != 1 {
        let room = about(b, reply.len(), MOST) as u16;
        let fill = b.any_fill();
        b.push(Record::Rewrite {
            opcode: code,
            asked,
            room,
            fill,
            reply: reply.to_vec(),
        });
    }
}

/// Replies that the device really gives, read and written again, some with a bit
/// altered or cut.
pub fn device_replies(b: &mut Builder) {
    busy_device(b);
    b.set_target(700);
    while b.more() {
        let code = b.random.pick(&opcode::HOST);
        let mut payload = plausible_payload(b, code);
        if code == opcode::GET_POISON_LIST && b.random.one_in(6) {
            payload = [0, b.device_lines()].map(u64::to_le_bytes).concat();
        }
        let asked = match code {
            opcode::GET_LOG => {
                let length = b.random.below(61) as u32;
                payload[20..24].copy_from_slice(&length.to_le_bytes());
                payload[16] = b.random.below(61 - u64::from(length)) as u8;
                length
            }
            _ => 0,
        };
        let mut reply = b.reply(code, &payload);
        b.command(code, payload);
        match b.random.below(8) {
            0 => set_any(b, &mut reply),
            1 => drop(reply.pop()),
            _ => {}
        }
        push_reply(b, code, asked, &reply);
        let log = b.random.below(5) as u8;
        if b.random.one_in(8) {
            b.event(log);
        }
    }
}

/// How many entries the list has, one stream for each.
const HELD: [usize; 7] = [0, 1, 126, 127, 128, 200, 256];
pub const WALK_STREAMS: usize = HELD.len();

/// Walks of a list of so many entries, then of the same list after some calls.
pub fn walks(b: &mut Builder, part: usize) {
    b.any_device();
    refused_walks(b);
    let region = list(b, HELD[part % WALK_STREAMS]);
    for _ in 0..2 {
        let all = b.device_lines();
        let (first, last) = span(b);
        let wide = [
            (0, all),
            (first, last - first),
            (first, (last - first).saturating_sub(1)),
            (first + 1, (last - first).saturating_sub(1)),
            (first.saturating_sub(1), last + 2 - first.max(1)),
        ];
        for (line, lines) in wide {
            some_walk(b, line, lines);
        }
        for _ in 0..3 {
            let (one, other) = (b.edge_line(), b.edge_line());
            some_walk(b, one.min(other), one.abs_diff(other));
        }
        for _ in 0..6 {
            let (line, lines) = (b.edge_line(), b.random.below(8));
            some_walk(b, line, lines);
        }
        refused_walks(b);
        for _ in 0..b.random.pick(&[1, 5, 30]) {
            poison_step(b, &region);
        }
        let log = b.random.below(5) as u8;
        b.event(log);
    }
    b.show_poison();
}

/// The first line of the list and the line after its last; lines of their own if it is
/// empty.
fn span(b: &mut Builder) -> (u64, u64) {
    let entries = b.entries();
    match (entries.first(), entries.last()) {
        (Some(first), Some(last)) => (first.start as u64, (last.start + last.lines) as u64),
        _ => {
            let line = b.edge_line();
            (line, line + 1)
        }
    }
}

/// A list of so many entries of mixed types and lengths, without gaps or with some,
/// one of them long at times, at the device's begin, end, about its middle or anywhere.
fn list(b: &mut Builder, held: usize) -> Region {
    let longest = b.random.pick(&[1, 2, 3, 5, 9]);
    let gap = b.random.pick(&[0, 0, 1, 3]);
    let long = match b.random.one_in(3) {
        true => b.random.below(held as u64 + 1),
        false => held as u64,
    };
    let most = b.random.pick(&[1000, 100_000, 3_000_000]);
    let lines = held as u64 * (longest + gap) + most;
    let all = b.device_lines();
    let base = match b.random.below(4) {
        0 => 0,
        1 => all - lines,
        2 => (all / 2).saturating_sub(lines / 2).min(all - lines),
        _ => b.random.below(all - lines + 1),
    };
    let mut line = base;
    for i in 0..held as u64 {
        let lines = match i == long {
            true => b.random.between(100, most),
            false => b.random.between(1, longest),
        };
        let kind = b.media_type();
        if lines == 1 && b.random.one_in(3) {
            b.inject(line * 64);
        } else {
            b.media(line * 64, lines as u32, kind);
        }
        line += lines + b.random.below(gap + 1);
    }
    Region {
        base,
        lines: (line - base).max(1),
    }
}

/// The walk of a range in a room that is enough, and in one that is too small.
pub fn some_walk(b: &mut Builder, line: u64, lines: u64) {
    let (address, most) = (line * 64, MOST_WALK as usize);
    let mut room = vec![0; most];
    let (_, need) = walk(b.device(), address, lines, &mut room, Config::default());
    let any = b.random.between(need as u64, most as u64) as usize;
    let enough = b.random.pick(&[need, need, need + 1, need + 16, most, any]);
    push_walk(b, address, lines, enough.min(most));
    if need > 0 {
        let any = b.random.below(need as u64) as usize;
        let less = b.random.pick(&[need - 1, need - 16, 0, any]);
        push_walk(b, address, lines, less);
    }
}

fn push_walk(b: &mut Builder, address: u64, lines: u64, room: usize) {
    let fill = b.any_fill();
    b.push(Record::Walk {
        address,
        lines,
        room: room as u32,
        fill,
    });
}

/// Walks of ranges that the device refuses, and of those just inside them.
fn refused_walks(b: &mut Builder) {
    let all = b.device_lines();
    let line = b.edge_line();
    let unaligned = line * 64 + b.random.between(1, 63);
    let high = u64::MAX - 63;
    for (address, lines) in [
        (unaligned, 1),
        (unaligned, u64::MAX),
        (line * 64, all - line + 1),
        (0, all + 1),
        (all * 64, 1),
        (all * 64, 0),
        (all * 64 + 64, 0),
        (line * 64, u64::MAX),
        (line * 64, (1 << 58) - line),
        (line * 64, 1 << 58),
        (high, 1),
        (high, 2),
    ] {
        let room = b.random.pick(&[0, 15, 16, 65_536]);
        push_walk(b, address, lines, room);
    }
}

/// One step of the host's side among other calls.
pub fn host_step(b: &mut Builder) {
    match b.random.below(4) {
        0 => {
            let request = any_request(b);
            push_request(b, &request);
        }
        1 => {
            let code = b.random.pick(&opcode::HOST);
            let (asked, mut reply) = well_formed(b, code);
            if b.random.one_in(3) {
                set_any(b, &mut reply);
            }
            push_reply(b, code, asked, &reply);
        }
        2 => refused_walks(b),
        _ => {
            let (line, lines) = (b.edge_line(), b.random.below(100));
            let lines = lines.min(b.device_lines() - line);
            some_walk(b, line, lines);
        }
    }
}
