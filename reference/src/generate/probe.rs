//! Profiles of probe alone: lent buffers, sizes, makes, status and total.

use super::builder::Builder;
use super::commands::{one_step, plausible_payload, some_opcode, UNITS};
use super::host::host_step;
use super::poison::{self, fill, poison_step, region};
use crate::device::numbers::{opcode, LOG_ROOM, MAILBOX};
use crate::probe::record::{Record, MOST};

/// Rooms at every edge.
const ROOMS: [u16; 9] = [0, 1, 2046, 2047, 2048, 2049, 2050, 4095, 4096];

/// The opcodes and some that are unknown.
pub fn codes() -> impl Iterator<Item = u16> {
    let unknown = [0x0000, 0x0104, 0x0200, 0x4303, 0xffff];
    opcode::ALL.into_iter().chain(unknown)
}

/// A device with something in every reply: records in the logs, one log past
/// full, a policy, a clock, and a poison list of more than 126 entries. The events of
/// the list's injections are cleared at times, so that log 0 is not always full.
pub fn busy_device(b: &mut Builder) {
    b.any_device();
    let value = b.random.bits() >> b.random.below(64);
    b.set_timestamp(value);
    let policy = b.random.bytes(5).iter().map(|byte| byte & 0xf1).collect();
    b.command(opcode::SET_POLICY, policy);
    busy_list(b);
    if b.random.one_in(2) {
        let held = b.device().log(0).handles();
        b.clear_events(0, 0, &held);
    }
    busy_logs(b);
}

/// Records in some logs, often more than a log has room for.
fn busy_logs(b: &mut Builder) {
    for log in 0..5 {
        for _ in 0..b.random.pick(&[0, 1, 3, 8, 10]) {
            b.event(log);
        }
    }
}

/// A list of many entries, at times a full one with lines dropped.
pub(super) fn busy_list(b: &mut Builder) {
    let region = region(b, 256 * 6);
    let held = b.random.pick(&[127, 200, 256, 256]);
    fill(b, &region, held, 4);
    let kind = b.media_type();
    b.media(region.base * 64, 256 * 6, kind);
}

/// The payload of Get Poison List for the whole device.
pub(super) fn whole_list(b: &Builder) -> Vec<u8> {
    let mut payload = vec![0; 8];
    payload.extend(b.device_lines().to_le_bytes());
    payload
}

/// Every opcode in a room of every edge with several fills; the longest reply
/// has 2,048 bytes, as many as the smallest room that is taken.
pub fn rooms(b: &mut Builder) {
    busy_device(b);
    for code in codes() {
        for room in ROOMS {
            let any = b.random.bits() as u8;
            for fill in [0, 255, any] {
                let payload = plausible_payload(b, code);
                b.command_in(room, fill, code, payload);
                let payload = whole_list(b);
                if b.random.one_in(6) {
                    b.command_in(room, fill, opcode::GET_POISON_LIST, payload);
                }
            }
        }
        let log = b.random.below(5) as u8;
        b.event(log);
    }
    b.show();
}

/// Fills that are bytes of the reply, at its ends and within it.
pub fn fills(b: &mut Builder) {
    busy_device(b);
    while b.more() {
        let code = some_opcode(b);
        let payload = match code {
            opcode::GET_POISON_LIST => whole_list(b),
            _ => plausible_payload(b, code),
        };
        let reply = b.reply(code, &payload);
        let any = b.random.bits() as u8;
        let first = reply.first().copied().unwrap_or(any);
        let last = reply.last().copied().unwrap_or(any);
        let within = match reply.is_empty() {
            true => any,
            false => b.random.pick(&reply),
        };
        let any_room = b.random.between(2048, 4096) as u16;
        for fill in [first, last, within, last.wrapping_add(1)] {
            let room = b.random.pick(&[2047, 2048, 2049, 4096, any_room]);
            b.command_in(room, fill, code, payload.clone());
        }
        if b.random.one_in(4) {
            let log = b.random.below(5) as u8;
            b.event(log);
        }
    }
    b.show();
}

/// "Order for a command: 0100h; payload over 2,048 bytes, 0016h; 0003h; wrong
/// length, 0016h; then the command's own checks": several of them at once.
pub fn refusal_order(b: &mut Builder) {
    busy_device(b);
    for code in codes() {
        for room in [0, 2047, 2048, 4096] {
            for length in [0, 5, 73, 2048, 2049, MOST] {
                let mut payload = refused_payload(b, code);
                payload.resize(length, 0xff);
                let fill = b.any_fill();
                b.command_in(room, fill, code, payload);
            }
            for _ in 0..3 {
                let fill = b.any_fill();
                let payload = refused_payload(b, code);
                b.command_in(room, fill, code, payload);
                let payload = plausible_payload(b, code);
                b.command_in(room, fill, code, payload);
            }
        }
    }
    b.show();
}

/// A payload of the right length that the command's own checks often refuse.
fn refused_payload(b: &mut Builder, code: u16) -> Vec<u8> {
    let payload = plausible_payload(b, code);
    with_other_first(b, payload)
}

/// A payload with another first byte at times, which is a log's number or the low byte of an
/// address.
pub(super) fn with_other_first(b: &mut Builder, mut payload: Vec<u8>) -> Vec<u8> {
    if let Some(first) = payload.first_mut() {
        *first = b.random.pick(&[5, 1, 0xff, *first]);
    }
    payload
}

/// Sizes of an event record: the right one and those about it, the least and
/// the greatest.
const SIZES: [usize; 11] = [0, 1, 64, 126, 127, 128, 129, 130, 256, 4095, 4096];

/// Event records of every size for logs that are and that are not there, while
/// a log is empty, full and past it.
pub fn event_sizes(b: &mut Builder) {
    b.any_device();
    for records in [0, LOG_ROOM, 1] {
        for _ in 0..records {
            b.event(0);
            b.event(4);
        }
        for size in SIZES {
            for log in [0, 4, 5, 255] {
                b.event_of(log, size);
            }
        }
        b.show_events();
    }
    while b.more() {
        let wrong = b.random.pick_log_above_4();
        let log = b.random.pick(&[0, 1, 2, 3, 4, wrong]);
        let size = b.random.pick(&SIZES);
        b.event_of(log, size);
        if log < 5 && b.random.one_in(3) {
            let held = b.device().log(log.into()).handles();
            b.get_events(log);
            b.clear_events(log, 0, &held);
        }
    }
    b.show();
}

/// Refused makes first and later, after devices of every size.
pub fn refused_makes(b: &mut Builder) {
    let refused: Vec<_> = UNITS
        .iter()
        .filter(|(volatile, persistent)| {
            !(1..=1023).contains(&(u32::from(*volatile) + u32::from(*persistent)))
        })
        .collect();
    if b.random.one_in(2) {
        busy_device(b);
    }
    for (volatile, persistent) in refused {
        b.new_device(*volatile, *persistent);
        last_lines(b);
        match b.random.below(4) {
            0 => b.any_device(),
            1 => busy_device(b),
            2 => busy_list(b),
            _ => {}
        }
    }
    b.show();
}

/// The device's identity, its last line and the one past it, by every call that
/// takes an address.
fn last_lines(b: &mut Builder) {
    b.show_events();
    b.command(opcode::IDENTIFY, vec![]);
    let lines = b.device_lines();
    for line in [lines - 1, lines, lines * 2] {
        let kind = b.media_type();
        b.line(line * 64);
        b.inject(line * 64);
        b.line(line * 64);
        b.media(line * 64, 1, kind);
        b.clear(line * 64);
        b.get_poison(line * 64, 1);
    }
    b.get_poison(0, lines);
    b.get_poison(0, lines + 1);
    b.media(0, lines as u32 + 1, 1);
    let log = b.random.below(5) as u8;
    b.event(log);
    b.get_events(log);
}

/// Devices one after the other, each looked at when new and then made busy.
pub fn later_makes(b: &mut Builder) {
    busy_device(b);
    for _ in 0..6 {
        match b.random.one_in(3) {
            true => {
                let (volatile, persistent) = b.random.pick(UNITS);
                b.new_device(volatile, persistent);
            }
            false => b.any_device(),
        }
        b.command(opcode::IDENTIFY, vec![]);
        if b.random.one_in(2) {
            b.show();
        }
        // Handles begin at 1 again, and a clock that is not set stays at 0.
        for log in 0..5 {
            b.event(log);
        }
        b.show();
        for _ in 0..b.random.below(3) {
            one_step(b);
        }
        if b.random.one_in(2) {
            busy_logs(b);
        }
        if b.random.one_in(2) {
            busy_list(b);
        }
        let value = b.random.bits();
        b.set_timestamp(value);
        b.command(opcode::SET_POLICY, vec![1; 5]);
    }
    b.show();
}

/// Every combination of waiting logs, reached in any order.
pub fn status(b: &mut Builder) {
    b.ask_always();
    b.any_device();
    let mut combinations: Vec<u8> = (0..32).collect();
    for at in 1..combinations.len() {
        let other = b.random.below(at as u64 + 1) as usize;
        combinations.swap(at, other);
    }
    for combination in combinations {
        for log in 0..5 {
            let held = b.device().log(log.into()).handles();
            let waiting = combination >> log & 1 == 1;
            if waiting && held.is_empty() {
                for _ in 0..b.random.pick(&[1, 1, 2, 8, 9]) {
                    b.event(log);
                }
            } else if !waiting && !held.is_empty() {
                // At times in two steps: the log still waits after the first.
                let first = b.random.below(held.len() as u64) as usize;
                b.clear_events(log, 0, &held[..first]);
                b.clear_events(log, 0, &held[first..]);
            }
        }
        let log = b.random.pick_log_above_4();
        b.event(log);
    }
    b.show_events();
}

/// Poison lists of the other profiles, the total asked after every call.
pub fn total(b: &mut Builder) {
    b.ask_always();
    let makes = [
        poison::full_list,
        poison::clear_parts,
        poison::reports,
        poison::far_end,
        poison::overflow_time,
    ];
    let make = b.random.pick(&makes);
    make(b);
}

/// All calls of probe mixed.
pub fn everything(b: &mut Builder) {
    busy_device(b);
    b.set_target(1500);
    while b.more() {
        let lines = 1200.min(b.device_lines());
        let region = region(b, lines);
        match b.random.below(41) {
            0 => b.any_device(),
            1 => {
                let (volatile, persistent) = b.random.pick(UNITS);
                b.new_device(volatile, persistent);
            }
            2 => busy_list(b),
            3..=5 => {
                let size = b.random.pick(&SIZES);
                let log = b.random.below(7) as u8;
                b.event_of(log, size);
            }
            6..=9 => any_command(b),
            10 => b.push(Record::Status),
            11 => b.push(Record::Total),
            12 => b.show(),
            13 => last_lines(b),
            14..=15 => host_step(b),
            16..=26 => one_step(b),
            27 => b.command(opcode::SANITIZE, vec![]),
            _ => poison_step(b, &region),
        }
    }
    b.show();
}

/// Any opcode with any room, fill and payload length.
fn any_command(b: &mut Builder) {
    let code = match b.random.one_in(8) {
        true => b.random.bits() as u16,
        false => some_opcode(b),
    };
    let any = b.random.below(4097) as u16;
    let room = match b.random.one_in(2) {
        true => any,
        false => b.random.pick(&ROOMS),
    };
    let mut payload = plausible_payload(b, code);
    if b.random.one_in(3) {
        let length = b.random.below(MOST as u64 + 1) as usize;
        payload.resize(length, 0);
    }
    let fill = b.any_fill();
    b.command_in(room, fill, code, payload);
}

/// Great records among small ones, so that a program that reads in pieces meets
/// their ends at every place of a piece.
pub fn long(b: &mut Builder) {
    busy_device(b);
    b.set_target(4000);
    while b.more() {
        let any = b.random.below(MOST as u64 + 1) as usize;
        let size = b.random.pick(&[any, MOST - 1, MOST, MAILBOX, MAILBOX + 1]);
        match b.random.below(8) {
            0..=1 => b.event_of(0, size),
            2..=4 => {
                let (code, fill) = (b.random.pick(&opcode::ALL), b.any_fill());
                let payload = b.random.bytes(size);
                let room = b.random.pick(&[2048, 4096]);
                b.command_in(room, fill, code, payload);
            }
            5 => any_command(b),
            6 => {
                let line = b.edge_line();
                b.line(line * 64);
            }
            _ => one_step(b),
        }
    }
    b.show();
}
