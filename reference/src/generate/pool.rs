//! Profiles about the pool manager's mailbox (document 02, W-208), of probe alone: its commands
//! beside those of the first mailbox, the order of its refusals, a Sanitize that it does not
//! end, and its silence.

use super::builder::{clear_payload, Builder};
use super::commands::{get_log_payload, neighbours, one_step, UNITS};
use super::host::some_walk;
use super::interrupts::some_policy;
use super::labels::{get_payload, set_payload, wrong_size};
use super::poison::{fill, poison_step, region, Region};
use super::probe::{busy_device, busy_list, whole_list, with_other_first};
use super::sanitize::{
    any_call, call_of_kind, fill_logs, line_tests, sanitize_in_reach, start, time_before, time_due,
};
use crate::device::numbers::opcode;
use crate::device::pool::Mailbox;
use crate::device::Device;
use crate::probe::record::{Call, Record, MOST};
use crate::random::Random;

/// Rooms at every edge.
const ROOMS: [u16; 6] = [0, 1, 2047, 2048, 2049, 4096];
/// Rooms that are taken.
const TAKEN: [u16; 3] = [2048, 2049, 4096];
/// Lengths of a payload about the limit and the greatest one.
const GREAT: [usize; 4] = [2047, 2048, 2049, MOST];
/// Opcodes that the device has not: the least and the greatest, neighbours of commands, and
/// the return numbers about 0015h.
const UNKNOWN: [u16; 15] = [
    0x0000, 0x0014, 0x0015, 0x0016, 0x00ff, 0x0104, 0x0200, 0x0302, 0x0402, 0x4001, 0x4101, 0x4104,
    0x4303, 0x4401, 0xffff,
];

/// The opcodes of the seven commands.
fn seven() -> Vec<u16> {
    Mailbox::Pool.commands().map(|row| row.code).collect()
}

/// Every opcode of the device, and some that are unknown.
fn codes() -> impl Iterator<Item = u16> {
    opcode::ALL.into_iter().chain(UNKNOWN)
}

/// One of the seven most often, else another one of the device, a neighbour of a command or an
/// unknown one.
fn some_code(random: &mut Random) -> u16 {
    let known = random.pick(&opcode::ALL);
    match random.below(16) {
        0 => random.bits() as u16,
        1 => random.pick(&UNKNOWN),
        2 => random.pick(&neighbours(known)),
        3 | 4 => known,
        _ => random.pick(&seven()),
    }
}

/// A payload that the first mailbox would take in most cases, so that what this mailbox refuses
/// with 0015h shows if it is done.
fn some_payload(random: &mut Random, device: &Device, code: u16) -> Vec<u8> {
    let log = random.below(5) as u8;
    let lines = device.lines() as u64;
    let first = device.poison_list().entries().next();
    let covered = first.map_or(0, |entry| entry.start as u64);
    let line = random.pick(&[0, 1, covered, covered, lines - 1]);
    let address = (line * 64).to_le_bytes().to_vec();
    match code {
        opcode::GET_EVENT_RECORDS => vec![random.pick(&[0, 1, 2, 3, 4, 4, log, 5])],
        opcode::CLEAR_EVENT_RECORDS => clear_payload(log, 0, &device.log(log.into()).handles()),
        opcode::SET_POLICY => vec![random.below(2) as u8; 5],
        opcode::SET_TIMESTAMP => random.bytes(8),
        opcode::GET_LOG => {
            let offset = random.pick(&[0, 0, 4, 27, 28, 29, u32::MAX]);
            let length = random.pick(&[28, 28, 24, 1, 0, 60]);
            let mut payload = get_log_payload(offset, length);
            payload[0] ^= random.pick(&[0, 0, 0, 1]);
            payload
        }
        opcode::GET_LSA => get_payload(0, 16),
        opcode::SET_LSA => set_payload(0, [0; 4], &random.bytes(16)),
        opcode::GET_POISON_LIST => {
            let range = random.pick(&[(0, lines), (0, lines), (0, 9), (line, 1), (lines, 0)]);
            [(range.0 * 64).to_le_bytes(), range.1.to_le_bytes()].concat()
        }
        opcode::INJECT_POISON => address,
        opcode::CLEAR_POISON => [&address[..], &[0; 64]].concat(),
        _ => vec![],
    }
}

/// A time about the due time of a work that runs, at times any other; `now` is that of the last
/// call.
fn some_time(random: &mut Random, device: &Device, now: u64) -> u64 {
    let due = device
        .work()
        .map_or(u128::from(now), |work| work.due_time());
    let due = u64::try_from(due).unwrap_or(u64::MAX);
    let any = random.bits();
    let about = [due.saturating_sub(1), due, due.saturating_add(1)];
    random.pick(&[now, now, about[0], about[1], about[1], about[2], any, 0])
}

/// A command of this mailbox between other calls, taken or refused.
pub fn some_pool_call(random: &mut Random, device: &Device, now: u64) -> Call {
    let opcode = some_code(random);
    let mut payload = some_payload(random, device, opcode);
    if random.one_in(16) {
        payload.resize(random.pick(&[0, 1, 7, 25, 2048, 2049]), 0);
    }
    let room = match random.one_in(10) {
        true => random.pick(&ROOMS),
        false => random.pick(&TAKEN),
    };
    Call {
        time: some_time(random, device, now),
        opcode,
        room,
        fill: random.bits() as u8,
        payload,
    }
}

/// Appends such a command.
fn pool_step(b: &mut Builder) {
    let now = b.tick();
    let device = b.device().clone();
    let call = some_pool_call(&mut b.random, &device, now);
    b.push(Record::Pool(call));
}

/// A payload as above, for a profile.
fn payload_of(b: &mut Builder, code: u16) -> Vec<u8> {
    let device = b.device().clone();
    some_payload(&mut b.random, &device, code)
}

/// A command of this mailbox in a room that is taken.
fn pool_command(b: &mut Builder, time: u64, code: u16, payload: Vec<u8>) {
    let (room, fill) = (b.random.pick(&TAKEN), b.any_fill());
    b.pool_at(time, room, fill, code, payload);
}

/// The same command through both mailboxes at the same time; which comes first does not show
/// but for a work that is due.
fn through_both(b: &mut Builder, code: u16, payload: Vec<u8>) {
    let time = b.tick();
    let first = b.random.one_in(2);
    if first {
        b.command_at(time, code, payload.clone());
    }
    pool_command(b, time, code, payload.clone());
    if !first {
        b.command_at(time, code, payload);
    }
}

/// Each of the seven through both mailboxes: all logs, the list in ranges that are taken and
/// refused.
fn all_through_both(b: &mut Builder) {
    for code in seven() {
        let payload = payload_of(b, code);
        through_both(b, code, payload);
    }
    for log in [0, 1, 2, 3, 4, 5, 255] {
        through_both(b, opcode::GET_EVENT_RECORDS, vec![log]);
    }
    let whole = whole_list(b);
    through_both(b, opcode::GET_POISON_LIST, whole);
    let end = b.device_lines() * 64;
    let line = b.edge_line();
    for (address, lines) in [
        (line * 64, 1),
        (line * 64 + 1, 1),
        (end, 0),
        (end, 1),
        (end + 1, 1),
        (u64::MAX - 63, 1),
        (0, u64::MAX),
    ] {
        let payload = [address.to_le_bytes(), lines.to_le_bytes()].concat();
        through_both(b, opcode::GET_POISON_LIST, payload);
    }
}

/// The list at 256 entries with the overflow flag clear, and after a line was dropped.
fn full_list(b: &mut Builder) {
    b.any_device();
    let region = region(b, 256 * 4);
    fill(b, &region, 256, 2);
    for _ in 0..2 {
        for code in [opcode::GET_POISON_LIST, opcode::GET_TIMESTAMP] {
            let payload = payload_of(b, code);
            through_both(b, code, payload);
        }
        let whole = whole_list(b);
        through_both(b, opcode::GET_POISON_LIST, whole);
        // No entry reaches the last line of a step.
        b.media((region.base + 3) * 64, 1, 1);
    }
}

/// "with the replies the first mailbox would give": a new device, a busy one with the clock
/// set, and each later state of them, a full list with and without lines dropped included.
pub fn replies(b: &mut Builder) {
    b.any_device();
    all_through_both(b);
    fill_logs(b);
    all_through_both(b);
    some_policy(b);
    busy_list(b);
    all_through_both(b);
    full_list(b);
    busy_device(b);
    all_through_both(b);
    for _ in 0..8 {
        let region = region(b, 300);
        for _ in 0..b.random.between(1, 12) {
            match b.random.one_in(2) {
                true => one_step(b),
                false => poison_step(b, &region),
            }
        }
        all_through_both(b);
    }
    b.show();
}

/// A payload of the right length that the command's own checks often refuse.
fn refused_payload(b: &mut Builder, code: u16) -> Vec<u8> {
    let payload = payload_of(b, code);
    with_other_first(b, payload)
}

/// "Refusals: an opcode the device has and this mailbox hasn't, 0015h, directly after 0003h":
/// all refusals together, media enabled and disabled.
pub fn order(b: &mut Builder) {
    busy_device(b);
    for disabled in [false, true] {
        if disabled {
            start(b);
        }
        for code in codes() {
            for room in ROOMS {
                let time = time_before(b);
                let fill = b.any_fill();
                for payload in [payload_of(b, code), refused_payload(b, code), vec![0; 3]] {
                    b.pool_at(time, room, fill, code, payload);
                }
            }
            for length in GREAT {
                let time = time_before(b);
                let room = b.random.pick(&ROOMS);
                for room in [2047, 2048, room] {
                    let mut payload = refused_payload(b, code);
                    payload.resize(length, 0);
                    let fill = b.any_fill();
                    b.pool_at(time, room, fill, code, payload);
                }
            }
        }
        b.push(Record::Status);
        b.push(Record::Total);
    }
    b.show();
}

/// At times every opcode of 16 bits; every command and some unknown opcodes with every length of
/// 0 to 25 and about the limit; and the neighbours of each command with its payload. All in rooms
/// that are taken.
pub fn opcodes(b: &mut Builder) {
    b.any_device();
    if b.random.one_in(6) {
        for code in 0..=u16::MAX {
            pool_command(b, 0, code, vec![]);
        }
    }
    busy_device(b);
    if b.random.one_in(2) {
        start(b);
    }
    for code in codes() {
        for length in (0..=25).chain(GREAT) {
            let time = time_before(b);
            let mut payload = payload_of(b, code);
            payload.resize(length, 0);
            pool_command(b, time, code, payload);
        }
    }
    for code in opcode::ALL {
        for near in neighbours(code) {
            let time = time_before(b);
            let payload = payload_of(b, code);
            pool_command(b, time, near, payload);
        }
    }
    b.show();
}

/// Get Log about the ends of the two effects logs, 28 and 60 bytes: "its effects log and that
/// log's size list those seven".
pub fn get_log(b: &mut Builder) {
    b.any_device();
    through_both(b, opcode::GET_SUPPORTED_LOGS, vec![]);
    let edges = [
        0, 1, 4, 26, 27, 28, 29, 32, 59, 60, 61, 64, 2047, 2048, 2049,
    ];
    for offset in edges {
        for length in edges {
            through_both(b, opcode::GET_LOG, get_log_payload(offset, length));
        }
    }
    for at in 0..=64u32 {
        // The lengths around the one that ends at this mailbox's end, and sums that wrap.
        for length in [28u32.saturating_sub(at), 29u32.saturating_sub(at)] {
            let time = b.tick();
            pool_command(b, time, opcode::GET_LOG, get_log_payload(at, length));
        }
        let length = b.random.pick(&[at, at + 1, at + 28, at + 29, at + 60]);
        let wrapped = get_log_payload(u32::MAX - at, length);
        through_both(b, opcode::GET_LOG, wrapped);
    }
    for at in 0..16 {
        for (offset, length) in [(0, 0), (0, 28), (0, 29), (28, 0), (60, 0), (0, 2049)] {
            let mut payload = get_log_payload(offset, length);
            payload[at] ^= b.random.pick(&[1, 0x80, 0xff]);
            through_both(b, opcode::GET_LOG, payload);
        }
    }
    b.show();
}

/// Commands of this mailbox at a time: some of the seven with a log among them, and a refused
/// one.
fn pool_look(b: &mut Builder, time: u64) {
    let log = b.random.below(5) as u8;
    pool_command(b, time, opcode::GET_EVENT_RECORDS, vec![log]);
    for _ in 0..b.random.below(3) {
        let code = some_code(&mut b.random);
        let payload = payload_of(b, code);
        pool_command(b, time, code, payload);
    }
    if b.random.one_in(3) {
        let (room, fill) = (b.random.pick(&ROOMS), b.any_fill());
        let code = some_code(&mut b.random);
        b.pool_at(time, room, fill, code, vec![0; 3]);
    }
}

/// Calls that carry no time tell whether a work runs and what the logs hold.
fn untimed(b: &mut Builder, region: &Region) {
    b.push(Record::Status);
    line_tests(b, region);
}

/// "a due Sanitize not ended first": commands of this mailbox before the beginning, during the
/// work, one nanosecond before its end, at it, one after it and later. Then a call of the first
/// mailbox at a due time, each command and each report in turn, which finds the logs as they
/// were and ends the work itself.
pub fn about_due(b: &mut Builder) {
    b.any_device();
    let region = region(b, 300);
    b.media(region.base * 64, 2, 1);
    if b.random.one_in(2) {
        let value = b.random.bits() >> b.random.below(64);
        b.set_timestamp(value);
    }
    if b.random.one_in(2) {
        busy_list(b);
    }
    some_policy(b);
    // The fifteen commands, then an event report and a media report twice each.
    for kind in 0..opcode::ALL.len() + 4 {
        fill_logs(b);
        start(b);
        let Some(due) = b.due() else {
            continue;
        };
        for _ in 0..b.random.below(3) {
            let time = time_before(b);
            pool_look(b, time);
            any_call(b, &region, time);
        }
        let later = b.random.bits() >> b.random.between(1, 60);
        let later = due.saturating_add(later);
        for time in [due - 1, due, due + 1, later] {
            pool_look(b, time);
            if b.random.one_in(2) {
                untimed(b, &region);
            }
        }
        // At a time that is not due the first mailbox finds the logs as they were.
        let log = b.random.below(5) as u8;
        let time = time_before(b);
        b.command_at(time, opcode::GET_EVENT_RECORDS, vec![log]);
        let time = b.random.pick(&[due, due + 1, later]);
        pool_look(b, time);
        match opcode::ALL.get(kind) {
            Some(code) => {
                let payload = payload_of(b, *code);
                b.command_at(time, *code, payload);
            }
            None => call_of_kind(b, &region, kind % 2, time),
        }
        untimed(b, &region);
        pool_look(b, time);
        b.set_time(time);
    }
    b.show();
}

/// "any number of them, put between the first mailbox's calls, alter no answer of those": all
/// other calls with many of this mailbox's between, while label areas of any size are lent to
/// the first one.
pub fn silence(b: &mut Builder) {
    b.pool_often();
    b.any_device();
    some_policy(b);
    b.set_target(1000);
    while b.more() {
        let region = region(b, 300.min(b.device_lines()));
        for _ in 0..b.random.below(5) {
            pool_step(b);
        }
        let time = match b.random.below(4) {
            0 => time_due(b),
            1..=2 => time_before(b),
            _ => b.tick(),
        };
        match b.random.below(24) {
            0 => b.any_device(),
            1 => {
                let (volatile, persistent) = b.random.pick(UNITS);
                b.new_device(volatile, persistent);
            }
            2 => {
                let size = wrong_size(&mut b.random);
                b.label_area(size);
            }
            3 => b.label_area(4096),
            4..=6 => sanitize_in_reach(b, time),
            7 => some_policy(b),
            8 => {
                let lines = b.random.below(9).min(b.device_lines());
                some_walk(b, 0, lines);
            }
            9 => b.label_bytes(0, 72),
            10..=11 => line_tests(b, &region),
            12..=16 => any_call(b, &region, time),
            17..=20 => one_step(b),
            _ => poison_step(b, &region),
        }
    }
    b.label_area(4096);
    b.show();
}
