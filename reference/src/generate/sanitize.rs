//! Profiles about Sanitize (document 02, W-207): the work at the edges of its table, the calls
//! that end it, disabled media.

use super::builder::{clear_payload, Builder};
use super::commands::{get_log_payload, one_step, plausible_payload, UNITS};
use super::host::some_walk;
use super::interrupts::{covered_line, free_line, some_policy};
use super::labels::{any_get, any_set, set_payload, wrong_size};
use super::poison::{poison_step, region, Region};
use super::probe::codes;
use super::reserved::{spoil_clear, spoil_settings};
use crate::device::numbers::{opcode, LABEL_AREA, MAILBOX};
use crate::probe::record::Record;

/// Units at the edges of the ten rows: the least and the most of each.
const ROW_UNITS: [u16; 20] = [
    1, 2, 3, 4, 5, 8, 9, 16, 17, 32, 33, 64, 65, 128, 129, 256, 257, 512, 513, 1023,
];
pub const ROW_STREAMS: usize = ROW_UNITS.len();

/// A beginning from which a due time can be reached: 0, soon after it, anywhere.
fn some_begin(b: &mut Builder) -> u64 {
    let any = b.random.bits() >> b.random.between(1, 60);
    let soon = b.random.below(1000);
    b.random.pick(&[0, 1, soon, any, any, any])
}

/// A Sanitize at this time.
fn sanitize_at(b: &mut Builder, time: u64) {
    b.command_at(time, opcode::SANITIZE, vec![]);
    b.set_time(time);
}

/// A Sanitize at this time, or earlier where its due time could not be reached from it: media
/// would stay disabled to the end of the stream.
pub(super) fn sanitize_in_reach(b: &mut Builder, time: u64) {
    let latest = u64::MAX - b.device().work_length();
    sanitize_at(b, time.min(latest));
}

/// Starts a work whose due time can be reached. One that runs is ended by it.
pub(super) fn start(b: &mut Builder) {
    let begin = match b.due() {
        Some(due) => due,
        None => some_begin(b),
    };
    sanitize_in_reach(b, begin);
}

/// A caller's time at which the work that runs is not due: from its beginning to one nanosecond
/// before its end, or before the beginning.
pub(super) fn time_before(b: &mut Builder) -> u64 {
    let Some(work) = b.device().work().copied() else {
        return b.tick();
    };
    let begun = work.begun();
    let last = u64::try_from(work.due_time() - 1).unwrap_or(u64::MAX);
    let any = b.random.between(begun, last);
    let back = b.random.below(begun / 2 + 1);
    b.random.pick(&[
        begun,
        begun.saturating_add(1).min(last),
        last,
        last,
        last,
        any,
        any,
        begun.saturating_sub(1),
        back,
        0,
    ])
}

/// A caller's time at which the work that runs is due, most often the first one.
pub(super) fn time_due(b: &mut Builder) -> u64 {
    let Some(due) = b.due() else {
        return b.tick();
    };
    let some = b.random.bits() >> b.random.between(1, 60);
    b.random.pick(&[
        due,
        due,
        due,
        due.saturating_add(1),
        due.saturating_add(some),
        u64::MAX,
    ])
}

/// Reports to a log, as many as it takes to hold or count so many.
fn fill_log_to(b: &mut Builder, log: u8, events: usize) {
    let held = b.device().log(log.into()).handles().len();
    for _ in held..events {
        b.event(log);
    }
}

/// Records in a log, so that it is empty, in part full, full or overflown.
fn fill_log(b: &mut Builder, log: u8) {
    let events = b.random.pick(&[0, 1, 3, 8, 8, 9, 10]);
    fill_log_to(b, log, events);
}

/// Records in all logs.
pub(super) fn fill_logs(b: &mut Builder) {
    (0..5).for_each(|log| fill_log(b, log));
}

/// Line tests of a covered and an uncovered line, at times of refused addresses.
pub(super) fn line_tests(b: &mut Builder, region: &Region) {
    let (covered, free) = (covered_line(b, region), free_line(b, region));
    b.line(covered * 64);
    b.line(free * 64);
    if b.random.one_in(3) {
        let end = b.device_lines() * 64;
        let low = b.random.between(1, 63);
        let address = b
            .random
            .pick(&[covered * 64 + low, end, end + low, u64::MAX - 63]);
        b.line(address);
    }
}

/// Looks at what an ending changes: the line test, a log or all of them.
fn look(b: &mut Builder, region: &Region) {
    line_tests(b, region);
    match b.random.below(4) {
        0 => (0..5).for_each(|log| look_at_log(b, log)),
        1 => {}
        _ => {
            let log = b.random.below(5) as u8;
            look_at_log(b, log);
        }
    }
}

/// Reads a log at a time that ends nothing.
fn look_at_log(b: &mut Builder, log: u8) {
    let time = time_before(b);
    b.command_at(time, opcode::GET_EVENT_RECORDS, vec![log]);
}

/// A call that is taken in most cases where media is enabled.
fn taken_call(b: &mut Builder, region: &Region, time: u64) {
    let log = b.random.below(5) as u8;
    match b.random.below(12) {
        0..=1 => b.event_at(time, log),
        2 => {
            let (line, kind) = (free_line(b, region), b.media_type());
            let lines = b.random.between(1, 3) as u32;
            b.media_at(time, line * 64, lines, kind);
        }
        3..=4 => inject_at(b, time, |b| free_line(b, region)),
        5 => inject_at(b, time, |b| covered_line(b, region)),
        6 => {
            let line = covered_line(b, region);
            clear_at(b, time, line * 64);
        }
        7 => {
            let payload = any_set(b);
            b.command_at(time, opcode::SET_LSA, payload);
        }
        8 => {
            let payload = any_get(b);
            b.command_at(time, opcode::GET_LSA, payload);
        }
        _ => {
            let code = b.random.pick(&opcode::ALL[..opcode::ALL.len() - 1]);
            let payload = plausible_payload(b, code);
            b.command_at(time, code, payload);
        }
    }
}

fn inject_at(b: &mut Builder, time: u64, line: impl Fn(&mut Builder) -> u64) {
    let address = line(b) * 64;
    b.command_at(time, opcode::INJECT_POISON, address.to_le_bytes().to_vec());
}

fn clear_at(b: &mut Builder, time: u64, address: u64) {
    let payload = [&address.to_le_bytes()[..], &[0xee; 64]].concat();
    b.command_at(time, opcode::CLEAR_POISON, payload);
}

/// How many kinds of refused calls there are.
const REFUSED: u64 = 22;

/// A call of this kind that is refused at a due time, and before it but for clears of records
/// that an ending takes.
fn refused_call(b: &mut Builder, region: &Region, kind: u64, time: u64) {
    let end = b.device_lines() * 64;
    let unaligned = free_line(b, region) * 64 + b.random.between(1, 63);
    let outside = b.random.pick(&[end, end + 64, u64::MAX - 63]);
    let address = b.random.pick(&[unaligned, outside]);
    let log = b.random.below(5) as u8;
    let held = b.device().log(log.into()).handles();
    let next = b.device().log(log.into()).next_handle();
    let wrong_log = b.random.pick_log_above_4();
    let (code, payload) = match kind {
        0 => (b.random.pick(&[0x4401, 0x43ff, 0x4303, 0xffff]), vec![]),
        1 => {
            let code = b.random.pick(&opcode::ALL);
            let mut payload = plausible_payload(b, code);
            payload.resize(b.random.pick(&[3, 7, 71, 73, 9]), 0);
            (code, payload)
        }
        2 => (opcode::GET_EVENT_RECORDS, vec![wrong_log]),
        // 000Eh: a handle that is not held, and those held, which go with the ending.
        3 => (opcode::CLEAR_EVENT_RECORDS, clear_payload(log, 0, &[next])),
        4 => (opcode::CLEAR_EVENT_RECORDS, clear_payload(log, 0, &held)),
        5 => (opcode::CLEAR_EVENT_RECORDS, clear_payload(log, 1, &[])),
        6 => {
            let mut payload = clear_payload(log, 0, &held);
            spoil_clear(b, &mut payload);
            (opcode::CLEAR_EVENT_RECORDS, payload)
        }
        7 => {
            let mut settings = vec![1; 5];
            spoil_settings(b, &mut settings);
            (opcode::SET_POLICY, settings)
        }
        8 => {
            let mut payload = get_log_payload(0, 4);
            payload[b.random.below(16) as usize] ^= 0x40;
            (opcode::GET_LOG, payload)
        }
        9 => (opcode::GET_LOG, get_log_payload(57, 4)),
        10 => {
            let payload = [address.to_le_bytes(), 1u64.to_le_bytes()].concat();
            (opcode::GET_POISON_LIST, payload)
        }
        11 => (opcode::INJECT_POISON, address.to_le_bytes().to_vec()),
        12 => {
            let line = free_line(b, region);
            (opcode::INJECT_POISON, (line * 64).to_le_bytes().to_vec())
        }
        13 => return clear_at(b, time, address),
        14 => (opcode::GET_LSA, vec![0xff; 8]),
        15 => (opcode::SET_LSA, set_payload(0, [0, 0, 0, 1], &[7])),
        16 => (opcode::SANITIZE, vec![0; b.random.pick(&[1, 4, 8, 2048])]),
        17 => return b.event_at(time, wrong_log),
        18 => return b.media_at(time, address, 1, 1),
        19 => return b.media_at(time, 0, 0, 1),
        20 => {
            let kind = b.random.pick(&[3, 4, 8, 255]);
            return b.media_at(time, 0, 1, kind);
        }
        _ => (opcode::CLEAR_EVENT_RECORDS, {
            let mut payload = clear_payload(log, 0, &held);
            payload[2] = payload[2].wrapping_add(1);
            payload
        }),
    };
    b.command_at(time, code, payload);
}

/// Any call, taken or refused.
pub(super) fn any_call(b: &mut Builder, region: &Region, time: u64) {
    match b.random.one_in(3) {
        true => {
            let kind = b.random.below(REFUSED);
            refused_call(b, region, kind, time);
        }
        false => taken_call(b, region, time),
    }
}

/// A call of one of the three kinds that carry a time: event report, media report, command.
pub(super) fn call_of_kind(b: &mut Builder, region: &Region, kind: usize, time: u64) {
    match kind {
        0 => {
            let log = b.random.below(6) as u8;
            b.event_at(time, log);
        }
        1 => {
            let (line, media_type) = (free_line(b, region), b.media_type());
            let lines = b.random.pick(&[1, 1, 1, 0]);
            b.media_at(time, line * 64, lines, media_type);
        }
        _ => {
            let code = b.random.pick(&opcode::ALL);
            let payload = plausible_payload(b, code);
            b.command_at(time, code, payload);
        }
    }
}

/// Works on a device at the edge of a row: one nanosecond before the due time, at it, one
/// nanosecond after it and later, by calls of every kind.
pub fn rows(b: &mut Builder, part: usize) {
    let units = ROW_UNITS[part % ROW_STREAMS];
    let any = b.random.below(u64::from(units) + 1) as u16;
    let volatile = b.random.pick(&[0, units, any, any]);
    b.new_device(volatile, units - volatile);
    let region = region(b, 200);
    let value = b.random.bits() >> b.random.below(64);
    b.set_timestamp(value);
    b.media(region.base * 64, 2, 1);
    let later = b.random.below(1 << 20);
    let first = b.random.below(3) as usize;
    for (round, after) in [0, 1, 0, 1, 0, 1, later].into_iter().enumerate() {
        match b.random.one_in(3) {
            true => fill_logs(b),
            false => {
                let log = b.random.below(5) as u8;
                b.event(log);
            }
        }
        start(b);
        line_tests(b, &region);
        let Some(due) = b.due() else {
            continue;
        };
        let kind = first + round / 2;
        for before in [2, 1] {
            call_of_kind(b, &region, (kind + round + 1) % 3, due - before);
            b.line(region.base * 64);
        }
        call_of_kind(b, &region, kind % 3, due + after);
        b.line(region.base * 64);
        look(b, &region);
        b.set_time(due + after);
    }
    b.show();
}

/// Refused calls of every kind, at a time that is not due and at one that is.
pub fn refusals(b: &mut Builder) {
    b.any_device();
    let region = region(b, 300);
    b.media(region.base * 64, 3, 2);
    some_policy(b);
    let first = b.random.below(REFUSED);
    for kind in (0..REFUSED).chain(0..REFUSED) {
        let kind = (first + kind) % REFUSED;
        fill_logs(b);
        start(b);
        if b.random.one_in(2) {
            let time = time_before(b);
            refused_call(b, &region, kind, time);
            look(b, &region);
        }
        let time = time_due(b);
        refused_call(b, &region, kind, time);
        b.line(region.base * 64);
        look(b, &region);
    }
    b.show();
}

/// Calls of every kind while media is disabled: those that are refused for it, right and wrong
/// otherwise, and those that work; then the ending and a look at what they did.
pub fn disabled(b: &mut Builder) {
    b.any_device();
    let region = region(b, 300);
    b.set_target(900);
    b.media(region.base * 64, 3, 7);
    some_policy(b);
    while b.more() {
        let payload = any_set(b);
        b.command(opcode::SET_LSA, payload);
        for _ in 0..4 {
            let log = b.random.below(5) as u8;
            b.event(log);
        }
        if !b.device().media_disabled() {
            start(b);
        }
        for _ in 0..b.random.pick(&[5, 20, 40]) {
            let time = time_before(b);
            while_disabled(b, &region, time);
            if b.random.one_in(3) {
                line_tests(b, &region);
            }
        }
        let time = time_due(b);
        any_call(b, &region, time);
        look(b, &region);
        b.set_time(time);
        if b.random.one_in(3) {
            b.show_labels();
            b.show_poison();
        }
    }
    b.show();
}

/// One call while media is disabled.
fn while_disabled(b: &mut Builder, region: &Region, time: u64) {
    let low = b.random.pick(&[0, 0, 0, 1, 63]);
    match b.random.below(16) {
        // What is refused with 0007h, of a right and of a wrong length.
        0..=3 => {
            let code = b.random.pick(&[
                opcode::INJECT_POISON,
                opcode::CLEAR_POISON,
                opcode::GET_LSA,
                opcode::SET_LSA,
            ]);
            let mut payload = plausible_payload(b, code);
            match b.random.below(4) {
                0 => payload.resize(b.random.pick(&[0, 4, 7, 9, 71, 73]), 0xff),
                1 => payload.iter_mut().for_each(|byte| *byte = 0xff),
                2 => payload[0] |= low as u8,
                _ => {}
            }
            b.command_at(time, code, payload);
        }
        4 => inject_at(b, time, |b| free_line(b, region)),
        5 => inject_at(b, time, |b| covered_line(b, region)),
        6 => {
            let line = covered_line(b, region);
            clear_at(b, time, line * 64 + low);
        }
        7..=8 => {
            let length = b.random.pick(&[0, 0, 1, 8]);
            b.command_at(time, opcode::SANITIZE, vec![0; length]);
        }
        9 => {
            let value = b.random.bits() >> b.random.below(64);
            b.command_at(time, opcode::SET_TIMESTAMP, value.to_le_bytes().to_vec());
        }
        10 => {
            let (line, kind) = (free_line(b, region), b.media_type());
            b.media_at(time, line * 64 + low, 1, kind);
        }
        11 => {
            let log = b.random.below(6) as u8;
            b.event_at(time, log);
        }
        12 => {
            let log = b.random.below(5) as u8;
            let held = b.device().log(log.into()).handles();
            let payload = clear_payload(log, 0, &held[..held.len().min(1)]);
            b.command_at(time, opcode::CLEAR_EVENT_RECORDS, payload);
        }
        _ => any_call(b, region, time),
    }
}

/// An event report to each log at a due time, the log empty, in part full, full and overflown
/// before, enabled and not; to log 0 an injection too.
fn reports_at_due(b: &mut Builder, region: &Region) {
    for enabled in [1, 0] {
        for events in [0, 3, 8, 10] {
            // Log 0 a second time, for the injection.
            for (place, log) in [0, 1, 2, 3, 4, 0].into_iter().enumerate() {
                b.command(opcode::SET_POLICY, vec![enabled; 5]);
                fill_log_to(b, log, events);
                start(b);
                let time = time_due(b);
                match place {
                    5 => inject_at(b, time, |b| free_line(b, region)),
                    _ => b.event_at(time, log),
                }
                b.command_at(time, opcode::GET_EVENT_RECORDS, vec![log]);
                let held = b.device().log(log.into()).handles();
                b.clear_events(log, 0, &held);
            }
        }
    }
}

/// Each call at a due time, the logs empty, in part full, full and overflown before, under
/// changing policies; log 0 and the list are read after injections.
pub fn at_due(b: &mut Builder) {
    b.any_device();
    let region = region(b, 400);
    b.set_target(1200);
    let value = b.random.bits() >> b.random.below(64);
    b.set_timestamp(value);
    b.media(region.base * 64, 2, 0);
    reports_at_due(b, &region);
    while b.more() {
        if b.random.one_in(3) {
            some_policy(b);
        }
        // The log that the call is about, and another one.
        let (call, other) = (b.random.below(9), b.random.below(5) as u8);
        let log = match call {
            0..=1 => 0,
            _ => b.random.below(5) as u8,
        };
        fill_log(b, log);
        fill_log(b, other);
        start(b);
        if b.random.one_in(3) {
            let time = time_before(b);
            any_call(b, &region, time);
        }
        let time = time_due(b);
        match call {
            0..=1 => {
                inject_at(b, time, |b| free_line(b, &region));
                b.command_at(time, opcode::GET_EVENT_RECORDS, vec![log]);
            }
            2..=4 => {
                b.event_at(time, log);
                b.command_at(time, opcode::GET_EVENT_RECORDS, vec![log]);
            }
            5 => sanitize_in_reach(b, time),
            6 => {
                let code = b.random.pick(&opcode::ALL);
                let payload = plausible_payload(b, code);
                b.command_at(time, code, payload);
            }
            _ => taken_call(b, &region, time),
        }
        b.line(region.base * 64);
        look(b, &region);
        b.set_time(time);
        // Room in the list for the next rounds.
        for _ in 0..2 {
            let line = covered_line(b, &region);
            b.clear(line * 64);
        }
    }
    b.show();
}

/// Clocks that go back, stand still and are set during the work; then a beginning near 2^64,
/// whose due time may be past 2^64-1, so that the work is never ended.
pub fn clock(b: &mut Builder) {
    b.any_device();
    let region = region(b, 200);
    b.media(region.base * 64, 1, 1);
    b.set_target(300);
    while b.more() {
        fill_logs(b);
        start(b);
        for _ in 0..b.random.between(1, 8) {
            let time = time_before(b);
            match b.random.below(4) {
                0 => {
                    let due = b.due().unwrap_or(0);
                    let any = b.random.bits();
                    let value = b.random.pick(&[0, due, due + 1, any, u64::MAX]);
                    b.command_at(time, opcode::SET_TIMESTAMP, value.to_le_bytes().to_vec());
                }
                1 => sanitize_at(b, time),
                _ => any_call(b, &region, time),
            }
            b.line(region.base * 64);
        }
        let time = time_due(b);
        any_call(b, &region, time);
        look(b, &region);
        b.set_time(time);
    }
    // The sum of beginning and duration is 2^64-2, 2^64-1, 2^64 and more, in this order: the
    // work of a later beginning is never ended.
    let length = b.device().work_length();
    if let Some(due) = b.due() {
        b.command_at(due, opcode::GET_TIMESTAMP, vec![]);
    }
    let later = b
        .random
        .pick(&[u64::MAX, u64::MAX - 1, u64::MAX - length / 2]);
    for begin in [
        u64::MAX - length - 1,
        u64::MAX - length,
        b.random.pick(&[u64::MAX - length + 1, later]),
    ] {
        fill_logs(b);
        sanitize_at(b, begin);
        let wrapped = begin.wrapping_add(length);
        let before = u64::MAX - 1 - u64::from(begin < u64::MAX - length);
        for time in [
            0,
            wrapped,
            length,
            wrapped.wrapping_sub(1),
            begin,
            before,
            u64::MAX,
        ] {
            any_call(b, &region, time);
            b.line(region.base * 64);
        }
        look(b, &region);
    }
    for _ in 0..20 {
        let time = b.random.pick(&[0, 1, length, u64::MAX - 1, u64::MAX]);
        any_call(b, &region, time);
        b.line(region.base * 64);
    }
    b.show();
}

/// A list at 256 entries throughout, with and without lines dropped: 0007h and 0010h, dropped
/// lines while media is disabled, list and flag after the ending.
pub fn full_list(b: &mut Builder) {
    b.any_device();
    let region = region(b, 256 * 4);
    if b.random.one_in(2) {
        let value = b.random.bits() >> b.random.below(64);
        b.set_timestamp(value);
    }
    for i in 0..256 {
        let kind = b.media_type();
        b.media((region.base + i * 4) * 64, 2, kind);
    }
    b.set_target(256 + 500);
    some_policy(b);
    // The first works find the flag clear.
    let mut drops = false;
    while b.more() {
        fill_logs(b);
        start(b);
        for _ in 0..b.random.between(0, 6) {
            let time = time_before(b);
            match b.random.below(5) {
                0 if drops => {
                    let (line, kind) = (free_line(b, &region), b.media_type());
                    b.media_at(time, line * 64, 3, kind);
                }
                1 => inject_at(b, time, |b| covered_line(b, &region)),
                2 => {
                    let line = covered_line(b, &region);
                    clear_at(b, time, line * 64);
                }
                _ => inject_at(b, time, |b| free_line(b, &region)),
            }
            line_tests(b, &region);
        }
        let time = time_due(b);
        match b.random.below(6) {
            0..=2 => inject_at(b, time, |b| free_line(b, &region)),
            3 => inject_at(b, time, |b| covered_line(b, &region)),
            4 if drops => {
                let (line, kind) = (free_line(b, &region), b.media_type());
                b.media_at(time, line * 64, 1, kind);
            }
            _ => {
                let kind = b.random.below(REFUSED);
                refused_call(b, &region, kind, time);
            }
        }
        look(b, &region);
        b.set_time(time);
        if b.random.one_in(4) {
            b.show_poison();
        }
        drops = drops || b.random.one_in(4);
    }
    b.show();
}

/// All calls mixed with many a Sanitize: while one runs, when one is due, when it is over.
pub fn sanitize_mixed(b: &mut Builder) {
    b.any_device();
    let region = region(b, 700);
    b.set_target(1200);
    some_policy(b);
    while b.more() {
        let time = match b.random.below(4) {
            0 => time_due(b),
            1..=2 => time_before(b),
            _ => b.tick(),
        };
        match b.random.below(14) {
            0..=1 => sanitize_in_reach(b, time),
            2..=6 => any_call(b, &region, time),
            7 => while_disabled(b, &region, time),
            8..=9 => line_tests(b, &region),
            10 => some_policy(b),
            11..=12 => one_step(b),
            _ => poison_step(b, &region),
        }
        if b.random.one_in(30) {
            b.show_events();
        }
    }
    b.show();
}

/// Rooms, fills and label areas of every size with every kind of command, at a time that is
/// not due and at one that is; event status, total and the store tell what was ended and what
/// was not written.
pub fn lent(b: &mut Builder) {
    b.any_device();
    let region = region(b, 300);
    b.media(region.base * 64, 2, 1);
    some_policy(b);
    b.set_labels(0, &[0x61; 64]);
    for code in codes().chain(codes()) {
        for _ in 0..b.random.between(1, 3) {
            let log = b.random.below(5) as u8;
            b.event(log);
        }
        if !b.device().media_disabled() {
            start(b);
        }
        let due = b.random.one_in(2);
        for due in [false, due, true] {
            let time = match due {
                true => time_due(b),
                false => time_before(b),
            };
            let mut payload = plausible_payload(b, code);
            if b.random.one_in(4) {
                payload.resize(b.random.pick(&[0, 3, 9, 2048, 2049, 4096]), 0);
            }
            let (room, fill) = (b.random.pick(&[0, 2047, 2047, 2048, 4096]), b.any_fill());
            let size = match b.random.one_in(2) {
                true => LABEL_AREA as u32,
                false => wrong_size(&mut b.random),
            };
            b.label_area(size);
            b.command_in_at(time, room, fill, code, payload);
            b.label_area(LABEL_AREA as u32);
            b.push(Record::Status);
            line_tests(b, &region);
        }
        let fill = b.any_fill();
        let begin = b.due().unwrap_or(0);
        b.command_in_at(begin, MAILBOX as u16, fill, opcode::SANITIZE, vec![]);
        b.label_bytes(0, 72);
    }
    b.show();
}

/// Makes, taken and refused, walks, event records of wrong sizes, status and total during the
/// work and at its end.
pub fn makes(b: &mut Builder) {
    b.ask_always();
    b.any_device();
    b.set_target(500);
    while b.more() {
        let region = region(b, 300);
        b.media(region.base * 64, 3, 7);
        fill_logs(b);
        if !b.device().media_disabled() {
            start(b);
        }
        for _ in 0..b.random.between(1, 6) {
            let time = match b.random.one_in(4) {
                true => time_due(b),
                false => time_before(b),
            };
            match b.random.below(4) {
                0..=1 => {
                    let (line, lines) = (covered_line(b, &region), b.random.below(9));
                    let lines = lines.min(b.device_lines() - line);
                    some_walk(b, line, lines);
                }
                2 => {
                    let (log, size) = (b.random.below(6) as u8, b.random.pick(&[0, 127, 129, 128]));
                    b.event_of_at(time, log, size);
                }
                _ => any_call(b, &region, time),
            }
            line_tests(b, &region);
        }
        let (volatile, persistent) = b.random.pick(UNITS);
        match b.random.below(4) {
            0 => b.any_device(),
            1 => b.new_device(volatile, persistent),
            _ => {}
        }
        b.line(0);
        let time = b.due().unwrap_or(u64::MAX);
        if b.random.one_in(2) {
            b.event_of_at(time, 0, 128);
            b.line(0);
        }
    }
    b.show();
}
