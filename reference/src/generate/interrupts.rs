//! Profiles about the vector to raise and the event of an injection (document 02,
//! W-204).

use super::builder::Builder;
use super::events::one_clear;
use super::poison::{region, Region};
use super::reserved::{spoil_settings, taken_settings};
use crate::device::numbers::opcode;

/// The log to which an injection reports.
const LOG: u8 = 0;

/// Set Event Interrupt Policy: all logs, none, one alone or any of them, with four and
/// five bytes and every mode.
pub fn some_policy(b: &mut Builder) {
    let length = b.random.pick(&[4, 5, 5]);
    let mut settings = match b.random.below(6) {
        0..=2 => vec![1; 5],
        3 => vec![0; 5],
        4 => {
            let mut one = vec![0; 5];
            one[b.random.below(5) as usize] = 1;
            one
        }
        _ => taken_settings(b, 5),
    };
    settings.truncate(length);
    // Bits 2 to 7 are the caller's: they change nothing.
    if b.random.one_in(3) {
        settings[0] ^= b.random.pick(&[4, 0x20, 0xf0, 0xfc]);
    }
    // A mode of 2 or 3: refused, and the policy is as it was (W-205).
    if b.random.one_in(8) {
        spoil_settings(b, &mut settings);
    }
    b.command(opcode::SET_POLICY, settings);
}

/// A clear that empties a log, leaves one record or more, or is refused.
fn some_clear(b: &mut Builder, log: u8) {
    let held = b.device().log(log.into()).handles();
    let overflown = b.device().log(log.into()).overflow_count() > 0;
    match b.random.below(8) {
        0..=2 if overflown => b.clear_events(log, 1, &[]),
        0..=3 => b.clear_events(log, 0, &held),
        // One record is left.
        4 => b.clear_events(log, 0, &held[..held.len().saturating_sub(1)]),
        5 => b.clear_events(log, 0, &held[..held.len().min(1)]),
        6 => b.clear_events(log, 1, &[]),
        _ => one_clear(b, log),
    }
}

/// Logs that go from empty to one record and back while policies change.
pub fn vectors(b: &mut Builder) {
    b.any_device();
    while b.more() {
        if b.random.one_in(3) {
            some_policy(b);
        }
        let log = b.random.below(5) as u8;
        for _ in 0..b.random.pick(&[1, 1, 2, 3, 8, 10]) {
            b.event(log);
            if b.random.one_in(12) {
                some_policy(b);
            }
        }
        if b.random.one_in(6) {
            let wrong = b.random.pick_log_above_4();
            b.event(wrong);
        }
        some_clear(b, log);
        if b.random.one_in(4) {
            b.event(log);
            b.get_events(log);
        }
    }
    b.show();
}

/// A line of the region that no entry covers, or any if there is none in some tries.
pub fn free_line(b: &mut Builder, region: &Region) -> u64 {
    let mut line = region.base + b.random.below(region.lines);
    for _ in 0..20 {
        if b.device().poison_list().covering(line.into()).is_none() {
            break;
        }
        line = region.base + b.random.below(region.lines);
    }
    line
}

/// A line that an entry covers; any of the region if there is no entry.
pub fn covered_line(b: &mut Builder, region: &Region) -> u64 {
    let entries = b.entries();
    if entries.is_empty() {
        return region.base + b.random.below(region.lines);
    }
    let entry = b.random.pick(&entries);
    (entry.start + entry.lines) as u64 - 1 - b.random.below(entry.lines.min(3) as u64)
}

/// An injection that adds no entry: of a covered line, unaligned, outside or of a wrong
/// length.
fn quiet_injection(b: &mut Builder, region: &Region) {
    let end = b.device_lines() * 64;
    let address = match b.random.below(6) {
        0..=2 => covered_line(b, region) * 64,
        3 => free_line(b, region) * 64 + b.random.between(1, 63),
        4 => end + b.random.pick(&[0, 64, 1, 1 << 40]),
        _ => {
            let line = free_line(b, region);
            let mut payload = (line * 64).to_le_bytes().to_vec();
            payload.resize(b.random.pick(&[0, 7, 9, 16]), 0);
            return b.command(opcode::INJECT_POISON, payload);
        }
    };
    b.inject(address);
}

/// An injection: of an uncovered line, whose line is tested at times, or one that adds
/// no entry.
fn some_injection(b: &mut Builder, region: &Region) {
    if b.random.one_in(3) {
        return quiet_injection(b, region);
    }
    let line = free_line(b, region);
    b.inject(line * 64);
    if b.random.one_in(3) {
        b.line(line * 64);
    }
}

/// An event in log 0, by a report or by an injection of an uncovered line.
fn one_event(b: &mut Builder, region: &Region) {
    match b.random.one_in(2) {
        true => b.event(LOG),
        false => {
            let line = free_line(b, region);
            b.inject(line * 64);
        }
    }
}

/// Sets the clock to any value.
fn some_clock(b: &mut Builder) {
    let value = b.random.bits() >> b.random.below(64);
    b.set_timestamp(value);
}

/// Injections and reports to log 0 mixed with policies, clears and clocks; log 0 is read
/// after many of them.
pub fn inject_events(b: &mut Builder) {
    b.any_device();
    let region = region(b, 500);
    b.set_target(1000);
    // At times the first events are those of a clock that is not set.
    if b.random.one_in(2) {
        some_clock(b);
    }
    some_policy(b);
    while b.more() {
        match b.random.below(16) {
            0..=6 => some_injection(b, &region),
            7..=8 => b.event(LOG),
            9..=11 => some_clear(b, LOG),
            12 => some_policy(b),
            13 => {
                let line = covered_line(b, &region);
                b.clear(line * 64);
                b.inject(line * 64);
            }
            14 => {
                let (line, kind) = (free_line(b, &region), b.media_type());
                b.media(line * 64, 1, kind);
            }
            _ => some_clock(b),
        }
        if b.random.one_in(2) {
            b.get_events(LOG);
        }
    }
    b.show();
}

/// Log 0 with seven and eight records, with and without overflow, then injections.
pub fn inject_full_log(b: &mut Builder) {
    b.any_device();
    let region = region(b, 2000);
    b.command(opcode::SET_POLICY, vec![1; 5]);
    while b.more() {
        if b.random.one_in(3) {
            some_clock(b);
        }
        if b.random.one_in(5) {
            some_policy(b);
        }
        let held = b.random.pick(&[7, 8, 8, 8]);
        while b.more() && b.device().log(LOG.into()).handles().len() < held {
            one_event(b, &region);
        }
        // Overflow by reports before the first injection, or none.
        for _ in 0..b.random.pick(&[0, 0, 1, 2]) {
            b.event(LOG);
        }
        b.get_events(LOG);
        for _ in 0..b.random.between(1, 3) {
            // What adds no entry is not counted either.
            if b.random.one_in(2) {
                quiet_injection(b, &region);
                b.get_events(LOG);
            }
            let line = free_line(b, &region);
            b.inject(line * 64);
            b.line(line * 64);
            b.get_events(LOG);
        }
        some_clear(b, LOG);
        one_event(b, &region);
        b.get_events(LOG);
        // Room in the list for the next round.
        for _ in 0..6 {
            let line = covered_line(b, &region);
            b.clear(line * 64);
        }
    }
    b.show();
}

/// Lists of 254 to 256 entries made without an injection, so that log 0 is empty: covered
/// injections, refused ones and those that take the last place.
pub fn inject_full_list(b: &mut Builder) {
    b.any_device();
    let region = region(b, 256 * 4);
    let held = b.random.pick(&[254, 255, 256, 256]);
    for i in 0..held {
        let kind = b.media_type();
        b.media((region.base + i * 4) * 64, 2, kind);
    }
    b.set_target(held as usize + 400);
    b.command(opcode::SET_POLICY, vec![1; 5]);
    while b.more() {
        match b.random.below(10) {
            0..=2 => {
                let line = covered_line(b, &region);
                b.inject(line * 64);
            }
            3..=6 => {
                let line = free_line(b, &region);
                b.inject(line * 64);
                b.line(line * 64);
            }
            7 => {
                let line = covered_line(b, &region);
                b.clear(line * 64);
            }
            8 => match b.random.one_in(3) {
                // At times log 0 is full, with and without overflow.
                true => {
                    for _ in 0..b.random.between(6, 9) {
                        b.event(LOG);
                    }
                }
                false => some_clear(b, LOG),
            },
            _ => some_policy(b),
        }
        if b.random.one_in(2) {
            b.get_events(LOG);
        }
    }
    b.show();
}
