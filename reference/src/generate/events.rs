//! Profiles about event logs, handles, overflow and the clock.

use super::builder::{clear_payload, Builder};
use super::reserved::spoil_clear;
use crate::device::events::handles_given;
use crate::device::numbers::opcode;

/// Logs filled to seven, eight and past it, read and cleared in parts.
pub fn full_logs(b: &mut Builder) {
    b.any_device();
    while b.more() {
        let log = b.random.below(5) as u8;
        let events = b.random.pick(&[1, 6, 7, 8, 9, 10]);
        for _ in 0..events {
            b.event(log);
        }
        b.get_events(log);
        let held = b.device().log(log.into()).handles();
        let going = b.random.between(0, held.len() as u64) as usize;
        b.clear_events(log, 0, &held[..going]);
        b.get_events(log);
        if b.random.one_in(8) {
            let wrong = b.random.pick(&[5, 6, 127, 128, 255]);
            b.event(wrong);
            b.get_events(wrong);
            b.clear_events(wrong, 0, &[]);
        }
    }
    b.show();
}

/// Overflow counted and timed, ended by a clear and begun again.
pub fn overflow(b: &mut Builder) {
    b.any_device();
    // An overflow at device time 0: later ones leave its first time at 0.
    for _ in 0..9 {
        b.event(0);
    }
    b.set_timestamp(5);
    b.event(0);
    b.get_events(0);
    while b.more() {
        if b.random.one_in(3) {
            let value = b.random.bits() >> b.random.below(64);
            b.set_timestamp(value);
        }
        let log = b.random.below(5) as u8;
        let events = b.random.between(8, 14);
        for _ in 0..events {
            b.event(log);
            if b.random.one_in(3) {
                b.get_events(log);
            }
        }
        b.get_events(log);
        // A clear of no record leaves the overflow as it was.
        b.clear_events(log, 0, &[]);
        b.get_events(log);
        let held = b.device().log(log.into()).handles();
        match b.random.below(3) {
            0 => b.clear_events(log, 1, &[]),
            1 => b.clear_events(log, 0, &held[..held.len().min(1)]),
            _ => b.clear_events(log, 0, &held),
        }
        b.get_events(log);
    }
    b.show();
}

/// The overflow count brought to 65,535 and past it.
pub fn overflow_count_limit(b: &mut Builder) {
    b.any_device();
    let log = b.random.below(5) as u8;
    b.set_target(65_600);
    b.set_timestamp(1_000);
    while b.more() {
        b.event(log);
        let count = b.device().log(log.into()).overflow_count();
        if count == 1 || count == 256 || count == 32_768 || count >= 65_533 {
            b.get_events(log);
        }
    }
    b.get_events(log);
    b.clear_events(log, 1, &[]);
    b.get_events(log);
    b.event(log);
    b.show();
}

/// Wrong handles of every kind, beside right ones.
pub fn wrong_handles(b: &mut Builder) {
    b.any_device();
    // The logs' handles are moved apart, so that one log's are wrong for another.
    for log in 0..5u8 {
        for _ in 0..b.random.between(0, 12) {
            b.event(log);
            if b.random.one_in(2) {
                let held = b.device().log(log.into()).handles();
                b.clear_events(log, 0, &held[..held.len().min(1)]);
            }
        }
    }
    while b.more() {
        let log = b.random.below(5) as u8;
        for _ in 0..b.random.below(5) {
            b.event(log);
        }
        one_clear(b, log);
        b.get_events(log);
    }
    b.show();
}

/// One Clear Event Records, right or wrong in one of many ways.
pub fn one_clear(b: &mut Builder, log: u8) {
    let held = b.device().log(log.into()).handles();
    let next = b.device().log(log.into()).next_handle();
    let mut handles = held.clone();
    let mut flags = 0;
    match b.random.below(16) {
        0 => {}
        1 => handles.truncate(b.random.below(9) as usize),
        // Surplus handles: those to come, zeros, the same again, a great many.
        2 => handles.push(next),
        3 => handles.push(0),
        4 => handles.extend(held.first().copied()),
        5 => handles.resize(b.random.pick(&[9, 10, 127, 128, 254, 255]), next),
        // Two swapped.
        6 if handles.len() > 1 => {
            let at = b.random.below(handles.len() as u64 - 1) as usize;
            handles.swap(at, at + 1);
        }
        // One wrong, at any place.
        7 | 8 if !handles.is_empty() => {
            let at = b.random.below(handles.len() as u64) as usize;
            handles[at] = b.random.pick(&[
                0,
                next,
                65_535,
                handles[at] ^ 0x100,
                handles[at].wrapping_add(1),
                handles[at].swap_bytes(),
            ]);
        }
        // The oldest left out.
        9 if handles.len() > 1 => {
            handles.remove(0);
        }
        // Another log's handles.
        10 => handles = b.device().log((usize::from(log) + 1) % 5).handles(),
        // The count does not fit the length.
        11 => {
            // Also with a log that is not there: the length comes first.
            let log = b.random.pick(&[log, log, 5, 255]);
            let flags = b.random.pick(&[0, 1]);
            let mut payload = clear_payload(log, flags, &handles);
            payload[2] = payload[2].wrapping_add(b.random.pick(&[1, 255]));
            // And with something reserved set: the length comes first.
            if b.random.one_in(3) {
                spoil_clear(b, &mut payload);
            }
            b.command(opcode::CLEAR_EVENT_RECORDS, payload);
            return;
        }
        // An odd length.
        12 => {
            let mut payload = clear_payload(log, 0, &handles);
            payload.push(0);
            b.command(opcode::CLEAR_EVENT_RECORDS, payload);
            return;
        }
        // Other flag bits, which are refused (W-205).
        13 => flags = b.random.pick(&[2, 4, 0x80, 0xfe]),
        14 => handles.clear(),
        // A log that is not there, with handles of one that is.
        _ => {
            let wrong = b.random.pick_log_above_4();
            b.clear_events(wrong, flags, &handles);
            return;
        }
    }
    b.clear_events(log, flags, &handles);
}

/// A host that drains the logs (document 02, W-201): reports to all of them, so
/// that each holds 0 to 8 records with and without overflow, then each is drained.
pub fn drain(b: &mut Builder) {
    b.any_device();
    while b.more() {
        if b.random.one_in(3) {
            let value = b.random.bits() >> b.random.below(64);
            b.set_timestamp(value);
        }
        for log in 0..5 {
            for _ in 0..b.random.between(0, 12) {
                b.event(log);
            }
        }
        let first = b.random.below(5) as u8;
        for log in 0..5 {
            drain_log(b, (first + log) % 5);
        }
    }
    b.show();
}

/// Reads a log and clears the handles that the reply gave, twice, then reads it
/// empty. Reports may come between the first read and its clear: those stored
/// then stay, as the n oldest go, and are for the second round.
fn drain_log(b: &mut Builder, log: u8) {
    for reports in [b.random.pick(&[0, 0, 1, 2, 9]), 0] {
        b.get_events(log);
        let reply = b.reply(opcode::GET_EVENT_RECORDS, &[log]);
        for _ in 0..reports {
            b.event(log);
        }
        let payload = clear_payload(log, 0, &handles_given(&reply));
        b.command(opcode::CLEAR_EVENT_RECORDS, payload);
    }
    b.get_events(log);
}

/// Handles past 65,535: eight events and a clear of the eight, until they come
/// round; fine steps and reads where they do, and a drain of 65,535, 1 or of what
/// a clear of a part left of them. In log 0 many of the fine steps are injections,
/// those for 65,535 and 1 among them.
pub fn handles_come_round(b: &mut Builder) {
    b.any_device();
    // Few seeds choose this profile: log 0 more often, for the injections.
    let log = b.random.pick(&[0, 1, 0, 2, 3, 4]);
    if b.random.one_in(2) {
        b.command(opcode::SET_POLICY, vec![1; 5]);
    }
    let other = (log + 1) % 5;
    let drained = b.random.pick(&[2, 3]);
    b.set_target(76_000);
    let mut rounds = 0u64;
    while b.more() && rounds < 65_560 {
        let next = b.device().log(log.into()).next_handle();
        let fine = next > 65_500 || (next < 20 && rounds > 60_000);
        if fine {
            let injects = !(3..65_534).contains(&next) || b.random.one_in(2);
            if log == 0 && injects {
                // Each time another line, so that an entry is added.
                b.inject((rounds % 1024) * 128);
            } else {
                b.event(log);
            }
            rounds += 1;
            let held = b.device().log(log.into()).handles();
            b.get_events(log);
            let next = b.device().log(log.into()).next_handle();
            if b.random.one_in(2) {
                // The handle that would follow without coming round.
                b.clear_events(log, 0, &[0]);
                b.clear_events(log, 0, &[next]);
            }
            if next == drained {
                drain_log(b, log);
            } else if held.len() > 4 {
                let going = b.random.pick(&[1, 2, 4]);
                b.clear_events(log, 0, &held[..going]);
            }
            b.event(other);
        } else {
            let room = 8 - b.device().log(log.into()).handles().len();
            for _ in 0..room {
                b.event(log);
                rounds += 1;
            }
            let held = b.device().log(log.into()).handles();
            b.clear_events(log, 0, &held);
        }
    }
    b.show();
}

/// Clear All with and without overflow, with n nonzero, with other flag bits.
pub fn clear_all(b: &mut Builder) {
    b.any_device();
    while b.more() {
        let log = b.random.below(5) as u8;
        for _ in 0..b.random.pick(&[0, 1, 7, 8, 9, 12]) {
            b.event(log);
        }
        let held = b.device().log(log.into()).handles();
        let flags = match b.random.one_in(6) {
            true => b.random.pick(&[3, 0xff, 0xfe, 0x81]),
            false => b.random.pick(&[1, 1, 1, 1, 0]),
        };
        let wrong = b.random.pick_log_above_4();
        match b.random.below(6) {
            0 => b.clear_events(log, flags, &held),
            1 => b.clear_events(log, flags, &held[..held.len().min(1)]),
            2 => b.clear_events(log, flags, &[0]),
            3 => b.clear_events(wrong, flags, &[]),
            _ => b.clear_events(log, flags, &[]),
        }
        b.get_events(log);
        if b.random.one_in(3) {
            b.clear_events(log, flags, &[]);
            b.event(log);
            b.get_events(log);
        }
    }
    b.show();
}

/// Settings near 2^64-1, times before and after the setting.
pub fn clock(b: &mut Builder) {
    b.any_device();
    b.command_at(u64::MAX, opcode::GET_TIMESTAMP, vec![]);
    while b.more() {
        let near = b.random.below(1000);
        let value = match b.random.below(5) {
            0 => u64::MAX - near,
            1 => near,
            2 => u64::MAX,
            3 => 0,
            _ => b.random.bits(),
        };
        let set_at = match b.random.below(4) {
            0 => u64::MAX - b.random.below(1000),
            1 => b.random.below(1000),
            2 => 0,
            _ => b.random.bits(),
        };
        b.command_at(set_at, opcode::SET_TIMESTAMP, value.to_le_bytes().to_vec());
        let log = b.random.below(5) as u8;
        for _ in 0..8 {
            let step = b.random.below(1000);
            let time = match b.random.below(8) {
                0 => set_at,
                1 => set_at.saturating_sub(1),
                2 => set_at.saturating_sub(step),
                3 => set_at.saturating_add(1),
                4 => set_at.saturating_add(step),
                // The sum is exactly 2^64-1, or one above it.
                5 => set_at.saturating_add(u64::MAX - value),
                6 => set_at.saturating_add((u64::MAX - value).saturating_add(1)),
                _ => b.random.pick(&[0, u64::MAX]),
            };
            b.command_at(time, opcode::GET_TIMESTAMP, vec![]);
            if b.random.one_in(2) {
                b.event_at(time, log);
            }
            b.set_time(time);
        }
        b.get_events(log);
        one_clear(b, log);
    }
    b.show();
}
