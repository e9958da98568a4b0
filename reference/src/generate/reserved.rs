//! Profiles about what must be zero (document 02, W-205): flag bits 1 to 7 and reserved
//! bytes of Clear Event Records, modes of Set Event Interrupt Policy. Also what the other
//! profiles use to send some of it among payloads that are taken.

use super::builder::{clear_payload, Builder};
use crate::device::numbers::opcode;

/// Sets something reserved in a Clear Event Records of six bytes or more: one flag bit or
/// one byte, at times any of them.
pub fn spoil_clear(b: &mut Builder, payload: &mut [u8]) {
    let any = b.random.between(1, 255) as u8;
    let byte = b.random.pick(&[1, 0x80, 0xff, any]);
    match b.random.below(12) {
        0..=6 => payload[1] |= 1 << b.random.between(1, 7),
        7..=9 => payload[b.random.between(3, 5) as usize] = byte,
        10 => payload[1] |= b.random.pick(&[2, 0x80, 0xfe]) | byte & 0xfe,
        _ => {
            payload[3..6].copy_from_slice(&b.random.bytes(3));
            payload[b.random.between(3, 5) as usize] = byte;
        }
    }
}

/// Settings that are taken: modes 0 and 1, bits 2 to 7 the caller's.
pub fn taken_settings(b: &mut Builder, length: usize) -> Vec<u8> {
    let keep = b.random.pick(&[0x01, 0xfd, 0xf1, 0x05]);
    let mut settings = b.random.bytes(length);
    settings.iter_mut().for_each(|setting| *setting &= keep);
    settings
}

/// Gives one setting, at times several, mode 2 or 3.
pub fn spoil_settings(b: &mut Builder, settings: &mut [u8]) {
    let most = b.random.pick(&[1, 1, 2, settings.len()]);
    for _ in 0..most.min(settings.len()) {
        let place = b.random.below(settings.len() as u64) as usize;
        settings[place] = settings[place] & 0xfc | b.random.pick(&[2, 3]);
    }
}

/// Settings of which most are taken and some refused.
pub fn some_settings(b: &mut Builder, length: usize) -> Vec<u8> {
    let mut settings = taken_settings(b, length);
    if b.random.one_in(6) {
        spoil_settings(b, &mut settings);
    }
    settings
}

/// A Clear Event Records for a log: right, or wrong in a way that a reserved place comes
/// before or after.
fn some_clear(b: &mut Builder, log: u8) -> Vec<u8> {
    let held = b.device().log(log.into()).handles();
    let next = b.device().log(log.into()).next_handle();
    let wrong_log = b.random.pick_log_above_4();
    match b.random.below(14) {
        // Taken, but for Clear All without overflow.
        0..=2 => clear_payload(log, 0, &held),
        3 => clear_payload(log, 0, &held[..held.len().min(1)]),
        4 => clear_payload(log, 0, &[]),
        5..=6 => clear_payload(log, 1, &[]),
        // 000Eh: a wrong handle, a surplus one.
        7 => clear_payload(log, 0, &[next]),
        8 => clear_payload(log, 0, &[held, vec![next]].concat()),
        // 0002h: Clear All with n not 0, a log that is not there.
        9 => clear_payload(log, 1, &held[..held.len().min(1)]),
        10 => clear_payload(wrong_log, b.random.pick(&[0, 1]), &held),
        // 0016h.
        11 => {
            let mut payload = clear_payload(log, b.random.pick(&[0, 1]), &held);
            payload[2] = payload[2].wrapping_add(b.random.pick(&[1, 255]));
            payload
        }
        12 => [clear_payload(log, 0, &held), vec![0]].concat(),
        _ => {
            let mut payload = clear_payload(log, 0, &[]);
            payload.resize(b.random.pick(&[2048, b.most_payload()]), 0);
            payload
        }
    }
}

/// Each reserved place alone in a clear of a log that is not there.
fn wrong_log_clears(b: &mut Builder) {
    let bits = (1..8).map(|bit| (1, 1 << bit));
    for (place, value) in bits.chain((3..6).map(|place| (place, 0x80))) {
        let mut payload = clear_payload(b.random.pick_log_above_4(), 0, &[1]);
        payload[place] = value;
        b.command(opcode::CLEAR_EVENT_RECORDS, payload);
    }
}

/// Clears with something reserved set, then often the same ones without, of logs that are
/// empty, in part full, full and overflown.
pub fn reserved(b: &mut Builder) {
    b.any_device();
    wrong_log_clears(b);
    while b.more() {
        let log = b.random.below(5) as u8;
        for _ in 0..b.random.pick(&[0, 0, 1, 3, 8, 10]) {
            b.event(log);
        }
        for _ in 0..b.random.between(1, 4) {
            let payload = some_clear(b, log);
            let mut spoilt = payload.clone();
            spoil_clear(b, &mut spoilt);
            b.command(opcode::CLEAR_EVENT_RECORDS, spoilt);
            if b.random.one_in(3) {
                b.get_events(log);
            }
            if b.random.one_in(2) {
                b.command(opcode::CLEAR_EVENT_RECORDS, payload);
            }
        }
        b.get_events(log);
    }
    b.show();
}

/// Settings with modes 2 and 3 at every place of four and five bytes and of wrong lengths,
/// between settings that are taken; the policy is read after each, and events show it.
pub fn modes(b: &mut Builder) {
    b.any_device();
    while b.more() {
        let length = b.random.pick(&[4, 5, 4, 5, 4, 5, 3, 6]);
        let mut settings = taken_settings(b, length);
        if b.random.one_in(2) {
            spoil_settings(b, &mut settings);
        }
        b.command(opcode::SET_POLICY, settings);
        b.command(opcode::GET_POLICY, vec![]);
        if b.random.one_in(3) {
            let log = b.random.below(5) as u8;
            let held = b.device().log(log.into()).handles();
            b.clear_events(log, 0, &held);
            b.event(log);
        }
    }
    b.show();
}
