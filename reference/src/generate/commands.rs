//! Profiles about lengths, opcodes, policy, Get Log and devices.

use super::builder::{clear_payload, Builder};
use super::events::one_clear;
use super::labels;
use super::reserved::{some_settings, spoil_clear};
use crate::device::numbers::opcode;
use crate::device::EFFECTS_IDENTIFIER;
use crate::probe::record::{Call, Record};

/// A payload that is right for the opcode in most cases.
pub fn plausible_payload(b: &mut Builder, code: u16) -> Vec<u8> {
    let line = b.edge_line();
    match code {
        opcode::GET_EVENT_RECORDS => vec![b.random.below(6) as u8],
        opcode::CLEAR_EVENT_RECORDS => {
            let log = b.random.below(5) as u8;
            let mut payload = clear_payload(log, 0, &b.device().log(log.into()).handles());
            if b.random.one_in(8) {
                spoil_clear(b, &mut payload);
            }
            payload
        }
        opcode::SET_POLICY => {
            let length = b.random.pick(&[4, 5]);
            some_settings(b, length)
        }
        opcode::SET_TIMESTAMP => b.random.bytes(8),
        opcode::GET_LOG => get_log_payload(0, 16),
        opcode::GET_LSA => labels::any_get(b),
        opcode::SET_LSA => labels::any_set(b),
        opcode::GET_POISON_LIST => {
            let mut payload = (line * 64).to_le_bytes().to_vec();
            payload.extend(b.random.below(300).to_le_bytes());
            payload
        }
        opcode::INJECT_POISON => (line * 64).to_le_bytes().to_vec(),
        opcode::CLEAR_POISON => {
            let mut payload = (line * 64).to_le_bytes().to_vec();
            payload.extend([0; 64]);
            payload
        }
        _ => vec![],
    }
}

/// One of the opcodes, Sanitize less often than the others: its end empties the logs.
pub fn some_opcode(b: &mut Builder) -> u16 {
    match b.random.pick(&opcode::ALL) {
        opcode::SANITIZE if b.random.one_in(2) => opcode::GET_EVENT_RECORDS,
        code => code,
    }
}

/// Every opcode, and some that are unknown, with every length of 0 to 80 and
/// some great ones.
pub fn wrong_lengths(b: &mut Builder) {
    b.any_device();
    for log in 0..5 {
        b.event(log);
    }
    let great = [255, 256, 257, 516, 517, 1024, 2046, 2047, 2048];
    let over = [2049, 2050, 4094, 4095, 4096];
    let most = b.most_payload();
    let lengths = (0..=80).chain(great).chain(over);
    for code in opcode::ALL.into_iter().chain([0x0104, 0x4303]) {
        for length in lengths.clone().filter(|length| *length <= most) {
            let mut payload = plausible_payload(b, code);
            payload.resize(length, 0);
            b.command(code, payload);
        }
        b.show();
    }
    // Clear Event Records: each length with each small count.
    for length in 6..=24 {
        for count in 0..=9 {
            let log = b.random.below(5) as u8;
            let held = b.device().log(log.into()).handles();
            let mut payload = clear_payload(log, 0, &held);
            payload[2] = count;
            payload.resize(length, 0);
            b.command(opcode::CLEAR_EVENT_RECORDS, payload);
            b.event(log);
        }
    }
    b.show();
    // A length over the limit ends the stream as bad.
    let long = b.bytes_of(&Record::Command(Call {
        time: 0,
        opcode: opcode::GET_TIMESTAMP,
        room: 2048,
        fill: 0,
        payload: vec![0; most + 1],
    }));
    b.push_bytes(&long);
}

/// Opcodes that are near a command's: those beside it and those that share a part of it.
pub(super) fn neighbours(code: u16) -> [u16; 7] {
    [
        code.wrapping_sub(1),
        code + 1,
        code.swap_bytes(),
        code ^ 0x8000,
        code ^ 0x0080,
        code & 0xff,
        code & 0xff00,
    ]
}

/// Every opcode of 16 bits once, those near the commands with payloads too.
pub fn unknown_opcodes(b: &mut Builder) {
    b.any_device();
    for log in 0..5 {
        b.event(log);
    }
    for code in opcode::ALL {
        for near in neighbours(code) {
            let payload = plausible_payload(b, code);
            b.command(near, payload);
            let length = b.random.pick(&[0, 1, 8, 16, 24, 72, 2048]);
            b.command(near, vec![0; length]);
        }
    }
    b.show();
    for code in 0..=u16::MAX {
        b.command(code, vec![]);
    }
    b.show();
}

/// Policy bytes of every value that is taken, four and five of them, and some that are
/// refused.
pub fn policy(b: &mut Builder) {
    b.any_device();
    b.command(opcode::GET_POLICY, vec![]);
    while b.more() {
        let length = b.random.pick(&[4, 5, 5, 4, 3, 6, 0]);
        let payload = some_settings(b, length);
        b.command(opcode::SET_POLICY, payload);
        b.command(opcode::GET_POLICY, vec![]);
    }
    b.show();
}

pub fn get_log_payload(offset: u32, length: u32) -> Vec<u8> {
    let mut payload = EFFECTS_IDENTIFIER.to_vec();
    payload.extend(offset.to_le_bytes());
    payload.extend(length.to_le_bytes());
    payload
}

/// Get Log with offsets and lengths at every edge, and wrong identifiers.
pub fn get_log(b: &mut Builder) {
    b.any_device();
    b.command(opcode::GET_SUPPORTED_LOGS, vec![]);
    let mut edges: Vec<u32> = (0..=64).collect();
    for centre in [1u32 << 11, 1 << 12, 1 << 16, 1 << 31] {
        edges.extend([centre - 1, centre, centre + 1]);
    }
    edges.extend((0..=64).map(|below| u32::MAX - below));
    for at in 0..=64u32 {
        // The lengths around the one that ends at the log's end.
        for length in [60u32.saturating_sub(at), 61u32.saturating_sub(at), 0, 1] {
            b.command(opcode::GET_LOG, get_log_payload(at, length));
        }
        // An offset and a length whose sum wraps in 32 bits.
        let wrapped = get_log_payload(u32::MAX - at, at + 60);
        b.command(opcode::GET_LOG, wrapped);
    }
    for at in 0..16 {
        for length in [0, 60, 61, 2049] {
            let mut payload = get_log_payload(0, length);
            payload[at] ^= b.random.pick(&[1, 0x80, 0xff]);
            b.command(opcode::GET_LOG, payload);
        }
    }
    while b.more() {
        let (offset, length) = (b.random.pick(&edges), b.random.pick(&edges));
        b.command(opcode::GET_LOG, get_log_payload(offset, length));
    }
    b.show();
}

/// Unit counts: one stream for each, since a stream makes one device.
pub const UNITS: &[(u16, u16)] = &[
    (1, 0),
    (0, 1),
    (1, 1),
    (1023, 0),
    (0, 1023),
    (511, 512),
    (1022, 1),
    (0, 0),
    (1024, 0),
    (0, 1024),
    (1023, 1),
    (512, 512),
    (65535, 0),
    (0, 65535),
    (65535, 65535),
    (65535, 1),
    (65535, 2),
    (32768, 32768),
    (32769, 32768),
    (256, 0),
    (0, 256),
    (255, 768),
];

pub const DEVICE_STREAMS: usize = 22;

/// Devices of every edge size, refused ones included.
pub fn devices(b: &mut Builder, part: usize) {
    let (volatile, persistent) = UNITS[part % UNITS.len()];
    b.new_device(volatile, persistent);
    b.command(opcode::IDENTIFY, vec![]);
    b.command(opcode::GET_SUPPORTED_LOGS, vec![]);
    let total = u64::from(volatile) + u64::from(persistent);
    if (1..=1023).contains(&total) {
        let lines = b.device_lines();
        for line in [0, lines - 1, lines, lines + 1, lines * 2] {
            b.line(line * 64);
            b.inject(line * 64);
        }
    }
    b.show();
}

/// One step of the commands other than the poison commands.
pub fn one_step(b: &mut Builder) {
    let log = b.random.below(5) as u8;
    match b.random.below(12) {
        0..=3 => b.event(log),
        4 => {
            for _ in 0..b.random.between(1, 12) {
                b.event(log);
            }
        }
        5 | 6 => one_clear(b, log),
        7 => b.clear_events(log, 1, &[]),
        8 => {
            let value = b.random.bits() >> b.random.below(64);
            b.set_timestamp(value);
        }
        9 => {
            let length = b.random.pick(&[4, 5]);
            let payload = some_settings(b, length);
            b.command(opcode::SET_POLICY, payload);
        }
        10 => {
            let code = some_opcode(b);
            let payload = plausible_payload(b, code);
            b.command(code, payload);
        }
        _ => {
            let code = b.random.bits() as u16;
            let length = b.random.below(80) as usize;
            b.command(code, vec![0; length]);
        }
    }
}

/// Everything but the poison commands, mixed.
pub fn commands_mixed(b: &mut Builder) {
    b.any_device();
    while b.more() {
        one_step(b);
        if b.random.one_in(10) {
            b.show_events();
        }
    }
    b.show();
}
