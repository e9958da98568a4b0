//! Profiles about the label area (document 02, W-206), and what the other profiles use to
//! read and write some of it.

use super::builder::Builder;
use super::commands::{one_step, plausible_payload, some_opcode, UNITS};
use super::host::host_step;
use super::poison::{poison_step, region};
use super::probe::codes;
use crate::device::numbers::{opcode, LABEL_AREA, MAILBOX};
use crate::probe::record::{LABEL_STORE, MOST};
use crate::random::Random;

/// Bytes of the area, as a number of a payload's field.
const AREA: u32 = LABEL_AREA as u32;
/// The most that a Get LSA asks for.
const MOST_READ: u32 = MAILBOX as u32;
/// The most data that a Set LSA carries.
const MOST_DATA: u32 = MOST_READ - 8;

/// The payload of Get LSA: "offset 4, length 4".
pub fn get_payload(offset: u32, length: u32) -> Vec<u8> {
    [offset.to_le_bytes(), length.to_le_bytes()].concat()
}

/// The payload of Set LSA: "offset 4, four reserved, data".
pub fn set_payload(offset: u32, reserved: [u8; 4], data: &[u8]) -> Vec<u8> {
    [&offset.to_le_bytes(), &reserved, data].concat()
}

/// An offset of a range of `length` bytes in the area: at its ends, beside the middle, any.
fn offset_for(b: &mut Builder, length: u32) -> u32 {
    let last = AREA - length;
    let any = b.random.below(u64::from(last) + 1) as u32;
    let middle = last.min(2048);
    b.random
        .pick(&[0, 1, last, last.saturating_sub(1), middle, any, any])
}

/// A Get LSA of few bytes that is taken in most cases.
pub fn any_get(b: &mut Builder) -> Vec<u8> {
    let length = b.random.pick(&[0, 1, 2, 4, 16, 64]);
    let offset = offset_for(b, length);
    let past = u32::from(b.random.one_in(8));
    get_payload(offset + past, length)
}

/// A Set LSA of few bytes that is taken in most cases.
pub fn any_set(b: &mut Builder) -> Vec<u8> {
    let length = b.random.pick(&[0, 1, 2, 4, 16, 64]);
    let offset = offset_for(b, length);
    let past = u32::from(b.random.one_in(8));
    let data = b.random.bytes(length as usize);
    set_payload(offset + past, [0; 4], &data)
}

/// Every byte of the area set to one that is not 0, so that a byte that is lost shows.
fn fill_area(b: &mut Builder) {
    for offset in (0..AREA).step_by(1024) {
        let mut data = b.random.bytes(1024);
        data.iter_mut().for_each(|byte| *byte |= 1);
        b.set_labels(offset, &data);
    }
}

/// Shows the area, and the whole store in a probe stream.
fn show_all(b: &mut Builder) {
    b.show_labels();
    b.label_bytes(0, LABEL_STORE as u16);
}

/// A Get of the bytes `from .. to` as far as they lie in the area and a reply carries them.
fn get_between(b: &mut Builder, from: u32, to: u32) {
    let to = to.min(AREA);
    let from = from.min(to);
    b.get_labels(from, (to - from).min(MOST_READ));
}

/// A Get of the bytes `from .. to`, or of bytes that overlap, touch or lie apart from them.
fn get_beside(b: &mut Builder, from: u32, to: u32) {
    let some = b.random.pick(&[1, 2, 3, 16, 100]);
    let apart = b.random.between(1, 64) as u32;
    let before = from.saturating_sub(some);
    match b.random.below(9) {
        0..=1 => get_between(b, from, to),
        2 => get_between(b, before, to + some),
        3 => get_between(b, before, from + 1),
        4 => get_between(b, to.saturating_sub(1), to + some),
        5 => get_between(b, from + (to - from) / 3, to - (to - from) / 3),
        // Up to it and from its end on: neighbours.
        6 => get_between(b, before, from),
        7 => get_between(b, to, to + some),
        _ => match b.random.one_in(2) {
            true => get_between(b, 0, from.saturating_sub(apart).min(300)),
            false => get_between(b, to + apart, to + apart + some),
        },
    }
}

/// Sets, then Gets of the same bytes and of those that overlap, touch and lie apart from
/// them; the same Gets came just before some of the Sets.
pub fn ranges(b: &mut Builder) {
    b.any_device();
    b.set_target(400);
    if b.random.one_in(2) {
        fill_area(b);
    }
    while b.more() {
        let any = b.random.below(u64::from(MOST_DATA) + 1) as u32;
        let few = b.random.below(40) as u32;
        let length = b
            .random
            .pick(&[few, few, few, 0, 1, any.min(400), any, MOST_DATA]);
        let offset = offset_for(b, length);
        let data = match b.random.below(6) {
            0 => vec![b.random.pick(&[0, 0xff]); length as usize],
            _ => b.random.bytes(length as usize),
        };
        if b.random.one_in(3) {
            get_beside(b, offset, offset + length);
        }
        b.set_labels(offset, &data);
        for _ in 0..b.random.between(1, 4) {
            get_beside(b, offset, offset + length);
        }
    }
    show_all(b);
    b.show();
}

/// Offsets and lengths at every edge: of the area, of a reply, of 16, 31 and 32 bits.
fn edges() -> Vec<u32> {
    let mut edges = vec![0, 1, 2];
    for centre in [1u32 << 11, 1 << 12, 1 << 13, 1 << 16, 1 << 31] {
        edges.extend([centre - 1, centre, centre + 1]);
    }
    // Not past the area in 16 bits.
    edges.extend([(1 << 16) + 2048, (1 << 16) + 4096, (1 << 31) + 4095]);
    edges.extend([u32::MAX - 4096, u32::MAX - 2048, u32::MAX - 1, u32::MAX]);
    edges
}

/// Gets and Sets with offsets and lengths at every edge, sums that wrap in 16 and in 32 bits
/// among them.
pub fn label_edges(b: &mut Builder) {
    b.any_device();
    b.command(opcode::IDENTIFY, vec![]);
    fill_area(b);
    for offset in edges() {
        for length in edges() {
            // The long replies of ranges that are taken, some of them.
            if offset > 2049 || length < 2047 || b.random.one_in(3) {
                b.get_labels(offset, length);
            }
        }
        for length in [0, 1, 2, 8, MOST_DATA - 1, MOST_DATA] {
            if length < 100 || b.random.one_in(3) {
                let data = b.random.bytes(length as usize);
                b.set_labels(offset, &data);
                get_beside(b, offset.min(AREA), offset.min(AREA));
            }
        }
    }
    // Ends just before, at and past the area's, for lengths of every kind.
    for length in [0, 1, 2, 7, 2039, 2040, 2047, 2048, 2049] {
        for past in 0..4 {
            let offset = AREA + past - 2 - length.min(AREA - 2);
            b.get_labels(offset, length);
            if length <= MOST_DATA {
                let data = b.random.bytes(length as usize);
                b.set_labels(offset, &data);
                b.get_labels(offset.min(AREA - 8), 8);
            }
        }
    }
    // Sums that are 0 to 9 in 32 bits and in 16 bits.
    for below in [1, 2, 5, 100, 2030] {
        for begin in [u32::MAX - (below - 1), (1 << 16) - below] {
            let length = below + b.random.below(10) as u32;
            b.get_labels(begin, length);
            let data = b.random.bytes(length as usize);
            b.set_labels(begin, &data);
        }
    }
    show_all(b);
    b.show();
}

/// Reserved bytes of Set LSA that are not all zero: one alone, two or four whose sum is 0 in
/// 8 or 16 bits or that are alike, a number that is negative in 32 bits, any.
fn spoilt_reserved(b: &mut Builder) -> [u8; 4] {
    let any = b.random.between(1, 255) as u8;
    let value = b.random.pick(&[1, 0x7f, 0x80, 0xff, any]);
    let (one, other) = (b.random.below(4) as usize, b.random.between(1, 3) as usize);
    let other = (one + other) % 4;
    let mut reserved = [0; 4];
    match b.random.below(10) {
        0..=4 => reserved[one] = value,
        5 => (reserved[one], reserved[other]) = (value, value.wrapping_neg()),
        6 => (reserved[one], reserved[other]) = (value, value),
        7 => {
            let half = b.random.between(1, 0xffff) as u16;
            let both = [half.to_le_bytes(), half.wrapping_neg().to_le_bytes()];
            reserved.copy_from_slice(&both.concat());
        }
        8 => {
            reserved.copy_from_slice(&b.random.bytes(4));
            reserved[3] |= 0x80;
        }
        _ => reserved = [value; 4],
    }
    reserved
}

/// Sets with reserved bytes, right and wrong otherwise, and payloads of every length; what a
/// refusal may not have written is read, and the same Set often comes after it.
pub fn label_refusals(b: &mut Builder) {
    b.any_device();
    b.set_target(700);
    fill_area(b);
    every_length(b);
    while b.more() {
        let few = b.random.below(40) as u32;
        let length = b.random.pick(&[0, 1, 4, few, few, MOST_DATA]);
        let right = offset_for(b, length);
        let offset = match b.random.below(5) {
            0 => AREA - length + b.random.pick(&[1, 2, 2048]),
            _ => right,
        };
        let data = b.random.bytes(length as usize);
        let payload = set_payload(offset, [0; 4], &data);
        let mut spoilt = payload.clone();
        let reserved = spoilt_reserved(b);
        spoilt[4..8].copy_from_slice(&reserved);
        match b.random.below(8) {
            0 => spoilt.truncate(b.random.between(5, 7) as usize),
            1 => spoilt.resize(b.random.pick(&[MAILBOX, b.most_payload()]), 0xa5),
            _ => {}
        }
        b.command(opcode::SET_LSA, spoilt);
        if b.random.one_in(2) {
            get_beside(b, offset.min(AREA), (offset + length).min(AREA));
        }
        if b.random.one_in(3) {
            b.command(opcode::SET_LSA, payload);
        }
    }
    show_all(b);
    b.show();
}

/// Both commands with payloads of 0 to 9 bytes and of those about a mailbox, zeros and others.
fn every_length(b: &mut Builder) {
    let most = b.most_payload();
    let lengths = (0..=9).chain([2047, 2048, 2049, 2056, MOST]);
    for length in lengths.filter(|length| *length <= most) {
        for code in [opcode::GET_LSA, opcode::SET_LSA] {
            let data = b.random.bytes(length);
            for mut payload in [get_payload(1, 0), get_payload(3, 4), vec![0; 4], data] {
                payload.resize(length, 0x5a);
                if length > 7 && b.random.one_in(2) {
                    payload[..8].copy_from_slice(&set_payload(2, [0; 4], &[]));
                }
                b.command(code, payload);
            }
            b.get_labels(0, 16);
        }
    }
}

/// Labels, then every other kind of call; what was set stays.
pub fn labels_kept(b: &mut Builder) {
    b.any_device();
    fill_area(b);
    let lines = 1200.min(b.device_lines());
    let region = region(b, lines);
    while b.more() {
        match b.random.below(8) {
            0..=2 => one_step(b),
            3..=4 => poison_step(b, &region),
            5 => {
                let code = some_opcode(b);
                let payload = plausible_payload(b, code);
                b.command(code, payload);
            }
            6 => {
                let payload = any_set(b);
                b.command(opcode::SET_LSA, payload);
            }
            _ => {
                let from = b.random.below(u64::from(AREA)) as u32;
                get_between(b, from, from + 32);
            }
        }
        if b.random.one_in(40) {
            show_all(b);
        }
    }
    show_all(b);
    b.show();
}

/// Sizes of the area lent: those about the right one, about a half and about the store.
const SIZES: [u32; 14] = [
    0, 1, 8, 2047, 2048, 2049, 4094, 4095, 4096, 4097, 4098, 6144, 8191, 8192,
];

/// A size of the area that is not the right one.
pub fn wrong_size(random: &mut Random) -> u32 {
    let wrong = SIZES.into_iter().filter(|size| *size != AREA);
    random.pick(&wrong.collect::<Vec<u32>>())
}

/// Areas of every size with every kind of command: known and unknown, right and wrong
/// otherwise, in small rooms too.
pub fn label_areas(b: &mut Builder) {
    b.any_device();
    fill_area(b);
    let mut sizes = SIZES.to_vec();
    sizes.push(b.random.below(LABEL_STORE as u64) as u32);
    for size in sizes {
        b.label_area(size);
        for code in codes() {
            let mut payload = plausible_payload(b, code);
            match b.random.below(4) {
                0 => payload.resize(b.random.pick(&[0, 3, 7, 9, 73, 2048]), 0xff),
                1 => payload.resize(b.random.pick(&[2049, MOST]), 0xff),
                _ => {}
            }
            let (room, fill) = (b.random.pick(&[2047, 2048, 2048, 4096]), b.any_fill());
            b.command_in(room, fill, code, payload);
        }
        // Of ranges in what is lent, at its end and past it.
        let end = size.min(AREA);
        for offset in [0, end.saturating_sub(1), end, end + 1] {
            let data = b.random.bytes(2);
            b.set_labels(offset, &data);
            b.get_labels(offset, 2);
        }
        if b.random.one_in(2) {
            host_step(b);
        }
        b.label_bytes(end.saturating_sub(8) as u16, 16);
        if b.random.one_in(3) {
            b.label_area(AREA);
            let payload = any_set(b);
            b.command(opcode::SET_LSA, payload);
        }
    }
    b.label_area(AREA);
    show_all(b);
    b.show();
}

/// The store under makes, refused ones too, and changing sizes; Gets in rooms of every kind
/// with fills that are bytes of the reply.
pub fn label_store(b: &mut Builder) {
    b.any_device();
    if b.random.one_in(2) {
        fill_area(b);
    }
    while b.more() {
        match b.random.below(16) {
            0 => b.any_device(),
            1 => {
                let (volatile, persistent) = b.random.pick(UNITS);
                b.new_device(volatile, persistent);
            }
            2 => {
                let size = b.random.pick(&SIZES);
                b.label_area(size);
            }
            3..=4 => b.label_area(AREA),
            5..=7 => {
                let payload = any_set(b);
                b.command(opcode::SET_LSA, payload);
            }
            8..=9 => get_in_room(b),
            10..=12 => some_bytes(b),
            13 => host_step(b),
            14 => one_step(b),
            _ => {
                let (from, some) = (b.random.below(4096) as u32, b.random.below(40) as u32);
                get_beside(b, from, from + some);
            }
        }
        if b.random.one_in(60) {
            b.label_bytes(0, LABEL_STORE as u16);
        }
    }
    b.label_area(AREA);
    show_all(b);
    b.show();
}

/// A Get in a room of every kind with a fill that its reply may have.
fn get_in_room(b: &mut Builder) {
    let length = b.random.pick(&[0, 1, 30, 200, 2047, 2048]);
    let offset = offset_for(b, length);
    let payload = get_payload(offset, length);
    let reply = b.reply(opcode::GET_LSA, &payload);
    let any = b.any_fill();
    let fill = match reply.last() {
        Some(last) => b.random.pick(&[*last, reply[0], last.wrapping_add(1), any]),
        None => any,
    };
    let room = b.random.pick(&[2047, 2048, 2048, 4096]);
    b.command_in(room, fill, opcode::GET_LSA, payload);
}

/// Bytes of the store at its ends, about the area's end and anywhere.
fn some_bytes(b: &mut Builder) {
    let any = b.random.below(LABEL_STORE as u64 + 1) as u16;
    let offset = b
        .random
        .pick(&[0, 1, 2047, 4080, 4095, 4096, 8190, 8191, 8192, any]);
    let left = LABEL_STORE as u16 - offset;
    let length = b.random.pick(&[0, 1, 2, 32, 100]).min(left);
    b.label_bytes(offset, length);
}
