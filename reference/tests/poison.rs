//! The poison list by document 01's sentences; P7 to P10; and demand 3 on
//! random lists of calls, with the paper that document 01 describes.

use reference::device::numbers::{number, opcode, Refusal};
use reference::device::{Config, Device, LineAnswer};
use reference::random::Random;
use std::collections::BTreeSet;

const SUCCESS: Result<Vec<u8>, Refusal> = Ok(Vec::new());
const END: u64 = 268_435_456;

fn device() -> Device {
    Device::make(1, 0, Config::default()).1
}

fn inject(device: &mut Device, address: u64, time: u64) -> Result<Vec<u8>, Refusal> {
    device.answer(opcode::INJECT_POISON, &address.to_le_bytes(), time)
}

fn clear(device: &mut Device, address: u64, time: u64) -> Result<Vec<u8>, Refusal> {
    let mut payload = address.to_le_bytes().to_vec();
    payload.extend([0xee; 64]);
    device.answer(opcode::CLEAR_POISON, &payload, time)
}

fn list(device: &mut Device, address: u64, lines: u64) -> Result<Vec<u8>, Refusal> {
    let mut payload = address.to_le_bytes().to_vec();
    payload.extend(lines.to_le_bytes());
    device.answer(opcode::GET_POISON_LIST, &payload, 0)
}

/// (address, type, lines) of each record of a reply.
fn records(reply: &[u8]) -> Vec<(u64, u64, u64)> {
    let records = reply[32..].chunks(16);
    let part = |r: &[u8]| (number(&r[..8]) & !63, number(&r[..8]) & 63, number(&r[8..]));
    records.map(part).collect()
}

/// 256 entries: lines 0 to 2 (type 1) and 255 single lines 4, 6, ...
fn full_with_three() -> Device {
    let mut device = device();
    assert_eq!(device.media_report(0, 3, 1, 0), Ok((3, 0)));
    for i in 0..255 {
        assert_eq!(device.media_report(256 + 128 * i, 1, 0, 0), Ok((1, 0)));
    }
    device
}

#[test]
fn p7_inject_with_256_entries() {
    let mut device = full_with_three();
    let before = device.clone();
    assert_eq!(inject(&mut device, 192, 0), Err(Refusal::InjectPoisonLimit));
    assert_eq!(inject(&mut device, 64, 0), SUCCESS);
    assert_eq!(device, before);
    assert_eq!(device.line_test(192), Ok(LineAnswer::Clean));
}

#[test]
fn p8_clear_middle_with_256_entries() {
    let mut device = full_with_three();
    assert_eq!(clear(&mut device, 64, 9), SUCCESS);
    assert_eq!(device.line_test(0), Ok(LineAnswer::Damaged(1)));
    assert_eq!(device.line_test(64), Ok(LineAnswer::Unknown));
    assert_eq!(device.line_test(128), Ok(LineAnswer::Unknown));
    assert_eq!(device.poison_list().held(), 256);
    assert_eq!(device.damage_total(), 256);
    assert_eq!(list(&mut device, 0, 4).unwrap()[0], 2);
}

#[test]
fn p9_clear_first_with_256_entries() {
    let mut device = full_with_three();
    assert_eq!(clear(&mut device, 0, 9), SUCCESS);
    assert_eq!(device.line_test(0), Ok(LineAnswer::Clean));
    let reply = list(&mut device, 0, 4).unwrap();
    assert_eq!(records(&reply), [(64, 1, 2)]);
    assert_eq!(reply[0], 0);
}

#[test]
fn p10_range_of_0_lines_at_the_end() {
    let mut device = device();
    inject(&mut device, END - 64, 0).unwrap();
    assert_eq!(list(&mut device, END, 0), Ok(vec![0; 32]));
    assert_eq!(list(&mut device, END - 64, 0), Ok(vec![0; 32]));
    let outside = Err(Refusal::InvalidPhysicalAddress);
    assert_eq!(list(&mut device, END, 1), outside);
    assert_eq!(list(&mut device, END + 64, 0), outside);
}

#[test]
fn ranges_of_126_and_127_entries() {
    let mut device = device();
    for i in 0..126 {
        device.media_report(128 * i, 1, 2, 0).unwrap();
    }
    let reply = list(&mut device, 0, END / 64).unwrap();
    assert_eq!((reply.len(), reply[0], reply[10]), (2048, 0, 126));
    device.media_report(128 * 126, 1, 2, 0).unwrap();
    let reply = list(&mut device, 0, END / 64).unwrap();
    assert_eq!((reply.len(), reply[0], reply[10]), (2048, 1, 126));
    assert_eq!(records(&reply)[125], (128 * 125, 2, 1));
}

#[test]
fn report_refusals_in_order() {
    let mut device = device();
    let input = Err(Refusal::InvalidInput);
    let outside = Err(Refusal::InvalidPhysicalAddress);
    for kind in [3, 4, 5, 6, 8, 255] {
        assert_eq!(device.media_report(END, 0, kind, 0), input);
    }
    assert_eq!(device.media_report(END, 0, 0, 0), input);
    assert_eq!(device.media_report(END + 1, 1, 0, 0), input);
    assert_eq!(device.media_report(END, 1, 0, 0), outside);
    assert_eq!(device.media_report(END - 64, 2, 0, 0), outside);
    assert_eq!(device.media_report(u64::MAX - 63, 1, 0, 0), outside);
    assert_eq!(device.media_report(0, 1 << 58, 0, 0), outside);
    assert_eq!(device.media_report(64, u64::MAX, 0, 0), outside);
    assert_eq!(device, self::device());
}

#[test]
fn report_containing_entries() {
    let mut device = device();
    device.media_report(128, 2, 1, 0).unwrap();
    device.media_report(448, 1, 0, 0).unwrap();
    assert_eq!(device.media_report(0, 10, 7, 0), Ok((7, 0)));
    let reply = list(&mut device, 0, 10).unwrap();
    let expected = [
        (0, 7, 2),
        (128, 1, 2),
        (256, 7, 3),
        (448, 0, 1),
        (512, 7, 2),
    ];
    assert_eq!(records(&reply), expected);
    // Cut to the range: lines 3 to 7.
    let reply = list(&mut device, 192, 5).unwrap();
    assert_eq!(records(&reply), [(192, 1, 1), (256, 7, 3), (448, 0, 1)]);
}

#[test]
fn other_refusals_unaligned_first() {
    let mut device = device();
    for (address, refusal) in [
        (1, Refusal::InvalidInput),
        (END + 1, Refusal::InvalidInput),
        (u64::MAX, Refusal::InvalidInput),
        (END, Refusal::InvalidPhysicalAddress),
        (u64::MAX - 63, Refusal::InvalidPhysicalAddress),
    ] {
        assert_eq!(device.line_test(address), Err(refusal));
        assert_eq!(inject(&mut device, address, 0), Err(refusal));
        assert_eq!(clear(&mut device, address, 0), Err(refusal));
        assert_eq!(list(&mut device, address, 1), Err(refusal));
    }
}

#[test]
fn first_drop_sets_the_time_and_nothing_clears_the_flag() {
    let mut device = full_with_three();
    device
        .answer(opcode::SET_TIMESTAMP, &100u64.to_le_bytes(), 0)
        .unwrap();
    assert_eq!(device.media_report(192, 1, 0, 5), Ok((0, 1)));
    assert_eq!(device.media_report(192, 1, 0, 8), Ok((0, 1)));
    for line in 0..600 {
        clear(&mut device, line * 64, 9).unwrap();
    }
    assert_eq!(device.damage_total(), 0);
    let reply = list(&mut device, 0, END / 64).unwrap();
    assert_eq!((reply.len(), reply[0], number(&reply[2..10])), (32, 2, 105));
    assert_eq!(device.line_test(0), Ok(LineAnswer::Unknown));
}

/// Document 01 "Promises": the paper fed only the calls and their answers.
#[derive(Default)]
struct Paper {
    damaged: BTreeSet<u64>,
    /// Start and length, ascending.
    entries: Vec<(u64, u64)>,
    dropped: BTreeSet<u64>,
    ever_dropped: bool,
}

impl Paper {
    fn covered(&self, line: u64) -> bool {
        let mut entries = self.entries.iter();
        entries.any(|(start, length)| (*start..start + length).contains(&line))
    }

    fn drop_line(&mut self, line: u64) {
        self.dropped.insert(line);
        self.ever_dropped = true;
    }

    fn report(&mut self, start: u64, lines: u64) {
        self.damaged.extend(start..start + lines);
        let mut runs: Vec<(u64, u64)> = Vec::new();
        for line in (start..start + lines).filter(|line| !self.covered(*line)) {
            match runs.last_mut() {
                Some((from, length)) if *from + *length == line => *length += 1,
                _ => runs.push((line, 1)),
            }
        }
        for (from, length) in runs {
            if self.entries.len() < 256 {
                self.entries.push((from, length));
                self.entries.sort_unstable();
                self.dropped
                    .retain(|line| !(from..from + length).contains(line));
            } else {
                (from..from + length).for_each(|line| self.drop_line(line));
            }
        }
    }

    fn inject(&mut self, line: u64) {
        self.damaged.insert(line);
        if !self.covered(line) {
            self.entries.push((line, 1));
            self.entries.sort_unstable();
            self.dropped.remove(&line);
        }
    }

    fn clear(&mut self, line: u64) {
        self.damaged.remove(&line);
        self.dropped.remove(&line);
        let over = |(start, length): &(u64, u64)| (*start..start + length).contains(&line);
        let Some(at) = self.entries.iter().position(over) else {
            return;
        };
        let full = self.entries.len() == 256;
        let (start, length) = self.entries.remove(at);
        let (before, after) = (line - start, start + length - line - 1);
        if before > 0 {
            self.entries.push((start, before));
        }
        if after > 0 && full && before > 0 {
            (line + 1..=line + after).for_each(|line| self.drop_line(line));
        } else if after > 0 {
            self.entries.push((line + 1, after));
        }
        self.entries.sort_unstable();
    }

    fn agrees(&self, device: &Device) {
        let entries: Vec<(u64, u64)> = device
            .poison_list()
            .entries()
            .map(|entry| (entry.start as u64, entry.lines as u64))
            .collect();
        assert_eq!(entries, self.entries);
        let total = device.damage_total() as usize + self.dropped.len();
        assert_eq!(self.damaged.len(), total);
        assert_eq!(device.poison_list().overflow().is_some(), self.ever_dropped);
        // Clean for no line in the set, also while media is disabled; the last part of demand
        // 3 "reads "while the flag is clear and media is enabled"" (W-207).
        let disabled = device.media_disabled();
        for line in 0..900 {
            let answer = device.line_test(line * 64).unwrap();
            let damaged = self.damaged.contains(&line);
            assert!(!(damaged && answer == LineAnswer::Clean));
            assert!(damaged || self.ever_dropped || disabled || answer == LineAnswer::Clean);
            assert_eq!(answer == LineAnswer::Disabled, disabled);
        }
    }
}

/// One list of random calls, with the paper beside it. The paper is touched neither by 0001h
/// nor by the end of a work (W-207), both of which come where `sanitizes` is set.
fn random_list(seed: u64, sanitizes: bool) -> usize {
    let mut random = Random::new(seed);
    let (mut device, mut paper) = (device(), Paper::default());
    // Some lists grow long entries, some many short ones.
    let longest = random.pick(&[2, 5, 30]);
    let (mut time, mut disabled) = (0, 0);
    for step in 0..2500 {
        let line = random.below(900);
        time += random.below(200_000_000);
        // A clock that goes back.
        let time = time - random.pick(&[0, 0, 0, time / 2, time]);
        match random.below(6) {
            _ if sanitizes && random.one_in(60) => {
                let _ = device.answer(opcode::SANITIZE, &[], time);
            }
            _ if sanitizes && random.one_in(60) => {
                let _ = device.event_report(random.below(6) as u8, &[0; 128], time);
            }
            0 | 1 => {
                let lines = random.between(1, longest);
                let kind = random.pick(&[0, 1, 2, 7, 3]);
                if device.media_report(line * 64, lines, kind, time).is_ok() {
                    paper.report(line, lines);
                }
            }
            2 | 3 => {
                if inject(&mut device, line * 64, time).is_ok() {
                    paper.inject(line);
                }
            }
            _ => {
                if clear(&mut device, line * 64, time).is_ok() {
                    paper.clear(line);
                }
            }
        }
        if step % 250 == 249 {
            paper.agrees(&device);
            disabled += usize::from(device.media_disabled());
        }
    }
    disabled
}

#[test]
fn demand_3_on_random_lists_of_calls() {
    for seed in 0..40 {
        assert_eq!(random_list(seed, false), 0);
    }
    let disabled: usize = (0..40).map(|seed| random_list(seed, true)).sum();
    assert!((100..300).contains(&disabled), "{disabled} of 400 looks");
}
