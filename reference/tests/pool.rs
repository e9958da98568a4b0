//! Document 02, W-208, sentence by sentence: the pool manager's mailbox beside the first one;
//! and what document 10 has of it.

mod common;

use common::{busy, busy_and_full, cm, each_record, pc, time_of};
use reference::bench;
use reference::compare::without_pool;
use reference::device::fault::pool::WrongPool;
use reference::device::numbers::{opcode, LABEL_AREA};
use reference::device::pool::Mailbox;
use reference::device::{Config, Device, Fault, EFFECTS_IDENTIFIER};
use reference::format::Format::Probe;
use reference::generate::{profile_of, profiles, DEFAULT_SEEDS};
use reference::probe::lines_of;
use reference::probe::record::{Call, Record};
use std::collections::{BTreeMap, BTreeSet};

/// "It may use 0100h, 0102h, 0300h, 0400h, 0401h, 4000h and 4300h", with the payload length of
/// each (document 01).
const SEVEN: [(u16, usize); 7] = [
    (0x0100, 1),
    (0x0102, 0),
    (0x0300, 0),
    (0x0400, 0),
    (0x0401, 24),
    (0x4000, 0),
    (0x4300, 16),
];
/// The device's other commands.
const OTHERS: [u16; 8] = [
    0x0101, 0x0103, 0x0301, 0x4102, 0x4103, 0x4301, 0x4302, 0x4400,
];
/// The work of a device of one unit.
const WORK: u64 = 4_000_000_000;

/// A command of this mailbox in a buffer of 2,048 bytes: the number and the reply.
fn ask(device: &Device, code: u16, payload: &[u8], time: u64) -> (u16, Vec<u8>) {
    let mut reply = [0; 2048];
    let (number, length) = device.pool_command(code, payload, time, &mut reply);
    (number, reply[..length].to_vec())
}

/// The same through the first mailbox, on a copy of the device.
fn ask_first(device: &Device, code: u16, payload: &[u8], time: u64) -> (u16, Vec<u8>) {
    match device.clone().answer(code, payload, time) {
        Ok(reply) => (0, reply),
        Err(refusal) => (refusal.number(), Vec::new()),
    }
}

fn get_log(offset: u32, length: u32) -> Vec<u8> {
    let range = [offset.to_le_bytes(), length.to_le_bytes()].concat();
    [&EFFECTS_IDENTIFIER[..], &range].concat()
}

fn get_list(address: u64, lines: u64) -> Vec<u8> {
    [address.to_le_bytes(), lines.to_le_bytes()].concat()
}

fn new_device() -> Device {
    Device::make(3, 2, Config::default()).1
}

/// `busy` with a Sanitize begun at time 10.
fn running() -> Device {
    let mut device = busy();
    let started = device.command(0x4400, &[], 10, &mut [0; LABEL_AREA], &mut [0; 2048]);
    assert_eq!(started.number, 1);
    device
}

/// Payloads of the seven but Get Log's and Get Supported Logs', taken and refused by the
/// command's own checks.
fn questions() -> Vec<(u16, Vec<u8>)> {
    let mut all: Vec<(u16, Vec<u8>)> = vec![(0x0102, vec![]), (0x0300, vec![]), (0x4000, vec![])];
    all.extend([0, 1, 2, 3, 4, 5, 255].map(|log| (0x0100, vec![log])));
    let end = 268_435_456;
    let ranges = [
        (0, 0),
        (0, 4_194_304),
        (64, 5),
        (128, 1),
        (128 + 1, 1),
        (end, 0),
        (end, 1),
        (end - 64, 2),
        (u64::MAX - 63, 1),
        (u64::MAX, u64::MAX),
    ];
    all.extend(ranges.map(|(address, lines)| (0x4300, get_list(address, lines))));
    all
}

/// "with the replies the first mailbox would give on the device as it stands"
#[test]
fn the_replies_of_the_first_mailbox() {
    for device in [new_device(), busy(), busy_and_full()] {
        for time in [0, 5, 999, u64::MAX] {
            for (code, payload) in questions() {
                let asked = ask(&device, code, &payload, time);
                assert_eq!(
                    asked,
                    ask_first(&device, code, &payload, time),
                    "{code:04x}"
                );
            }
        }
    }
}

/// "save that its effects log and that log's size list those seven": 4 bytes a command, opcode
/// then effect, 28 bytes; the first mailbox's has 60.
#[test]
fn the_effects_log() {
    let rows = SEVEN.map(|(code, _)| [code.to_le_bytes(), [0, 0]].concat());
    let log = rows.concat();
    assert_eq!(log.len(), 28);
    for device in [new_device(), busy(), running()] {
        let (number, supported) = ask(&device, 0x0400, &[], 0);
        let head = [&[1, 0, 0, 0, 0, 0, 0, 0][..], &EFFECTS_IDENTIFIER].concat();
        assert_eq!(number, 0);
        assert_eq!(supported, [&head[..], &[28, 0, 0, 0]].concat());
        let first = ask_first(&device, 0x0400, &[], 0).1;
        assert_eq!(first, [&head[..], &[60, 0, 0, 0]].concat());
        for offset in 0..=64u32 {
            for length in (0..=64).chain([2047, 2048, 2049, u32::MAX - offset]) {
                let asked = ask(&device, 0x0401, &get_log(offset, length), 0);
                let end = u64::from(offset) + u64::from(length);
                let expected = match end <= 28 {
                    true => (0, log[offset as usize..end as usize].to_vec()),
                    false => (2, vec![]),
                };
                assert_eq!(asked, expected, "{offset} {length}");
                let first = ask_first(&device, 0x0401, &get_log(offset, length), 0);
                assert_eq!(first.0, if end <= 60 { 0 } else { 2 });
            }
        }
        // Sums that are 0, 1 and 28 in 32 bits.
        for below in 1..=64 {
            for length in [below, below + 1, below + 28] {
                let payload = get_log(0u32.wrapping_sub(below), length);
                assert_eq!(ask(&device, 0x0401, &payload, 0), (2, vec![]));
            }
        }
        // "other identifier 0017h", whatever the range is.
        for place in 0..16 {
            for (offset, length) in [(0, 0), (0, 28), (29, 0), (0, 2049)] {
                let mut payload = get_log(offset, length);
                payload[place] ^= 0x10;
                assert_eq!(ask(&device, 0x0401, &payload, 0), (0x17, vec![]));
            }
        }
    }
}

/// "an opcode the device has and this mailbox hasn't, 0015h, directly after 0003h": every
/// opcode of 16 bits, with payloads of several lengths.
#[test]
fn every_opcode() {
    for device in [busy(), running()] {
        for code in 0..=u16::MAX {
            for length in [0, 1, 8, 16, 24] {
                let number = ask(&device, code, &vec![0; length], 11).0;
                let right = SEVEN.contains(&(code, length));
                match SEVEN.iter().any(|(own, _)| *own == code) {
                    // Sixteen zero bytes are no identifier that there is.
                    true if code == 0x0401 && right => assert_eq!(number, 0x17),
                    true if right => assert_eq!(number, 0, "{code:04x}"),
                    true => assert_eq!(number, 0x16, "{code:04x} {length}"),
                    false if OTHERS.contains(&code) => assert_eq!(number, 0x15, "{code:04x}"),
                    false => assert_eq!(number, 3, "{code:04x}"),
                }
            }
        }
    }
}

/// The list of the commands says which both mailboxes have.
#[test]
fn the_list_of_the_commands() {
    let pool: Vec<u16> = Mailbox::Pool.commands().map(|row| row.code).collect();
    assert_eq!(pool, SEVEN.map(|(code, _)| code));
    let first: Vec<u16> = Mailbox::First.commands().map(|row| row.code).collect();
    assert_eq!(first, opcode::ALL);
    let mut all = [&pool[..], &OTHERS].concat();
    all.sort();
    assert_eq!(all, first);
}

/// "0100h; payload over 2,048 bytes, 0016h; 0003h; 0015h; wrong length, 0016h; then the
/// command's own checks": each command that is refused for a check and later ones gets the
/// number of the first, and no byte of its buffer is altered.
#[test]
fn the_order_of_refusals() {
    // Opcode and payload, and the number in a buffer of 2,048 bytes.
    let cases: Vec<(u16, Vec<u8>, u16)> = vec![
        (0x4000, vec![0; 2049], 0x16),
        (0x0100, vec![5; 2049], 0x16),
        (0xffff, vec![0; 2049], 0x16),
        (0x4400, vec![0; 2049], 0x16),
        (0x0101, vec![0; 4096], 0x16),
        (0xffff, vec![0; 2048], 3),
        (0x0000, vec![], 3),
        (0x4303, vec![0; 16], 3),
        (0x4400, vec![0; 2048], 0x15),
        (0x0101, vec![0; 5], 0x15),
        (0x0103, vec![2; 4], 0x15),
        (0x0301, vec![0; 7], 0x15),
        (0x4102, vec![0xff; 8], 0x15),
        (0x4103, vec![0xff; 8], 0x15),
        (0x4301, vec![1; 9], 0x15),
        (0x4302, vec![0xff; 72], 0x15),
        (0x0100, vec![5; 2], 0x16),
        (0x0102, vec![0], 0x16),
        (0x4300, vec![0xff; 17], 0x16),
        (0x4300, vec![0xff; 2048], 0x16),
        (0x0401, vec![0; 23], 0x16),
        (0x0401, vec![0xff; 24], 0x17),
        (0x4300, vec![0xff; 16], 2),
        (0x4300, get_list(268_435_456, 1), 15),
        (0x0100, vec![5], 2),
    ];
    for device in [busy(), running()] {
        for time in [0, 10, WORK + 9, WORK + 10, u64::MAX] {
            for (code, payload, number) in &cases {
                for room in [0, 1, 2047, 2048, 2049, 4096] {
                    let mut buffer = vec![0xa7; room];
                    let answer = device.pool_command(*code, payload, time, &mut buffer);
                    let expected = if room < 2048 { 0x100 } else { *number };
                    assert_eq!(answer, (expected, 0), "{code:04x}, room {room}");
                    assert_eq!(buffer, vec![0xa7; room]);
                }
            }
        }
    }
}

/// "On Success of length n the first n reply bytes are written, the others stay", and 0100h
/// exactly under 2,048 bytes.
#[test]
fn rooms_and_bytes_kept() {
    let device = busy_and_full();
    let mut all = questions();
    all.extend([
        (0x0400, vec![]),
        (0x0401, get_log(0, 28)),
        (0x0401, get_log(28, 0)),
    ]);
    for (code, payload) in all {
        let (number, reply) = ask(&device, code, &payload, 7);
        for fill in [0, 0xff, 0x42] {
            for room in [0, 1, 32, 69, 2046, 2047, 2048, 2049, 4096] {
                let mut buffer = vec![fill; room];
                let answer = device.pool_command(code, &payload, 7, &mut buffer);
                if room < 2048 {
                    assert_eq!((answer, buffer), ((0x100, 0), vec![fill; room]));
                    continue;
                }
                assert_eq!(answer, (number, reply.len()));
                assert_eq!(buffer[..reply.len()], reply);
                assert!(buffer[reply.len()..].iter().all(|byte| *byte == fill));
            }
        }
    }
    // The longest reply fills the smallest buffer that is taken.
    let whole = get_list(0, 4_194_304);
    assert_eq!(ask(&device, 0x4300, &whole, 7).1.len(), 2048);
}

/// "a due Sanitize not ended first .. never end a Sanitize": before the beginning, during the
/// work, at its end and after it the replies are those of the device as it stands. The first
/// mailbox ends the work itself then.
#[test]
fn a_due_sanitize_is_not_ended() {
    let device = running();
    let idle = busy();
    let due = 10 + WORK;
    for time in [0, 10, due - 1, due, due + 1, u64::MAX] {
        for (code, payload) in questions() {
            let asked = ask(&device, code, &payload, time);
            // `idle` has no work, so that its replies are those of the logs as they were.
            assert_eq!(
                asked,
                ask_first(&idle, code, &payload, time),
                "{code:04x} at {time}"
            );
        }
        assert!(device.media_disabled());
        assert_eq!(device.event_status(), idle.event_status());
    }
    // At a due time each of the first mailbox's own ends it.
    for (code, length) in SEVEN {
        let mut next = device.clone();
        let (mut labels, mut reply) = ([0; LABEL_AREA], [0; 2048]);
        next.command(code, &vec![0; length], due - 1, &mut labels, &mut reply);
        assert_eq!(next, device, "not due");
        next.command(code, &vec![0; length], due, &mut labels, &mut reply);
        assert!(!next.media_disabled());
        // "as it stands" is then the device after the ending.
        assert_eq!(ask(&next, 0x0100, &[0], 0), (0, vec![0; 32]));
    }
}

/// "Refusals, after the length check" of W-207 concern none of the seven.
#[test]
fn nothing_is_refused_while_disabled() {
    let device = running();
    for time in [0, 10, 10 + WORK] {
        for (code, length) in SEVEN {
            let payload = match code {
                0x0401 => get_log(0, 28),
                _ => vec![0; length],
            };
            assert_eq!(ask(&device, code, &payload, time).0, 0, "{code:04x}");
        }
        for code in OTHERS {
            assert_eq!(ask(&device, code, &[], time).0, 0x15, "{code:04x}");
        }
    }
}

fn text(parts: &[Vec<u8>]) -> String {
    String::from_utf8(lines_of(&parts.concat(), Config::default())).unwrap()
}

const NEW: &[u8] = b"NW\x01\0\0\0";

/// Document 10: "`PC code length bytes kept`: the second mailbox", fields as CM, no vector
/// column, room and payload length at most 4,096. AR does not touch it.
#[test]
fn the_record() {
    let new = NEW.to_vec();
    let asked = pc(0, 0x0300, 2048, 0xee, &[]);
    let said = "PC 0 8 0000000000000000 1\n";
    assert_eq!(text(&[new.clone(), asked.clone()]), format!("NW 0\n{said}"));
    let first = text(&[new.clone(), cm(0x0300, 2048, 0xee, &[])]);
    assert_eq!(first, "NW 0\nCM 0 8 0000000000000000 1 0\n");
    // The caller's time is the record's.
    let set = cm(0x0301, 2048, 0, &5u64.to_le_bytes());
    let later = pc(3, 0x0300, 4096, 0, &[]);
    let lines = text(&[new.clone(), set, later]);
    assert_eq!(lines, "NW 0\nCM 0 0 - 1 0\nPC 0 8 0800000000000000 1\n");
    for (record, line) in [
        (pc(0, 0x0300, 0, 0xee, &[]), "PC 256 0 - 1\n"),
        (pc(0, 0x0300, 2047, 0xee, &[]), "PC 256 0 - 1\n"),
        (pc(0, 0x0300, 4096, 0xee, &[0; 4096]), "PC 22 0 - 1\n"),
        (pc(0, 0x4400, 2048, 0xee, &[]), "PC 21 0 - 1\n"),
        (pc(0, 0xffff, 2048, 0xee, &[]), "PC 3 0 - 1\n"),
        (pc(0, 0x0300, 4097, 0xee, &[]), "BAD 6\n"),
        (pc(0, 0x0300, 65535, 0xee, &[]), "BAD 6\n"),
        (pc(0, 0x0300, 2048, 0xee, &[0; 4097]), "BAD 6\n"),
    ] {
        assert_eq!(text(&[new.clone(), record]), format!("NW 0\n{line}"));
    }
    for size in [0u32, 1, 4095, 4097, 8192] {
        let area = [b"AR".to_vec(), size.to_le_bytes().to_vec()].concat();
        let identify = cm(0x4000, 2048, 0, &[]);
        let lines = text(&[new.clone(), area, asked.clone(), identify]);
        assert_eq!(lines, format!("NW 0\nAR\n{said}CM 256 0 - 1 0\n"));
    }
    // "The first record must be a make"; a cut record; no record of bench.
    assert_eq!(text(&[asked.clone(), new.clone()]), "BAD 0\n");
    let long = pc(0, 0x0301, 2048, 0, &[1; 8]);
    for cut in 1..long.len() {
        assert_eq!(text(&[new.clone(), long[..cut].to_vec()]), "NW 0\nBAD 6\n");
    }
    let stream = [new, asked].concat();
    assert_eq!(
        bench::lines_of(&stream, Config::default()),
        b"NW 0\nBAD 6\n"
    );
}

/// The lines of a stream that are not the pool manager's; of a bad rest without its offset,
/// which is another one where records before it are left out.
fn other_lines(stream: &[u8], config: Config) -> Vec<String> {
    let text = String::from_utf8(lines_of(stream, config)).unwrap();
    let line = |line: &str| line.split_inclusive("BAD ").next().unwrap().to_string();
    let others = text.lines().filter(|line| !line.starts_with("PC "));
    others.map(line).collect()
}

/// "so any number of them, put between the first mailbox's calls, alter no answer of those":
/// generated streams of every profile, with the commands of this mailbox and without.
#[test]
fn silence() {
    let mut left_out = 0;
    for profile in profiles(Probe).iter().filter(|profile| !profile.large) {
        let with = profile.stream_of(Probe, 3, 1, None);
        let without = without_pool(Probe, &with);
        left_out += usize::from(without.len() < with.len());
        let [with, without] = [with, without].map(|s| other_lines(&s, Config::default()));
        assert!(with == without, "{}", profile.name);
    }
    assert!(left_out > 50, "{left_out}");
}

/// The same comparison tells a mailbox that is not silent.
#[test]
fn silence_is_told_from_a_change() {
    let loud = [
        WrongPool::EndsWork,
        WrongPool::EndsWorkAfterwards,
        WrongPool::RefusedEndsWork,
        WrongPool::BeginsWorkAgain,
        WrongPool::SetsClock,
        WrongPool::ClearsRecords,
        WrongPool::DisablesInterrupts,
        WrongPool::ClearsFlag,
        WrongPool::ClearsStore,
        WrongPool::RefusedButDone(0x0101),
        WrongPool::RefusedButDone(0x4400),
    ];
    for wrong in loud {
        let config = Config {
            fault: Some(Fault::Pool(wrong)),
        };
        let differs = (0..8).any(|seed| {
            let names = ["pool-silence", "pool-sanitize", "pool-replies"];
            names.iter().any(|name| {
                let all = profiles(Probe);
                let profile = all.iter().find(|profile| profile.name == *name).unwrap();
                let with = profile.stream_of(Probe, seed, 0, None);
                let without = without_pool(Probe, &with);
                other_lines(&with, config) != other_lines(&without, config)
            })
        });
        assert!(differs, "{wrong:?}");
    }
}

/// The situations of W-208 in the streams of the default seeds, with how often each is reached,
/// and the opcodes.
fn situations() -> (BTreeMap<String, usize>, BTreeSet<u16>) {
    let mut found = BTreeMap::new();
    let mut opcodes = BTreeSet::new();
    for seed in DEFAULT_SEEDS {
        let profile = profile_of(Probe, seed);
        if !profile.name.starts_with("pool-") {
            continue;
        }
        // Whether the last record was a command of this mailbox at a time that is due.
        let mut at_due = false;
        each_record(Probe, profile, seed, 0, |record, before, after| {
            let mut count = |what: String| *found.entry(what).or_insert(0) += 1;
            let line = String::from_utf8_lossy(after.line.as_bytes()).to_string();
            let number = line.split_whitespace().nth(1).unwrap_or("-").to_string();
            let due = before.work().map(|work| work.due_time());
            let is_due = |time: u64| due.is_some_and(|due| u128::from(time) >= due);
            match record {
                Record::Pool(call) => {
                    opcodes.insert(call.opcode);
                    count_call(&mut count, call, &number);
                    let lent = after.labels().lent().len();
                    count(format!("pool, area of 4096 lent: {}", lent == LABEL_AREA));
                    let held = before.poison_list().held();
                    if held == 256 && call.opcode == 0x4300 && number == "0" {
                        let flag = before.poison_list().overflow().is_some();
                        count(format!("list of 256 entries, flag {flag}"));
                    }
                    let apart = due.map(|due| i128::from(call.time) - due as i128);
                    if let Some(apart @ -1..=1) = apart {
                        count(format!("{:04x}h at {apart}, {number}", call.opcode));
                    }
                    let work = if due.is_some() { "runs" } else { "runs not" };
                    count(format!("{:04x}h, {number}, work {work}", call.opcode));
                    at_due = is_due(call.time);
                }
                record => {
                    if at_due && time_of(record).is_some_and(is_due) {
                        let kind = match record {
                            Record::Command(call) => format!("{:04x}h", call.opcode),
                            record => record.mark().to_string(),
                        };
                        let logs = (0..5).filter(|log| !before.log(*log).is_empty());
                        count(format!("{kind} ends after a pool command at due"));
                        count(format!("{} logs held at due", logs.count()));
                    }
                    if let Record::Status | Record::Line { .. } = record {
                        if at_due {
                            count(format!("{} after a pool command at due", record.mark()));
                        }
                    }
                    at_due = false;
                }
            }
        });
    }
    (found, opcodes)
}

/// Rooms, lengths and ranges of a command.
fn count_call(count: &mut impl FnMut(String), call: &Call, number: &str) {
    let (code, length) = (call.opcode, call.payload.len());
    let kind = match code {
        code if OTHERS.contains(&code) => "other",
        code if SEVEN.iter().any(|(own, _)| *own == code) => "own",
        _ => "unknown",
    };
    count(format!("{kind}, room {}", call.room));
    if call.room >= 2048 {
        count(format!("{kind}, length {length}, {number}"));
    }
    if (code, length) == (0x0401, 24) && call.room >= 2048 {
        let part = |at: usize| u32::from_le_bytes(call.payload[at..at + 4].try_into().unwrap());
        let (offset, size) = (part(16), part(20));
        if call.payload[..16] != EFFECTS_IDENTIFIER {
            count(format!("another identifier, {number}"));
        } else if offset.checked_add(size).is_none() {
            count(format!("a sum that wraps, {number}"));
        } else {
            count(format!("offset {offset}, {number}"));
            count(format!("length {size}, {number}"));
            count(format!("end {}, {number}", offset + size));
        }
    }
}

#[test]
fn default_seeds_reach_the_pools_mailbox() {
    let (found, opcodes) = situations();
    assert_eq!(opcodes.len(), 65_536, "every opcode of 16 bits");
    let mut wanted = Vec::new();
    for kind in ["own", "other", "unknown"] {
        for room in [0, 1, 2047, 2048, 2049, 4096] {
            wanted.push(format!("{kind}, room {room}"));
        }
        for length in (0..=25).chain([2047, 2048]) {
            let number = match kind {
                "other" => 0x15,
                "unknown" => 3,
                _ => 0x16,
            };
            wanted.push(format!("{kind}, length {length}, {number}"));
        }
        for length in [2049, 4096] {
            wanted.push(format!("{kind}, length {length}, 22"));
        }
    }
    for (code, _) in SEVEN {
        for work in ["runs", "runs not"] {
            for number in [0, 0x16, 0x100] {
                wanted.push(format!("{code:04x}h, {number}, work {work}"));
            }
        }
        for apart in -1..=1 {
            wanted.push(format!("{code:04x}h at {apart}, 0"));
        }
    }
    for code in OTHERS {
        for work in ["runs", "runs not"] {
            for number in [0x15, 0x16, 0x100] {
                wanted.push(format!("{code:04x}h, {number}, work {work}"));
            }
        }
        for apart in -1..=1 {
            wanted.push(format!("{code:04x}h at {apart}, 21"));
        }
    }
    for code in opcode::ALL {
        wanted.push(format!("{code:04x}h ends after a pool command at due"));
    }
    for what in ["EV ends", "MD ends", "ES", "LT"] {
        wanted.push(format!("{what} after a pool command at due"));
    }
    for logs in 0..=5 {
        wanted.push(format!("{logs} logs held at due"));
    }
    for offset in [0, 27, 28] {
        wanted.push(format!("offset {offset}, 0"));
    }
    for offset in [0, 27, 28, 29, 60, 64] {
        wanted.push(format!("offset {offset}, 2"));
    }
    for length in [0, 27, 28] {
        wanted.push(format!("length {length}, 0"));
    }
    for length in [0, 27, 28, 29, 60, 64, 2048, 2049] {
        wanted.push(format!("length {length}, 2"));
    }
    for (end, number) in [(0, 0), (27, 0), (28, 0), (29, 2), (60, 2), (61, 2), (64, 2)] {
        wanted.push(format!("end {end}, {number}"));
    }
    wanted.push("a sum that wraps, 2".to_string());
    wanted.push("another identifier, 23".to_string());
    for flag in [true, false] {
        wanted.push(format!("list of 256 entries, flag {flag}"));
        wanted.push(format!("pool, area of 4096 lent: {flag}"));
    }
    for what in &wanted {
        assert!(found.contains_key(what), "{what} in {found:#?}");
    }
}
