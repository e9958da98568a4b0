//! Document 02, W-207, sentence by sentence: Sanitize, its work, the ending and disabled media;
//! and what document 10 has of it.

mod common;

use common::{busy, busy_and_full, cm, each_record, found, rightly_lent, time_of};
use reference::bench;
use reference::device::events::EventLog;
use reference::device::numbers::{number, opcode, Refusal, LABEL_AREA};
use reference::device::{Answered, Config, Device, LineAnswer};
use reference::format::Format::{self, Bench, Probe};
use reference::generate::{profile_named, profile_of, DEFAULT_SEEDS};
use reference::host::walk::walk;
use reference::probe::lines_of;
use reference::probe::record::{Call, Record};
use std::collections::BTreeMap;

const SANITIZE: u16 = 0x4400;
const SECOND: u64 = 1_000_000_000;
/// The size of a unit in bytes.
const UNIT: u64 = 268_435_456;

const LIMIT: Result<Vec<u8>, Refusal> = Err(Refusal::InjectPoisonLimit);
const DISABLED: Result<Vec<u8>, Refusal> = Err(Refusal::MediaDisabled);

/// Units at the edges of the ten rows, and the seconds of each: "4 seconds up to 512 MiB, 8 to
/// 1 GiB, 15 to 2, 30 to 4, 60 to 8, 120 to 16, 240 to 32, 480 to 64, 900 to 128, 1,800 to 256
/// GiB".
const SECONDS: [(u16, u64); 20] = [
    (1, 4),
    (2, 4),
    (3, 8),
    (4, 8),
    (5, 15),
    (8, 15),
    (9, 30),
    (16, 30),
    (17, 60),
    (32, 60),
    (33, 120),
    (64, 120),
    (65, 240),
    (128, 240),
    (129, 480),
    (256, 480),
    (257, 900),
    (512, 900),
    (513, 1800),
    (1023, 1800),
];

/// The work of a device of one or two units.
const WORK: u64 = 4 * SECOND;

fn make(volatile: u16, persistent: u16) -> Device {
    let (answer, device) = Device::make(volatile, persistent, Config::default());
    assert_eq!(answer, Ok(()));
    device
}

/// A command that is rightly lent all: the number, the reply length and the vector.
fn run(device: &mut Device, code: u16, payload: &[u8], time: u64) -> (u16, usize, Option<u8>) {
    let (mut labels, mut reply) = ([0; LABEL_AREA], [0; 2048]);
    let answer = device.command(code, payload, time, &mut labels, &mut reply);
    (answer.number, answer.length, answer.vector)
}

/// Sanitize that is started.
fn start(device: &mut Device, time: u64) {
    assert_eq!(run(device, SANITIZE, &[], time), (1, 0, None));
    assert!(device.media_disabled());
}

fn inject(device: &mut Device, address: u64, time: u64) -> Result<Vec<u8>, Refusal> {
    device.answer(opcode::INJECT_POISON, &address.to_le_bytes(), time)
}

fn clear_payload(address: u64) -> Vec<u8> {
    [&address.to_le_bytes()[..], &[0; 64]].concat()
}

/// Policy, clock and the list as replies; the line tests where media is enabled.
fn kept_parts(device: &Device) -> Vec<Vec<u8>> {
    let mut device = device.clone();
    let whole = [0, device.lines() as u64].map(u64::to_le_bytes).concat();
    let mut parts = Vec::new();
    for (code, payload) in [
        (opcode::GET_POLICY, &[][..]),
        (opcode::GET_TIMESTAMP, &[]),
        (opcode::IDENTIFY, &[]),
        (opcode::GET_SUPPORTED_LOGS, &[]),
        (opcode::GET_POISON_LIST, &whole),
    ] {
        // At time 0 no work is due.
        parts.push(device.answer(code, payload, 0).unwrap());
    }
    parts
}

/// The replies of Get Event Records of all five logs at time 0.
fn logs(device: &Device) -> Vec<Vec<u8>> {
    let mut device = device.clone();
    let read = |log| device.answer(opcode::GET_EVENT_RECORDS, &[log], 0).unwrap();
    (0..5).map(read).collect()
}

fn next_handles(device: &Device) -> Vec<u16> {
    (0..5).map(|log| device.log(log).next_handle()).collect()
}

/// What an ending leaves: "all five logs are emptied with their overflow counts and times,
/// next handles go on, and media is enabled"; all else stays.
fn assert_ended(before: &Device, after: &Device) {
    assert!(!after.media_disabled());
    assert_eq!(logs(after), vec![vec![0; 32]; 5]);
    assert_eq!(next_handles(after), next_handles(before));
    assert_eq!(kept_parts(after), kept_parts(before));
    assert_eq!(after.event_status(), (0, 0, 5));
    assert_eq!(after.damage_total(), before.damage_total());
}

/// A call that leaves device and clock alone: Get Timestamp.
fn look(device: &mut Device, time: u64) {
    device.answer(opcode::GET_TIMESTAMP, &[], time).unwrap();
}

/// "Sanitize 4400h (no payload, effect 64h) answers 0001h, started, with no reply": no byte of
/// buffer and area is altered, no vector is carried, and the logs are not touched yet.
#[test]
fn the_start() {
    for fill in [0, 0xff, 0xa5] {
        for room in [2048, 2049, 4096] {
            let (before, mut device) = (busy(), busy());
            let (mut labels, mut reply) = (vec![0x3c; LABEL_AREA], vec![fill; room]);
            let answer = device.command(SANITIZE, &[], 99, &mut labels, &mut reply);
            let started = Answered {
                number: 1,
                length: 0,
                vector: None,
            };
            assert_eq!(answer, started);
            assert_eq!((labels, reply), (vec![0x3c; LABEL_AREA], vec![fill; room]));
            assert!(device.media_disabled());
            assert_ne!(device, before);
            assert_eq!(logs(&device), logs(&before));
            assert_eq!(kept_parts(&device), kept_parts(&before));
            assert_eq!(next_handles(&device), next_handles(&before));
            assert_eq!(device.event_status(), before.event_status());
        }
    }
}

/// "no payload": any other length is 0016h, whether a work runs or not, and changes nothing.
#[test]
fn a_payload_is_refused() {
    let mut running = busy();
    start(&mut running, 10);
    for before in [busy(), running] {
        for length in [1, 2, 8, 64, 2047, 2048, 2049, 4096] {
            for byte in [0, 0xff] {
                let mut device = before.clone();
                let answer = run(&mut device, SANITIZE, &vec![byte; length], 20);
                assert_eq!(answer, (0x0016, 0, None));
                assert_eq!(device, before);
            }
        }
    }
}

/// The fifteenth command of the effects log, "effect 64h".
#[test]
fn the_effects_log() {
    let mut device = make(1, 0);
    let reply = device.answer(opcode::GET_SUPPORTED_LOGS, &[], 0).unwrap();
    assert_eq!(reply[24..], [60, 0, 0, 0]);
    let mut ask = |offset: u32, length: u32| {
        let range = [offset.to_le_bytes(), length.to_le_bytes()].concat();
        device.answer(opcode::GET_LOG, &[&reply[8..24], &range].concat(), 0)
    };
    assert_eq!(ask(56, 4), Ok(vec![0x00, 0x44, 0x64, 0x00]));
    let log = ask(0, 60).unwrap();
    let codes: Vec<u64> = log.chunks(4).map(|entry| number(&entry[..2])).collect();
    assert_eq!(codes.len(), 15);
    assert!(codes.windows(2).all(|pair| pair[0] < pair[1]));
    assert_eq!(ask(60, 0), Ok(vec![]));
    assert_eq!(ask(57, 4), Err(Refusal::InvalidInput));
    assert_eq!(ask(0, 61), Err(Refusal::InvalidInput));
}

/// Each row of the table at its edges, by the total of volatile and persistent units: one
/// nanosecond before the due time nothing is ended, at it and one nanosecond after it the work
/// is, by each kind of call that carries a time.
#[test]
fn every_row_at_its_edge() {
    let calls: [fn(&mut Device, u64); 5] = [
        look,
        |device, time| _ = device.event_report(1, &[0; 128], time),
        |device, time| _ = device.media_report(64, 1, 0, time),
        |device, time| _ = device.event_report(5, &[0; 128], time),
        |device, time| _ = device.media_report(1, 0, 9, time),
    ];
    for (units, seconds) in SECONDS {
        for volatile in [0, 1, units / 2, units - 1, units] {
            for begin in [0, 1, 4_999_999_999, 1 << 63, u64::MAX - 1801 * SECOND] {
                let due = begin + seconds * SECOND;
                for call in calls {
                    for (time, ends) in [(due - 1, false), (due, true), (due + 1, true)] {
                        let mut device = make(volatile, units - volatile);
                        device.event_report(2, &[7; 128], 0).unwrap();
                        start(&mut device, begin);
                        call(&mut device, time);
                        assert_eq!(device.media_disabled(), !ends, "{units} {begin} {time}");
                        assert_eq!(device.log(2).is_empty(), ends);
                    }
                }
            }
        }
    }
}

/// Every count of units has the seconds of its row, inclusive, never fewer than a smaller one.
#[test]
fn every_count_of_units() {
    for units in 1..=1023 {
        let row = SECONDS.iter().rfind(|(from, _)| *from <= units).unwrap();
        let mut device = make(units, 0);
        start(&mut device, 0);
        look(&mut device, row.1 * SECOND - 1);
        assert!(device.media_disabled(), "{units}");
        look(&mut device, row.1 * SECOND);
        assert!(!device.media_disabled(), "{units}");
    }
}

/// "all five logs are emptied with their overflow counts and times, next handles go on, and
/// media is enabled"; clock, policy, list, flag and the lent area stay.
#[test]
fn what_the_ending_leaves() {
    for before in [busy(), busy_and_full()] {
        let mut device = before.clone();
        start(&mut device, 1000);
        let (mut labels, mut reply) = (vec![0x3c; LABEL_AREA], [0; 2048]);
        let time = 1000 + WORK;
        device.command(opcode::GET_POLICY, &[], time, &mut labels, &mut reply);
        assert_ended(&before, &device);
        assert_eq!(labels, vec![0x3c; LABEL_AREA]);
        for line in [0, 1, 2, 3, 4, 5, 1000, 1001, 3000] {
            assert_eq!(device.line_test(line * 64), before.line_test(line * 64));
        }
        // The logs go on with their handles, and an overflow begins anew.
        for log in 0..5 {
            let next = before.log(log.into()).next_handle();
            for _ in 0..9 {
                device.event_report(log, &[1; 128], time).unwrap();
            }
            let held: Vec<u16> = (next..next + 8).collect();
            assert_eq!(device.log(log.into()).handles(), held);
            assert_eq!(device.log(log.into()).overflow_count(), 1);
        }
    }
}

/// Handles that have come round go on over an ending too.
#[test]
fn handles_go_on_past_65535() {
    let mut device = make(1, 0);
    for _ in 0..65_534 / 2 {
        for _ in 0..2 {
            device.event_report(3, &[0; 128], 0).unwrap();
        }
        let [one, other] = device.log(3).handles()[..] else {
            panic!("two are held");
        };
        let handles = [one.to_le_bytes(), other.to_le_bytes()].concat();
        let payload = [&[3, 0, 2, 0, 0, 0][..], &handles].concat();
        let cleared = device.answer(opcode::CLEAR_EVENT_RECORDS, &payload, 0);
        assert_eq!(cleared, Ok(vec![]));
    }
    assert_eq!(device.log(3).next_handle(), 65_535);
    for handle in [65_535, 1, 2] {
        start(&mut device, 0);
        device.event_report(3, &[0; 128], WORK).unwrap();
        assert_eq!(device.log(3).handles(), [handle]);
    }
}

/// A refused call of each kind, on `busy_and_full`: opcode, payload and number.
fn refused_commands() -> Vec<(u16, Vec<u8>, u16)> {
    let unaligned = 1u64.to_le_bytes().to_vec();
    let outside = UNIT.to_le_bytes().to_vec();
    let id = [9; 16];
    vec![
        (0xffff, vec![], 0x0003),
        (0x4401, vec![], 0x0003),
        (opcode::GET_TIMESTAMP, vec![0], 0x0016),
        (opcode::GET_TIMESTAMP, vec![0; 2049], 0x0016),
        (SANITIZE, vec![0], 0x0016),
        (opcode::GET_EVENT_RECORDS, vec![5], 0x0002),
        (opcode::CLEAR_EVENT_RECORDS, vec![0; 5], 0x0016),
        (opcode::CLEAR_EVENT_RECORDS, vec![0, 0, 1, 0, 0, 0], 0x0016),
        (opcode::CLEAR_EVENT_RECORDS, vec![0, 2, 0, 0, 0, 0], 0x0002),
        (opcode::CLEAR_EVENT_RECORDS, vec![5, 0, 0, 0, 0, 0], 0x0002),
        (opcode::SET_POLICY, vec![2; 5], 0x0002),
        (opcode::GET_LOG, [&id[..], &[0; 8]].concat(), 0x0017),
        (opcode::GET_LSA, vec![0xff; 8], 0x0002),
        (opcode::SET_LSA, vec![0xff; 9], 0x0002),
        (
            opcode::GET_POISON_LIST,
            [&unaligned[..], &[0; 8]].concat(),
            0x0002,
        ),
        (
            opcode::GET_POISON_LIST,
            [&outside[..], &[1; 8]].concat(),
            0x000f,
        ),
        (opcode::INJECT_POISON, unaligned, 0x0002),
        (opcode::INJECT_POISON, outside, 0x000f),
        (
            opcode::INJECT_POISON,
            (64u64).to_le_bytes().to_vec(),
            0x0010,
        ),
        (opcode::CLEAR_POISON, clear_payload(1), 0x0002),
        (opcode::CLEAR_POISON, clear_payload(UNIT), 0x000f),
        // The handle is that of a record which the ending takes out.
        (
            opcode::CLEAR_EVENT_RECORDS,
            vec![1, 0, 1, 0, 0, 0, 1, 0],
            0x000e,
        ),
        // With the logs emptied no overflow is left for Clear All.
        (opcode::CLEAR_EVENT_RECORDS, vec![0, 1, 0, 0, 0, 0], 0x0002),
    ]
}

/// "The ending is kept even if the call is then refused; demand 1's "device as it was" is the
/// device after it." Before the due time a refused call leaves the device as it was.
#[test]
fn a_refused_command_ends_the_work() {
    let mut before = busy_and_full();
    start(&mut before, 50);
    let mut ended = before.clone();
    look(&mut ended, 50 + WORK);
    assert_ended(&before, &ended);
    for (code, payload, refusal) in refused_commands() {
        for time in [50 + WORK, 51 + WORK, u64::MAX] {
            let mut device = before.clone();
            let answer = run(&mut device, code, &payload, time);
            assert_eq!(answer, (refusal, 0, None), "{code:04x} {payload:?}");
            assert_eq!(device, ended, "{code:04x} {payload:?}");
        }
        for time in [0, 49, 50, 49 + WORK] {
            let mut device = before.clone();
            let (answer, length, vector) = run(&mut device, code, &payload, time);
            let taken = matches!((code, refusal), (opcode::CLEAR_EVENT_RECORDS, 0x000e))
                || payload == [0, 1, 0, 0, 0, 0];
            assert_eq!((answer != 0, length, vector), (!taken, 0, None));
            assert!(device == before || taken, "{code:04x} {payload:?}");
        }
    }
}

/// Also 0100h, for the buffer and for the area; no byte of either is altered.
#[test]
fn a_wrongly_lent_command_ends_the_work() {
    let mut before = busy();
    start(&mut before, 50);
    let mut ended = before.clone();
    look(&mut ended, 50 + WORK);
    for code in opcode::ALL.into_iter().chain([0, 0xffff]) {
        for (room, area) in [(2047, 4096), (0, 4096), (2048, 4095), (2048, 0), (0, 8192)] {
            for (time, after) in [
                (49 + WORK, &before),
                (50 + WORK, &ended),
                (u64::MAX, &ended),
            ] {
                let mut device = before.clone();
                let (mut labels, mut reply) = (vec![0x3c; area], vec![0xaa; room]);
                let answer = device.command(code, &[], time, &mut labels, &mut reply);
                assert_eq!((answer.number, answer.length), (0x0100, 0));
                assert_eq!((labels, reply), (vec![0x3c; area], vec![0xaa; room]));
                assert_eq!(&device, after, "{code:04x} {room} {area} {time}");
            }
        }
    }
}

/// Refused event and media reports end the work too.
#[test]
fn a_refused_report_ends_the_work() {
    let mut before = busy();
    start(&mut before, 50);
    let mut ended = before.clone();
    look(&mut ended, 50 + WORK);
    for (time, after) in [(49 + WORK, &before), (50 + WORK, &ended)] {
        for (log, size) in [(5, 128), (255, 128), (0, 127), (0, 129), (9, 0)] {
            let mut device = before.clone();
            assert!(device.event_report(log, &vec![0; size], time).is_err());
            assert_eq!(&device, after);
        }
        for (address, lines, kind) in [(0, 1, 3), (0, 0, 0), (1, 1, 0), (UNIT, 1, 0)] {
            let mut device = before.clone();
            assert!(device.media_report(address, lines, kind, time).is_err());
            assert_eq!(&device, after);
        }
    }
}

/// Every taken command at a due time is done on the device after the ending.
#[test]
fn a_taken_command_is_done_after_the_ending() {
    let mut before = busy();
    start(&mut before, 50);
    let mut ended = before.clone();
    look(&mut ended, 50 + WORK);
    let identifier = reference::device::EFFECTS_IDENTIFIER;
    for (code, payload) in [
        (opcode::GET_EVENT_RECORDS, vec![0]),
        (opcode::CLEAR_EVENT_RECORDS, vec![0; 6]),
        (opcode::GET_POLICY, vec![]),
        (opcode::SET_POLICY, vec![0; 4]),
        (opcode::GET_TIMESTAMP, vec![]),
        (opcode::SET_TIMESTAMP, vec![9; 8]),
        (opcode::GET_SUPPORTED_LOGS, vec![]),
        (opcode::GET_LOG, [&identifier[..], &[0; 8]].concat()),
        (opcode::IDENTIFY, vec![]),
        (opcode::GET_LSA, vec![0; 8]),
        (opcode::SET_LSA, vec![0; 9]),
        (opcode::GET_POISON_LIST, vec![0; 16]),
        (opcode::INJECT_POISON, vec![0, 4, 0, 0, 0, 0, 0, 0]),
        (opcode::CLEAR_POISON, clear_payload(128)),
    ] {
        let (mut device, mut expected) = (before.clone(), ended.clone());
        let answer = device.answer(code, &payload, 50 + WORK);
        assert!(answer.is_ok(), "{code:04x}");
        assert_eq!(answer, expected.answer(code, &payload, 50 + WORK));
        assert_eq!(device, expected, "{code:04x}");
    }
}

/// Line test, event status, damage total and the walk carry no time and end nothing.
#[test]
fn calls_without_a_time_end_nothing() {
    let mut device = busy();
    start(&mut device, 0);
    let before = device.clone();
    for _ in 0..3 {
        assert_eq!(device.line_test(0), Ok(LineAnswer::Disabled));
        assert_eq!(device.event_status(), (31, 5, 4));
        assert_eq!(device.damage_total(), 4);
        let mut room = [0xee; 64];
        let walked = walk(&device, 0, 8, &mut room, Config::default());
        assert_eq!(walked, (0, 32));
        // Line 0 of type 7, lines 2 to 4 of type 1.
        assert_eq!((room[0], room[8], room[16], room[24]), (7, 1, 0x81, 3));
        assert_eq!(device, before);
    }
    look(&mut device, WORK);
    assert!(!device.media_disabled());
}

/// "the first later" call ends it, once: what comes after the ending stays.
#[test]
fn the_ending_happens_once() {
    let mut device = busy();
    start(&mut device, 0);
    device.event_report(4, &[1; 128], WORK).unwrap();
    assert_eq!(device.event_status(), (1 << 4, 1, 4));
    for time in [WORK, WORK + 1, 2 * WORK, u64::MAX, 0] {
        look(&mut device, time);
        assert_eq!(device.event_status(), (1 << 4, 1, 4));
    }
}

/// It is the caller's time that counts: Set Timestamp moves nothing, whatever it sets.
#[test]
fn set_timestamp_moves_nothing() {
    for value in [0, 1, WORK, 1 << 40, u64::MAX] {
        for at in [0, 99, 100, 101, 99 + WORK] {
            let mut device = busy();
            start(&mut device, 100);
            let set = device.answer(opcode::SET_TIMESTAMP, &value.to_le_bytes(), at);
            assert_eq!(set, Ok(vec![]));
            look(&mut device, 99 + WORK);
            assert!(device.media_disabled(), "{value} {at}");
            look(&mut device, 100 + WORK);
            assert!(!device.media_disabled(), "{value} {at}");
        }
    }
}

/// "A caller's time before the beginning is not past it": a clock that goes back.
#[test]
fn a_clock_that_goes_back() {
    let mut device = busy();
    let begin = 1 << 50;
    start(&mut device, begin);
    for time in [0, 1, begin - WORK, begin - 1, begin, begin + WORK - 1, 0] {
        look(&mut device, time);
        device.event_report(0, &[0; 128], time).unwrap();
        device.media_report(0, 1, 0, time).unwrap();
        assert!(device.media_disabled(), "{time}");
    }
    assert_eq!(run(&mut device, SANITIZE, &[], 0), (6, 0, None));
    look(&mut device, begin + WORK);
    assert!(!device.media_disabled());
}

/// Sums are of whole numbers: a due time past 2^64-1 is never reached.
#[test]
fn a_beginning_near_the_end_of_time() {
    for (units, seconds) in SECONDS {
        let work = seconds * SECOND;
        for (begin, reached) in [
            (u64::MAX - work - 1, Some(u64::MAX - 1)),
            (u64::MAX - work, Some(u64::MAX)),
            (u64::MAX - work + 1, None),
            (u64::MAX - 1, None),
            (u64::MAX, None),
        ] {
            let mut device = make(units, 0);
            start(&mut device, begin);
            for time in [0, work - 1, work, begin.wrapping_add(work), begin, u64::MAX] {
                let ended = reached.is_some_and(|due| time >= due);
                let mut device = device.clone();
                look(&mut device, time);
                assert_eq!(device.media_disabled(), !ended, "{units} {begin} {time}");
            }
        }
    }
}

/// "Sanitize while one runs, 0006h"; at a due time it ends the old work and starts a new one.
#[test]
fn sanitize_while_running_due_and_over() {
    let mut device = busy();
    start(&mut device, 100);
    let running = device.clone();
    for time in [0, 99, 100, 101, 99 + WORK] {
        assert_eq!(run(&mut device, SANITIZE, &[], time), (6, 0, None));
        // The beginning is the first one's.
        assert_eq!(device, running);
    }
    start(&mut device, 100 + WORK);
    assert_eq!(logs(&device), vec![vec![0; 32]; 5]);
    assert_eq!(next_handles(&device), next_handles(&running));
    device.event_report(0, &[0; 128], 101 + WORK).unwrap();
    look(&mut device, 99 + 2 * WORK);
    assert!(device.media_disabled());
    assert_eq!(device.event_status(), (1, 1, 0));
    look(&mut device, 100 + 2 * WORK);
    assert!(!device.media_disabled());
    // Over: another one, at an earlier time too.
    start(&mut device, 7);
    look(&mut device, 7 + WORK);
    assert!(!device.media_disabled());
}

/// "While disabled the line test answers Disabled, 3, after its address checks", with type 0;
/// a refused one is as before.
#[test]
fn the_line_test_while_disabled() {
    assert_eq!(LineAnswer::Disabled.numbers(), (3, 0));
    for mut device in [busy(), busy_and_full()] {
        let before = device.clone();
        start(&mut device, 0);
        // Damaged of types 7 and 1, uncovered, dropped, the last line.
        for address in [0, 128, 192, 64, 3000 * 64, UNIT - 64] {
            assert_eq!(device.line_test(address), Ok(LineAnswer::Disabled));
        }
        for address in [1, 63, 129, UNIT + 1, UNIT, u64::MAX - 63, u64::MAX] {
            assert!(device.line_test(address).is_err());
            assert_eq!(device.line_test(address), before.line_test(address));
        }
    }
}

/// "Inject, Clear Poison, Get LSA and Set LSA while disabled, 0007h", directly after the length
/// check: whatever the address, the range or the reserved bytes; no byte changes.
#[test]
fn refused_while_disabled() {
    for mut before in [busy(), busy_and_full()] {
        start(&mut before, 0);
        let mut payloads: Vec<(u16, Vec<u8>)> = Vec::new();
        for address in [0, 64, 128, 1, UNIT, UNIT + 1, u64::MAX] {
            payloads.push((opcode::INJECT_POISON, address.to_le_bytes().to_vec()));
            payloads.push((opcode::CLEAR_POISON, clear_payload(address)));
        }
        for (offset, length) in [(0u32, 0u32), (0, 16), (4096, 1), (0, 2049), (u32::MAX, 1)] {
            let fields = [offset.to_le_bytes(), length.to_le_bytes()].concat();
            payloads.push((opcode::GET_LSA, fields));
            let head = [offset.to_le_bytes(), [0, 0, 0, (length % 2) as u8]].concat();
            payloads.push((opcode::SET_LSA, [head, vec![0xff; 9]].concat()));
        }
        payloads.push((opcode::SET_LSA, vec![0; 8]));
        payloads.push((opcode::SET_LSA, vec![0; 2048]));
        for (code, payload) in payloads {
            let mut device = before.clone();
            let (mut labels, mut reply) = (vec![0x3c; LABEL_AREA], vec![0xaa; 2048]);
            let answer = device.command(code, &payload, 9, &mut labels, &mut reply);
            let refused = Answered {
                number: 7,
                length: 0,
                vector: None,
            };
            assert_eq!(answer, refused, "{code:04x} {payload:?}");
            assert_eq!((labels, reply), (vec![0x3c; LABEL_AREA], vec![0xaa; 2048]));
            assert_eq!(device, before);
        }
        // The length comes first.
        for (code, lengths) in [
            (opcode::INJECT_POISON, [0, 7, 9, 2049]),
            (opcode::CLEAR_POISON, [0, 71, 73, 2049]),
            (opcode::GET_LSA, [0, 7, 9, 2049]),
            (opcode::SET_LSA, [0, 4, 7, 2049]),
        ] {
            for length in lengths {
                let mut device = before.clone();
                let answer = run(&mut device, code, &vec![0xff; length], 9);
                assert_eq!(answer, (0x0016, 0, None), "{code:04x} {length}");
                assert_eq!(device, before);
            }
        }
    }
}

/// All else works while disabled: the same replies and changes as on the enabled device.
#[test]
fn all_else_works_while_disabled() {
    let (mut enabled, mut disabled) = (busy(), busy());
    start(&mut disabled, 0);
    let identifier = reference::device::EFFECTS_IDENTIFIER;
    let whole = [0, UNIT / 64].map(u64::to_le_bytes).concat();
    for (code, payload) in [
        (opcode::GET_EVENT_RECORDS, vec![0]),
        (opcode::CLEAR_EVENT_RECORDS, vec![0, 1, 0, 0, 0, 0]),
        (opcode::GET_EVENT_RECORDS, vec![0]),
        (opcode::SET_POLICY, vec![1, 0, 1, 0, 1]),
        (opcode::GET_POLICY, vec![]),
        (opcode::SET_TIMESTAMP, vec![3; 8]),
        (opcode::GET_TIMESTAMP, vec![]),
        (opcode::GET_SUPPORTED_LOGS, vec![]),
        (
            opcode::GET_LOG,
            [&identifier[..], &[0, 0, 0, 0, 60, 0, 0, 0]].concat(),
        ),
        (opcode::IDENTIFY, vec![]),
        (opcode::GET_POISON_LIST, whole.clone()),
        (opcode::GET_EVENT_RECORDS, vec![5]),
        (opcode::GET_POISON_LIST, vec![1; 16]),
        (0x4401, vec![]),
    ] {
        let answer = disabled.answer(code, &payload, 20);
        assert_eq!(answer, enabled.answer(code, &payload, 20), "{code:04x}");
    }
    for log in [0, 1, 4, 5] {
        let reported = disabled.event_report(log, &[1; 128], 30);
        assert_eq!(reported, enabled.event_report(log, &[1; 128], 30));
        assert_eq!(reported.is_err(), log == 5);
    }
    for (address, lines, kind) in [(0, 8, 2), (640, 2, 0), (1, 1, 1), (UNIT, 1, 1), (0, 0, 0)] {
        let reported = disabled.media_report(address, lines, kind, 40);
        assert_eq!(reported, enabled.media_report(address, lines, kind, 40));
    }
    assert_eq!(disabled.media_report(1280, 2, 7, 40), Ok((2, 0)));
    assert_eq!(logs(&disabled), logs(&enabled));
    assert_eq!(disabled.event_status(), enabled.event_status());
    assert_eq!(disabled.damage_total(), enabled.damage_total() + 2);
    assert!(disabled.media_disabled());
}

/// A list at 256 entries throughout: lines are dropped while disabled too, 0007h comes before
/// 0010h, and the ending leaves list and flag.
#[test]
fn a_full_list_throughout() {
    let mut device = busy_and_full();
    start(&mut device, 0);
    assert_eq!(inject(&mut device, 64, 1), DISABLED);
    assert_eq!(device.media_report(64, 1, 0, 1), Ok((0, 1)));
    assert_eq!(device.line_test(64), Ok(LineAnswer::Disabled));
    let before = device.clone();
    assert_eq!(inject(&mut device, 64, WORK), LIMIT);
    assert_ended(&before, &device);
    assert_eq!(device.poison_list().held(), 256);
    assert_eq!(device.line_test(64), Ok(LineAnswer::Unknown));
    assert_eq!(device.line_test(128), Ok(LineAnswer::Damaged(1)));
    // A covered line is Success, and leaves no event.
    assert_eq!(inject(&mut device, 128, WORK), Ok(vec![]));
    assert_eq!(device.event_status(), (0, 0, 5));
}

/// "An injection at a due time comes to an emptied log 0": its event is the only record, with
/// the next handle, and the vector is carried if enabled.
#[test]
fn an_injection_at_a_due_time() {
    for (policy, vector) in [([1; 5], Some(2)), ([0; 5], None)] {
        let mut device = busy();
        device.answer(opcode::SET_POLICY, &policy, 0).unwrap();
        let next = device.log(0).next_handle();
        start(&mut device, 60);
        assert_eq!(inject(&mut device, 640, 59 + WORK), DISABLED);
        let address = 640u64.to_le_bytes();
        let answer = run(&mut device, opcode::INJECT_POISON, &address, 60 + WORK);
        assert_eq!(answer, (0, 0, vector));
        assert_eq!(device.log(0).handles(), [next]);
        let reply = &logs(&device)[0];
        assert_eq!((reply.len(), &reply[..20]), (160, &[0; 20][..]));
        assert_eq!(reply[32 + 16], 128);
        assert_eq!(number(&reply[32 + 24..32 + 32]), 777 + 60 + WORK);
        assert_eq!(number(&reply[32 + 48..32 + 56]), 640);
        assert_eq!(device.event_status(), (1, 1, 0));
        assert_eq!(device.line_test(640), Ok(LineAnswer::Damaged(3)));
        // The next one finds a record there.
        let address = 768u64.to_le_bytes();
        let answer = run(&mut device, opcode::INJECT_POISON, &address, 60 + WORK);
        assert_eq!(answer, (0, 0, None));
    }
}

/// An event report at a due time: the log was emptied first, so that the record is stored and
/// carries the log's vector, also where eight were held.
#[test]
fn an_event_report_at_a_due_time() {
    for (log, vector) in (0..5u8).zip([2, 3, 4, 5, 2]) {
        let mut device = busy();
        let next = device.log(log.into()).next_handle();
        start(&mut device, 60);
        // Before it the log is as it was: full or not, no vector is carried.
        let reported = device.event_report(log, &[9; 128], 59 + WORK).unwrap();
        assert_eq!(
            (reported.stored, reported.vector),
            ([1, 4].contains(&log), None)
        );
        let next = next + u16::from(reported.stored);
        let reported = device.event_report(log, &[9; 128], 60 + WORK).unwrap();
        assert_eq!((reported.stored, reported.vector), (true, Some(vector)));
        assert_eq!(device.log(log.into()).handles(), [next]);
        assert_eq!(device.event_status(), (1 << log, 1, log));
    }
}

/// A media report at a due time is taken, and the line test then tells of it.
#[test]
fn a_media_report_at_a_due_time() {
    let mut device = busy();
    start(&mut device, 60);
    assert_eq!(device.media_report(640, 1, 2, 59 + WORK), Ok((1, 0)));
    assert_eq!(device.line_test(640), Ok(LineAnswer::Disabled));
    assert_eq!(device.media_report(704, 1, 2, 60 + WORK), Ok((1, 0)));
    assert_eq!(device.line_test(640), Ok(LineAnswer::Damaged(2)));
    assert_eq!(device.line_test(704), Ok(LineAnswer::Damaged(2)));
    assert_eq!(device.line_test(64), Ok(LineAnswer::Clean));
    assert_eq!(device.event_status(), (0, 0, 5));
}

/// A device that is made has media enabled, also beside a refused make and after another one.
#[test]
fn a_new_device_is_enabled() {
    for (volatile, persistent) in [(1, 0), (0, 1023), (0, 0), (1024, 0)] {
        let new = Device::make(volatile, persistent, Config::default()).1;
        assert!(!new.media_disabled());
        let mut device = busy();
        start(&mut device, 0);
        assert_eq!(device.make_again(volatile, persistent).1, new);
    }
}

/// CM of probe at a time.
fn cm_at(time: u64, code: u16, payload: &[u8]) -> Vec<u8> {
    let mut record = cm(code, 2048, 0xee, payload);
    record[2..10].copy_from_slice(&time.to_le_bytes());
    record
}

fn lt(address: u64) -> Vec<u8> {
    [b"LT", &address.to_le_bytes()[..]].concat()
}

/// Both programs: `CM 1 0` and `CM 1 0 - 1 0` for the start; the label area or store is never
/// wiped by the program, and a refused line test is printed as before.
#[test]
fn the_programs() {
    let new = b"NW\x02\0\0\0".to_vec();
    let set = [0, 0, 0, 0, 0, 0, 0, 0, 0xab];
    let get = [0, 0, 0, 0, 1, 0, 0, 0];
    let calls: Vec<(u64, u16, &[u8])> = vec![
        (0, opcode::SET_LSA, &set),
        (5, SANITIZE, &[]),
        (5, SANITIZE, &[]),
        (4 + WORK, opcode::GET_LSA, &get),
        (5 + WORK, opcode::GET_LSA, &get),
        (5 + WORK, SANITIZE, &[0]),
        (5 + WORK, SANITIZE, &[]),
        (5 + 2 * WORK, opcode::GET_LSA, &get),
    ];
    let probe: Vec<Vec<u8>> = calls
        .iter()
        .flat_map(|(time, code, payload)| [cm_at(*time, *code, payload), lt(64), lt(65)])
        .collect();
    let text = lines_of(&[new.clone(), probe.concat()].concat(), Config::default());
    let line = |answer: &str, test: &str| format!("{answer}\n{test}\nLT 2 2 0\n");
    let expected = [
        ("CM 0 0 - 1 0", "LT 0 0 0"),
        ("CM 1 0 - 1 0", "LT 0 3 0"),
        ("CM 6 0 - 1 0", "LT 0 3 0"),
        ("CM 7 0 - 1 0", "LT 0 3 0"),
        ("CM 0 1 ab 1 0", "LT 0 0 0"),
        ("CM 22 0 - 1 0", "LT 0 0 0"),
        ("CM 1 0 - 1 0", "LT 0 3 0"),
        ("CM 0 1 ab 1 0", "LT 0 0 0"),
    ];
    let expected: String = expected.iter().map(|(cm, lt)| line(cm, lt)).collect();
    assert_eq!(
        String::from_utf8(text).unwrap(),
        format!("NW 0\n{expected}")
    );
    // Bench's CM has neither room nor fill.
    let without = |record: Vec<u8>| [&record[..12], &record[15..]].concat();
    let of_bench: Vec<Vec<u8>> = calls
        .iter()
        .flat_map(|(time, code, payload)| [without(cm_at(*time, *code, payload)), lt(64), lt(65)])
        .collect();
    let text = bench::lines_of(&[new, of_bench.concat()].concat(), Config::default());
    let expected = expected
        .replace(" - 1 0\n", "\n")
        .replace("ab 1 0\n", "ab\n")
        .replace("LT 2 2 0\n", "LT 2\n");
    assert_eq!(
        String::from_utf8(text).unwrap(),
        format!("NW 0\n{expected}")
    );
}

/// "`RQ`, `RP` and `RW` know the twelve opcodes of document 01, whatever has landed"; the walk
/// works while media is disabled and leaves the device as it is.
#[test]
fn the_hosts_side() {
    let new = b"NW\x01\0\0\0".to_vec();
    let lines = |parts: &[Vec<u8>]| {
        let stream = [&[new.clone()], parts].concat().concat();
        String::from_utf8(lines_of(&stream, Config::default())).unwrap()
    };
    let code = SANITIZE.to_le_bytes();
    let request = [b"RQ", &code[..], &[0, 8, 0xee]].concat();
    let reply = [b"RP", &code[..], &[0; 6]].concat();
    let again = [b"RW", &code[..], &[0; 4], &[0, 8, 0xee, 0, 0]].concat();
    for record in [request, reply, again] {
        assert_eq!(lines(&[record]), "NW 0\nBAD 6\n");
    }
    let media = [b"MD", &[0; 8][..], &64u64.to_le_bytes(), &[2, 0, 0, 0, 7]].concat();
    let walk = [
        b"WK",
        &[0; 8][..],
        &4u64.to_le_bytes(),
        &[16, 0, 0, 0, 0xee],
    ]
    .concat();
    let parts = [
        media,
        cm_at(0, SANITIZE, &[]),
        walk.clone(),
        lt(64),
        cm_at(WORK - 1, opcode::GET_TIMESTAMP, &[]),
        walk,
        lt(64),
    ];
    let walked = "WK 0 16 47000000000000000200000000000000 1\nLT 0 3 0\n";
    let time = "CM 0 8 0000000000000000 1 0\n";
    assert_eq!(
        lines(&parts),
        format!("NW 0\nMD 0 2 0\nCM 1 0 - 1 0\n{walked}{time}{walked}")
    );
}

/// The work as a paper has it, fed only the records and the return numbers: the units of the
/// device and the beginning of the work that runs.
struct Paper {
    units: u16,
    begun: Option<u64>,
}

impl Paper {
    fn make(&mut self, volatile: u16, persistent: u16) {
        let total = u32::from(volatile) + u32::from(persistent);
        self.units = match total {
            1..=1023 => total as u16,
            _ => 1,
        };
        self.begun = None;
    }

    /// The due time of the work that runs.
    fn due(&self) -> Option<u128> {
        let row = SECONDS.iter().rfind(|(from, _)| *from <= self.units);
        let length = u128::from(row.unwrap().1 * SECOND);
        self.begun.map(|begun| u128::from(begun) + length)
    }

    /// A call with this time: whether it ends the work.
    fn call(&mut self, time: u64) -> bool {
        let ends = self.due().is_some_and(|due| u128::from(time) >= due);
        if ends {
            self.begun = None;
        }
        ends
    }
}

/// The columns of a line after its mark; 0 for those of bytes.
fn columns(line: &[u8]) -> Vec<u64> {
    let line = std::str::from_utf8(line).unwrap().trim_end();
    let words = line.split(' ').skip(1);
    words.map(|word| word.parse().unwrap_or(0)).collect()
}

/// The sentences over generated calls of both formats: the paper tells when media is disabled,
/// what is refused for it and what a line test answers; a refused call leaves the device after
/// the ending; an ending empties the logs, and no other call than Clear Event Records does; next
/// handles never go back.
#[test]
fn it_holds_after_generated_calls() {
    let names = [
        "sanitize-rows",
        "sanitize-refusals",
        "sanitize-disabled",
        "sanitize-at-due",
        "sanitize-clock",
        "sanitize-full-list",
        "sanitize-mixed",
        "mixed",
        "labels-kept",
    ];
    let of_probe = ["sanitize-lent", "sanitize-makes", "everything", "fills"];
    let mut runs: Vec<(Format, &str)> = names.map(|name| (Bench, name)).to_vec();
    runs.extend(names.iter().chain(&of_probe).map(|name| (Probe, *name)));
    let (mut endings, mut refused_endings, mut disabled_tests) = (0, 0, 0);
    for (format, name) in runs {
        let profile = profile_named(format, name).unwrap();
        let mut paper = Paper {
            units: 1,
            begun: None,
        };
        each_record(format, profile, 5, 0, |record, before, after| {
            let what = format!("{name}: {record:?}");
            let columns = columns(after.line.as_bytes());
            if let Record::New {
                volatile,
                persistent,
            } = record
            {
                paper.make(*volatile, *persistent);
                assert!(!after.device().media_disabled(), "{what}");
                return;
            }
            let ends = time_of(record).is_some_and(|time| paper.call(time));
            let found = found(record, before);
            match ends {
                true => {
                    assert_ended(before, &found);
                    endings += 1;
                }
                false => assert_eq!(&found, before, "{what}"),
            }
            let running = paper.begun.is_some();
            if let Some((code, payload)) = rightly_lent(record, after) {
                let seven = match code {
                    opcode::INJECT_POISON | opcode::GET_LSA => payload.len() == 8,
                    opcode::CLEAR_POISON => payload.len() == 72,
                    opcode::SET_LSA => (8..=2048).contains(&payload.len()),
                    _ => false,
                };
                assert_eq!(columns[0] == 7, running && seven, "{what}");
                let taken = code == SANITIZE && payload.is_empty();
                assert_eq!(columns[0] == 6, taken && running, "{what}");
                assert_eq!(columns[0] == 1, taken && !running, "{what}");
                if columns[0] == 1 {
                    paper.begun = time_of(record);
                    assert_eq!(columns, [1, 0, 0, 1, 0], "{what}");
                }
            }
            assert_eq!(after.device().media_disabled(), paper.begun.is_some());
            if time_of(record).is_none() {
                assert_eq!(after.device(), before, "{what}");
            } else if columns[0] > 1 {
                assert_eq!(after.device(), &found, "{what}");
                refused_endings += usize::from(ends);
            }
            if let Record::Line { .. } = record {
                let disabled = columns[..] == [0, 3, 0];
                assert_eq!(disabled, columns[0] == 0 && running, "{what}");
                disabled_tests += usize::from(disabled);
            }
            for log in 0..5 {
                let (one, other) = (found.log(log), after.device().log(log));
                let next = one.next_handle() % u16::MAX + 1;
                assert!([one.next_handle(), next].contains(&other.next_handle()));
                let clears = matches!(
                    record,
                    Record::Command(Call { opcode: opcode::CLEAR_EVENT_RECORDS, payload, .. })
                        if payload[0] == log as u8 && columns[0] == 0
                );
                let held = |log: &EventLog| log.handles().len();
                assert!(clears || held(other) >= held(one), "{what}");
            }
        });
    }
    assert!(
        endings > 400 && refused_endings > 150 && disabled_tests > 1000,
        "{endings} {refused_endings} {disabled_tests}"
    );
}

/// How a log stands at a call.
fn state(log: &EventLog) -> &'static str {
    match log.overflow_count() {
        _ if log.is_empty() => "empty",
        _ if !log.is_full() => "in part",
        0 => "full",
        _ => "overflown",
    }
}

/// The kind of a call that carries a time.
fn kind(record: &Record) -> &'static str {
    match record {
        Record::Event { .. } => "event",
        Record::Media { .. } => "media",
        _ => "command",
    }
}

/// The situations of W-207 in the streams of the default seeds, with how often each is reached.
fn situations(format: Format) -> BTreeMap<String, usize> {
    let mut found_in = BTreeMap::new();
    for seed in DEFAULT_SEEDS {
        let profile = profile_of(format, seed);
        if !profile.name.starts_with("sanitize") {
            continue;
        }
        for part in 0..profile.streams() {
            let mut paper = Paper {
                units: 1,
                begun: None,
            };
            let mut full = false;
            each_record(format, profile, seed, part, |record, before, after| {
                let mut count = |what: String| *found_in.entry(what).or_insert(0) += 1;
                let columns = columns(after.line.as_bytes());
                let was_running = paper.begun.is_some();
                let held = before.poison_list().held();
                if let Record::New {
                    volatile,
                    persistent,
                } = record
                {
                    if was_running {
                        count(format!("make while running, {}", columns[0]));
                    }
                    return paper.make(*volatile, *persistent);
                }
                let Some(time) = time_of(record) else {
                    let disabled = before.media_disabled();
                    if let Record::Line { address } = record {
                        let line = u128::from(*address) / 64;
                        let covered = before.poison_list().covering(line).is_some();
                        let flag = before.poison_list().overflow().is_some();
                        count(match columns[0] {
                            0 => {
                                format!("line, disabled {disabled}, covered {covered}, flag {flag}")
                            }
                            number => format!("line {number}, disabled {disabled}"),
                        });
                    }
                    if let (Record::Walk { .. }, true) = (record, disabled) {
                        count(format!("walk while disabled, {}", columns[0]));
                    }
                    return;
                };
                let due = paper.due();
                if let (Some(due), Some(begun)) = (due, paper.begun) {
                    let apart = i128::from(time) - due as i128;
                    if (-1..=1).contains(&apart) {
                        count(format!(
                            "{} units, {} at {apart}",
                            paper.units,
                            kind(record)
                        ));
                    }
                    if time < begun {
                        count(format!("{} before the beginning", kind(record)));
                    }
                    if due > u128::from(u64::MAX) {
                        let time = match time {
                            0 => "0",
                            u64::MAX => "the last",
                            time if u128::from(time) == due & u128::from(u64::MAX) => "the sum",
                            _ => "another",
                        };
                        count(format!("never due, {} at {time}", kind(record)));
                    }
                }
                let ends = paper.call(time);
                let running = paper.begun.is_some();
                let found = found(record, before);
                if ends {
                    count(format!("ended by {}, {}", kind(record), columns[0]));
                    if full && held == 256 {
                        count("256 entries from the start to the end".to_string());
                    }
                }
                if let Record::Event {
                    log: log @ 0..=4, ..
                } = record
                {
                    if ends && columns[0] == 0 {
                        let (log, state) = (*log, state(before.log((*log).into())));
                        count(format!(
                            "event at due, log {log} {state}, vector {}",
                            columns[2]
                        ));
                    }
                }
                if let (Record::Media { .. }, true, [0, stored, dropped]) =
                    (record, running, &columns[..])
                {
                    let what = [("stored", stored), ("dropped", dropped)];
                    for (name, _) in what.iter().filter(|(_, lines)| **lines > 0) {
                        count(format!("media while disabled, {name}"));
                    }
                }
                let Record::Command(Call { opcode: code, .. }) = record else {
                    return;
                };
                let Some((code, payload)) = rightly_lent(record, after) else {
                    if ends {
                        let room =
                            matches!(record, Record::Command(Call { room, .. }) if *room < 2048);
                        count(format!("ended with 0100h, small room {room}"));
                    }
                    return count(format!("{code:04x} wrongly lent, ends {ends}"));
                };
                match code {
                    SANITIZE if columns[0] == 1 => {
                        let when = match (was_running, ends) {
                            (true, true) => "due",
                            _ => "not running",
                        };
                        count(format!("sanitize, {when}"));
                        paper.begun = Some(time);
                        full = held == 256;
                    }
                    SANITIZE => count(format!("sanitize {}, running {running}", columns[0])),
                    _ if running => {
                        // What the command would get if media were enabled.
                        let mut enabled = found.clone();
                        let due = enabled.work().unwrap().due_time();
                        if let Ok(due) = u64::try_from(due) {
                            look(&mut enabled, due);
                            let answer = enabled.answer(code, payload, 0);
                            let number = answer.err().map_or(0, |refusal| refusal.number());
                            count(format!(
                                "{code:04x} while disabled: {}, else {number}",
                                columns[0]
                            ));
                        }
                    }
                    opcode::INJECT_POISON if ends => {
                        let (number, vector) = (columns[0], columns[4]);
                        let state = state(before.log(0));
                        let added = after.device().poison_list().held() > held;
                        let what = match (number, added) {
                            (0, true) => "adds".to_string(),
                            (0, false) => "covered".to_string(),
                            (number, _) => format!("is {number}"),
                        };
                        count(format!(
                            "inject at due {what}, log 0 {state}, vector {vector}"
                        ));
                    }
                    code if ends => count(format!("{code:04x} at due: {}", columns[0])),
                    _ => {}
                }
            });
        }
    }
    found_in
}

/// Every situation that the sentences of W-207 part is reached by the default seeds.
#[test]
fn default_seeds_reach_sanitize() {
    for format in [Bench, Probe] {
        let found = situations(format);
        let mut wanted: Vec<String> = Vec::new();
        for (units, _) in SECONDS {
            for apart in -1..=1 {
                for kind in ["command", "event", "media"] {
                    wanted.push(format!("{units} units, {kind} at {apart}"));
                }
            }
        }
        for number in [0, 1, 2, 3, 0xe, 0xf, 0x10, 0x16, 0x17] {
            wanted.push(format!("ended by command, {number}"));
        }
        for number in [0, 2] {
            wanted.push(format!("ended by event, {number}"));
        }
        for number in [0, 2, 0xf] {
            wanted.push(format!("ended by media, {number}"));
        }
        for kind in ["command", "event", "media"] {
            wanted.push(format!("{kind} before the beginning"));
        }
        for time in ["0", "the last", "the sum"] {
            wanted.push(format!("never due, command at {time}"));
            wanted.push(format!("never due, event at {time}"));
        }
        for when in ["due", "not running"] {
            wanted.push(format!("sanitize, {when}"));
        }
        for running in [true, false] {
            wanted.push(format!("sanitize 22, running {running}"));
        }
        wanted.push("sanitize 6, running true".to_string());
        for (log, vector) in (0..5).zip([2, 3, 4, 5, 2]) {
            for state in ["empty", "in part", "full", "overflown"] {
                for vector in [0, vector] {
                    wanted.push(format!("event at due, log {log} {state}, vector {vector}"));
                }
            }
        }
        for state in ["empty", "in part", "full", "overflown"] {
            for vector in [0, 2] {
                wanted.push(format!(
                    "inject at due adds, log 0 {state}, vector {vector}"
                ));
            }
            wanted.push(format!("inject at due covered, log 0 {state}, vector 0"));
            wanted.push(format!("inject at due is 16, log 0 {state}, vector 0"));
        }
        for disabled in [true, false] {
            for covered in [true, false] {
                for flag in [true, false] {
                    wanted.push(format!(
                        "line, disabled {disabled}, covered {covered}, flag {flag}"
                    ));
                }
            }
            for number in [2, 15] {
                wanted.push(format!("line {number}, disabled {disabled}"));
            }
        }
        for code in ["4102", "4103", "4301", "4302"] {
            wanted.push(format!("{code} while disabled: 7, else 0"));
            wanted.push(format!("{code} while disabled: 7, else 2"));
            wanted.push(format!("{code} while disabled: 22, else 22"));
        }
        for code in ["4301", "4302"] {
            wanted.push(format!("{code} while disabled: 7, else 15"));
        }
        wanted.push("4301 while disabled: 7, else 16".to_string());
        for code in [
            "0100", "0102", "0103", "0300", "0301", "0400", "0401", "4000", "4300",
        ] {
            wanted.push(format!("{code} while disabled: 0, else 0"));
            wanted.push(format!("{code} at due: 0"));
        }
        for code in ["0101", "4102", "4103", "4302"] {
            wanted.push(format!("{code} at due: 0"));
        }
        // A clear of what is held is taken while disabled and refused after the ending.
        wanted.push("0101 while disabled: 0, else 14".to_string());
        for what in ["stored", "dropped"] {
            wanted.push(format!("media while disabled, {what}"));
        }
        wanted.push("256 entries from the start to the end".to_string());
        if format == Probe {
            for room in [true, false] {
                wanted.push(format!("ended with 0100h, small room {room}"));
            }
            for code in opcode::ALL {
                wanted.push(format!("{code:04x} wrongly lent, ends true"));
                wanted.push(format!("{code:04x} wrongly lent, ends false"));
            }
            wanted.push("ended by event, 22".to_string());
            for number in [0, 2] {
                wanted.push(format!("make while running, {number}"));
            }
            wanted.push("walk while disabled, 0".to_string());
        }
        let missed: Vec<&String> = wanted
            .iter()
            .filter(|what| !found.contains_key(*what))
            .collect();
        assert!(missed.is_empty(), "{format:?}: {missed:#?} in {found:#?}");
        // Often, not by chance.
        for (what, least) in [
            ("sanitize, due", 40),
            ("sanitize, not running", 1000),
            ("sanitize 6, running true", 200),
            ("ended by event, 0", 150),
            ("ended by media, 0", 50),
            ("256 entries from the start to the end", 50),
        ] {
            assert!(found[what] >= least, "{format:?}: {what}: {}", found[what]);
        }
    }
}
