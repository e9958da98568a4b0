//! The commands and calls other than the poison ones, by document 01's
//! sentences; P1 to P6; W-201 of document 02.

mod common;

use common::each_step;
use reference::device::events::{handles_given, more, EventLog};
use reference::device::logs::Reported;
use reference::device::numbers::{opcode, Refusal, LABEL_AREA};
use reference::device::{Config, Device};
use reference::format::Format;
use reference::generate::profile_named;

const SUCCESS: Result<Vec<u8>, Refusal> = Ok(Vec::new());
/// Event reports without a vector.
const STORED: Result<Reported, Refusal> = Ok(Reported {
    stored: true,
    vector: None,
});
const COUNTED: Result<Reported, Refusal> = Ok(Reported {
    stored: false,
    vector: None,
});

fn device() -> Device {
    Device::make(1, 0, Config::default()).1
}

fn events(device: &mut Device, log: u8, count: usize) {
    for _ in 0..count {
        device.event_report(log, &[0x77; 128], 0).unwrap();
    }
}

fn get_events(device: &mut Device, log: u8) -> Vec<u8> {
    device.answer(opcode::GET_EVENT_RECORDS, &[log], 0).unwrap()
}

fn clear(device: &mut Device, log: u8, flags: u8, handles: &[u16]) -> Result<Vec<u8>, Refusal> {
    let mut payload = vec![log, flags, handles.len() as u8, 0, 0, 0];
    payload.extend(handles.iter().flat_map(|handle| handle.to_le_bytes()));
    device.answer(opcode::CLEAR_EVENT_RECORDS, &payload, 0)
}

#[test]
fn p1_make() {
    let make = |volatile, persistent| Device::make(volatile, persistent, Config::default());
    assert_eq!(make(1023, 0).0, Ok(()));
    assert_eq!(make(0, 1023).0, Ok(()));
    assert_eq!(make(1024, 0).0, Err(Refusal::InvalidInput));
    assert_eq!(make(0, 0).0, Err(Refusal::InvalidInput));
    assert_eq!(make(65535, 2).0, Err(Refusal::InvalidInput));
    // "the device beside it is then the new one of one volatile unit"
    assert_eq!(make(0, 0).1, make(1, 0).1);
    assert_eq!(make(3, 5).1.lines(), 8 * 4_194_304);
}

#[test]
fn p2_eighth_event_stored_ninth_counted() {
    let mut device = device();
    for _ in 0..8 {
        assert_eq!(device.event_report(0, &[9; 128], 5), STORED);
    }
    assert_eq!(device.event_report(0, &[9; 128], 5), COUNTED);
    let reply = get_events(&mut device, 0);
    assert_eq!(reply.len(), 32 + 8 * 128);
    assert_eq!(reply[..4], [1, 0, 1, 0]);
    assert_eq!(reply[20..22], [8, 0]);
}

#[test]
fn p3_handle_65535_then_1() {
    let mut device = device();
    for _ in 0..65_534 {
        events(&mut device, 1, 1);
        let handles = device.log(1).handles();
        assert_eq!(clear(&mut device, 1, 0, &handles), SUCCESS);
    }
    events(&mut device, 1, 3);
    assert_eq!(device.log(1).handles(), [65_535, 1, 2]);
}

#[test]
fn p4_p5_p6_refused_clears_leave_the_device() {
    let mut device = device();
    events(&mut device, 0, 2);
    let before = device.clone();
    let handle = Err(Refusal::InvalidHandle);
    assert_eq!(clear(&mut device, 0, 0, &[2, 1]), handle);
    assert_eq!(clear(&mut device, 0, 0, &[1, 2, 3]), handle);
    assert_eq!(clear(&mut device, 0, 1, &[]), Err(Refusal::InvalidInput));
    assert_eq!(device, before);
}

#[test]
fn stored_records_have_handle_and_time() {
    let mut device = device();
    let given: Vec<u8> = (0..128).collect();
    assert!(device
        .answer(opcode::SET_TIMESTAMP, &9u64.to_le_bytes(), 100)
        .is_ok());
    assert_eq!(device.event_report(4, &given, 101), STORED);
    let mut expected = given;
    expected[20..22].copy_from_slice(&[1, 0]);
    expected[24..32].copy_from_slice(&[10, 0, 0, 0, 0, 0, 0, 0]);
    assert_eq!(get_events(&mut device, 4)[32..], expected);
}

#[test]
fn event_report_refuses_length_before_log() {
    let mut device = device();
    let length = Err(Refusal::InvalidPayloadLength);
    assert_eq!(device.event_report(0, &[0; 127], 0), length);
    assert_eq!(device.event_report(9, &[0; 129], 0), length);
    assert_eq!(
        device.event_report(5, &[0; 128], 0),
        Err(Refusal::InvalidInput)
    );
}

#[test]
fn clear_all_needs_overflow_and_no_handles() {
    let mut device = device();
    events(&mut device, 2, 9);
    assert_eq!(clear(&mut device, 2, 1, &[1]), Err(Refusal::InvalidInput));
    // n = 0 without Clear All: no record went, so the overflow stays.
    assert_eq!(clear(&mut device, 2, 0, &[]), SUCCESS);
    assert_eq!(device.log(2).overflow_count(), 1);
    assert_eq!(clear(&mut device, 2, 1, &[]), SUCCESS);
    assert_eq!(get_events(&mut device, 2), vec![0; 32]);
    events(&mut device, 2, 1);
    assert_eq!(device.log(2).handles(), [9]);
}

#[test]
fn clear_checks_length_then_log_then_handles() {
    let mut device = device();
    let mut ask = |payload: &[u8]| device.answer(opcode::CLEAR_EVENT_RECORDS, payload, 0);
    let length = Err(Refusal::InvalidPayloadLength);
    assert_eq!(ask(&[0; 5]), length);
    assert_eq!(ask(&[9, 1, 1, 0, 0, 0]), length);
    assert_eq!(ask(&[9, 1, 1, 0, 0, 0, 1]), length);
    assert_eq!(ask(&[9, 1, 0, 0, 0, 0, 1, 0]), length);
    assert_eq!(ask(&[5, 0, 1, 0, 0, 0, 1, 0]), Err(Refusal::InvalidInput));
    assert_eq!(ask(&[0, 0, 1, 0, 0, 0, 1, 0]), Err(Refusal::InvalidHandle));
    assert_eq!(ask(&[0, 0, 0, 0, 0, 0]), SUCCESS);
}

#[test]
fn overflow_count_stays_at_65535() {
    let mut device = device();
    events(&mut device, 3, 8 + 65_534);
    assert_eq!(device.log(3).overflow_count(), 65_534);
    events(&mut device, 3, 3);
    assert_eq!(device.log(3).overflow_count(), 65_535);
}

/// W-201: "flag bit 1 of Get Event Records is now set exactly when the log holds
/// more records than this reply carries".
#[test]
fn w201_more_is_set_where_more_is_held_than_carried() {
    let set = |carried: usize| -> Vec<usize> {
        let held = 0..=8;
        held.filter(|held| more(*held, carried)).collect()
    };
    assert_eq!(set(1), [2, 3, 4, 5, 6, 7, 8]);
    assert_eq!(set(3), [4, 5, 6, 7, 8]);
    assert_eq!(set(7), [8]);
    assert!(set(8).is_empty());
    assert!(set(15).is_empty());
}

/// All of a log fits the reply, so flag bit 0 alone may be set.
#[test]
fn w201_more_is_clear_in_every_reply() {
    for (reports, held, flags) in [(0, 0, 0), (1, 1, 0), (8, 8, 0), (9, 8, 1), (11, 8, 1)] {
        let mut device = device();
        events(&mut device, 1, reports);
        let reply = get_events(&mut device, 1);
        assert_eq!(reply[0], flags, "{reports} reports");
        assert_eq!(reply[20..22], [held, 0]);
        assert_eq!(reply.len(), 32 + 128 * usize::from(held));
    }
}

/// W-201: "a read with More clear and then a Clear of the handles it gave, both
/// answered Success and no call between, leave the log empty".
fn drain(device: &mut Device, log: u8) {
    let reply = get_events(device, log);
    assert_eq!(reply[0] & 2, 0);
    assert_eq!(clear(device, log, 0, &handles_given(&reply)), SUCCESS);
    // No record, and no overflow: "If a record went, overflow count and both
    // times become 0 (house)."
    assert_eq!(get_events(device, log), vec![0; 32]);
}

#[test]
fn w201_read_clear_what_was_read_and_read_again() {
    for log in 0..5 {
        for (reports, next) in [(0, 1), (1, 2), (8, 9), (11, 9)] {
            let mut device = device();
            events(&mut device, log, reports);
            drain(&mut device, log);
            // "Next handles go on."
            events(&mut device, log, 1);
            assert_eq!(handles_given(&get_events(&mut device, log)), [next]);
            drain(&mut device, log);
        }
    }
}

/// It holds whatever the calls before it were: after each record of generated
/// streams every log is drained on a copy of the device.
#[test]
fn w201_holds_after_generated_calls() {
    for name in ["drain", "overflow", "wrong-handles", "everything"] {
        let profile = profile_named(Format::Probe, name).unwrap();
        each_step(Format::Probe, profile, 1, |_, _, after| {
            let mut device = after.device().clone();
            for log in 0..5 {
                drain(&mut device, log);
            }
        });
    }
}

/// "no call between": a report between the read and the clear stays, as the clear
/// takes the n oldest.
#[test]
fn w201_a_report_between_read_and_clear_stays() {
    for (reports, newer) in [(0, 1), (1, 2), (7, 8)] {
        let mut device = device();
        events(&mut device, 2, reports);
        let given = handles_given(&get_events(&mut device, 2));
        events(&mut device, 2, 1);
        assert_eq!(clear(&mut device, 2, 0, &given), SUCCESS);
        assert_eq!(handles_given(&get_events(&mut device, 2)), [newer]);
        drain(&mut device, 2);
    }
    // With eight held it is counted, and goes with the overflow.
    let mut device = device();
    events(&mut device, 2, 8);
    let given = handles_given(&get_events(&mut device, 2));
    events(&mut device, 2, 1);
    assert_eq!(device.log(2).overflow_count(), 1);
    assert_eq!(clear(&mut device, 2, 0, &given), SUCCESS);
    assert_eq!(get_events(&mut device, 2), vec![0; 32]);
}

/// The rule where fewer records than eight fit a reply: More is clear exactly in
/// the read whose clear empties the log.
#[test]
fn w201_drain_in_replies_of_fewer_records() {
    let config = Config::default();
    for fit in [1, 3, 7, 8, 15] {
        for held in 0..=8usize {
            let mut log = EventLog::default();
            for _ in 0..held {
                assert!(log.report(&[0; 128], 0, config));
            }
            let rounds = held.div_ceil(fit).max(1);
            for round in 1..=rounds {
                let reply = log.get(fit, config);
                assert_eq!(log.clear(false, &handles_given(&reply), config), Ok(()));
                assert_eq!(reply[0], if round < rounds { 2 } else { 0 });
                assert_eq!(log.is_empty(), round == rounds);
            }
        }
    }
}

#[test]
fn event_status_counts_and_names_the_highest() {
    let mut device = device();
    assert_eq!(device.event_status(), (0, 0, 5));
    events(&mut device, 0, 1);
    assert_eq!(device.event_status(), (0b00001, 1, 0));
    events(&mut device, 3, 9);
    assert_eq!(device.event_status(), (0b01001, 2, 3));
    for log in 0..5 {
        events(&mut device, log, 1);
    }
    assert_eq!(device.event_status(), (0b11111, 5, 4));
    assert_eq!(clear(&mut device, 3, 1, &[]), SUCCESS);
    assert_eq!(device.event_status(), (0b10111, 4, 4));
}

#[test]
fn clock_before_back_and_saturating() {
    let mut device = device();
    let time = |device: &mut Device, at: u64| {
        let reply = device.answer(opcode::GET_TIMESTAMP, &[], at).unwrap();
        u64::from_le_bytes(reply.try_into().unwrap())
    };
    let set = |device: &mut Device, value: u64, at: u64| {
        let payload = value.to_le_bytes();
        assert_eq!(device.answer(opcode::SET_TIMESTAMP, &payload, at), SUCCESS);
    };
    assert_eq!(time(&mut device, u64::MAX), 0);
    set(&mut device, 10, 1000);
    assert_eq!(time(&mut device, 1000), 10);
    assert_eq!(time(&mut device, 1001), 11);
    assert_eq!(time(&mut device, 999), 10);
    assert_eq!(time(&mut device, 0), 10);
    set(&mut device, u64::MAX - 5, 7);
    assert_eq!(time(&mut device, 11), u64::MAX - 1);
    assert_eq!(time(&mut device, 12), u64::MAX);
    assert_eq!(time(&mut device, 13), u64::MAX);
    assert_eq!(time(&mut device, u64::MAX), u64::MAX);
}

#[test]
fn policy_settings() {
    let mut device = device();
    let mut set = |payload: &[u8]| {
        let answer = device.answer(opcode::SET_POLICY, payload, 0);
        let get = device.answer(opcode::GET_POLICY, &[], 0).unwrap();
        (answer, get)
    };
    assert_eq!(set(&[1; 5]), (SUCCESS, vec![0x21, 0x31, 0x41, 0x51, 0x01]));
    assert_eq!(set(&[0, 4, 8, 0xfd]), (SUCCESS, vec![0, 0, 0, 0x51, 0x01]));
    assert_eq!(set(&[0, 4, 8, 0xfc, 16]), (SUCCESS, vec![0; 5]));
    assert_eq!(set(&[5, 9, 0, 0]), (SUCCESS, vec![0x21, 0x31, 0, 0, 0]));
    let refused = Err(Refusal::InvalidPayloadLength);
    assert_eq!(set(&[1; 3]).0, refused);
    assert_eq!(set(&[1; 6]).0, refused);
}

#[test]
fn supported_logs_and_effects() {
    let mut device = device();
    let reply = device.answer(opcode::GET_SUPPORTED_LOGS, &[], 0).unwrap();
    assert_eq!(reply.len(), 28);
    assert_eq!(reply[..8], [1, 0, 0, 0, 0, 0, 0, 0]);
    assert_eq!(reply[24..], [60, 0, 0, 0]);
    let identifier = reply[8..24].to_vec();
    let mut get = |offset: u32, length: u32| {
        let mut payload = identifier.clone();
        payload.extend(offset.to_le_bytes());
        payload.extend(length.to_le_bytes());
        device.answer(opcode::GET_LOG, &payload, 0)
    };
    let whole = get(0, 60).unwrap();
    assert_eq!(whole[4..8], [0x01, 0x01, 0x10, 0x00]);
    assert_eq!(whole[12..16], [0x03, 0x01, 0x02, 0x00]);
    assert_eq!(whole[20..24], [0x01, 0x03, 0x08, 0x00]);
    // 4102h and 4103h after 4000h, "4103h with effect 6" (W-206).
    assert_eq!(
        whole[36..44],
        [0x02, 0x41, 0x00, 0x00, 0x03, 0x41, 0x06, 0x00]
    );
    // 4400h after 4302h, "effect 64h" (W-207).
    assert_eq!(
        whole[52..],
        [0x02, 0x43, 0x00, 0x00, 0x00, 0x44, 0x64, 0x00]
    );
    assert_eq!(get(7, 30).unwrap(), whole[7..37]);
    assert_eq!(get(60, 0), SUCCESS);
    for (offset, length) in [(0, 61), (60, 1), (61, 0), (0, 2049), (u32::MAX, 61)] {
        assert_eq!(get(offset, length), Err(Refusal::InvalidInput));
    }
}

#[test]
fn identify_is_69_bytes() {
    let mut device = Device::make(2, 3, Config::default()).1;
    let reply = device.answer(opcode::IDENTIFY, &[], 0).unwrap();
    assert_eq!(reply.len(), 69);
    assert_eq!(&reply[..16], b"BWFW VERSION 0\0\0");
    assert_eq!((reply[16], reply[24], reply[32]), (5, 2, 3));
    assert_eq!(reply[48..56], [8, 0, 8, 0, 8, 0, 8, 0]);
    // "Identify's label size becomes 4,096" (W-206).
    assert_eq!(reply[56..60], [0x00, 0x10, 0x00, 0x00]);
    assert_eq!(reply[60..], [0, 1, 0, 0, 0, 0, 0, 8, 0]);
}

#[test]
fn order_and_reply_buffer() {
    let mut device = device();
    // 0100h is first of all, then a payload over 2,048, then 0003h.
    let mut small = [0xaa; 2047];
    let mut ask = |code, payload: &[u8], reply: &mut [u8]| {
        let before = device.clone();
        let answer = device.command(code, payload, 0, &mut [0; LABEL_AREA], reply);
        assert_eq!(answer.vector, None);
        ((answer.number, answer.length), device == before)
    };
    assert_eq!(ask(0xffff, &[0; 2049], &mut small), ((0x0100, 0), true));
    assert_eq!(ask(opcode::IDENTIFY, &[], &mut small), ((0x0100, 0), true));
    assert_eq!(small, [0xaa; 2047]);
    let mut reply = [0xaa; 2100];
    assert_eq!(ask(0xffff, &[0; 2049], &mut reply), ((0x0016, 0), true));
    assert_eq!(ask(0xffff, &[0; 2048], &mut reply), ((0x0003, 0), true));
    assert_eq!(ask(opcode::IDENTIFY, &[0], &mut reply), ((0x0016, 0), true));
    assert_eq!(reply, [0xaa; 2100]);
    // "On Success of length n the first n reply bytes are written."
    assert_eq!(ask(opcode::IDENTIFY, &[], &mut reply), ((0, 69), true));
    assert_eq!(&reply[..4], b"BWFW");
    assert_eq!(reply[69..], [0xaa; 2100 - 69]);
}
