//! Document 02, W-204, sentence by sentence: the vector to raise, and the event that an
//! injection reports.

mod common;

use common::each_step;
use reference::device::logs::Reported;
use reference::device::numbers::{number, opcode, Refusal, LABEL_AREA};
use reference::device::{Answered, Config, Device, Done, LineAnswer};
use reference::format::Format;
use reference::generate::profile_named;
use reference::probe::record::{Call, Record};

/// Document 01 "vectors 2, 3, 4, 5 for logs 0 to 3", W-204 "log 4 uses vector 2".
const VECTORS: [u8; 5] = [2, 3, 4, 5, 2];

fn device() -> Device {
    Device::make(1023, 0, Config::default()).1
}

/// A device with these settings.
fn with_policy(settings: &[u8]) -> Device {
    let mut device = device();
    set_policy(&mut device, settings);
    device
}

fn run(device: &mut Device, code: u16, payload: &[u8], time: u64) -> Result<Done, Refusal> {
    device.run(code, payload, time, &mut [0; LABEL_AREA])
}

/// A command that carries no vector.
fn plain(device: &mut Device, code: u16, payload: &[u8], time: u64) -> Vec<u8> {
    let done = run(device, code, payload, time).unwrap();
    assert_eq!(done.vector, None);
    done.reply
}

fn set_policy(device: &mut Device, settings: &[u8]) {
    assert_eq!(plain(device, opcode::SET_POLICY, settings, 0), []);
}

/// An event report that is stored: its vector.
fn stored(device: &mut Device, log: u8) -> Option<u8> {
    let reported = device.event_report(log, &[0x77; 128], 0).unwrap();
    assert!(reported.stored);
    reported.vector
}

fn clear(device: &mut Device, log: u8, flags: u8, handles: &[u16]) {
    let mut payload = vec![log, flags, handles.len() as u8, 0, 0, 0];
    payload.extend(handles.iter().flat_map(|handle| handle.to_le_bytes()));
    plain(device, opcode::CLEAR_EVENT_RECORDS, &payload, 0);
}

/// Empties a log by the handles it holds.
fn empty(device: &mut Device, log: u8) {
    let held = device.log(log.into()).handles();
    clear(device, log, 0, &held);
}

fn inject(device: &mut Device, address: u64, time: u64) -> Result<Option<u8>, Refusal> {
    let done = run(device, opcode::INJECT_POISON, &address.to_le_bytes(), time)?;
    assert_eq!(done.reply, []);
    Ok(done.vector)
}

fn get_events(device: &mut Device, log: u8) -> Vec<u8> {
    plain(device, opcode::GET_EVENT_RECORDS, &[log], 0)
}

/// "a record of 128 zero bytes with length 128 at byte 16, the address at bytes 48 to 55,
/// then handle and time as always", handle and time left 0.
fn injection_record(address: u64) -> Vec<u8> {
    let mut record = vec![0; 128];
    record[16] = 128;
    record[48..56].copy_from_slice(&address.to_le_bytes());
    record
}

#[test]
fn the_first_record_of_an_enabled_log_carries_its_vector() {
    let mut device = with_policy(&[1; 5]);
    for round in 0..3 {
        for (log, vector) in (0..5u8).zip(VECTORS) {
            assert_eq!(stored(&mut device, log), Some(vector), "round {round}");
            for _ in 0..7 {
                assert_eq!(stored(&mut device, log), None);
            }
            // The ninth is counted.
            let counted = Reported {
                stored: false,
                vector: None,
            };
            assert_eq!(device.event_report(log, &[0; 128], 0), Ok(counted));
        }
        for log in 0..5 {
            match round {
                0 => clear(&mut device, log, 1, &[]),
                _ => empty(&mut device, log),
            }
        }
    }
}

#[test]
fn a_log_that_is_not_enabled_carries_none() {
    for enabled in 0..32u8 {
        let settings: Vec<u8> = (0..5).map(|log| enabled >> log & 1).collect();
        let mut device = with_policy(&settings);
        for (log, vector) in (0..5u8).zip(VECTORS) {
            let on = enabled >> log & 1 == 1;
            assert_eq!(stored(&mut device, log), on.then_some(vector));
            assert_eq!(stored(&mut device, log), None);
        }
    }
    // "Set enables a log exactly if the low two bits of its byte are 1"; with 2 and 3 it
    // is refused (W-205).
    for setting in (0..=255u8).filter(|setting| setting & 3 < 2) {
        let mut device = with_policy(&[setting; 5]);
        for (log, vector) in (0..5u8).zip(VECTORS) {
            let on = setting & 3 == 1;
            assert_eq!(stored(&mut device, log), on.then_some(vector), "{setting}");
        }
    }
}

#[test]
fn four_bytes_leave_log_4() {
    let mut device = with_policy(&[1; 4]);
    assert_eq!(stored(&mut device, 4), None);
    empty(&mut device, 4);
    set_policy(&mut device, &[0, 0, 0, 0, 1]);
    set_policy(&mut device, &[1, 0, 0, 0]);
    assert_eq!(stored(&mut device, 4), Some(2));
    assert_eq!(stored(&mut device, 0), Some(2));
    assert_eq!(stored(&mut device, 1), None);
}

#[test]
fn the_log_must_go_from_empty_to_one_record() {
    let mut device = with_policy(&[1; 5]);
    assert_eq!(stored(&mut device, 1), Some(3));
    assert_eq!(stored(&mut device, 1), None);
    // One record is left.
    clear(&mut device, 1, 0, &[1]);
    assert_eq!(stored(&mut device, 1), None);
    // Disabled and enabled again while records are held.
    set_policy(&mut device, &[0; 5]);
    set_policy(&mut device, &[1; 5]);
    assert_eq!(stored(&mut device, 1), None);
    // A clear of no record leaves the log as it is.
    clear(&mut device, 1, 0, &[]);
    assert_eq!(stored(&mut device, 1), None);
    // Emptied while disabled.
    set_policy(&mut device, &[0; 5]);
    empty(&mut device, 1);
    set_policy(&mut device, &[1; 5]);
    assert_eq!(stored(&mut device, 1), Some(3));
}

#[test]
fn refused_reports_change_nothing() {
    let mut device = with_policy(&[1; 5]);
    let before = device.clone();
    for log in [0, 4, 5, 255] {
        for length in [0, 127, 129, 4096] {
            let refused = device.event_report(log, &vec![0; length], 0);
            assert_eq!(refused, Err(Refusal::InvalidPayloadLength));
        }
    }
    let refused = device.event_report(5, &[0; 128], 0);
    assert_eq!(refused, Err(Refusal::InvalidInput));
    assert_eq!(device, before);
    assert_eq!(stored(&mut device, 4), Some(2));
}

#[test]
fn an_injection_reports_its_record_to_log_0() {
    for address in [0, 64, 0xffff_ffc0, 0x1_0000_0000, 0x3f_efff_ffc0] {
        let mut device = device();
        // The clock not set, then set.
        assert_eq!(inject(&mut device, address, 9), Ok(None));
        let mut expected = injection_record(address);
        expected[20] = 1;
        let reply = get_events(&mut device, 0);
        assert_eq!((reply.len(), reply[0]), (160, 0));
        assert_eq!(reply[32..], expected);
        assert_eq!(device.line_test(address), Ok(LineAnswer::Damaged(3)));
        let mut clear_payload = address.to_le_bytes().to_vec();
        clear_payload.extend([0; 64]);
        plain(&mut device, opcode::CLEAR_POISON, &clear_payload, 10);
        plain(&mut device, opcode::SET_TIMESTAMP, &[8; 8], 100);
        assert_eq!(inject(&mut device, address, 103), Ok(None));
        expected[20] = 2;
        expected[24..32].copy_from_slice(&[11, 8, 8, 8, 8, 8, 8, 8]);
        assert_eq!(get_events(&mut device, 0)[160..], expected);
        for log in 1..5 {
            assert_eq!(get_events(&mut device, log), vec![0; 32]);
        }
    }
}

#[test]
fn an_injection_carries_the_vector_of_its_event() {
    let mut device = with_policy(&[1, 0, 0, 0, 0]);
    assert_eq!(inject(&mut device, 0, 0), Ok(Some(2)));
    assert_eq!(inject(&mut device, 64, 0), Ok(None));
    empty(&mut device, 0);
    // A report first.
    assert_eq!(stored(&mut device, 0), Some(2));
    assert_eq!(inject(&mut device, 128, 0), Ok(None));
    empty(&mut device, 0);
    // Covered: no event, so none.
    assert_eq!(inject(&mut device, 128, 0), Ok(None));
    assert!(device.log(0).is_empty());
    assert_eq!(inject(&mut device, 192, 0), Ok(Some(2)));
    assert_eq!(stored(&mut device, 0), None);
    // Log 0 disabled, the others enabled.
    empty(&mut device, 0);
    set_policy(&mut device, &[0, 1, 1, 1, 1]);
    assert_eq!(inject(&mut device, 256, 0), Ok(None));
    assert_eq!(device.log(0).handles().len(), 1);
}

#[test]
fn what_adds_no_entry_reports_nothing() {
    let mut device = with_policy(&[1; 5]);
    let end = device.lines() as u64 * 64;
    device.media_report(64, 3, 1, 0).unwrap();
    let before = device.clone();
    for address in [64, 128, 192] {
        assert_eq!(inject(&mut device, address, 5), Ok(None));
    }
    for address in [1, 65, end + 1, u64::MAX] {
        let refused = inject(&mut device, address, 5);
        assert_eq!(refused, Err(Refusal::InvalidInput));
    }
    for address in [end, u64::MAX - 63] {
        let refused = inject(&mut device, address, 5);
        assert_eq!(refused, Err(Refusal::InvalidPhysicalAddress));
    }
    for length in [0, 7, 9, 2048, 2049] {
        let refused = run(&mut device, opcode::INJECT_POISON, &vec![0; length], 5);
        assert_eq!(refused, Err(Refusal::InvalidPayloadLength));
    }
    let mut small = [0xaa; 2047];
    let labels = &mut [0; LABEL_AREA];
    let refused = device.command(opcode::INJECT_POISON, &[0; 8], 5, labels, &mut small);
    let expected = Answered {
        number: 0x0100,
        length: 0,
        vector: None,
    };
    assert_eq!((refused, small), (expected, [0xaa; 2047]));
    assert_eq!(device, before);
}

#[test]
fn at_256_entries() {
    let mut device = with_policy(&[1; 5]);
    for i in 0..256 {
        device.media_report(i * 128, 1, 0, 0).unwrap();
    }
    let before = device.clone();
    let limit = Err(Refusal::InjectPoisonLimit);
    assert_eq!(inject(&mut device, 64, 0), limit);
    assert_eq!(inject(&mut device, 0, 0), Ok(None));
    assert_eq!(device, before);
    let mut payload = vec![0; 8];
    payload.extend([0; 64]);
    plain(&mut device, opcode::CLEAR_POISON, &payload, 0);
    assert_eq!(inject(&mut device, 64, 0), Ok(Some(2)));
    assert_eq!(inject(&mut device, 0, 0), limit);
    assert_eq!(device.log(0).handles(), [1]);
}

/// "If log 0 is full the event is counted as overflow and the injection stands."
#[test]
fn with_log_0_full_the_injection_stands() {
    for overflows in [0, 2] {
        let mut device = with_policy(&[1; 5]);
        plain(&mut device, opcode::SET_TIMESTAMP, &[0; 8], 0);
        for _ in 0..8 + overflows {
            device.event_report(0, &[1; 128], 7).unwrap();
        }
        let held = device.log(0).handles();
        assert_eq!(inject(&mut device, 64, 9), Ok(None));
        assert_eq!(device.line_test(64), Ok(LineAnswer::Damaged(3)));
        assert_eq!(device.damage_total(), 1);
        assert_eq!(device.log(0).handles(), held);
        let reply = get_events(&mut device, 0);
        let first = if overflows == 0 { 9 } else { 7 };
        assert_eq!(number(&reply[2..4]), overflows + 1);
        assert_eq!((number(&reply[4..12]), number(&reply[12..20])), (first, 9));
        clear(&mut device, 0, 1, &[]);
        assert_eq!(inject(&mut device, 128, 10), Ok(Some(2)));
        assert_eq!(device.log(0).handles(), [9]);
    }
}

#[test]
fn handles_of_injections_come_round() {
    let mut device = with_policy(&[1; 5]);
    for _ in 0..65_534 {
        assert_eq!(stored(&mut device, 0), Some(2));
        empty(&mut device, 0);
    }
    assert_eq!(inject(&mut device, 64, 0), Ok(Some(2)));
    assert_eq!(inject(&mut device, 128, 0), Ok(None));
    assert_eq!(device.log(0).handles(), [65_535, 1]);
}

/// The rule out of what can be read before and after a call: a vector exactly where a log
/// that its policy byte enables went from no record to one, and then that log's.
fn expected_vector(before: &Device, after: &Device) -> Option<u8> {
    let policy = plain(&mut before.clone(), opcode::GET_POLICY, &[], 0);
    let records = |device: &Device, log: usize| device.log(log).handles().len();
    let raised = (0..5).find(|log| (records(before, *log), records(after, *log)) == (0, 1));
    let raised = raised.filter(|log| policy[*log] != 0);
    raised.map(|log| VECTORS[log])
}

/// The log 0 that an accepted injection of an uncovered line should leave: that of an
/// event report with the record of W-204.
fn reported(before: &Device, payload: &[u8], time: u64) -> Device {
    let mut device = before.clone();
    let record = injection_record(number(payload));
    device.event_report(0, &record, time).unwrap();
    device
}

#[test]
fn it_holds_after_generated_calls() {
    let names = [
        "vectors",
        "inject-events",
        "inject-full-log",
        "inject-full-list",
        "everything",
        "mixed",
        "rooms",
    ];
    let (mut vectors, mut injections) = (0, 0);
    for (name, seed) in names.into_iter().flat_map(|name| [(name, 1), (name, 2)]) {
        let profile = profile_named(Format::Probe, name).unwrap();
        each_step(Format::Probe, profile, seed, |record, before, program| {
            let line = String::from_utf8(program.line.as_bytes().to_vec()).unwrap();
            let after = program.device();
            let last: u8 = match record {
                Record::Command(_) | Record::Event { .. } => {
                    line.trim_end().rsplit(' ').next().unwrap().parse().unwrap()
                }
                _ => return,
            };
            let expected = expected_vector(before, after);
            assert_eq!(last, expected.unwrap_or(0), "{name}: {record:?}");
            vectors += usize::from(last != 0);
            if let Record::Command(Call {
                opcode: opcode::INJECT_POISON,
                payload,
                time,
                ..
            }) = record
            {
                let added = after.poison_list().held() > before.poison_list().held();
                injections += usize::from(added);
                let left = match added {
                    true => reported(before, payload, *time),
                    false => before.clone(),
                };
                for log in 0..5 {
                    assert_eq!(after.log(log), left.log(log), "{name}: {record:?}");
                }
            }
        });
    }
    assert!(vectors > 100 && injections > 500, "{vectors} {injections}");
}

#[test]
fn other_commands_carry_none() {
    let mut device = with_policy(&[1; 5]);
    for code in opcode::ALL {
        for length in [0, 1, 4, 5, 6, 8, 16, 24, 72] {
            if code == opcode::INJECT_POISON {
                continue;
            }
            let done = run(&mut device, code, &vec![0; length], 0);
            let vector = done.map(|Done { vector, .. }| vector);
            assert!(matches!(vector, Ok(None) | Err(_)), "{code:04x}");
            set_policy(&mut device, &[1; 5]);
            assert_eq!(device.event_status(), (0, 0, 5));
        }
    }
}
