//! What several test files share, none of them all of it: generated streams run record by
//! record, devices with something in every place, and records of probe laid out by hand.

#![allow(dead_code)]

use reference::device::numbers::{opcode, LABEL_AREA, MAILBOX};
use reference::device::{Config, Device};
use reference::format::Format;
use reference::generate::Profile;
use reference::probe::record::{Call, Record};
use reference::probe::Probe;

/// Runs a seed's stream of a profile. `look` gets each record, the device that its call finds
/// and the program after it, with the record's line. A bench stream is run by the probe's model
/// too, since its lines tell the vector.
pub fn each_step(
    format: Format,
    profile: &Profile,
    seed: u64,
    mut look: impl FnMut(&Record, &Device, &Probe),
) {
    each_record(format, profile, seed, 0, |record, before, after| {
        look(record, &found(record, before), after);
    });
}

/// The same for stream number `part` of a seed, with the device that the last record left.
pub fn each_record(
    format: Format,
    profile: &Profile,
    seed: u64,
    part: usize,
    mut look: impl FnMut(&Record, &Device, &Probe),
) {
    let stream = profile.stream_of(format, seed, part, None);
    let mut probe = Probe::new(Config::default());
    for (_, record) in format.records(&stream) {
        let record = record.unwrap();
        let before = probe.device().clone();
        probe.step(&record);
        look(&record, &before, &probe);
    }
}

/// Opcode and payload of a command that is not refused for what it is lent: the reply buffer
/// has room for a mailbox and the label area is of the right size. `after` is the program
/// after the record, which does not change what is lent.
pub fn rightly_lent<'a>(record: &'a Record, after: &Probe) -> Option<(u16, &'a [u8])> {
    match record {
        Record::Command(Call {
            opcode,
            room,
            payload,
            ..
        }) if usize::from(*room) >= MAILBOX && after.labels().lent().len() == LABEL_AREA => {
            Some((*opcode, payload))
        }
        _ => None,
    }
}

/// The device that a record's call finds: the one before it, after the ending of a work that
/// is due at the call's time (W-207). A command that is refused for its buffer leaves just that.
pub fn found(record: &Record, before: &Device) -> Device {
    let mut device = before.clone();
    if let Some(time) = time_of(record) {
        let refused = device.command(0, &[], time, &mut [], &mut []);
        assert_eq!(refused.number, 0x0100);
    }
    device
}

/// The caller's time of a record, if it carries one.
pub fn time_of(record: &Record) -> Option<u64> {
    match record {
        Record::Command(Call { time, .. }) => Some(*time),
        Record::Event { time, .. } | Record::Media { time, .. } => Some(*time),
        _ => None,
    }
}

/// A device with something in every place: a clock, a policy, an entry of each kind, records in
/// every log, two of them overflown at device times that are not 0.
pub fn busy() -> Device {
    let mut device = Device::make(1, 0, Config::default()).1;
    let at = |value: u64| value.to_le_bytes();
    device.answer(opcode::SET_TIMESTAMP, &at(777), 0).unwrap();
    device.answer(opcode::SET_POLICY, &[1; 5], 0).unwrap();
    device.media_report(128, 3, 1, 0).unwrap();
    device.media_report(0, 1, 7, 0).unwrap();
    for log in 0..5u8 {
        for _ in 0..[9, 1, 8, 12, 3][usize::from(log)] {
            device.event_report(log, &[0x5a; 128], 5).unwrap();
        }
    }
    device
}

/// The list of `busy` at 256 entries with a line dropped.
pub fn busy_and_full() -> Device {
    let mut device = busy();
    for line in 0..254 {
        device
            .media_report((1000 + 2 * line) * 64, 1, 0, 0)
            .unwrap();
    }
    assert_eq!(device.poison_list().held(), 256);
    assert_eq!(device.media_report(3000 * 64, 1, 0, 9), Ok((0, 1)));
    device
}

/// CM of probe at time 0: opcode, room, fill, payload.
pub fn cm(opcode: u16, room: u16, fill: u8, payload: &[u8]) -> Vec<u8> {
    call("CM", 0, opcode, room, fill, payload)
}

/// PC of probe, whose fields are "as `CM`" (W-208).
pub fn pc(time: u64, opcode: u16, room: u16, fill: u8, payload: &[u8]) -> Vec<u8> {
    call("PC", time, opcode, room, fill, payload)
}

fn call(mark: &str, time: u64, opcode: u16, room: u16, fill: u8, payload: &[u8]) -> Vec<u8> {
    let mut out = mark.as_bytes().to_vec();
    out.extend(time.to_le_bytes());
    out.extend(opcode.to_le_bytes());
    out.extend(room.to_le_bytes());
    out.push(fill);
    out.extend((payload.len() as u16).to_le_bytes());
    out.extend(payload);
    out
}
