//! Document 02, W-205, sentence by sentence: reserved places of Clear Event Records and
//! modes of Set Event Interrupt Policy.

mod common;

use common::{each_step, rightly_lent};
use reference::device::numbers::{opcode, Refusal, LABEL_AREA};
use reference::device::{Answered, Config, Device};
use reference::format::Format;
use reference::generate::profile_named;
use reference::host::request::Request;

const SUCCESS: Result<Vec<u8>, Refusal> = Ok(Vec::new());
const REFUSED: Result<Vec<u8>, Refusal> = Err(Refusal::InvalidInput);
const LENGTH: Result<Vec<u8>, Refusal> = Err(Refusal::InvalidPayloadLength);
const HANDLE: Result<Vec<u8>, Refusal> = Err(Refusal::InvalidHandle);

/// The settings of five enabled logs (document 01 "Policy").
const ENABLED: [u8; 5] = [0x21, 0x31, 0x41, 0x51, 0x01];

/// A device whose log k has had so many event reports: log 0 is empty, 1 in part full, 2
/// full, 3 overflown, 4 holds one record. Clock, policy and poison list are not those of
/// a new device either, so that a refusal that loses them shows.
fn device() -> Device {
    let mut device = Device::make(1, 0, Config::default()).1;
    device.answer(opcode::SET_TIMESTAMP, &[9; 8], 0).unwrap();
    set(&mut device, &[1, 0, 0, 1, 1]).unwrap();
    device.media_report(128, 3, 1, 0).unwrap();
    for (log, reports) in [0, 3, 8, 11, 1].into_iter().enumerate() {
        for time in 0..reports {
            device.event_report(log as u8, &[0x5a; 128], time).unwrap();
        }
    }
    device
}

/// The payload of Clear Event Records with its reserved bytes.
fn payload(log: u8, flags: u8, reserved: [u8; 3], handles: &[u16]) -> Vec<u8> {
    let mut payload = vec![log, flags, handles.len() as u8];
    payload.extend(reserved);
    payload.extend(handles.iter().flat_map(|handle| handle.to_le_bytes()));
    payload
}

fn clear(device: &mut Device, payload: &[u8]) -> Result<Vec<u8>, Refusal> {
    device.answer(opcode::CLEAR_EVENT_RECORDS, payload, 7)
}

fn set(device: &mut Device, settings: &[u8]) -> Result<Vec<u8>, Refusal> {
    device.answer(opcode::SET_POLICY, settings, 7)
}

fn policy(device: &mut Device) -> Vec<u8> {
    device.answer(opcode::GET_POLICY, &[], 0).unwrap()
}

/// The places that must be zero, each alone: a flag bit 1 to 7, and the three reserved
/// bytes with their first, last and all bits.
fn spoilt(log: u8, flags: u8, handles: &[u16]) -> Vec<Vec<u8>> {
    let bits = (1..8).map(|bit| payload(log, flags | 1 << bit, [0; 3], handles));
    let bytes = (0..3).flat_map(|place| {
        [1, 0x80, 0xff].map(|value| {
            let mut reserved = [0; 3];
            reserved[place] = value;
            payload(log, flags, reserved, handles)
        })
    });
    bits.chain(bytes).collect()
}

/// Each of these payloads is refused with this answer and changes nothing.
fn all_refused(payloads: Vec<Vec<u8>>, answer: Result<Vec<u8>, Refusal>) {
    let before = device();
    for payload in payloads {
        let mut device = before.clone();
        assert_eq!(clear(&mut device, &payload), answer, "{payload:?}");
        assert_eq!(device, before, "{payload:?}");
    }
}

/// "Clear Event Records with a flag bit 1 to 7 set ... refused": every flags byte, with
/// right handles, without handles, and beside a Clear All that is right otherwise.
#[test]
fn every_flags_byte() {
    for flags in 0..=255u8 {
        let expected = |right: bool| match (flags & 0xfe, right) {
            (0, true) => SUCCESS,
            _ => REFUSED,
        };
        let all = flags & 1 == 1;
        // Log 1 holds handles 1 to 3 and has no overflow; log 3 has overflow.
        for (log, handles, right) in [
            (1, vec![1, 2, 3], !all),
            (1, vec![], !all),
            (3, vec![], true),
            (3, vec![1, 2], !all),
        ] {
            let mut device = device();
            let before = device.clone();
            let answer = clear(&mut device, &payload(log, flags, [0; 3], &handles));
            assert_eq!(answer, expected(right), "log {log}, flags {flags:#04x}");
            assert!(answer.is_ok() || device == before);
        }
    }
}

/// "... or a reserved byte not zero": every value of each, alone and with all three.
#[test]
fn every_reserved_byte() {
    for value in 0..=255u8 {
        let expected = if value == 0 { SUCCESS } else { REFUSED };
        let one = |place: usize| {
            let mut reserved = [0; 3];
            reserved[place] = value;
            reserved
        };
        for reserved in [one(0), one(1), one(2), [value; 3]] {
            for (log, flags, handles) in [(1, 0, vec![1, 2]), (3, 1, vec![]), (0, 0, vec![])] {
                let mut device = device();
                let before = device.clone();
                let answer = clear(&mut device, &payload(log, flags, reserved, &handles));
                assert_eq!(answer, expected, "log {log}, reserved {reserved:?}");
                assert!(answer.is_ok() || device == before);
            }
        }
    }
    // Bytes whose sum is 256, so 0 in eight bits.
    let pairs = [[1, 255, 0], [0, 128, 128], [255, 0, 1]];
    all_refused(
        pairs.map(|bytes| payload(1, 0, bytes, &[1])).into(),
        REFUSED,
    );
}

/// A flag bit and a reserved byte set together, each with each, where the clear is right
/// otherwise: by handles, without handles and by Clear All.
#[test]
fn a_flag_bit_and_a_reserved_byte_together() {
    for bit in 1..8 {
        for reserved in [[1, 0, 0], [0, 0x80, 0], [0, 0, 0xff]] {
            let clears = [(1, 0, vec![1]), (1, 0, vec![]), (3, 1, vec![])];
            let both = clears
                .map(|(log, flags, handles)| payload(log, flags | 1 << bit, reserved, &handles));
            all_refused(both.into(), REFUSED);
        }
    }
}

/// What was refused goes where the reserved places are zero: the records and handles are
/// those from before the refusals.
#[test]
fn after_refusals_the_right_clear_is_taken() {
    let mut device = device();
    for spoilt in spoilt(1, 0, &[1, 2]) {
        assert_eq!(clear(&mut device, &spoilt), REFUSED);
    }
    assert_eq!(clear(&mut device, &payload(1, 0, [0; 3], &[1, 2])), SUCCESS);
    assert_eq!(device.log(1).handles(), [3]);
    for spoilt in spoilt(3, 1, &[]) {
        assert_eq!(clear(&mut device, &spoilt), REFUSED);
        assert_eq!(device.log(3).overflow_count(), 3);
    }
    assert_eq!(clear(&mut device, &payload(3, 1, [0; 3], &[])), SUCCESS);
    assert!(device.log(3).is_empty());
    // "Next handles go on."
    assert_eq!(
        (device.log(1).next_handle(), device.log(3).next_handle()),
        (4, 9)
    );
}

/// "for each directly after its last length check": 0016h comes first, for n and for the
/// least length of 6.
#[test]
fn a_wrong_length_comes_before() {
    for spoilt in spoilt(1, 0, &[1]).into_iter().chain(spoilt(1, 1, &[])) {
        let with_count = |count: u8| {
            let mut payload = spoilt.clone();
            payload[2] = payload[2].wrapping_add(count);
            payload
        };
        let with_byte = [spoilt.clone(), vec![0]].concat();
        let cut = (0..spoilt.len()).map(|length| spoilt[..length].to_vec());
        let wrong = vec![with_count(1), with_count(255), with_byte];
        let whole_n = |payload: &Vec<u8>| {
            payload.len() >= 6 && payload.len() == 6 + 2 * usize::from(payload[2])
        };
        let wrong = wrong.into_iter().chain(cut);
        all_refused(wrong.filter(|wrong| !whole_n(wrong)).collect(), LENGTH);
    }
    // A length up to the mailbox's and past it.
    for length in [516, 518, 2048, 2049, 4096] {
        all_refused(
            vec![vec![0xff; length]],
            if length == 516 { REFUSED } else { LENGTH },
        );
    }
}

/// So it comes before the log's number, Clear All's checks and the handles.
#[test]
fn it_comes_before_log_and_handles() {
    // The handles alone give another number: 000Eh.
    for handles in [vec![2], vec![1, 3], vec![1, 2, 3, 4], vec![0; 255]] {
        all_refused(vec![payload(1, 0, [0; 3], &handles)], HANDLE);
        all_refused(spoilt(1, 0, &handles), REFUSED);
    }
    all_refused(spoilt(0, 0, &[1]), REFUSED);
    // A log above 4; Clear All with n not 0 and without overflow: 0002h either way.
    for (log, flags, handles) in [
        (5, 0, vec![]),
        (255, 0, vec![1]),
        (5, 1, vec![]),
        (1, 1, vec![]),
        (0, 1, vec![]),
        (3, 1, vec![1]),
        (1, 1, vec![1, 2, 3]),
    ] {
        all_refused(vec![payload(log, flags, [0; 3], &handles)], REFUSED);
        all_refused(spoilt(log, flags, &handles), REFUSED);
    }
}

/// "Set Event Interrupt Policy with a low-two-bits mode of 2 or 3": every byte value at
/// every place of four and five bytes. Bits 2 to 7 change nothing.
#[test]
fn every_setting_at_every_place() {
    for (before, length) in [([0; 5], 4), ([1; 5], 4), ([0; 5], 5), ([1; 5], 5)] {
        for place in 0..length {
            for setting in 0..=255u8 {
                let mut device = device();
                assert_eq!(set(&mut device, &before), SUCCESS);
                let old = device.clone();
                // The others change every log that they name.
                let mut settings = vec![1 - before[0]; length];
                settings[place] = setting;
                let answer = set(&mut device, &settings);
                if setting & 3 >= 2 {
                    assert_eq!((answer, &device), (REFUSED, &old), "{settings:?}");
                    continue;
                }
                assert_eq!(answer, SUCCESS, "{settings:?}");
                let left = before[length..].iter();
                let on = settings.iter().chain(left).map(|setting| setting & 3 == 1);
                let expected = on.zip(ENABLED).map(|(on, byte)| if on { byte } else { 0 });
                assert_eq!(policy(&mut device), expected.collect::<Vec<u8>>());
            }
        }
    }
}

/// Every combination of modes, four and five of them: refused exactly if one is 2 or 3.
#[test]
fn every_combination_of_modes() {
    for length in [4, 5] {
        for number in 0..1u32 << (2 * length) {
            let settings: Vec<u8> = (0..length)
                .map(|place| (number >> (2 * place)) as u8 & 3)
                .collect();
            let mut device = Device::make(1, 0, Config::default()).1;
            assert_eq!(set(&mut device, &[1, 0, 1, 0, 1]), SUCCESS);
            let before = device.clone();
            match settings.iter().any(|mode| *mode > 1) {
                true => {
                    assert_eq!(set(&mut device, &settings), REFUSED, "{settings:?}");
                    assert_eq!(device, before);
                }
                false => assert_eq!(set(&mut device, &settings), SUCCESS, "{settings:?}"),
            }
        }
    }
}

/// The length comes first, whatever the modes.
#[test]
fn a_policy_of_a_wrong_length() {
    let before = device();
    for length in [0, 1, 2, 3, 6, 7, 8, 255, 2048, 2049, 4096] {
        for setting in [0, 1, 2, 3, 0xff] {
            let mut device = before.clone();
            assert_eq!(set(&mut device, &vec![setting; length]), LENGTH);
            assert_eq!(device, before);
        }
    }
}

/// A refused Set leaves what the settings do: the vectors of W-204.
#[test]
fn vectors_after_a_refused_set() {
    let mut device = Device::make(1, 0, Config::default()).1;
    assert_eq!(set(&mut device, &[1, 0, 1, 0, 1]), SUCCESS);
    for settings in [[0, 1, 0, 1, 2], [3, 1, 0, 1, 0], [0, 1, 2, 1, 0]] {
        assert_eq!(set(&mut device, &settings), REFUSED);
        assert_eq!(set(&mut device, &settings[..3]), LENGTH);
    }
    let vectors = [Some(2), None, Some(4), None, Some(2)];
    for (log, vector) in (0..5).zip(vectors) {
        let reported = device.event_report(log, &[0; 128], 0).unwrap();
        assert_eq!(reported.vector, vector, "log {log}");
    }
}

/// Document 01 "Order for a command: 0100h; payload over 2,048 bytes, 0016h": both come
/// before, and no byte of the buffer is altered by any of the refusals.
#[test]
fn the_room_and_the_payload_limit_come_first() {
    let before = device();
    let refused = |number| Answered {
        number,
        length: 0,
        vector: None,
    };
    let mut over = payload(1, 0xff, [9; 3], &[2]);
    over.resize(2049, 3);
    let clears = spoilt(1, 0, &[2])
        .into_iter()
        .map(|payload| (opcode::CLEAR_EVENT_RECORDS, payload));
    let sets = [vec![2; 4], vec![3; 5], vec![1, 1, 1, 2]];
    let sets = sets.map(|payload| (opcode::SET_POLICY, payload));
    for (code, payload) in clears.chain(sets) {
        for (room, payload, number) in [
            (0, &payload, 0x0100),
            (2047, &payload, 0x0100),
            (2047, &over, 0x0100),
            (2048, &over, 0x0016),
            (2048, &payload, 0x0002),
            (4096, &payload, 0x0002),
        ] {
            let mut device = before.clone();
            let mut reply = vec![0xaa; room];
            let labels = &mut [0; LABEL_AREA];
            let answer = device.command(code, payload, 7, labels, &mut reply);
            assert_eq!(answer, refused(number), "{code:04x} {payload:?}");
            assert_eq!(reply, vec![0xaa; room]);
            assert_eq!(device, before);
        }
    }
}

/// No other command looks at such places: bytes that a command does not read stay free.
#[test]
fn other_payloads_as_before() {
    let mut device = device();
    let mut payload = vec![0; 8];
    payload.extend([0xff; 64]);
    for (code, payload) in [
        (opcode::SET_TIMESTAMP, vec![0xff; 8]),
        (opcode::CLEAR_POISON, payload),
        (opcode::GET_EVENT_RECORDS, vec![3]),
        (opcode::INJECT_POISON, vec![0x40, 0, 0, 0, 0, 0, 0, 0]),
    ] {
        assert!(device.answer(code, &payload, 0).is_ok(), "{code:04x}");
    }
}

/// A request built: what W-202 refuses stays, its fields are not judged, and its reserved
/// bytes are zero, so that the device takes it where its fields are right.
#[test]
fn requests_built() {
    let build = |request: &Request, room: usize| {
        let mut bytes = vec![0xee; room];
        let (number, length) = request.build(&mut bytes, Config::default());
        (number, bytes[..length].to_vec())
    };
    for flags in 0..=255u8 {
        let handles = match flags & 1 {
            0 => vec![1, 2],
            _ => vec![],
        };
        let request = Request::ClearEventRecords {
            log: 3,
            flags,
            handles: handles.clone(),
        };
        let built = payload(3, flags, [0; 3], &handles);
        assert_eq!(build(&request, built.len() - 1), (0x0100, vec![]));
        assert_eq!(build(&request, 2048), (0, built.clone()));
        let answer = clear(&mut device(), &built);
        assert_eq!(answer, if flags & 0xfe == 0 { SUCCESS } else { REFUSED });
    }
    let surplus = Request::ClearEventRecords {
        log: 3,
        flags: 0xfe,
        handles: vec![1; 256],
    };
    assert_eq!(build(&surplus, 517), (0x0100, vec![]));
    assert_eq!(build(&surplus, 518), (0x0016, vec![]));
    for mode in 0..4 {
        for settings in [vec![mode; 4], vec![0, 0, 0, 0, mode]] {
            let request = Request::SetPolicy {
                settings: settings.clone(),
            };
            assert_eq!(build(&request, 5), (0, settings.clone()));
            let answer = set(&mut device(), &settings);
            assert_eq!(answer, if mode < 2 { SUCCESS } else { REFUSED });
        }
    }
}

/// The rule over generated calls: a command of a right length with something reserved set
/// is refused with 0002h and leaves the device, in a room that is large enough.
#[test]
fn it_holds_after_generated_calls() {
    let names = [
        "reserved",
        "modes",
        "clear-all",
        "policy",
        "everything",
        "rooms",
    ];
    let (mut clears, mut sets, mut taken) = (0, 0, 0);
    for (name, seed) in names
        .into_iter()
        .flat_map(|name| [(name, 1), (name, 2), (name, 3)])
    {
        let profile = profile_named(Format::Probe, name).unwrap();
        each_step(Format::Probe, profile, seed, |record, before, after| {
            let Some((code, payload)) = rightly_lent(record, after) else {
                return;
            };
            let reserved = match (code, payload) {
                (opcode::CLEAR_EVENT_RECORDS, [_, flags, n, a, b, c, handles @ ..])
                    if handles.len() == 2 * usize::from(*n) =>
                {
                    flags >> 1 != 0 || a | b | c != 0
                }
                (opcode::SET_POLICY, settings) if [4, 5].contains(&settings.len()) => {
                    settings.iter().any(|setting| setting & 2 == 2)
                }
                _ => return,
            };
            let line = String::from_utf8_lossy(after.line.as_bytes()).to_string();
            taken += usize::from(line == "CM 0 0 - 1 0\n");
            if reserved {
                assert_eq!(line, "CM 2 0 - 1 0\n", "{name}: {record:?}");
                assert_eq!(after.device(), before, "{name}: {record:?}");
                match code {
                    opcode::SET_POLICY => sets += 1,
                    _ => clears += 1,
                }
            } else if code == opcode::SET_POLICY {
                assert_eq!(line, "CM 0 0 - 1 0\n", "{name}: {record:?}");
            }
        });
    }
    assert!(
        clears > 300 && sets > 150 && taken > 500,
        "{clears} {sets} {taken}"
    );
}
