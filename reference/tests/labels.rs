//! Document 02, W-206, sentence by sentence: the lent label area, Get LSA and Set LSA; and
//! the records AR and AB of document 10.

mod common;

use common::{cm, each_step, rightly_lent};
use reference::device::numbers::{number_of, opcode, Refusal};
use reference::device::{Answered, Config, Device};
use reference::format::Format::{self, Bench, Probe};
use reference::generate::{profile_named, profile_of, DEFAULT_SEEDS};
use reference::probe::lines_of;
use reference::probe::record::{Call, Record};
use std::collections::BTreeMap;

const GET: u16 = 0x4102;
const SET: u16 = 0x4103;
/// "The caller lends 4,096 bytes of label area".
const SIZE: usize = 4096;

const SUCCESS: Result<Vec<u8>, Refusal> = Ok(Vec::new());
const REFUSED: Result<Vec<u8>, Refusal> = Err(Refusal::InvalidInput);
const LENGTH: Result<Vec<u8>, Refusal> = Err(Refusal::InvalidPayloadLength);

/// A device that is not new: a clock, a policy, a record and an entry.
fn device() -> Device {
    let mut device = Device::make(1, 0, Config::default()).1;
    device.answer(opcode::SET_TIMESTAMP, &[9; 8], 0).unwrap();
    device.answer(opcode::SET_POLICY, &[1; 5], 0).unwrap();
    device.event_report(1, &[0x5a; 128], 3).unwrap();
    device.media_report(128, 3, 1, 0).unwrap();
    device
}

/// An area whose bytes all differ from their neighbours and none of which is 0.
fn area() -> Vec<u8> {
    (0..SIZE).map(|place| (place % 251) as u8 + 1).collect()
}

/// A command with this area lent. It carries no vector and leaves the device.
fn run(area: &mut [u8], code: u16, payload: &[u8]) -> Result<Vec<u8>, Refusal> {
    let (before, mut device) = (device(), device());
    let answer = device.run(code, payload, 7, area);
    assert_eq!(device, before, "{code:04x} {payload:?}");
    answer.map(|done| {
        assert_eq!(done.vector, None);
        done.reply
    })
}

fn get(area: &mut [u8], offset: u32, length: u32) -> Result<Vec<u8>, Refusal> {
    let payload = [offset.to_le_bytes(), length.to_le_bytes()].concat();
    let before = area.to_vec();
    let answer = run(area, GET, &payload);
    assert_eq!(area, before, "a Get writes nothing");
    answer
}

fn set_payload(offset: u32, reserved: [u8; 4], data: &[u8]) -> Vec<u8> {
    [&offset.to_le_bytes(), &reserved, data].concat()
}

fn set(area: &mut [u8], offset: u32, data: &[u8]) -> Result<Vec<u8>, Refusal> {
    run(area, SET, &set_payload(offset, [0; 4], data))
}

/// Some data, the first byte being `first`.
fn data(first: u8, length: usize) -> Vec<u8> {
    (0..length).map(|i| first.wrapping_add(i as u8)).collect()
}

/// "Get LSA 4102h (offset 4, length 4) replies those bytes".
#[test]
fn get_replies_those_bytes() {
    let mut area = area();
    let copy = area.clone();
    for (offset, length) in [
        (0, 0),
        (0, 1),
        (0, 2048),
        (1, 2047),
        (1, 2048),
        (2047, 2),
        (2048, 2048),
        (4095, 1),
        (4096, 0),
        (300, 600),
    ] {
        let reply = get(&mut area, offset, length).unwrap();
        let (from, to) = (offset as usize, (offset + length) as usize);
        assert_eq!(reply, copy[from..to], "{offset} {length}");
    }
}

/// "Get length over 2,048, end past 4,096 ... 0002h"; the sum is one of whole numbers.
#[test]
fn get_refuses_length_and_end() {
    let mut area = area();
    for (offset, length) in [
        (0, 2049),
        (0, 4096),
        (0, 65_536),
        (0, u32::MAX),
        (1, u32::MAX),
        (2048, 2049),
        (2049, 2048),
        (4095, 2),
        (4096, 1),
        (4097, 0),
        (65_535, 1),
        (65_536, 0),
        (65_536, 1),
        (1 << 31, 0),
        (1 << 31, 1 << 31),
        (u32::MAX, 0),
        (u32::MAX, 1),
        (u32::MAX, 2),
        (u32::MAX - 2047, 2048),
    ] {
        assert_eq!(get(&mut area, offset, length), REFUSED, "{offset} {length}");
    }
}

/// Every end of every length: taken exactly up to 4,096.
#[test]
fn every_end() {
    let mut area = area();
    for length in [0, 1, 2, 100, 2040, 2048] {
        for offset in SIZE as u32 - length - 3..SIZE as u32 - length + 4 {
            let fits = offset + length <= 4096;
            assert_eq!(get(&mut area, offset, length).is_ok(), fits);
            if length <= 2040 {
                let copy = area.clone();
                let answer = set(&mut area, offset, &data(9, length as usize));
                assert_eq!(answer, if fits { SUCCESS } else { REFUSED });
                assert!(fits || area == copy);
            }
        }
    }
}

/// "Set LSA 4103h (offset 4, four reserved, data) writes the data and no other byte".
#[test]
fn set_writes_the_data_and_no_other_byte() {
    for (offset, length) in [
        (0, 1),
        (0, 2040),
        (1, 8),
        (2047, 2),
        (2056, 2040),
        (4088, 8),
        (4095, 1),
    ] {
        let (mut area, mut expected) = (area(), area());
        let data = data(0xf0, length);
        expected[offset as usize..][..length].copy_from_slice(&data);
        assert_eq!(set(&mut area, offset, &data), SUCCESS);
        assert_eq!(area, expected, "{offset} {length}");
        // Zeros are data too.
        expected[offset as usize..][..length].fill(0);
        assert_eq!(set(&mut area, offset, &vec![0; length]), SUCCESS);
        assert_eq!(area, expected, "{offset} {length}");
    }
}

/// A Set without data is Success up to offset 4,096 and changes nothing.
#[test]
fn a_set_without_data() {
    let mut area = area();
    let copy = area.clone();
    for offset in [0, 1, 2048, 4095, 4096] {
        assert_eq!(set(&mut area, offset, &[]), SUCCESS);
    }
    for offset in [4097, 8192, 65_536, 1 << 31, u32::MAX] {
        assert_eq!(set(&mut area, offset, &[]), REFUSED);
    }
    assert_eq!(area, copy);
}

/// "end past 4,096": no byte of a Set is written, also where some would fit.
#[test]
fn a_set_past_the_end_writes_nothing() {
    let mut area = area();
    let copy = area.clone();
    for (offset, length) in [
        (4095, 2),
        (4096, 1),
        (2057, 2040),
        (4090, 7),
        (65_535, 1),
        (65_536, 8),
        (1 << 31, 8),
        (u32::MAX, 1),
        (u32::MAX, 2),
        (u32::MAX - 7, 8),
        (u32::MAX - 2030, 2040),
    ] {
        assert_eq!(set(&mut area, offset, &data(1, length)), REFUSED);
        assert_eq!(area, copy, "{offset} {length}");
    }
}

/// "reserved bytes of Set not zero, 0002h": every value of each byte alone, sums that are 0
/// in 8, 16 and 32 bits, with data and without, in a range that fits and past the end.
#[test]
fn every_reserved_byte() {
    let mut area = area();
    let copy = area.clone();
    let alone = (0..4).flat_map(|place| {
        (1..=255).map(move |value| {
            let mut reserved = [0; 4];
            reserved[place] = value;
            reserved
        })
    });
    let together = [
        [1, 255, 0, 0],
        [0, 128, 0, 128],
        [64, 64, 64, 64],
        [1, 0, 255, 255],
        [0, 128, 0, 128],
        [0x5a, 0x5a, 0, 0],
        [255; 4],
        [0, 0, 0, 0x80],
    ];
    for reserved in alone.chain(together) {
        for (offset, length) in [(0, 0), (0, 4), (4096, 0), (4096, 1), (u32::MAX, 1)] {
            let payload = set_payload(offset, reserved, &data(0x80, length));
            assert_eq!(run(&mut area, SET, &payload), REFUSED, "{reserved:?}");
        }
    }
    assert_eq!(area, copy);
    // Data of any bytes is no reserved place.
    assert_eq!(set(&mut area, 0, &[0xff; 16]), SUCCESS);
}

/// "Get payload not 8 or Set payload under 8, 0016h", whatever stands in it.
#[test]
fn payload_lengths() {
    let mut area = area();
    let copy = area.clone();
    for length in (0..=12).chain([2047, 2048, 2049, 4096]) {
        for byte in [0, 1, 0xff] {
            let payload = vec![byte; length];
            if length != 8 {
                assert_eq!(run(&mut area, GET, &payload), LENGTH, "{length}");
            }
            if !(8..=2048).contains(&length) {
                assert_eq!(run(&mut area, SET, &payload), LENGTH, "{length}");
            } else if byte != 0 {
                assert_eq!(run(&mut area, SET, &payload), REFUSED, "{length}");
            }
        }
    }
    assert_eq!(area, copy);
    // The longest payload: 2,040 bytes of data.
    assert_eq!(run(&mut area, SET, &[0; 2048]), SUCCESS);
    assert_eq!(
        (&area[..2040], &area[2040..]),
        (&[0; 2040][..], &copy[2040..])
    );
}

/// "After a Set ... a Get of the same range gives the data back, and a Get of a range apart
/// from it gives what it gave just before the Set."
#[test]
fn same_and_apart_ranges() {
    let mut area = area();
    for (offset, length) in [(0, 10), (5, 10), (100, 2040), (4086, 10), (2050, 1), (7, 0)] {
        let data = data(0xa0, length as usize);
        let apart: Vec<(u32, u32)> = [(0, offset), (offset + length, 4096 - offset - length)]
            .into_iter()
            .map(|(from, most)| (from, most.min(2048)))
            .collect();
        let read = |area: &mut [u8]| -> Vec<Vec<u8>> {
            let read = apart.iter().map(|(from, length)| get(area, *from, *length));
            read.map(Result::unwrap).collect()
        };
        let before = read(&mut area);
        assert_eq!(set(&mut area, offset, &data), SUCCESS);
        assert_eq!(get(&mut area, offset, length), Ok(data));
        assert_eq!(read(&mut area), before);
    }
}

/// "area not 4,096 bytes, 0100h with the first check": for every command, known or not, with
/// every payload, in every room. No byte of area, buffer and device changes.
#[test]
fn another_area_is_refused_first() {
    let refused = Answered {
        number: 0x0100,
        length: 0,
        vector: None,
    };
    let codes = opcode::ALL
        .into_iter()
        .chain([0, 0x0104, 0x4101, 0x4104, 0xffff]);
    for code in codes {
        for size in [0, 1, 2047, 2048, 4095, 4097, 8191, 8192] {
            for payload in [0, 1, 5, 8, 9, 16, 24, 72, 2048, 2049, 4096] {
                for room in [0, 2047, 2048, 4096] {
                    let (before, mut device) = (device(), device());
                    let (mut labels, mut reply) = (vec![0x3c; size], vec![0xaa; room]);
                    let payload = vec![0; payload];
                    let answer = device.command(code, &payload, 7, &mut labels, &mut reply);
                    assert_eq!(answer, refused, "{code:04x} {size} {room}");
                    assert_eq!((labels, reply), (vec![0x3c; size], vec![0xaa; room]));
                    assert_eq!(device, before);
                }
            }
        }
    }
}

/// Document 01's order: the room, a payload over 2,048 bytes and a wrong length come before
/// the two commands' own refusals; no byte of the buffer is altered by any of them.
#[test]
fn the_order_of_refusals() {
    let past = set_payload(4096, [9; 4], &[1]);
    for (code, payload, room, number) in [
        (GET, vec![0xff; 8], 2047, 0x0100),
        (GET, vec![0xff; 7], 2047, 0x0100),
        (GET, vec![0xff; 2049], 2047, 0x0100),
        (GET, vec![0xff; 2049], 2048, 0x0016),
        (GET, vec![0xff; 9], 2048, 0x0016),
        (GET, vec![0xff; 8], 2048, 0x0002),
        (SET, past.clone(), 2047, 0x0100),
        (SET, vec![0xff; 7], 0, 0x0100),
        (SET, vec![0; 2049], 2047, 0x0100),
        (SET, vec![0; 2049], 4096, 0x0016),
        (SET, vec![0xff; 2049], 4096, 0x0016),
        (SET, vec![0xff; 7], 2048, 0x0016),
        (SET, past, 2048, 0x0002),
    ] {
        let (before, mut device) = (device(), device());
        let (mut labels, mut reply) = (area(), vec![0xaa; room]);
        let answer = device.command(code, &payload, 7, &mut labels, &mut reply);
        assert_eq!(
            (answer.number, answer.length, answer.vector),
            (number, 0, None)
        );
        assert_eq!((labels, reply), (area(), vec![0xaa; room]));
        assert_eq!(device, before);
    }
}

/// "On Success of length n the first n reply bytes are written, the others stay."
#[test]
fn the_reply_buffer() {
    let mut device = device();
    let mut labels = area();
    for (length, room) in [
        (0, 2048),
        (1, 2048),
        (2047, 2048),
        (2048, 2048),
        (2048, 4096),
    ] {
        let mut reply = vec![0xaa; room];
        let payload = [5u32.to_le_bytes(), (length as u32).to_le_bytes()].concat();
        let answer = device.command(GET, &payload, 7, &mut labels, &mut reply);
        assert_eq!((answer.number, answer.length), (0, length));
        assert_eq!(reply[..length], area()[5..5 + length]);
        assert_eq!(reply[length..], vec![0xaa; room - length]);
        let payload = set_payload(5, [0; 4], &area()[5..]);
        let answer = device.command(SET, &payload[..2048], 7, &mut labels, &mut reply);
        assert_eq!((answer.number, answer.length), (0, 0));
        assert_eq!(reply[length..], vec![0xaa; room - length]);
    }
    assert_eq!(labels, area());
}

/// "Both join the effects log, 4103h with effect 6, and Identify's label size becomes 4,096."
#[test]
fn effects_log_and_identity() {
    let mut device = device();
    let whole: Vec<u8> = [
        (0x0100u16, 0u16),
        (0x0101, 0x10),
        (0x0102, 0),
        (0x0103, 2),
        (0x0300, 0),
        (0x0301, 8),
        (0x0400, 0),
        (0x0401, 0),
        (0x4000, 0),
        (0x4102, 0),
        (0x4103, 6),
        (0x4300, 0),
        (0x4301, 0),
        (0x4302, 0),
        (0x4400, 0x64),
    ]
    .iter()
    .flat_map(|(code, effect)| [code.to_le_bytes(), effect.to_le_bytes()].concat())
    .collect();
    let logs = device.answer(opcode::GET_SUPPORTED_LOGS, &[], 0).unwrap();
    assert_eq!(logs[24..], [60, 0, 0, 0]);
    let mut ask = |offset: u32, length: u32| {
        let fields = [offset.to_le_bytes(), length.to_le_bytes()].concat();
        device.answer(opcode::GET_LOG, &[&logs[8..24], &fields].concat(), 0)
    };
    for offset in 0..=61u32 {
        for length in 0..=61u32 {
            let (from, to) = (offset as usize, (offset + length) as usize);
            let expected = whole.get(from..to).map(<[u8]>::to_vec);
            assert_eq!(ask(offset, length), expected.ok_or(Refusal::InvalidInput));
        }
    }
    let identity = device.answer(opcode::IDENTIFY, &[], 0).unwrap();
    assert_eq!(identity[56..60], [0x00, 0x10, 0x00, 0x00]);
}

/// The lines of a probe stream after a make of one volatile unit.
fn lines(parts: &[Vec<u8>]) -> String {
    let stream = [&[b"NW\x01\0\0\0".to_vec()], parts].concat().concat();
    let text = String::from_utf8(lines_of(&stream, Config::default())).unwrap();
    text.strip_prefix("NW 0\n").unwrap().to_string()
}

fn ar(size: u32) -> Vec<u8> {
    [b"AR".to_vec(), size.to_le_bytes().to_vec()].concat()
}

fn ab(offset: u16, length: u16) -> Vec<u8> {
    [b"AB", &offset.to_le_bytes()[..], &length.to_le_bytes()[..]].concat()
}

/// CM in a room of 2,048 bytes.
fn call(code: u16, payload: &[u8]) -> Vec<u8> {
    cm(code, 2048, 0xee, payload)
}

/// "the first ones of a store of 8,192 bytes, zero at first and kept whatever is lent of it.
/// Before any `AR` 4,096 are lent"; "A make leaves the label store, the size lent .. as they
/// are."
#[test]
fn the_store_of_probe() {
    let write = |offset, data: &[u8]| call(SET, &set_payload(offset, [0; 4], data));
    let taken = "CM 0 0 - 1 0\n";
    let refused = "CM 256 0 - 1 0\n";
    assert_eq!(lines(&[ab(0, 0)]), "AB -\n");
    assert_eq!(lines(&[ab(0, 8192)]), format!("AB {}\n", "00".repeat(8192)));
    assert_eq!(
        lines(&[write(4094, &[1, 2]), ab(4093, 4), ab(8192, 0), ab(8191, 1)]),
        format!("{taken}AB 00010200\nAB -\nAB 00\n")
    );
    let mut parts = vec![write(0, &[0xab]), write(4095, &[0xcd])];
    let mut expected = taken.repeat(2);
    for size in [0, 1, 2048, 4095, 4097, 8191, 8192] {
        parts.extend([
            ar(size),
            write(0, &[1]),
            call(0x4000, &[]),
            call(0xffff, &[]),
        ]);
        parts.extend([
            b"NW\x01\0\0\0".to_vec(),
            write(0, &[2]),
            b"NW\0\0\0\0".to_vec(),
        ]);
        parts.extend([write(0, &[3]), ab(0, 1), ab(4095, 2)]);
        let makes = format!("NW 0\n{refused}NW 2\n{refused}");
        expected += &format!("AR\n{}{makes}AB ab\nAB cd00\n", refused.repeat(3));
    }
    parts.extend([ar(4096), call(GET, &[0, 0, 0, 0, 1, 0, 0, 0])]);
    expected += "AR\nCM 0 1 ab 1 0\n";
    assert_eq!(lines(&parts), expected);
}

/// "sizes of `AR` at most 8,192, offset plus length of `AB` at most 8,192"; a cut record is
/// bad, and so is either as the first record.
#[test]
fn bad_records_of_labels() {
    for size in [8193, 65_535, 65_536, (1 << 16) + 4096, 1 << 31, u32::MAX] {
        assert_eq!(lines(&[ar(size), b"ES".to_vec()]), "BAD 6\n", "{size}");
    }
    for (offset, length) in [
        (8192, 1),
        (0, 8193),
        (1, 8192),
        (65_535, 1),
        (32_768, 32_768),
        (65_535, 65_535),
    ] {
        assert_eq!(lines(&[ab(offset, length), b"ES".to_vec()]), "BAD 6\n");
    }
    for record in [ar(4096), ab(0, 1)] {
        for cut in 1..record.len() {
            assert_eq!(lines(&[record[..cut].to_vec()]), "BAD 6\n");
        }
        assert_eq!(lines_of(&record, Config::default()), b"BAD 0\n");
    }
}

/// "`RQ`, `RP` and `RW` know the twelve opcodes of document 01"; "`WK` .. is not touched by
/// `AR`".
#[test]
fn the_hosts_side() {
    for code in [GET, SET] {
        let code = code.to_le_bytes();
        let request = [b"RQ", &code[..], &[0, 8, 0xee], &[0; 8]].concat();
        let reply = [b"RP", &code[..], &[0; 6]].concat();
        let again = [b"RW", &code[..], &[0; 4], &[0, 8, 0xee, 0, 0]].concat();
        for record in [request, reply, again] {
            assert_eq!(lines(&[record]), "BAD 6\n");
        }
    }
    let walk = [
        b"WK",
        &[0; 8][..],
        &[4, 0, 0, 0, 0, 0, 0, 0],
        &[16, 0, 0, 0, 0xee],
    ]
    .concat();
    let media = [
        b"MD",
        &[0; 8][..],
        &[64, 0, 0, 0, 0, 0, 0, 0],
        &[2, 0, 0, 0, 7],
    ]
    .concat();
    let parts = [media, ar(0), walk.clone(), ar(8192), walk];
    let walked = "WK 0 16 47000000000000000200000000000000 1\n";
    assert_eq!(lines(&parts), format!("MD 0 2 0\nAR\n{walked}AR\n{walked}"));
}

/// What a Set of so many bytes from `offset` on should answer, from the sentences alone.
fn set_number(offset: u64, payload: &[u8]) -> u16 {
    match payload.len() {
        2049.. | ..=7 => 0x0016,
        _ if payload[4..8] != [0; 4] => 0x0002,
        length if offset + length as u64 - 8 > 4096 => 0x0002,
        _ => 0,
    }
}

fn get_number(payload: &[u8]) -> u16 {
    let field = |at: usize| u32::from_le_bytes(payload[at..at + 4].try_into().unwrap());
    match payload.len() {
        8 if field(4) > 2048 || u64::from(field(0)) + u64::from(field(4)) > 4096 => 0x0002,
        8 => 0,
        _ => 0x0016,
    }
}

/// The number with which a command on the labels is answered: "while disabled, 0007h", after
/// the length check (W-207).
fn while_disabled(disabled: bool, number: u16) -> u16 {
    match number {
        0x0016 => 0x0016,
        _ if disabled => 0x0007,
        number => number,
    }
}

/// The rules over generated calls of both formats, with a paper area beside them: each Get
/// gives the paper's bytes, each Set that is taken writes its data there, and the store is the
/// paper after every record. With another size lent every command is 0100h.
#[test]
fn it_holds_after_generated_calls() {
    let names = [
        "label-ranges",
        "label-edges",
        "label-refusals",
        "labels-kept",
    ];
    let of_probe = [
        "label-areas",
        "label-store",
        "everything",
        "later-makes",
        "rooms",
    ];
    let mut runs: Vec<(Format, &str)> = names.map(|name| (Bench, name)).to_vec();
    runs.extend(names.iter().chain(&of_probe).map(|name| (Probe, *name)));
    let (mut gets, mut sets, mut areas) = (0, 0, 0);
    for (format, name) in runs {
        let profile = profile_named(format, name).unwrap();
        let mut paper = vec![0; 8192];
        each_step(format, profile, 5, |record, before, after| {
            let line = String::from_utf8_lossy(after.line.as_bytes()).to_string();
            let columns: Vec<&str> = line.trim_end().split(' ').collect();
            let lent = after.labels().lent().len();
            let disabled = before.media_disabled();
            if matches!(record, Record::Command(_)) && lent != SIZE {
                assert_eq!(line, "CM 256 0 - 1 0\n", "{name}: {record:?}");
                assert_eq!(after.device(), before);
                areas += 1;
            }
            match rightly_lent(record, after) {
                Some((GET, payload)) => {
                    let number = while_disabled(disabled, get_number(payload));
                    assert_eq!(columns[1], number.to_string(), "{name}: {record:?}");
                    if number == 0 {
                        let from = usize::from(payload[0]) | usize::from(payload[1]) << 8;
                        let length = usize::from(payload[4]) | usize::from(payload[5]) << 8;
                        let hex: String = paper[from..from + length]
                            .iter()
                            .map(|byte| format!("{byte:02x}"))
                            .collect();
                        let hex = if length == 0 { "-".to_string() } else { hex };
                        assert_eq!(columns[3], hex, "{name}: {record:?}");
                        gets += 1;
                    }
                    assert_eq!(after.device(), before);
                }
                Some((SET, payload)) => {
                    let offset = payload.get(..4).map_or(0, |bytes| {
                        u32::from_le_bytes(bytes.try_into().unwrap()).into()
                    });
                    let number = while_disabled(disabled, set_number(offset, payload));
                    let expected = format!("CM {number} 0 - 1 0\n");
                    assert_eq!(line, expected, "{name}: {record:?}");
                    if number == 0 {
                        let data = &payload[8..];
                        paper[offset as usize..][..data.len()].copy_from_slice(data);
                        sets += 1;
                    }
                    assert_eq!(after.device(), before);
                }
                _ => {}
            }
            assert_eq!(after.labels().bytes(), paper, "{name}: {record:?}");
        });
    }
    assert!(
        gets > 1500 && sets > 600 && areas > 500,
        "{gets} {sets} {areas}"
    );
}

/// An edge by its number.
fn edge(number: u64) -> Option<u64> {
    let near = [0, 1, 2047, 2048, 2049, 4095, 4096, 4097];
    let far = [65_535, 65_536, 65_537, 1 << 31, u64::from(u32::MAX)];
    near.into_iter().chain(far).find(|edge| *edge == number)
}

/// How the bytes of a Get lie to those that the last Set wrote.
fn relation((from, to): (u64, u64), (begin, end): (u64, u64)) -> &'static str {
    match () {
        _ if (from, to) == (begin, end) => "same",
        _ if from < end && begin < to => "overlapping",
        _ if to == begin => "neighbour before",
        _ if from == end => "neighbour after",
        _ => "apart",
    }
}

/// The situations of W-206 in the streams of the default seeds, with how often each is
/// reached.
fn situations(format: Format) -> BTreeMap<String, usize> {
    let mut found = BTreeMap::new();
    for seed in DEFAULT_SEEDS {
        let profile = profile_of(format, seed);
        if !profile.name.starts_with("label") {
            continue;
        }
        let mut written = None;
        each_step(format, profile, seed, |record, before, after| {
            let mut count = |what: String| *found.entry(what).or_insert(0) += 1;
            let lent = after.labels().lent().len();
            match record {
                Record::Command(Call {
                    opcode,
                    room,
                    payload,
                    ..
                }) if lent != SIZE => {
                    let answer = before.clone().answer(*opcode, payload, 0);
                    let what = match number_of(&answer) {
                        _ if *room < 2048 => "small room".to_string(),
                        _ if payload.len() > 2048 => "payload over 2,048".to_string(),
                        number => format!("else {number}"),
                    };
                    return count(format!("area {lent}, {what}"));
                }
                Record::LabelBytes { offset, length } => {
                    if usize::from(*offset) + usize::from(*length) > lent {
                        count("bytes past what is lent".to_string());
                    }
                    return;
                }
                Record::New { .. } if lent != SIZE => return count("make".to_string()),
                _ => {}
            }
            let Some((code @ (GET | SET), payload)) = rightly_lent(record, after) else {
                return;
            };
            let name = if code == GET { "get" } else { "set" };
            let answer = before.clone().answer(code, payload, 0);
            let number = number_of(&answer);
            if payload.len() < 10 || edge(payload.len() as u64).is_some() {
                count(format!("{name} of {} bytes, {number}", payload.len()));
            }
            let field = |at: usize| -> u64 {
                u32::from_le_bytes(payload[at..at + 4].try_into().unwrap()).into()
            };
            let (offset, length) = match (code, payload.len()) {
                (GET, 8) => (field(0), field(4)),
                (SET, length @ 8..=2048) => (field(0), length as u64 - 8),
                _ => return,
            };
            let reserved: Vec<u8> = match code {
                GET => vec![0; 4],
                _ => payload[4..8].to_vec(),
            };
            let set: Vec<usize> = (0..4).filter(|at| reserved[*at] != 0).collect();
            if let [alone] = set[..] {
                count(format!("reserved byte {} alone", alone + 4));
            }
            if !set.is_empty() {
                let sum: u32 = reserved.iter().map(|byte| u32::from(*byte)).sum();
                let halves: u64 = reserved
                    .chunks(2)
                    .map(|b| u64::from(b[0]) | u64::from(b[1]) << 8)
                    .sum();
                let xor = reserved.iter().fold(0, |bits, byte| bits ^ byte);
                for (what, is) in [
                    ("sum 0 in 8 bits", sum % 256 == 0),
                    ("sum 0 in 16 bits", halves % 65_536 == 0),
                    ("alike", xor == 0),
                    ("negative", reserved[3] >= 128),
                    ("no data", length == 0),
                    ("end past", offset + length > 4096),
                ] {
                    if is {
                        count(format!("reserved, {what}"));
                    }
                }
                return;
            }
            for (what, number_in) in [
                ("offset", offset),
                ("length", length),
                ("end", offset + length),
            ] {
                if let Some(edge) = edge(number_in) {
                    count(format!("{name} {what} {edge}, {number}"));
                }
            }
            for (bits, mask) in [(32, (1 << 32) - 1), (16, (1 << 16) - 1)] {
                let end = offset + length;
                if end > mask && end & mask <= 4096 && length <= 2048 {
                    count(format!("{name} end wraps in {bits} bits, {number}"));
                }
            }
            match (code, written) {
                _ if number != 0 || length == 0 => {}
                (SET, _) => written = Some((offset, offset + length)),
                (_, Some(written)) => {
                    let how = relation((offset, offset + length), written);
                    count(format!("get {how}"));
                }
                _ => {}
            }
        });
    }
    found
}

/// Every situation that the sentences of W-206 part is reached by the default seeds.
#[test]
fn default_seeds_reach_labels() {
    for format in [Bench, Probe] {
        let found = situations(format);
        let mut wanted: Vec<String> = Vec::new();
        for how in [
            "same",
            "overlapping",
            "neighbour before",
            "neighbour after",
            "apart",
        ] {
            wanted.push(format!("get {how}"));
        }
        for name in ["get", "set"] {
            for length in 0..8 {
                wanted.push(format!("{name} of {length} bytes, 22"));
            }
            for end in [4095, 4096] {
                wanted.push(format!("{name} end {end}, 0"));
            }
            wanted.push(format!("{name} end 4097, 2"));
            for offset in [0, 1, 2047, 2048, 2049, 4095, 4096] {
                wanted.push(format!("{name} offset {offset}, 0"));
            }
            let past = [4097, 65_535, 65_536, 65_537, 1 << 31, u64::from(u32::MAX)];
            for offset in past {
                wanted.push(format!("{name} offset {offset}, 2"));
            }
            for bits in [16, 32] {
                wanted.push(format!("{name} end wraps in {bits} bits, 2"));
            }
            wanted.push(format!("{name} length 0, 0"));
            wanted.push(format!("{name} length 0, 2"));
        }
        for length in [1, 2047, 2048] {
            wanted.push(format!("get length {length}, 0"));
        }
        for length in [2049, 4096, 65_536, 1 << 31, u64::from(u32::MAX)] {
            wanted.push(format!("get length {length}, 2"));
        }
        for (length, get, set) in [(8, 0, 0), (9, 22, 0), (2047, 22, 0), (2048, 22, 0)] {
            wanted.push(format!("get of {length} bytes, {get}"));
            wanted.push(format!("set of {length} bytes, {set}"));
        }
        for place in 4..8 {
            wanted.push(format!("reserved byte {place} alone"));
        }
        for what in [
            "sum 0 in 8 bits",
            "sum 0 in 16 bits",
            "alike",
            "negative",
            "no data",
            "end past",
        ] {
            wanted.push(format!("reserved, {what}"));
        }
        if format == Probe {
            wanted.push("set of 2049 bytes, 22".to_string());
            wanted.push("get of 2049 bytes, 22".to_string());
            wanted.push("bytes past what is lent".to_string());
            wanted.push("make".to_string());
            for size in [0, 1, 2048, 4095, 4097, 8191, 8192] {
                for what in [
                    "small room",
                    "payload over 2,048",
                    "else 0",
                    "else 2",
                    "else 3",
                    "else 22",
                ] {
                    wanted.push(format!("area {size}, {what}"));
                }
            }
        }
        for what in &wanted {
            assert!(found.contains_key(what), "{format:?}: {what} in {found:#?}");
        }
        // Often, not by chance.
        for (what, least) in [
            ("get same", 300),
            ("get overlapping", 300),
            ("get neighbour before", 100),
            ("get neighbour after", 100),
            ("get apart", 300),
            ("set end 4096, 0", 50),
        ] {
            assert!(found[what] >= least, "{format:?}: {what}: {}", found[what]);
        }
    }
}
