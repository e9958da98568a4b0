//! W-202 of document 02 and its records in document 10, sentence by sentence.
//! Streams are laid out here by hand and expected lines are written from the
//! documents.

use reference::device::numbers::Refusal;
use reference::device::{Config, Device, Fault};
use reference::host::layout::{layout, reserved_bits};
use reference::host::reply::read;
use reference::host::request::Request;
use reference::host::walk::walk;
use reference::probe::lines_of;
use std::slice::from_ref;

/// The lines after those of a make of one volatile unit.
fn after_new(parts: &[Vec<u8>]) -> String {
    let stream = [b"NW\x01\0\0\0".to_vec(), parts.concat()].concat();
    let all = String::from_utf8(lines_of(&stream, Config::default())).unwrap();
    all.strip_prefix("NW 0\n").unwrap().to_string()
}

/// The line of one record.
fn line_of(record: &[u8]) -> String {
    let all = after_new(&[record.to_vec()]);
    all.trim_end_matches('\n').to_string()
}

/// RQ: opcode, room, fill, fields.
fn rq(code: u16, room: u16, fill: u8, fields: &[u8]) -> Vec<u8> {
    let mut out = b"RQ".to_vec();
    out.extend(code.to_le_bytes());
    out.extend(room.to_le_bytes());
    out.push(fill);
    out.extend(fields);
    out
}

/// RP: opcode, asked, reply.
fn rp(code: u16, asked: u32, reply: &[u8]) -> Vec<u8> {
    let mut out = b"RP".to_vec();
    out.extend(code.to_le_bytes());
    out.extend(asked.to_le_bytes());
    out.extend((reply.len() as u16).to_le_bytes());
    out.extend(reply);
    out
}

/// RW: opcode, asked, room, fill, reply.
fn rw(code: u16, asked: u32, room: u16, fill: u8, reply: &[u8]) -> Vec<u8> {
    let mut out = b"RW".to_vec();
    out.extend(code.to_le_bytes());
    out.extend(asked.to_le_bytes());
    out.extend(room.to_le_bytes());
    out.push(fill);
    out.extend((reply.len() as u16).to_le_bytes());
    out.extend(reply);
    out
}

/// WK: address, lines, room, fill.
fn wk(address: u64, lines: u64, room: u32, fill: u8) -> Vec<u8> {
    let mut out = b"WK".to_vec();
    out.extend(address.to_le_bytes());
    out.extend(lines.to_le_bytes());
    out.extend(room.to_le_bytes());
    out.push(fill);
    out
}

/// MD at time 0.
fn md(address: u64, lines: u32, kind: u8) -> Vec<u8> {
    let mut out = b"MD\0\0\0\0\0\0\0\0".to_vec();
    out.extend(address.to_le_bytes());
    out.extend(lines.to_le_bytes());
    out.push(kind);
    out
}

fn hex(bytes: &[u8]) -> String {
    bytes.iter().map(|byte| format!("{byte:02x}")).collect()
}

/// The record of a poison list, as the reply and the walk have it.
fn record(address: u64, kind: u8, lines: u32) -> Vec<u8> {
    let mut out = (address + u64::from(kind)).to_le_bytes().to_vec();
    out.extend(lines.to_le_bytes());
    out.extend([0; 4]);
    out
}

/// The fields of Clear Event Records in RQ.
fn clear_fields(log: u8, flags: u8, n: u16) -> Vec<u8> {
    let mut out = vec![log, flags];
    out.extend(n.to_le_bytes());
    out.extend((0..n).flat_map(|handle| handle.to_le_bytes()));
    out
}

/// Every request: opcode, fields in RQ and payload (document 01's payloads).
fn requests() -> Vec<(u16, Vec<u8>, Vec<u8>)> {
    let bytes = |from: u8, count: u8| -> Vec<u8> { (from..from + count).collect() };
    let same = |code, fields: Vec<u8>| (code, fields.clone(), fields);
    let mut clear = vec![4, 1, 2, 0, 0, 0];
    clear.extend([0, 0, 1, 0]);
    vec![
        same(0x0100, vec![3]),
        (0x0101, clear_fields(4, 1, 2), clear),
        (0x0101, clear_fields(0, 0, 0), vec![0; 6]),
        same(0x0102, vec![]),
        (0x0103, vec![4, 9, 8, 7, 6], vec![9, 8, 7, 6]),
        (0x0103, vec![5, 9, 8, 7, 6, 5], vec![9, 8, 7, 6, 5]),
        same(0x0300, vec![]),
        same(0x0301, bytes(1, 8)),
        same(0x0400, vec![]),
        same(0x0401, bytes(0x20, 24)),
        same(0x4000, vec![]),
        same(0x4300, bytes(0x40, 16)),
        same(0x4301, bytes(0x60, 8)),
        same(0x4302, bytes(0x80, 72)),
    ]
}

#[test]
fn every_request_is_built() {
    for (code, fields, payload) in requests() {
        let need = payload.len() as u16;
        let text = match need {
            0 => "-".to_string(),
            _ => hex(&payload),
        };
        for room in [need, need + 1, 4096] {
            let line = line_of(&rq(code, room, 0x5a, &fields));
            assert_eq!(line, format!("RQ 0 {need} {text} 1"), "{code:04x}");
        }
        // "0100h first, exactly where the request .. need more than the room"
        for room in 0..need {
            assert_eq!(line_of(&rq(code, room, 0x5a, &fields)), "RQ 256 0 - 1");
        }
    }
}

#[test]
fn over_255_handles_come_after_the_room() {
    for (n, need) in [
        (254u16, 514),
        (255, 516),
        (256, 518),
        (300, 606),
        (1000, 2006),
    ] {
        let fields = clear_fields(2, 0, n);
        assert_eq!(line_of(&rq(0x0101, need - 1, 7, &fields)), "RQ 256 0 - 1");
        for room in [need, need + 1, 4096] {
            let line = line_of(&rq(0x0101, room, 7, &fields));
            match n {
                ..=255 => assert!(line.starts_with(&format!("RQ 0 {need} 0200{n:02x}000000"))),
                _ => assert_eq!(line, "RQ 22 0 - 1"),
            }
        }
    }
}

#[test]
fn a_request_built_is_the_one_that_the_device_takes() {
    // Each payload has a length that the device takes: no 0016h.
    for (code, _, payload) in requests() {
        let (_, mut device) = Device::make(1, 0, Config::default());
        let answer = device.answer(code, &payload, 0);
        assert_ne!(answer, Err(Refusal::InvalidPayloadLength), "{code:04x}");
    }
    let request = Request::InjectPoison { address: 128 };
    let (_, mut device) = Device::make(1, 0, Config::default());
    assert!(device.answer(request.code(), &request.payload(), 0).is_ok());
    assert!(device.poison_list().covering(2).is_some());
}

/// The head of a Get Event Records reply with so many records.
fn event_head(count: u16) -> Vec<u8> {
    let mut out = vec![0xff, 0, 2, 1];
    out.extend([
        1, 2, 3, 4, 5, 6, 7, 8, 0xff, 0xff, 0xff, 0xff, 0xff, 0xff, 0xff, 0xff,
    ]);
    out.extend(count.to_le_bytes());
    out.extend([0; 10]);
    out
}

/// The head of a Get Poison List reply with so many records.
fn poison_head(count: u16) -> Vec<u8> {
    let mut out = vec![0xfe, 0, 1, 0, 0, 0, 0, 0, 0, 0x80];
    out.extend(count.to_le_bytes());
    out.extend([0; 20]);
    out
}

/// A Get Supported Logs reply with so many logs.
fn logs_reply(count: u16) -> Vec<u8> {
    let mut out = count.to_le_bytes().to_vec();
    out.extend([0; 6]);
    for log in 0..count {
        out.extend([log as u8 + 1; 16]);
        out.extend([0, 1, 0, 0]);
    }
    out
}

/// Replies that are read: opcode, asked, reply and the columns after `RP 0`.
fn replies() -> Vec<(u16, u32, Vec<u8>, String)> {
    let two = [vec![0xaa; 128], vec![0xbb; 128]].concat();
    let events = "255 258 578437695752307201 18446744073709551615";
    let poison = "254 9223372036854775809";
    let entries = [record(64, 7, u32::MAX), record(u64::MAX - 63, 0, 0)].concat();
    let identity: Vec<u8> = (1..=69).collect();
    let number =
        |from: u128, bytes: u128| -> u128 { (0..bytes).map(|at| (from + at) << (8 * at)).sum() };
    let identity_text = [
        hex(&identity[..16]),
        [(17, 8), (25, 8), (33, 8), (41, 8)]
            .map(|(from, bytes)| number(from, bytes).to_string())
            .join(" "),
        [
            (49, 2),
            (51, 2),
            (53, 2),
            (55, 2),
            (57, 4),
            (61, 3),
            (64, 2),
            (66, 2),
            (68, 2),
        ]
        .map(|(from, bytes)| number(from, bytes).to_string())
        .join(" "),
    ]
    .join(" ");
    let same = |code| (code, 0, vec![], String::new());
    vec![
        (0x0100, 0, event_head(0), format!(" {events} 0")),
        (
            0x0100,
            9,
            [event_head(2), two].concat(),
            format!(" {events} 2 {} {}", "aa".repeat(128), "bb".repeat(128)),
        ),
        same(0x0101),
        (
            0x0102,
            0,
            vec![0, 0x21, 255, 3, 1],
            " 0 33 255 3 1".to_string(),
        ),
        same(0x0103),
        (
            0x0300,
            0,
            vec![1, 0, 0, 0, 0, 0, 0, 0x80],
            " 9223372036854775809".to_string(),
        ),
        same(0x0301),
        (0x0400, 0, logs_reply(0), " 0".to_string()),
        (
            0x0400,
            0,
            logs_reply(2),
            format!(" 2 {} 256 {} 256", "01".repeat(16), "02".repeat(16)),
        ),
        // "except 0401h, whose one column is always there"
        (0x0401, 0, vec![], " -".to_string()),
        (0x0401, 3, vec![1, 2, 255], " 0102ff".to_string()),
        // "it may be longer than a mailbox"
        (
            0x0401,
            4096,
            vec![9; 4096],
            format!(" {}", "09".repeat(4096)),
        ),
        (0x4000, 0, identity, format!(" {identity_text}")),
        (0x4300, 0, poison_head(0), format!(" {poison} 0")),
        (
            0x4300,
            0,
            [poison_head(2), entries].concat(),
            format!(" {poison} 2 64 7 4294967295 18446744073709551552 0 0"),
        ),
        same(0x4301),
        same(0x4302),
    ]
}

#[test]
fn every_reply_is_read_and_written_again() {
    for (code, asked, reply, columns) in replies() {
        let line = line_of(&rp(code, asked, &reply));
        assert_eq!(line, format!("RP 0{columns}"), "{code:04x}");
        let (length, text) = match reply.len() {
            0 => (0, "-".to_string()),
            length => (length, hex(&reply)),
        };
        for room in [length, length + 1, 4096] {
            if room <= 4096 {
                let line = line_of(&rw(code, asked, room as u16, 0xcc, &reply));
                assert_eq!(line, format!("RW 0 {length} {text} 1"), "{code:04x}");
            }
        }
        if length > 0 {
            for room in [0, length - 1] {
                let line = line_of(&rw(code, asked, room as u16, 0xcc, &reply));
                assert_eq!(line, "RW 256 0 - 1");
            }
        }
    }
}

#[test]
fn a_reply_of_another_length_is_refused() {
    for (code, asked, reply, _) in replies() {
        if reply.len() > 2000 {
            continue;
        }
        let longer = [reply.clone(), vec![0]].concat();
        let mut others: Vec<&[u8]> = (0..reply.len()).map(|cut| &reply[..cut]).collect();
        others.push(&longer);
        for other in others {
            assert_eq!(line_of(&rp(code, asked, other)), "RP 22", "{code:04x}");
            // The reading comes before the room.
            for room in [0, 4096] {
                assert_eq!(line_of(&rw(code, asked, room, 1, other)), "RW 22 0 - 1");
            }
        }
    }
    // Counts that say more or less than there is, with reserved bits set too.
    for count in [0, 2, 3, 65535] {
        let mut reply = [poison_head(count), record(64, 1, 1)].concat();
        assert_eq!(line_of(&rp(0x4300, 0, &reply)), "RP 22");
        reply[1] = 1;
        assert_eq!(line_of(&rp(0x4300, 0, &reply)), "RP 22");
    }
    // Get Log by the length asked alone.
    for (asked, length) in [(0, 1), (1, 0), (2, 3), (65_536 + 3, 3), (u32::MAX, 4)] {
        assert_eq!(line_of(&rp(0x0401, asked, &vec![0; length])), "RP 22");
    }
}

#[test]
fn the_first_reserved_bit_is_named_by_its_place() {
    let poison = [poison_head(2), record(64, 1, 1), record(128, 7, 2)].concat();
    let events = [event_head(1), vec![0xff; 128]].concat();
    // Reply and its bytes with reserved bits: place and mask.
    let mut all: Vec<(u16, Vec<u8>, Vec<(usize, u8)>)> = vec![
        (0x0100, events, vec![(1, 0xff)]),
        (0x0400, logs_reply(2), (2..8).map(|at| (at, 0xff)).collect()),
        (0x4300, poison, vec![(1, 0xff)]),
    ];
    all[0].2.extend((22..32).map(|at| (at, 0xff)));
    all[2].2.extend((12..32).map(|at| (at, 0xff)));
    for begin in [32, 48] {
        all[2].2.push((begin, 0x38));
        all[2]
            .2
            .extend((begin + 12..begin + 16).map(|at| (at, 0xff)));
    }
    for (code, reply, reserved) in all {
        for place in 0..reply.len() {
            for bit in 0..8 {
                let mask = reserved.iter().find(|(at, _)| *at == place);
                let is_reserved = mask.is_some_and(|(_, mask)| mask >> bit & 1 == 1);
                let mut altered = reply.clone();
                altered[place] |= 1 << bit;
                let line = line_of(&rp(code, 0, &altered));
                if is_reserved {
                    assert_eq!(line, format!("RP 2 {place}"), "{code:04x}");
                    let again = line_of(&rw(code, 0, 4096, 0, &altered));
                    assert_eq!(again, "RW 2 0 - 1");
                    assert_eq!(line_of(&rw(code, 0, 0, 0, &altered)), "RW 2 0 - 1");
                } else {
                    assert!(!line.starts_with("RP 2 "), "{code:04x} {place} {bit}");
                }
            }
        }
        // All of them set: the first is named.
        let mut altered = reply.clone();
        for (place, mask) in &reserved {
            altered[*place] |= mask;
        }
        for (place, mask) in &reserved {
            let first = line_of(&rp(code, 0, &altered));
            assert_eq!(first, format!("RP 2 {place}"));
            altered[*place] &= !mask;
        }
    }
    // What document 01 gives a value is kept whatever it holds.
    assert!(line_of(&rp(0x4000, 0, &[255; 69])).starts_with("RP 0 "));
}

#[test]
fn reserved_bits_are_those_of_the_table() {
    let bits = |code, records| reserved_bits(layout(code).unwrap(), records);
    let bytes = |from: usize, to: usize| (from * 8..to * 8).collect::<Vec<usize>>();
    assert_eq!(bits(0x0100, 3), [bytes(1, 2), bytes(22, 32)].concat());
    assert_eq!(bits(0x0400, 2), bytes(2, 8));
    let record = |at: usize| {
        [
            vec![at * 8 + 3, at * 8 + 4, at * 8 + 5],
            bytes(at + 12, at + 16),
        ]
    };
    let poison = [
        vec![bytes(1, 2), bytes(12, 32)],
        record(32).into(),
        record(48).into(),
    ];
    assert_eq!(bits(0x4300, 2), poison.concat().concat());
    for code in [
        0x0101, 0x0102, 0x0103, 0x0300, 0x0301, 0x0401, 0x4000, 0x4301, 0x4302,
    ] {
        assert_eq!(bits(code, 2), []);
    }
}

/// A planted fault of the device takes another way through the reading, with the same
/// answers.
#[test]
fn a_fault_of_the_device_alters_no_reading() {
    let device = Config {
        fault: Some(Fault::OverflowCountWraps),
    };
    for (code, asked, reply, _) in replies() {
        for length in [0, 1, 31, 32, reply.len().saturating_sub(1), reply.len()] {
            let mut bytes = reply.clone();
            bytes.resize(length, 0);
            for place in [
                None,
                Some(0),
                Some(1),
                Some(12),
                Some(length.saturating_sub(1)),
            ] {
                if let Some(byte) = place.and_then(|place| bytes.get_mut(place)) {
                    *byte ^= 0x10;
                }
                let good = read(code, asked, &bytes, Config::default());
                assert_eq!(read(code, asked, &bytes, device), good);
            }
        }
    }
}

/// The line of a walk of these entries (address, lines, type).
fn walked(entries: &[(u64, u32, u8)], walk: Vec<u8>) -> String {
    let mut parts: Vec<Vec<u8>> = entries
        .iter()
        .map(|(address, lines, kind)| md(*address, *lines, *kind))
        .collect();
    parts.push(walk);
    let all = after_new(&parts);
    all.lines().last().unwrap().to_string()
}

/// The line of a walk with these records.
fn walk_line(records: &[Vec<u8>]) -> String {
    let bytes = records.concat();
    match bytes.len() {
        0 => "WK 0 0 - 1".to_string(),
        length => format!("WK 0 {length} {} 1", hex(&bytes)),
    }
}

const WHOLE: u64 = 4_194_304;

#[test]
fn a_walk_without_more_is_one_reply() {
    assert_eq!(walked(&[], wk(0, WHOLE, 0, 9)), "WK 0 0 - 1");
    assert_eq!(walked(&[], wk(0, WHOLE, 65_536, 9)), "WK 0 0 - 1");
    let two = [(64, 3, 2), (256, 1, 7)];
    let both = [record(64, 2, 3), record(256, 7, 1)];
    assert_eq!(walked(&two, wk(0, WHOLE, 32, 9)), walk_line(&both));
    assert_eq!(walked(&two, wk(0, WHOLE, 33, 9)), walk_line(&both));
    assert_eq!(walked(&two, wk(0, WHOLE, 31, 9)), "WK 256 0 - 1");
    // Cut to the range; ranges of 0, 1 and 2 lines.
    assert_eq!(
        walked(&two, wk(128, 2, 99, 9)),
        walk_line(&[record(128, 2, 2)])
    );
    assert_eq!(
        walked(&two, wk(128, 1, 16, 9)),
        walk_line(&[record(128, 2, 1)])
    );
    assert_eq!(walked(&two, wk(128, 0, 0, 9)), "WK 0 0 - 1");
    assert_eq!(walked(&two, wk(0, 1, 0, 9)), "WK 0 0 - 1");
    // 126 entries: no more, so that the entries are whole.
    let entries: Vec<(u64, u32, u8)> = (0..126).map(|i| (i * 128, 2, 1)).collect();
    let records: Vec<Vec<u8>> = (0..126).map(|i| record(i * 128, 1, 2)).collect();
    assert_eq!(walked(&entries, wk(0, 252, 2016, 9)), walk_line(&records));
}

#[test]
fn a_walk_with_more_halves_the_range() {
    // 127 entries of one line, of 127 lines: halves of 63 and 64 cut none.
    let entries: Vec<(u64, u32, u8)> = (0..127)
        .map(|i| (i * 64, 1, [0, 1][i as usize % 2]))
        .collect();
    let records: Vec<Vec<u8>> = (0..127)
        .map(|i| record(i * 64, [0, 1][i as usize % 2], 1))
        .collect();
    assert_eq!(walked(&entries, wk(0, 127, 2032, 9)), walk_line(&records));
    assert_eq!(walked(&entries, wk(0, 127, 2031, 9)), "WK 256 0 - 1");
    // 127 entries of three lines without a gap, 381 lines: 190 and 191. Line 190 is
    // the second of entry 63 (lines 189 to 191), which is so cut in 1 and 2.
    let entries: Vec<(u64, u32, u8)> = (0..127).map(|i| (i * 192, 3, 2)).collect();
    let mut records: Vec<Vec<u8>> = (0..63).map(|i| record(i * 192, 2, 3)).collect();
    records.push(record(189 * 64, 2, 1));
    records.push(record(190 * 64, 2, 2));
    records.extend((64..127).map(|i| record(i * 192, 2, 3)));
    assert_eq!(walked(&entries, wk(0, 381, 2048, 9)), walk_line(&records));
    // One line less at the end, 380: 190 and 190, the last entry cut to the range.
    *records.last_mut().unwrap() = record(126 * 192, 2, 2);
    assert_eq!(walked(&entries, wk(0, 380, 2048, 9)), walk_line(&records));
}

#[test]
fn a_refused_range_gives_the_devices_number() {
    for room in [0, 16, 65_536] {
        for (address, lines, number) in [
            (1, 1, 2),
            (63, WHOLE + 1, 2),
            (0, WHOLE + 1, 15),
            (1 << 28, 1, 15),
            (64, WHOLE, 15),
            (0, u64::MAX, 15),
            (0, 1 << 58, 15),
            (u64::MAX - 63, 1, 15),
        ] {
            let line = walked(&[(0, 1, 0)], wk(address, lines, room, 0xff));
            assert_eq!(line, format!("WK {number} 0 - 1"));
        }
        assert_eq!(walked(&[(0, 1, 0)], wk(1 << 28, 0, room, 0)), "WK 0 0 - 1");
    }
}

#[test]
fn the_walk_gives_each_covered_line_once() {
    // Entries of several lengths and types with gaps between some of them, up to a
    // full list, on a small and on the largest device.
    for units in [1u16, 1023] {
        for held in [127u64, 200, 256] {
            let (_, mut device) = Device::make(units, 0, Config::default());
            let last = u64::from(units) * WHOLE;
            let mut next = last - held * 9;
            let kinds = [0, 1, 2, 7];
            for i in 0..held {
                let lines = 1 + i % 7;
                let kind = kinds[i as usize % 4];
                device.media_report(next * 64, lines, kind, 0).unwrap();
                next += lines + i % 3;
            }
            let before = device.clone();
            for (from, to) in [(0, last), (last - held * 9 + 1, last - 5), (3, last - 1)] {
                let mut room = vec![0; 65_536];
                let (number, length) =
                    walk(&device, from * 64, to - from, &mut room, Config::default());
                assert_eq!(number, 0);
                let mut lines = Vec::new();
                for record in room[..length].chunks(16) {
                    let address = u64::from_le_bytes(record[..8].try_into().unwrap());
                    let count = u32::from_le_bytes(record[8..12].try_into().unwrap());
                    assert_eq!(record[12..], [0; 4]);
                    assert!(count > 0);
                    let first = address / 64;
                    lines.extend((0..u64::from(count)).map(|i| (first + i, address % 8)));
                }
                let mut covered = Vec::new();
                for entry in device.poison_list().entries() {
                    for i in 0..entry.lines {
                        covered.push(((entry.start + i) as u64, u64::from(entry.kind)));
                    }
                }
                covered.retain(|(line, _)| (from..to).contains(line));
                assert_eq!(lines, covered);
            }
            assert_eq!(device, before);
        }
    }
}

/// A record of each kind, whole.
fn one_of_each() -> Vec<Vec<u8>> {
    let mut all: Vec<Vec<u8>> = requests()
        .iter()
        .map(|(code, fields, _)| rq(*code, 100, 0, fields))
        .collect();
    all.push(rp(0x0300, 0, &[1; 8]));
    all.push(rp(0x0301, 0, &[]));
    all.push(rw(0x0300, 0, 8, 0, &[1; 8]));
    all.push(rw(0x0301, 0, 0, 0, &[]));
    all.push(wk(0, 1, 16, 0));
    all
}

#[test]
fn a_cut_record_and_a_first_record_are_bad() {
    for record in one_of_each() {
        assert!(!line_of(&record).starts_with("BAD"));
        for cut in 1..record.len() {
            assert_eq!(line_of(&record[..cut]), "BAD 6", "{record:?}");
        }
        let first = lines_of(&record, Config::default());
        assert_eq!(first, b"BAD 0\n");
    }
}

#[test]
fn sizes_over_their_limits_are_bad() {
    let bad = |record: Vec<u8>| {
        assert_eq!(after_new(&[record.clone(), b"ES".to_vec()]), "BAD 6\n");
        assert_eq!(after_new(from_ref(&record)), "BAD 6\n");
    };
    for room in [4097, 65535] {
        bad(rq(0x4000, room, 0, &[]));
        bad(rw(0x0301, 0, room, 0, &[]));
        bad(rp(0x0401, room.into(), &vec![0; room.into()]));
        bad(rw(0x0401, room.into(), 4096, 0, &vec![0; room.into()]));
    }
    bad(rq(0x0101, 4096, 0, &clear_fields(0, 0, 1001)));
    bad(rq(0x0101, 4096, 0, &clear_fields(0, 0, 65535)));
    bad(rq(0x0101, 0, 0, &[0, 0, 0xe9, 3]));
    for n in [0, 1, 3, 6, 255] {
        bad(rq(0x0103, 4096, 0, &[vec![n], vec![0; n.into()]].concat()));
    }
    bad(wk(0, 0, 65_537, 0));
    bad(wk(0, 0, u32::MAX, 0));
    assert_eq!(line_of(&wk(0, 0, 65_536, 0)), "WK 0 0 - 1");
    // "an opcode that the record does not know is `BAD`", those of later requests too
    for code in [
        0, 0x00ff, 0x0104, 0x0302, 0x0402, 0x4001, 0x4102, 0x4303, 0xffff,
    ] {
        bad(rq(code, 2048, 0, &[]));
        bad(rp(code, 0, &[]));
        bad(rw(code, 0, 2048, 0, &[]));
    }
}
