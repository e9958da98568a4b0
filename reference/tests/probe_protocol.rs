//! Document 10, "Rules" and "Records of the base" with the vector column of W-204,
//! sentence by sentence. Streams
//! are laid out here by hand and expected lines are written from the document.

mod common;

use common::cm;
use reference::device::{Config, Fault};
use reference::probe::{lines_of, run};
use std::io::BufReader;
use std::slice::from_ref;

const NEW: &[u8] = b"NW\x01\0\0\0";

fn lines_with(fault: Option<Fault>, parts: &[Vec<u8>]) -> String {
    let config = Config { fault };
    String::from_utf8(lines_of(&parts.concat(), config)).unwrap()
}

/// The lines of a stream.
fn lines(parts: &[Vec<u8>]) -> String {
    lines_with(None, parts)
}

/// The lines after those of a make of one volatile unit.
fn after_new(parts: &[Vec<u8>]) -> String {
    let all = lines(&[&[NEW.to_vec()], parts].concat());
    all.strip_prefix("NW 0\n").unwrap().to_string()
}

fn nw(volatile: u16, persistent: u16) -> Vec<u8> {
    let fields = [volatile.to_le_bytes(), persistent.to_le_bytes()];
    [b"NW".to_vec(), fields.concat()].concat()
}

/// CM in a room of 2,048 bytes.
fn call(opcode: u16, payload: &[u8]) -> Vec<u8> {
    cm(opcode, 2048, 0xee, payload)
}

/// EV at time 0 of as many bytes.
fn ev(log: u8, length: u16) -> Vec<u8> {
    let mut out = b"EV\0\0\0\0\0\0\0\0".to_vec();
    out.push(log);
    out.extend(length.to_le_bytes());
    out.extend(vec![0x77; length.into()]);
    out
}

/// MD at time 0.
fn md(address: u64, lines: u32, kind: u8) -> Vec<u8> {
    let mut out = b"MD\0\0\0\0\0\0\0\0".to_vec();
    out.extend(address.to_le_bytes());
    out.extend(lines.to_le_bytes());
    out.push(kind);
    out
}

fn lt(address: u64) -> Vec<u8> {
    [b"LT".to_vec(), address.to_le_bytes().to_vec()].concat()
}

fn es() -> Vec<u8> {
    b"ES".to_vec()
}

fn dt() -> Vec<u8> {
    b"DT".to_vec()
}

fn clear_poison(address: u64) -> Vec<u8> {
    call(0x4302, &[&address.to_le_bytes()[..], &[0; 64]].concat())
}

fn get_poison(room: u16, address: u64, lines: u64) -> Vec<u8> {
    let payload = [address.to_le_bytes(), lines.to_le_bytes()].concat();
    cm(0x4300, room, 0xee, &payload)
}

#[test]
fn worked_example_of_document_01() {
    let expected = "MD 0 3 0\nCM 0 0 - 1 0\nLT 0 0 0\nLT 0 1 2\nCM 0 64 \
        0000000000000000000002000000000000000000000000000000000000000000\
        8200000000000000010000000000000002010000000000000100000000000000 1 0\n\
        ES 0 0 5\nDT 2\n";
    let parts = [
        md(128, 3, 2),
        clear_poison(192),
        lt(192),
        lt(128),
        get_poison(2048, 0, 16),
        es(),
        dt(),
    ];
    assert_eq!(after_new(&parts), expected);
}

#[test]
fn empty_input_prints_nothing() {
    assert_eq!(lines(&[]), "");
    assert_eq!(after_new(&[]), "");
}

/// A record of each kind, CM and EV with bytes after their heads.
fn one_of_each() -> Vec<Vec<u8>> {
    vec![
        cm(0x0300, 2048, 0, &[]),
        cm(0x0301, 2048, 0, &[1; 8]),
        ev(0, 0),
        ev(0, 128),
        md(0, 1, 0),
        lt(0),
        es(),
        dt(),
    ]
}

#[test]
fn the_first_record_is_a_make() {
    for record in one_of_each() {
        assert_eq!(lines(&[record, nw(1, 0)]), "BAD 0\n");
    }
    assert_eq!(lines(&[b"XX".to_vec(), nw(1, 0)]), "BAD 0\n");
    // A refused make is a make.
    assert_eq!(lines(&[nw(0, 0), es()]), "NW 2\nES 0 0 5\n");
}

#[test]
fn a_cut_record_is_bad_at_its_mark() {
    for cut in 1..6 {
        assert_eq!(lines(&[nw(1, 0)[..cut].to_vec()]), "BAD 0\n");
    }
    for record in [one_of_each(), vec![nw(2, 0)]].concat() {
        for cut in 1..record.len() {
            let cut = record[..cut].to_vec();
            assert_eq!(after_new(from_ref(&cut)), "BAD 6\n", "{cut:?}");
            let later = after_new(&[lt(0), es(), cut]);
            assert_eq!(later, "LT 0 0 0\nES 0 0 5\nBAD 18\n");
        }
    }
}

#[test]
fn an_unknown_mark_is_bad_and_stops() {
    let marks = "TT UM DB EL LP NX HS NZ ar ab pc nw cm ev md lt es dt XX BA";
    for mark in marks.split(' ') {
        let parts = [mark.as_bytes().to_vec(), vec![0; 40], es()];
        assert_eq!(after_new(&parts), "BAD 6\n", "{mark}");
    }
    assert_eq!(after_new(&[b"\0\0".to_vec()]), "BAD 6\n");
    assert_eq!(after_new(&[b"\n".to_vec()]), "BAD 6\n");
}

#[test]
fn a_size_over_its_limit_is_bad() {
    for over in [4097u16, 65535] {
        let mut room = cm(0x0300, over, 0, &[]);
        assert_eq!(after_new(&[room.clone(), es()]), "BAD 6\n");
        assert_eq!(after_new(from_ref(&room)), "BAD 6\n");
        // The rest cut: BAD all the same, with the mark's offset.
        room[15] = 8;
        assert_eq!(after_new(&[es(), room]), "ES 0 0 5\nBAD 8\n");
        for (whole, head) in [
            (cm(0x0300, 2048, 0, &vec![0; over.into()]), 17),
            (ev(0, over), 13),
        ] {
            assert_eq!(after_new(&[whole.clone(), es()]), "BAD 6\n");
            assert_eq!(after_new(&[whole[..head].to_vec()]), "BAD 6\n");
            assert_eq!(after_new(&[whole[..head + 9].to_vec()]), "BAD 6\n");
        }
    }
}

#[test]
fn sizes_of_4096_are_taken() {
    let parts = [
        cm(0x0300, 4096, 0, &[]),
        cm(0x0300, 4096, 0, &[0; 4096]),
        ev(0, 4096),
        es(),
    ];
    let expected = "CM 0 8 0000000000000000 1 0\nCM 22 0 - 1 0\nEV 22 0 0\nES 0 0 5\n";
    assert_eq!(after_new(&parts), expected);
}

#[test]
fn room_counts_what_is_lent() {
    for fill in [0, 0x5a, 255] {
        for room in [0, 1, 2046, 2047] {
            assert_eq!(
                after_new(&[cm(0x0300, room, fill, &[])]),
                "CM 256 0 - 1 0\n"
            );
        }
        for room in [2048, 2049, 4095, 4096] {
            let came = after_new(&[cm(0x0300, room, fill, &[])]);
            assert_eq!(came, "CM 0 8 0000000000000000 1 0\n");
        }
    }
}

#[test]
fn a_refused_room_leaves_the_device() {
    let parts = [
        cm(0x0301, 2047, 0, &[9; 8]),
        call(0x0300, &[]),
        cm(0x4301, 0, 0, &[0; 8]),
        lt(0),
        dt(),
    ];
    let expected = "CM 256 0 - 1 0\nCM 0 8 0000000000000000 1 0\nCM 256 0 - 1 0\nLT 0 0 0\nDT 0\n";
    assert_eq!(after_new(&parts), expected);
}

#[test]
fn order_of_refusals() {
    let unknown = 0x4303;
    // 0100h before all others.
    for (opcode, length) in [(unknown, 0), (unknown, 4096), (0x4301, 7), (0x4301, 2049)] {
        let came = after_new(&[cm(opcode, 2047, 1, &vec![0; length])]);
        assert_eq!(came, "CM 256 0 - 1 0\n");
    }
    assert_eq!(
        after_new(&[cm(0x4301, 2047, 1, &[1; 8])]),
        "CM 256 0 - 1 0\n"
    );
    // A payload over 2,048 bytes before 0003h; one of 2,048 after it.
    assert_eq!(after_new(&[call(unknown, &[0; 2049])]), "CM 22 0 - 1 0\n");
    assert_eq!(after_new(&[call(unknown, &[0; 2048])]), "CM 3 0 - 1 0\n");
    // A wrong length before the command's own checks.
    assert_eq!(after_new(&[call(0x4301, &[1; 9])]), "CM 22 0 - 1 0\n");
    assert_eq!(after_new(&[call(0x4301, &[1; 8])]), "CM 2 0 - 1 0\n");
}

#[test]
fn kept_is_of_the_bytes_after_the_reply() {
    let faulty = |fault, fill| {
        let parts = [
            nw(1, 0),
            cm(0x0300, 2049, fill, &[]),
            cm(0, 2048, fill, &[]),
        ];
        lines_with(fault, &parts)
    };
    let good = "NW 0\nCM 0 8 0000000000000000 1 0\nCM 3 0 - 1 0\n";
    assert_eq!(faulty(None, 0), good);
    assert_eq!(faulty(None, 7), good);
    // A zero written after the reply, and zeros written by a refusal.
    let past = Some(Fault::BytePastReply);
    assert_eq!(faulty(past, 0), good);
    let came = faulty(past, 7);
    assert_eq!(came, "NW 0\nCM 0 8 0000000000000000 0 0\nCM 3 0 - 1 0\n");
    let refusal = Some(Fault::BufferWrittenOnRefusal);
    let came = faulty(refusal, 7);
    assert_eq!(came, "NW 0\nCM 0 8 0000000000000000 1 0\nCM 3 0 - 0 0\n");
}

#[test]
fn the_longest_reply_fills_the_smallest_room() {
    let mut parts: Vec<Vec<u8>> = (0..127).map(|i| md(i * 128, 1, 1)).collect();
    parts.extend([get_poison(2048, 0, 254), get_poison(2049, 0, 253)]);
    let all = after_new(&parts);
    for line in all.lines().skip(127) {
        let columns: Vec<&str> = line.split(' ').collect();
        assert_eq!(columns[..3], ["CM", "0", "2048"]);
        assert_eq!(columns[3].len(), 4096);
        // Flag bit 0: 127 entries share a line with the range.
        assert!(columns[3].starts_with("01"));
        assert_eq!(columns[4..], ["1", "0"]);
    }
    assert_eq!(all.lines().count(), 129);
}

#[test]
fn an_event_record_has_128_bytes() {
    for length in [0, 1, 127, 129, 4096] {
        // The size comes before the log.
        for log in [0, 4, 5, 255] {
            assert_eq!(after_new(&[ev(log, length), es()]), "EV 22 0 0\nES 0 0 5\n");
        }
    }
    assert_eq!(after_new(&[ev(5, 128), es()]), "EV 2 0 0\nES 0 0 5\n");
    let nine = vec![ev(3, 128); 9];
    let came = after_new(&[nine, vec![es()]].concat());
    assert_eq!(came, "EV 0 1 0\n".repeat(8) + "EV 0 0 0\nES 8 1 3\n");
}

/// Document 10, W-204: "`CM` and `EV` end in one more column: the vector, 0 for none".
#[test]
fn the_last_column_is_the_vector() {
    let enable = call(0x0103, &[1; 5]);
    let clear = |log: u8| call(0x0101, &[log, 0, 1, 0, 0, 0, 1, 0]);
    let parts = [
        ev(0, 128),
        clear(0),
        enable,
        ev(0, 127),
        ev(5, 128),
        ev(0, 128),
        ev(0, 128),
        ev(1, 128),
        ev(2, 128),
        ev(3, 128),
        ev(4, 128),
        call(0x0101, &[0, 0, 2, 0, 0, 0, 2, 0, 3, 0]),
        cm(0x4301, 2047, 0xee, &[0; 8]),
        call(0x4301, &[1; 8]),
        call(0x4301, &[0; 8]),
        call(0x4301, &[0; 8]),
        call(0x0300, &[]),
    ];
    let expected = "EV 0 1 0\nCM 0 0 - 1 0\nCM 0 0 - 1 0\nEV 22 0 0\nEV 2 0 0\n\
        EV 0 1 2\nEV 0 1 0\nEV 0 1 3\nEV 0 1 4\nEV 0 1 5\nEV 0 1 2\nCM 0 0 - 1 0\n\
        CM 256 0 - 1 0\nCM 2 0 - 1 0\nCM 0 0 - 1 2\nCM 0 0 - 1 0\n\
        CM 0 8 0000000000000000 1 0\n";
    assert_eq!(after_new(&parts), expected);
}

#[test]
fn every_answer_is_printed_whole() {
    let end = 1 << 28;
    let parts = [
        md(0, 1, 3),
        md(0, 0, 0),
        md(1, 1, 0),
        md(end - 64, 2, 0),
        lt(1),
        lt(end),
        dt(),
    ];
    let expected = "MD 2 0 0\nMD 2 0 0\nMD 2 0 0\nMD 15 0 0\nLT 2 2 0\nLT 15 2 0\nDT 0\n";
    assert_eq!(after_new(&parts), expected);
}

#[test]
fn event_status_gives_bits_logs_and_the_highest() {
    let clear = |log: u8| call(0x0101, &[log, 0, 1, 0, 0, 0, 1, 0]);
    let parts = [
        es(),
        ev(0, 128),
        es(),
        ev(3, 128),
        ev(0, 128),
        es(),
        ev(4, 128),
        es(),
        clear(3),
        es(),
        clear(4),
        clear(0),
        es(),
        call(0x0101, &[0, 0, 1, 0, 0, 0, 2, 0]),
        es(),
    ];
    let all = after_new(&parts);
    let status: Vec<&str> = all.lines().filter(|line| line.starts_with("ES")).collect();
    let expected = [
        "ES 0 0 5",
        "ES 1 1 0",
        "ES 9 2 3",
        "ES 25 3 4",
        "ES 17 2 4",
        "ES 1 1 0",
        "ES 0 0 5",
    ];
    assert_eq!(status, expected);
}

#[test]
fn damage_total_is_the_sum_of_entry_lengths() {
    let parts = [
        dt(),
        md(128, 3, 2),
        dt(),
        clear_poison(192),
        dt(),
        // Lines 1 to 5: line 2 and line 4 are covered.
        md(64, 5, 1),
        dt(),
        call(0x4301, &[0; 8]),
        dt(),
    ];
    let expected = "DT 0\nMD 0 3 0\nDT 3\nCM 0 0 - 1 0\nDT 2\nMD 0 3 0\nDT 5\nCM 0 0 - 1 0\nDT 6\n";
    assert_eq!(after_new(&parts), expected);
    // Lines dropped are not counted: 256 entries, the first of three lines.
    let mut parts = vec![md(0, 3, 0)];
    parts.extend((1..256).map(|i| md(i * 256, 1, 0)));
    parts.extend([
        dt(),
        md(1 << 20, 9, 0),
        dt(),
        clear_poison(64),
        dt(),
        lt(128),
    ]);
    let all = after_new(&parts);
    let last: Vec<&str> = all.lines().skip(256).collect();
    let expected = [
        "DT 258",
        "MD 0 0 9",
        "DT 258",
        "CM 0 0 - 1 0",
        "DT 256",
        "LT 0 2 0",
    ];
    assert_eq!(last, expected);
}

/// What a device shows that is new: nothing of an older one.
fn shown() -> Vec<Vec<u8>> {
    vec![
        es(),
        dt(),
        lt(0),
        call(0x0300, &[]),
        call(0x0102, &[]),
        call(0x0100, &[0]),
        get_poison(2048, 0, 1),
    ]
}

const NOTHING: &str = "ES 0 0 5\nDT 0\nLT 0 0 0\nCM 0 8 0000000000000000 1 0\n\
    CM 0 5 0000000000 1 0\n\
    CM 0 32 0000000000000000000000000000000000000000000000000000000000000000 1 0\n\
    CM 0 32 0000000000000000000000000000000000000000000000000000000000000000 1 0\n";

/// Events past full, a clock, a policy, and a full list with a line dropped.
fn busy() -> Vec<Vec<u8>> {
    let mut parts = vec![call(0x0301, &[9; 8]), call(0x0103, &[1; 5])];
    parts.extend(vec![ev(0, 128); 9]);
    parts.extend((0..257).map(|i| md(i * 128, 1, 0)));
    parts
}

#[test]
fn a_later_make_puts_a_new_device_in_its_place() {
    for (make, number) in [
        (nw(1, 0), 0),
        (nw(0, 3), 0),
        (nw(0, 0), 2),
        (nw(1024, 0), 2),
    ] {
        let all = lines(&[vec![nw(1, 0)], busy(), vec![make], shown()].concat());
        let rest: String = all.split_inclusive('\n').skip(1 + 268).collect();
        assert_eq!(rest, format!("NW {number}\n{NOTHING}"));
    }
    // Handles begin at 1 again.
    let parts = [vec![nw(1, 0)], busy(), vec![nw(1, 0), ev(0, 128)]].concat();
    let all = lines(&[parts, vec![call(0x0100, &[0])]].concat());
    let reply = all.lines().last().unwrap().split(' ').nth(3).unwrap();
    assert_eq!(&reply[64 + 40..64 + 44], "0100");
}

#[test]
fn the_device_beside_a_refused_make_is_used_on() {
    // "one volatile unit": 256 MiB, its last line at 256 MiB less 64.
    let end = 1 << 28;
    let used = [
        lt(end - 64),
        lt(end),
        md(end - 64, 1, 7),
        lt(end - 64),
        dt(),
        call(0x4000, &[]),
    ];
    let identity = "42574657 20564552 53494f4e 20300000\
        0100000000000000 0100000000000000 0000000000000000 0000000000000000\
        0800080008000800 00100000 000100 0000 0000 0800"
        .replace(' ', "");
    let expected =
        format!("NW 2\nLT 0 0 0\nLT 15 2 0\nMD 0 1 0\nLT 0 1 7\nDT 1\nCM 0 69 {identity} 1 0\n");
    for make in [nw(0, 0), nw(1024, 0), nw(1023, 1), nw(65535, 1)] {
        let first = lines(&[from_ref(&make), &used[..]].concat());
        assert_eq!(first, expected);
        let later = lines(&[&[nw(7, 8), md(0, 5, 0), make], &used[..]].concat());
        assert_eq!(later, format!("NW 0\nMD 0 5 0\n{expected}"));
    }
}

#[test]
fn reading_in_pieces_changes_nothing() {
    let stream = [vec![NEW.to_vec()], busy(), one_of_each(), vec![vec![b'X']]].concat();
    let stream = stream.concat();
    let whole = lines_of(&stream, Config::default());
    for capacity in [1, 2, 3, 7, 64] {
        let mut came = Vec::new();
        let input = BufReader::with_capacity(capacity, stream.as_slice());
        run(input, &mut came, Config::default()).unwrap();
        assert_eq!(came, whole);
    }
    let at = stream.len() - 1;
    assert!(String::from_utf8(whole)
        .unwrap()
        .ends_with(&format!("\nBAD {at}\n")));
}
