//! Document 01 "Bench program": the worked example byte for byte and every
//! kind of bad stream.

use reference::bench::lines_of;
use reference::case::encode::hex_groups;
use reference::device::Config;
use reference::stream::Record;

fn lines(stream: &[u8]) -> String {
    String::from_utf8(lines_of(stream, Config::default())).unwrap()
}

#[test]
fn worked_example() {
    // NW, MD, CM, LT, LT and CM, each mark in hex first.
    let input = hex_groups(
        "4e5701000000,\
         4d44,00*8,8000000000000000,03000000,02,\
         434d,00*8,0243,4800,c000000000000000,00*64,\
         4c54,c000000000000000,4c54,8000000000000000,\
         434d,00*8,0043,1000,00*8,1000000000000000",
    );
    let expected = "NW 0\nMD 0 3 0\nCM 0 0\nLT 0 0 0\nLT 0 1 2\nCM 0 64 \
        0000000000000000000002000000000000000000000000000000000000000000\
        8200000000000000010000000000000002010000000000000100000000000000\n";
    assert_eq!(lines(&input.unwrap()), expected);
}

#[test]
fn empty_input_prints_nothing() {
    assert_eq!(lines(b""), "");
}

#[test]
fn every_cut_is_bad_at_its_mark() {
    let records = [
        Record::Command {
            time: 1,
            opcode: 0x0301,
            payload: vec![7; 8],
        },
        Record::Event {
            time: 1,
            log: 0,
            record: vec![7; 128],
        },
        Record::Media {
            time: 1,
            address: 64,
            lines: 1,
            kind: 0,
        },
        Record::Line { address: 64 },
    ];
    let new = b"NW\x01\0\0\0";
    for cut in 1..new.len() {
        assert_eq!(lines(&new[..cut]), "BAD 0\n");
    }
    for record in records {
        let bytes = record.bytes();
        for cut in 1..bytes.len() {
            let stream = [new.as_slice(), &bytes[..cut]].concat();
            assert_eq!(lines(&stream), "NW 0\nBAD 6\n", "{record:?} cut at {cut}");
        }
    }
}

#[test]
fn bad_marks_and_lengths() {
    assert_eq!(
        lines(b"CM\0\0\0\0\0\0\0\0\0\x03\0\0NW\x01\0\0\0"),
        "BAD 0\n"
    );
    assert_eq!(lines(b"XX"), "BAD 0\n");
    assert_eq!(lines(b"NW\x01\0\0\0XX"), "NW 0\nBAD 6\n");
    assert_eq!(lines(b"NW\x01\0\0\0NW\x01\0\0\0"), "NW 0\nBAD 6\n");
    let mut long = b"NW\x01\0\0\0CM\0\0\0\0\0\0\0\0\0\x03\x01\x08".to_vec();
    assert_eq!(lines(&long), "NW 0\nBAD 6\n");
    long.resize(6 + 14 + 2049, 0);
    assert_eq!(lines(&long), "NW 0\nBAD 6\n");
    let mut most = b"NW\x01\0\0\0CM\0\0\0\0\0\0\0\0\0\x03\0\x08".to_vec();
    most.resize(6 + 14 + 2048, 0);
    assert_eq!(lines(&most), "NW 0\nCM 22 0\n");
}

#[test]
fn refused_new_prints_and_stops() {
    assert_eq!(lines(b"NW\0\0\0\0XX"), "NW 2\n");
    assert_eq!(lines(b"NW\0\x04\0\0LT\0\0\0\0\0\0\0\0"), "NW 2\n");
    assert_eq!(lines(b"NW\xff\x03\0\0"), "NW 0\n");
}

#[test]
fn refused_device_side_calls_print_mark_and_code() {
    let mut stream = b"NW\x01\0\0\0".to_vec();
    Record::Event {
        time: 0,
        log: 5,
        record: vec![0; 128],
    }
    .encode(&mut stream);
    Record::Media {
        time: 0,
        address: 1 << 28,
        lines: 1,
        kind: 0,
    }
    .encode(&mut stream);
    Record::Line { address: 1 }.encode(&mut stream);
    assert_eq!(lines(&stream), "NW 0\nEV 2\nMD 15\nLT 2\n");
}

/// W-204 adds no column here: the lines of calls that carry a vector are as before.
#[test]
fn no_vector_is_printed() {
    let mut stream = b"NW\x01\0\0\0".to_vec();
    let command = |opcode, payload: &[u8]| Record::Command {
        time: 0,
        opcode,
        payload: payload.to_vec(),
    };
    command(0x0103, &[1; 5]).encode(&mut stream);
    command(0x4301, &[0; 8]).encode(&mut stream);
    Record::Event {
        time: 0,
        log: 1,
        record: vec![0; 128],
    }
    .encode(&mut stream);
    assert_eq!(lines(&stream), "NW 0\nCM 0 0\nCM 0 0\nEV 0 1\n");
    // The event of the injection is seen: one record with length 128 at byte 16.
    command(0x0100, &[0]).encode(&mut stream);
    let record = format!("{}80000000{}{}", "00".repeat(16), "0100", "00".repeat(106));
    let head = format!("{}0100{}", "00".repeat(20), "00".repeat(10));
    let last = lines(&stream).lines().last().unwrap().to_string();
    assert_eq!(last, format!("CM 0 160 {head}{record}"));
}
