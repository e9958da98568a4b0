//! The case tool: its text, its errors, expectations and explanations.

use reference::bench::lines_of;
use reference::case::check::check;
use reference::case::encode::{case, line_bytes, Case};
use reference::case::explain::explain;
use reference::case::words::{line_words, stream_words};
use reference::device::Config;
use reference::format::Format;
use reference::generate::profiles;
use reference::host::request::Request;
use reference::probe::record::{Call, Record};
use std::io::Write;
use std::process::{Command, Stdio};

fn error(text: &str) -> String {
    case("case.txt", text).unwrap_err().to_string()
}

fn read(text: &str) -> Case {
    case("case.txt", text).unwrap()
}

fn output(text: &str) -> String {
    String::from_utf8(lines_of(&read(text).stream(), Config::default())).unwrap()
}

#[test]
fn errors_name_file_line_and_what_was_expected() {
    let cases = [
        ("new 1", "case.txt:1: expected `new VOLATILE PERSISTENT`, each from 0 to 65535"),
        ("new 1 65536", "case.txt:1: expected `new VOLATILE PERSISTENT`, each from 0 to 65535"),
        ("\n# x\nnews 1 0", "case.txt:3: expected new, command, event, media, line, bytes, repeat or end, not `news`"),
        ("line", "case.txt:1: expected address=NUMBER"),
        ("line address=x", "case.txt:1: expected address= from 0 to 18446744073709551615, not `x`"),
        ("line address=1 kind=2", "case.txt:1: expected no `kind=` here"),
        ("line address=1 address=2", "case.txt:1: expected address= once"),
        ("line address=1 twice", "case.txt:1: expected no `twice` here"),
        ("media address=0 lines=4294967296 type=0", "case.txt:1: expected lines= from 0 to 4294967295, not `4294967296`"),
        ("event log=0 bytes=00", "case.txt:1: expected an event record of 128 bytes, not 1"),
        ("event log=0", "case.txt:1: expected bytes=HEX of 128 bytes or fill=HH"),
        ("event log=256 fill=00", "case.txt:1: expected log= from 0 to 255, not `256`"),
        ("command time=0", "case.txt:1: expected one command name or opcode="),
        ("command opcode=0x10000", "case.txt:1: expected opcode= from 0 to 0xffff"),
        ("command inject-poison", "case.txt:1: expected address=NUMBER"),
        ("command identify raw=0", "case.txt:1: expected bytes in hex, two digits each, not `0`"),
        ("command identify raw=00*2049", "case.txt:1: expected a payload of at most 2048 bytes (see `bytes`)"),
        ("command clear-poison address=0 data=00", "case.txt:1: expected data= of 64 bytes"),
        ("command get-log id=00 offset=0 length=0", "case.txt:1: expected id=effects or an id of 16 bytes"),
        ("command get-labels offset=0", "case.txt:1: expected length=NUMBER"),
        ("command get-labels offset=4294967296 length=0", "case.txt:1: expected offset= from 0 to 4294967295, not `4294967296`"),
        ("command set-labels data=00", "case.txt:1: expected offset=NUMBER"),
        ("command set-labels offset=0 reserved=000000", "case.txt:1: expected reserved= of 4 bytes"),
        ("command set-labels offset=0 data=0", "case.txt:1: expected bytes in hex, two digits each, not `0`"),
        ("command set-labels offset=0 data=00*2041", "case.txt:1: expected a payload of at most 2048 bytes (see `bytes`)"),
        ("command sanitize length=0", "case.txt:1: expected no `length=` here"),
        ("bytes 0g", "case.txt:1: expected bytes in hex, two digits each, not `0g`"),
        ("repeat 2\nnew 1 0", "case.txt:1: expected `end` to this `repeat`"),
        ("new 1 0\nend", "case.txt:2: expected `repeat` before this `end`"),
        ("repeat many\nend", "case.txt:1: expected `repeat COUNT [COUNTER]`"),
        ("line address={i}", "case.txt:1: expected a sum or product of numbers and counters in {i}"),
        ("line address={1", "case.txt:1: expected `}` after this `{`"),
        ("line address={1-2}", "case.txt:1: expected a result of 0 or more in {1-2}"),
        ("line address=0 =>", "case.txt:1: expected an answer after `=>`"),
        ("event log=0 fill=0000", "case.txt:1: expected fill= as one byte of two hex digits, not `0000`"),
        ("event log=0 fill=00 length=128", "case.txt:1: expected no `length=` here"),
        ("command identify room=2048", "case.txt:1: expected no `room=` here"),
        ("command identify fill=00", "case.txt:1: expected no `fill=` here"),
        ("status", "case.txt:1: expected new, command, event, media, line, bytes, repeat or end, not `status`"),
        ("pool identify", "case.txt:1: expected new, command, event, media, line, bytes, repeat or end, not `pool`"),
        ("program", "case.txt:1: expected `program bench` or `program probe`"),
        ("program other", "case.txt:1: expected `program bench` or `program probe`"),
        ("program probe => bad", "case.txt:1: expected `program bench` or `program probe`"),
        ("new 1 0\nprogram probe", "case.txt:2: expected `program` on the first line only"),
        ("program probe\nprogram probe", "case.txt:2: expected `program` on the first line only"),
    ];
    for (text, expected) in cases {
        assert_eq!(error(text), expected);
    }
    for (text, expected) in [
        ("news 1 0", "expected new, command, event, media, line, status, total, label-area, label-bytes, pool, request, reply, write-again, walk, bytes, repeat or end, not `news`"),
        ("command identify room=4097", "expected room= from 0 to 4096, not `4097`"),
        ("command identify fill=1", "expected fill= as one byte of two hex digits, not `1`"),
        ("command identify raw=00*4097", "expected a payload of at most 4096 bytes (see `bytes`)"),
        ("command identify length=0", "expected no `length=` here"),
        ("pool time=0", "expected one command name or opcode="),
        ("pool identify room=4097", "expected room= from 0 to 4096, not `4097`"),
        ("pool identify raw=00*4097", "expected a payload of at most 4096 bytes (see `bytes`)"),
        ("pool inject-poison", "expected address=NUMBER"),
        ("pool identify length-field=65536", "expected length-field= once, from 0 to 65535"),
        ("event log=0", "expected bytes=HEX of at most 4096 bytes or fill=HH"),
        ("event log=0 bytes=00*4097", "expected an event record of at most 4096 bytes, not 4097"),
        ("event log=0 bytes=00 length=1", "expected no `length=` here"),
        ("event log=0 fill=00 length=4097", "expected length= from 0 to 4096, not `4097`"),
        ("status log=0", "expected no `log=` here"),
        ("total 1", "expected no `1` here"),
        ("label-area", "expected size=NUMBER"),
        ("label-area size=8193", "expected size= from 0 to 8192, not `8193`"),
        ("label-area size=1 offset=0", "expected no `offset=` here"),
        ("label-area size=1 => success", "expected after `=>` one of nothing, bad, unreadable, offset=, not `success`"),
        ("label-bytes offset=0", "expected length=NUMBER"),
        ("label-bytes offset=8193 length=0", "expected offset= from 0 to 8192, not `8193`"),
        ("label-bytes offset=8192 length=1", "expected offset= plus length= of at most 8192 (see `bytes`)"),
        ("label-bytes offset=0 length=1 => success", "expected after `=>` one of nothing, bad, unreadable, data=, offset=, not `success`"),
        ("label-bytes offset=0 length=1 => data=0", "expected after `=>` data= with bytes in hex, not `0`"),
        ("request get-labels offset=0 length=1", "expected a command of document 01 (see `bytes`)"),
        ("request set-labels offset=0", "expected a command of document 01 (see `bytes`)"),
        ("request sanitize", "expected a command of document 01 (see `bytes`)"),
        ("request", "expected one command name (see `bytes`)"),
        ("request opcode=0x0100", "expected one command name (see `bytes`)"),
        ("request identify time=0", "expected no `time=` here"),
        ("request identify room=4097", "expected room= from 0 to 4096, not `4097`"),
        ("request get-event-records", "expected log=NUMBER"),
        ("request clear-event-records log=0 handles=2-1", "expected handles= as numbers from 0 to 65535, not `2-1`"),
        ("request clear-event-records log=0 handles=1-65536", "expected handles= as numbers from 0 to 65535, not `1-65536`"),
        ("request clear-event-records log=0 count=1", "expected no `count=` here"),
        ("request clear-poison address=0 data=00", "expected data= of 64 bytes"),
        ("request get-log id=00 offset=0 length=0", "expected id=effects or an id of 16 bytes"),
        ("request set-event-interrupt-policy settings=1*256", "expected at most 255 settings"),
        ("request set-event-interrupt-policy length-field=256", "expected length-field= from 0 to 255"),
        ("reply hex=00", "expected one command name or opcode="),
        ("reply get-log hex=00", "expected asked=NUMBER"),
        ("reply identify room=0", "expected no `room=` here"),
        ("reply identify hex=0", "expected bytes in hex, two digits each, not `0`"),
        ("reply identify hex=00*4097", "expected a reply of at most 4096 bytes (see `bytes`)"),
        ("reply identify hex=00*69 cut=70", "expected cut= from 0 to 69, not `70`"),
        ("reply identify hex=00*69 bit=552", "expected bit= inside the 69 bytes, not 552"),
        ("write-again identify room=4097", "expected room= from 0 to 4096, not `4097`"),
        ("walk address=0", "expected lines=NUMBER"),
        ("walk address=0 lines=0 room=65537", "expected room= from 0 to 65536, not `65537`"),
        ("walk address=0 lines=0 length-field=1", "expected no `length-field=` here"),
    ] {
        let text = format!("program probe\nnew 1 0\n{text}");
        assert_eq!(error(&text), format!("case.txt:3: {expected}"));
    }
    assert!(error("command turn-off").starts_with("case.txt:1: expected opcode= or one of get-"));
}

/// Document 10: "length 2, record of that length"; bytes 15 and 16 of a CM record
/// of probe, 11 and 12 of an EV; 12 and 13 of a CM of bench.
#[test]
fn a_length_field_is_put_whatever_follows() {
    let bytes = |format, words: &str| line_bytes(format, words).unwrap();
    let command = bytes(Format::Probe, "command get-timestamp length-field=0x1001");
    assert_eq!((&command[15..], command.len()), (&[0x01, 0x10][..], 17));
    for (words, at) in [
        ("pool get-timestamp", 15),
        ("request clear-event-records log=1 flags=2", 9),
        ("reply get-timestamp", 8),
        ("write-again get-timestamp", 11),
    ] {
        let record = bytes(Format::Probe, &format!("{words} length-field=0x1001"));
        assert_eq!(&record[at..], [0x01, 0x10], "{words}");
    }
    let policy = bytes(
        Format::Probe,
        "request set-event-interrupt-policy length-field=3",
    );
    assert_eq!(&policy[7..], [3]);
    let event = bytes(Format::Probe, "event log=0 bytes=4553 length-field=0");
    assert_eq!(&event[11..], [0, 0, 0x45, 0x53]);
    let bench = bytes(Format::Bench, "command get-timestamp length-field=2049");
    assert_eq!(&bench[12..], [0x01, 0x08]);
    for (format, words, message) in [
        (
            Format::Bench,
            "event log=0 fill=00 length-field=1",
            "expected no `length-field=` here",
        ),
        (
            Format::Probe,
            "line address=0 length-field=1",
            "expected no `length-field=` here",
        ),
        (
            Format::Probe,
            "command identify length-field=65536",
            "expected length-field= once, from 0 to 65535",
        ),
    ] {
        assert_eq!(line_bytes(format, words).unwrap_err(), message);
    }
}

#[test]
fn repeat_blocks_and_counters() {
    let text = "new 1 0\nrepeat 2 k\nrepeat 3\nline address={k*1000+i*64-0x0}\nend\nend\n";
    let items = read(text).items;
    let words: Vec<&str> = items.iter().map(|item| item.line.words.as_str()).collect();
    assert_eq!(
        words[1..4],
        ["line address=0", "line address=64", "line address=128"]
    );
    assert_eq!(
        words[4..],
        [
            "line address=1000",
            "line address=1064",
            "line address=1128"
        ]
    );
}

#[test]
fn stated_answers_are_those_of_the_record() {
    assert_eq!(
        error("program probe\nnew 1 0\nstatus => sucess"),
        "case.txt:3: expected after `=>` one of nothing, bad, unreadable, bits=, waiting=, \
         highest=, offset=, logs=, highest-log=, not `sucess`"
    );
    for text in [
        "new 1 0 => made",
        "new 1 0 => kept=1",
        "media address=0 lines=1 type=0 => lines=1",
        "line address=0 => stored",
        "event log=0 fill=00 => clean",
        "command identify => timestamp=0",
        "command identify => kept=1",
        "command inject-poison address=0 => vector=2",
        "event log=0 fill=00 => vector=none",
    ] {
        let message = error(text);
        assert!(
            message.starts_with("case.txt:1: expected after `=>` one of "),
            "{message}"
        );
    }
    for (text, expected) in [
        ("line address=0 => type=x", "type= with numbers, not `x`"),
        ("total => lines=1,", "lines= with numbers, not `1,`"),
        (
            "status => logs=info,none,high",
            "logs= with names of logs or none, not `info,none,high`",
        ),
        (
            "command identify => reply=0",
            "reply= with bytes in hex, not `0`",
        ),
        (
            "event log=0 fill=00 => vector=no",
            "vector= with a number or none, not `no`",
        ),
        (
            "command inject-poison address=0 => vector=2,2",
            "vector= with a number or none, not `2,2`",
        ),
        (
            "bytes \"XX\" => offset=here",
            "offset= with numbers, not `here`",
        ),
    ] {
        let message = error(&format!("program probe\nnew 1 0\n{text}"));
        assert_eq!(
            message,
            format!("case.txt:3: expected after `=>` {expected}")
        );
    }
    // A list may be empty, and a `bytes` line may hold any record.
    read("command get-event-records log=0 => handles= times=");
    read("bytes \"NW\" 0100 0000 => success");
}

#[test]
fn a_generated_stream_has_words_that_encode_to_it() {
    for format in [Format::Bench, Format::Probe] {
        for profile in profiles(format).iter().filter(|profile| !profile.large) {
            let stream = profile.stream_of(format, 3, 1, None);
            let case = read(&stream_words(format, &stream));
            assert_eq!(case.format, format);
            assert_eq!(case.stream(), stream, "{}", profile.name);
        }
    }
}

/// A command record of probe.
fn command(opcode: u16, room: u16, fill: u8, payload: &[u8]) -> Record {
    Record::Command(Call {
        time: 7,
        opcode,
        room,
        fill,
        payload: payload.to_vec(),
    })
}

/// The same command through the pool manager's mailbox.
fn pool(opcode: u16, room: u16, fill: u8, payload: &[u8]) -> Record {
    match command(opcode, room, fill, payload) {
        Record::Command(call) => Record::Pool(call),
        _ => unreachable!("a command is a command record"),
    }
}

fn request(request: Request) -> Record {
    Record::Request {
        room: 9,
        fill: 0xaa,
        request,
    }
}

fn event(record: &[u8]) -> Record {
    Record::Event {
        time: u64::MAX,
        log: 255,
        record: record.to_vec(),
    }
}

#[test]
fn every_probe_record_has_words_that_encode_to_it() {
    let counting: Vec<u8> = (0..=255).cycle().take(4096).collect();
    let effects = [&reference::device::EFFECTS_IDENTIFIER[..], &[0; 8]].concat();
    let records = [
        (
            Record::New {
                volatile: 1,
                persistent: 65535,
            },
            "new 1 65535",
        ),
        (
            command(0x4000, 2048, 0, &[]),
            "command time=7 room=2048 fill=00 identify",
        ),
        (
            command(0x4000, 0, 0xaa, &[]),
            "command time=7 room=0 fill=aa identify",
        ),
        (
            command(0x4000, 4096, 0, &[0; 4096]),
            "command time=7 room=4096 fill=00 identify raw=00*4096",
        ),
        (
            command(0x4000, 2048, 1, &counting),
            "command time=7 room=2048 fill=01 identify raw=000102",
        ),
        (
            command(0x0401, 1, 0, &effects),
            "command time=7 room=1 fill=00 get-log id=effects offset=0 length=0",
        ),
        (
            pool(0x0401, 1, 0, &effects),
            "pool time=7 room=1 fill=00 get-log id=effects offset=0 length=0",
        ),
        (
            pool(0x4000, 0, 0xaa, &[]),
            "pool time=7 room=0 fill=aa identify",
        ),
        (
            pool(0x4000, 4096, 0, &[0; 4096]),
            "pool time=7 room=4096 fill=00 identify raw=00*4096",
        ),
        (
            pool(0xffff, 2048, 1, &[1, 2]),
            "pool time=7 room=2048 fill=01 opcode=0xffff payload=0102",
        ),
        (
            command(0x0401, 2048, 0, &[1]),
            "command time=7 room=2048 fill=00 get-log raw=01",
        ),
        (
            command(0x4301, 2048, 0, &[64, 0, 0, 0, 0, 0, 0, 0]),
            "command time=7 room=2048 fill=00 inject-poison address=64",
        ),
        (
            command(0xffff, 2047, 0xff, &[]),
            "command time=7 room=2047 fill=ff opcode=0xffff payload=",
        ),
        (
            command(0x0099, 2048, 0, &[1, 2]),
            "command time=7 room=2048 fill=00 opcode=0x0099 payload=0102",
        ),
        (event(&[]), "event time=18446744073709551615 log=255 bytes="),
        (
            event(&[1]),
            "event time=18446744073709551615 log=255 fill=01 length=1",
        ),
        (
            event(&[2; 127]),
            "event time=18446744073709551615 log=255 fill=02 length=127",
        ),
        (
            event(&[3; 128]),
            "event time=18446744073709551615 log=255 fill=03",
        ),
        (
            event(&[4; 4096]),
            "event time=18446744073709551615 log=255 fill=04 length=4096",
        ),
        (
            event(&counting),
            "event time=18446744073709551615 log=255 bytes=000102",
        ),
        (
            Record::Media {
                time: 1,
                address: 2,
                lines: 3,
                kind: 4,
            },
            "media time=1 address=2 lines=3 type=4",
        ),
        (
            Record::Line { address: u64::MAX },
            "line address=18446744073709551615",
        ),
        (Record::Status, "status"),
        (Record::Total, "total"),
        (
            request(Request::ClearEventRecords {
                log: 1,
                flags: 2,
                handles: vec![3, 65535],
            }),
            "request room=9 fill=aa clear-event-records log=1 flags=2 handles=3,65535",
        ),
        (
            request(Request::SetPolicy {
                settings: vec![1, 2, 3, 255],
            }),
            "request room=9 fill=aa set-event-interrupt-policy settings=1,2,3,255",
        ),
        (
            request(Request::GetLog {
                identifier: reference::device::EFFECTS_IDENTIFIER,
                offset: 1,
                length: u32::MAX,
            }),
            "request room=9 fill=aa get-log id=effects offset=1 length=4294967295",
        ),
        (
            request(Request::ClearPoison {
                address: 64,
                data: [7; 64],
            }),
            "request room=9 fill=aa clear-poison address=64 data=07*64",
        ),
        (
            request(Request::Identify),
            "request room=9 fill=aa identify",
        ),
        (
            Record::Reply {
                opcode: 0x0401,
                asked: 5,
                reply: counting.clone(),
            },
            "reply get-log asked=5 hex=000102",
        ),
        (
            Record::Reply {
                opcode: 0x4000,
                asked: 0,
                reply: [vec![1, 2], vec![0; 9], vec![3]].concat(),
            },
            "reply identify asked=0 hex=0102,00*9,03",
        ),
        (
            Record::Rewrite {
                opcode: 0x4301,
                asked: 0,
                room: 0,
                fill: 1,
                reply: vec![],
            },
            "write-again room=0 fill=01 inject-poison asked=0 hex=",
        ),
        (
            Record::Walk {
                address: 1,
                lines: u64::MAX,
                room: 65_536,
                fill: 255,
            },
            "walk address=1 lines=18446744073709551615 room=65536 fill=ff",
        ),
        (
            command(0x4102, 2048, 0, &[5, 0, 1, 0, 255, 255, 255, 255]),
            "command time=7 room=2048 fill=00 get-labels offset=65541 length=4294967295",
        ),
        (
            command(0x4102, 2048, 0, &[5, 0, 1, 0]),
            "command time=7 room=2048 fill=00 get-labels raw=05000100",
        ),
        (
            command(0x4103, 2048, 0, &[1, 0, 0, 0, 0, 0, 0, 0]),
            "command time=7 room=2048 fill=00 set-labels offset=1 data=",
        ),
        (
            command(0x4103, 2048, 0, &[1, 0, 0, 0, 0, 0, 2, 0, 9, 9]),
            "command time=7 room=2048 fill=00 set-labels offset=1 reserved=00000200 data=0909",
        ),
        (
            command(0x4103, 2048, 0, &[1, 0, 0, 0, 0, 0, 2]),
            "command time=7 room=2048 fill=00 set-labels raw=01000000000002",
        ),
        (
            command(0x4400, 2048, 0, &[]),
            "command time=7 room=2048 fill=00 sanitize",
        ),
        (
            command(0x4400, 2048, 0, &[9]),
            "command time=7 room=2048 fill=00 sanitize raw=09",
        ),
        (Record::LabelArea { size: 8192 }, "label-area size=8192"),
        (
            Record::LabelBytes {
                offset: 8191,
                length: 1,
            },
            "label-bytes offset=8191 length=1",
        ),
    ];
    let mut stream = Vec::new();
    for (record, expected) in &records {
        let words = line_words(Format::Probe, record);
        assert!(words.starts_with(expected), "{expected}, not {words}");
        let bytes = line_bytes(Format::Probe, &words).unwrap();
        assert_eq!(bytes, record.bytes(), "{words}");
        stream.extend(bytes);
    }
    stream.extend(b"PC\x00");
    let text = stream_words(Format::Probe, &stream);
    assert!(text.starts_with("program probe\nnew 1 65535\n"));
    assert!(text.contains("\nstatus\ntotal\nrequest "));
    assert!(text.ends_with(" length=1\nbytes 504300\n"));
    let again = read(&text);
    assert_eq!(again.format, Format::Probe);
    assert_eq!(again.stream(), stream);
    assert_eq!(again.items.len(), records.len() + 1);
}

#[test]
fn expectations_pass_and_fail() {
    let text = "new 1 0 => success\n\
        media address=0 lines=2 type=1 => stored=2 dropped=0\n\
        line address=0 => damaged type=1\n\
        line address=0 => clean\n\
        command get-timestamp => success length=8 timestamp=1\n\
        command get-timestamp => reply=00*8\n\
        event log=9 fill=00 => invalid-input\n\
        event log=0 fill=00 => stored\n\
        bytes \"XX\" => bad offset=254\n\
        line address=0 => nothing\n";
    let report = check(&read(text), &output(text));
    assert_eq!((report.passed, report.failed), (7, 3), "{:?}", report.lines);
    let failed = |line: &&String| line.starts_with("fail");
    let failed: Vec<&String> = report.lines.iter().filter(failed).collect();
    assert_eq!(
        failed[0],
        "fail 4: line address=0: expected clean; came success damaged code=0 answer=1 type=1"
    );
    assert!(failed[1].contains("expected success length=8 timestamp=1; came success"));
    assert!(failed[2].contains("expected bad offset=254; came bad offset="));
    // A line too many is a failure, a line too few is `nothing`.
    let first = read("new 1 0 => success");
    let report = check(&first, "NW 0\nLT 0 0 0\n");
    assert_eq!((report.passed, report.failed), (1, 1));
    let report = check(&first, "");
    assert_eq!(
        report.lines,
        ["fail 1: new 1 0: expected success; came nothing"]
    );
    let report = check(&first, "NW zero\n");
    assert_eq!(report.failed, 1);
}

/// A poison list reply with one record: address 64, type 1, 2 lines.
const CAPTURED: &str = "hex=02,00*9,0100,00*20,4100000000000000,02000000,00*4";

#[test]
fn answers_of_the_hosts_side_are_stated_and_said_in_words() {
    let text = format!(
        "program probe\n\
        new 1 0\n\
        request room=10 clear-event-records log=1 handles=1-2 => payload=0100,02,00*3,01000200 kept=1\n\
        request room=9 fill=aa clear-event-records log=1 handles=1-2 => reply-buffer-too-small\n\
        request clear-event-records log=1 handles=9*256 => invalid-payload-length length=0\n\
        reply get-poison-list {CAPTURED} => success addresses=64 types=1 lengths=2 overflow=1\n\
        repeat 8\n\
        reply get-poison-list {CAPTURED} bit={{i+96}} => invalid-input place=12\n\
        end\n\
        repeat 48\n\
        reply get-poison-list {CAPTURED} cut={{i}} => invalid-payload-length\n\
        end\n\
        reply get-supported-logs hex=0200,00*6,01*16,30000000,02*16,00*4 => size=48,0\n\
        reply get-event-records hex=00*20,0100,00*10,07*128 => count=1 handles=1799 records=07*128\n\
        reply get-log asked=0 => data=-\n\
        reply identify hex=ff*69 => firmware=ffffffffffffffffffffffffffffffff inject-limit=65535\n\
        reply inject-poison => success\n\
        write-again room=48 get-poison-list {CAPTURED} => length=48 kept=1\n\
        media address=64 lines=3 type=7\n\
        walk address=0 lines=2 => count=1 addresses=64 types=7 lengths=1 records=47,00*7,01,00*7\n\
        walk address=0 lines=1 room=0 => count=0 addresses= kept=1\n\
        walk address=32 lines=1 => invalid-input\n"
    );
    let case = read(&text);
    let output = reference::probe::lines_of(&case.stream(), Config::default());
    let output = String::from_utf8(output).unwrap();
    let report = check(&case, &output);
    assert_eq!(
        (report.passed, report.failed),
        (69, 0),
        "{:?}",
        report.lines
    );
    let said = explain(&case, &output);
    for line in [
        "success: request of clear-event-records, 10 bytes, which is the whole buffer",
        "payload: log=1 flags=0 count=2 handles=1,2",
        "refused: reply buffer too small (0100h): length 0, all 9 bytes of the buffer still 0xaa",
        "read: get-poison-list reply of 48 bytes",
        "flags 2 (more 0, overflow 1), overflow time 0, 1 record",
        "record: address 64 (0x40), type 1 (external), 2 lines",
        "refused: invalid input (0002h): byte 12 has a reserved bit set",
        "refused: invalid payload length (0016h)",
        "read: inject-poison reply of no bytes",
        "the same bytes as read",
        "success: walk, 1 record, 16 bytes, the other 65,520 bytes of the buffer still 0x00",
        "record: address 64 (0x40), type 7 (vendor specific), 1 line",
        "success: walk, 0 records, no bytes, the buffer is empty",
    ] {
        assert!(
            said.contains(&format!("    {line}\n")),
            "{line} not in {said}"
        );
    }
    // Answers that no right program gives.
    let one = |words: &str, line: &str| {
        let case = read(&format!("program probe\nnew 1 0\n{words}\n"));
        explain(&case, &format!("NW 0\n{line}\n"))
    };
    let wrong = one("request get-event-records log=1", "RQ 0 1 02 1");
    assert!(wrong.ends_with("\n    NOT THE REQUEST MEANT\n"));
    let wrong = one("write-again inject-poison", "RW 0 1 02 1");
    assert!(wrong.ends_with("\n    NOT THE SAME BYTES as read\n"));
    for (words, line) in [
        ("reply get-timestamp hex=00*8", "RP 0"),
        ("reply get-timestamp hex=00*8", "RP 0 1 2"),
        ("reply get-timestamp hex=00*8", "RP 0 01"),
        ("reply get-timestamp hex=00*8", "RP 2"),
        ("reply get-timestamp hex=00*8", "RP 22 0"),
        (
            "reply get-event-interrupt-policy hex=00*5",
            "RP 0 1 2 3 4 256",
        ),
        ("reply get-log asked=0", "RP 0"),
        ("reply get-poison-list hex=00*32", "RP 0 0 0 1"),
        ("reply get-poison-list hex=00*32", "RP 0 0 0 1 32 0 1"),
        ("walk address=0 lines=1", "WK 0 16 00 1"),
        ("request identify", "RQ 0 0  1"),
    ] {
        let said = one(words, line);
        assert!(said.contains("not a line of this record: "), "{said}");
    }
}

#[test]
fn answers_about_labels_are_stated_and_said_in_words() {
    let text = "program probe\n\
        new 1 0\n\
        command set-labels offset=4 data=0102,ff*20 => success length=0 reply=-\n\
        command set-labels offset=4096 => success\n\
        command get-labels offset=3 length=4 => success length=4 data=000102ff reply=000102ff\n\
        command get-labels offset=0 length=1 => data=00\n\
        command get-labels offset=4096 length=0 => success reply=-\n\
        command get-labels raw=00 => invalid-payload-length\n\
        command opcode=0x4103 payload=00*9 => success\n\
        label-area size=8192\n\
        label-area size=0\n\
        command get-labels offset=0 length=1 => reply-buffer-too-small\n\
        label-bytes offset=5 length=21 => data=02,ff*20\n\
        label-bytes offset=0 length=0 => data=-\n";
    let case = read(text);
    let output = reference::probe::lines_of(&case.stream(), Config::default());
    let output = String::from_utf8(output).unwrap();
    let report = check(&case, &output);
    let totals = (report.passed, report.failed);
    assert_eq!(totals, (10, 0), "{:?}", report.lines);
    let said = explain(&case, &output);
    for line in [
        "success: set-labels, no reply, all 2,048 bytes of the buffer still 0x00",
        "label area, bytes 4 to 25 written",
        "label area: nothing is written",
        "label area, bytes 3 to 6: 000102ff",
        "label area, byte 0: 00",
        "label area, byte 0 written",
        "lent from now on: the first 8,192 bytes of the label store",
        "lent from now on: an empty label area",
        "the label area lent: 0 bytes",
        "label store, bytes 5 to 25: 02,ff*20",
        "label store: no bytes",
    ] {
        assert!(
            said.contains(&format!("    {line}\n")),
            "{line} not in {said}"
        );
    }
    // Lines that are no answers.
    for (words, line) in [
        ("label-area size=1", "AR 0"),
        ("label-area size=1", "AB"),
        ("label-bytes offset=0 length=1", "AB"),
        ("label-bytes offset=0 length=1", "AB -"),
        ("label-bytes offset=0 length=1", "AB 0000"),
        ("label-bytes offset=0 length=0", "AB "),
    ] {
        let said = explained(&[(words, line)]);
        assert!(said[0].starts_with("not a line of this record"), "{said:?}");
    }
}

/// The words of W-207: `sanitize`, `started`, `busy`, `media-disabled` and `disabled`.
#[test]
fn answers_about_sanitize_are_stated() {
    let lines = "new 1 0 => success\n\
        line address=0 => clean\n\
        command time=5 sanitize => started length=0 code=1\n\
        command time=6 sanitize => busy length=0 code=6\n\
        command time=7 sanitize raw=00 => invalid-payload-length\n\
        command time=7 opcode=0x4400 => busy\n\
        command time=7 inject-poison address=0 => media-disabled code=7\n\
        line address=0 => success disabled answer=3 type=0\n\
        command time=4_000_000_005 opcode=0x4400 => started\n";
    for (head, lines_of) in [
        (
            "",
            reference::bench::lines_of as fn(&[u8], Config) -> Vec<u8>,
        ),
        ("program probe\n", reference::probe::lines_of),
    ] {
        let case = read(&format!("{head}{lines}"));
        let output = String::from_utf8(lines_of(&case.stream(), Config::default())).unwrap();
        let report = check(&case, &output);
        let totals = (report.passed, report.failed);
        assert_eq!(totals, (9, 0), "{:?}", report.lines);
        // Started is neither success nor a refusal.
        let wrong = lines.replace("started length=0", "success length=0");
        let wrong = read(&format!("{head}{wrong}"));
        assert_eq!(check(&wrong, &output).failed, 1);
        let wrong = lines.replace("success disabled", "success clean");
        let wrong = read(&format!("{head}{wrong}"));
        assert_eq!(check(&wrong, &output).failed, 1);
    }
    let message = error("event log=0 fill=00 => disabled");
    assert!(message.starts_with("case.txt:1: expected after `=>` one of "));
}

#[test]
fn answers_of_the_pools_mailbox_are_stated() {
    let lines = "program probe\n\
        new 1 0\n\
        event log=2 fill=00\n\
        pool fill=11 get-event-records log=2 => success length=160 count=1 handles=1 kept=1\n\
        pool get-supported-logs => size=28 count=1\n\
        pool get-log offset=0 length=8 => entries=0100h:0,0102h:0\n\
        pool get-log offset=0 length=29 => invalid-input length=0\n\
        pool identify => label-size=4096 total=1\n\
        pool inject-poison address=0 => unsupported-mailbox code=21 reply=- kept=1\n\
        pool opcode=0x0104 => unsupported\n";
    let case = read(lines);
    let stream = case.stream();
    let output = String::from_utf8(reference::probe::lines_of(&stream, Config::default())).unwrap();
    let report = check(&case, &output);
    assert_eq!((report.passed, report.failed), (7, 0), "{:?}", report.lines);
    let wrong = read(&lines.replace("size=28", "size=60"));
    assert_eq!(check(&wrong, &output).failed, 1);
    let wrong = read(&lines.replace("=> unsupported\n", "=> unsupported-mailbox\n"));
    assert_eq!(check(&wrong, &output).failed, 1);
    // "`PC` has no vector column."
    let message = error("program probe\npool identify => vector=none");
    assert!(message.starts_with("case.txt:2: expected after `=>` one of "));
    assert!(message.ends_with("not `vector=none`"));
}

#[test]
fn explanations_decode_replies() {
    let text = "new 1 0\n\
        command time=0 set-timestamp value=5\n\
        event time=1 log=1 fill=aa\n\
        command get-event-records log=1\n\
        command set-event-interrupt-policy settings=1,0,0,0\n\
        command get-event-interrupt-policy\n\
        command identify\n\
        command get-log id=effects offset=0 length=8\n\
        media address=128 lines=3 type=2\n\
        line address=128\n\
        command get-poison-list address=0 lines=4\n\
        command inject-poison address=1\n\
        command time=9 inject-poison address=0x40\n\
        command get-event-records log=0\n\
        bytes \"XX\"\n";
    let words = explain(&read(text), &output(text));
    for expected in [
        "line 1: new 1 0\n    success: the device is made",
        "success: the event record is stored",
        "log 1 (Warning): flags 0 (overflow 0, more 0), 1 record, no more to read\n",
        "record: handle 1, timestamp 6,",
        "log 0 (Info): 21h, vector 2, mode 1",
        "poison-entries 256",
        "opcode 0101h: effect 16",
        "success: 3 lines stored, 0 lines dropped",
        "damaged, type 2 (internal)",
        "record: address 128 (0x80), type 2 (internal), 2 lines",
        "refused: invalid input (0002h): length 0",
        "record: handle 1, timestamp 14, identifier 00000000000000000000000000000000, length 128, \
         flags 000000h, related handle 0, injection of address 64 (0x40)\n",
        "the stream is bad at offset",
    ] {
        assert!(words.contains(expected), "{expected} not in\n{words}");
    }
}

/// Words of the probe case's lines, each with the line that is explained and
/// its explanation.
fn explained(lines: &[(&str, &str)]) -> Vec<String> {
    let words: Vec<&str> = lines.iter().map(|(words, _)| *words).collect();
    let output: Vec<&str> = lines.iter().map(|(_, line)| *line).collect();
    let case = read(&format!("program probe\nnew 1 0\n{}\n", words.join("\n")));
    let text = explain(&case, &format!("NW 0\n{}\n", output.join("\n")));
    let said: Vec<&str> = text.lines().filter(|line| line.starts_with(' ')).collect();
    said.iter()
        .skip(1)
        .map(|line| line.trim().to_string())
        .collect()
}

#[test]
fn explanations_of_probe_lines() {
    let identify = "CM 0 2 4257 1 0";
    let cases = [
        ("command fill=aa identify", identify, "success: identify, reply of 2 bytes, the other 2,046 bytes of the buffer still 0xaa"),
        ("command fill=aa identify", "CM 0 2 4257 0 0", "success: identify, reply of 2 bytes, NOT KEPT: the other 2,046 bytes of the buffer are no longer all 0xaa"),
        ("command room=2 identify", identify, "success: identify, reply of 2 bytes, which is the whole buffer"),
        ("command room=1 identify", identify, "success: identify, reply of 2 bytes, LONGER THAN THE BUFFER of 1 byte"),
        ("command room=2047 fill=aa identify", "CM 256 0 - 1 0", "refused: reply buffer too small (0100h): length 0, all 2,047 bytes of the buffer still 0xaa"),
        ("command room=2047 fill=0a identify", "CM 256 0 - 0 0", "refused: reply buffer too small (0100h): length 0, NOT KEPT: the 2,047 bytes of the buffer are no longer all 0x0a"),
        ("command room=1 fill=55 identify", "CM 256 0 - 1 0", "refused: reply buffer too small (0100h): length 0, the 1 byte of the buffer still 0x55"),
        ("command room=0 identify", "CM 256 0 - 1 0", "refused: reply buffer too small (0100h): length 0, the buffer is empty"),
        ("command set-timestamp value=1", "CM 0 0 - 1 0", "success: set-timestamp, no reply, all 2,048 bytes of the buffer still 0x00"),
        ("command opcode=1", "CM 3 0 - 1 0", "refused: unsupported (0003h): length 0, all 2,048 bytes of the buffer still 0x00"),
        ("pool fill=aa identify", "PC 0 2 4257 1", "success: identify, reply of 2 bytes, the other 2,046 bytes of the buffer still 0xaa"),
        ("pool fill=aa identify", "PC 0 2 4257 0", "success: identify, reply of 2 bytes, NOT KEPT: the other 2,046 bytes of the buffer are no longer all 0xaa"),
        ("pool fill=aa sanitize", "PC 21 0 - 1", "refused: unsupported mailbox (0015h): length 0, all 2,048 bytes of the buffer still 0xaa"),
        ("pool room=0 set-timestamp value=1", "PC 0 0 - 1", "success: set-timestamp, no reply, the buffer is empty; BUT THIS MAILBOX HAS NOT THE COMMAND"),
        ("pool room=0 sanitize", "PC 1 0 - 1", "started (0001h): sanitize, no reply, the buffer is empty; BUT THIS MAILBOX HAS NOT THE COMMAND"),
        ("pool identify", "PC 0 2 4257 1 0", "not a line of this record: PC 0 2 4257 1 0"),
        ("pool identify", "CM 3 0 - 1 0", "not a line of this record: CM 3 0 - 1 0"),
        ("new 0 0", "NW 2", "refused: invalid input (0002h); the device beside it has one volatile unit"),
        ("new 1 0", "NW 0", "success: the device is made"),
        ("event log=0 fill=00", "EV 0 1 0", "success: the event record is stored; no vector"),
        ("event log=0 fill=00", "EV 0 0 0", "success: not stored, the log is full and counts an overflow; no vector"),
        ("event log=5 fill=00", "EV 2 0 0", "refused: invalid input (0002h), not stored"),
        ("event log=0 bytes=", "EV 22 0 0", "refused: invalid payload length (0016h), not stored"),
        ("event log=0 bytes=", "EV 22 1 0", "refused: invalid payload length (0016h), BUT STORED"),
        ("event log=1 fill=00", "EV 0 1 3", "success: the event record is stored; raise vector 3"),
        ("event log=1 fill=00", "EV 0 0 3", "success: not stored, the log is full and counts an overflow; BUT RAISE VECTOR 3"),
        ("event log=5 fill=00", "EV 2 0 2", "refused: invalid input (0002h), not stored; BUT RAISE VECTOR 2"),
        ("event log=0 fill=00", "EV 0 1", "not a line of this record: EV 0 1"),
        ("command room=0 inject-poison address=0", "CM 0 0 - 1 2", "success: inject-poison, no reply, the buffer is empty; raise vector 2"),
        ("command room=0 inject-poison address=0", "CM 0 0 - 1 0", "success: inject-poison, no reply, the buffer is empty; no vector"),
        ("command room=0 inject-poison address=1", "CM 2 0 - 1 0", "refused: invalid input (0002h): length 0, the buffer is empty"),
        ("command room=0 inject-poison address=1", "CM 2 0 - 1 2", "refused: invalid input (0002h): length 0, the buffer is empty; BUT RAISE VECTOR 2"),
        ("command room=0 clear-poison address=0", "CM 0 0 - 1 2", "success: clear-poison, no reply, the buffer is empty; BUT RAISE VECTOR 2"),
        ("media address=0 lines=2 type=0", "MD 0 1 1", "success: 1 line stored, 1 line dropped"),
        ("media address=0 lines=0 type=0", "MD 2 0 0", "refused: invalid input (0002h), 0 lines stored, 0 lines dropped"),
        ("media address=0 lines=0 type=0", "MD 2 0 4", "refused: invalid input (0002h), BUT 0 lines stored, 4 lines dropped"),
        ("line address=0", "LT 0 0 0", "clean"),
        ("line address=0", "LT 0 1 3", "damaged, type 3 (injected)"),
        ("line address=0", "LT 0 2 0", "unknown"),
        ("line address=0", "LT 0 3 0", "disabled: a Sanitize runs"),
        ("line address=0", "LT 0 3 2", "disabled, BUT type 2 (internal)"),
        ("line address=0", "LT 0 4 0", "not a line of this record: LT 0 4 0"),
        ("line address=1", "LT 2 3 0", "refused: invalid input (0002h), BUT disabled, type 0 (unknown source)"),
        ("command room=0 sanitize", "CM 1 0 - 1 0", "started (0001h): sanitize, no reply, the buffer is empty"),
        ("command room=0 sanitize", "CM 1 0 - 1 2", "started (0001h): sanitize, no reply, the buffer is empty; BUT RAISE VECTOR 2"),
        ("command room=0 sanitize", "CM 0 0 - 1 0", "BUT SUCCESS, not started: sanitize, no reply, the buffer is empty"),
        ("command room=0 identify", "CM 1 0 - 1 0", "BUT STARTED (0001h): identify, no reply, the buffer is empty"),
        ("command room=0 sanitize", "CM 6 0 - 1 0", "refused: busy (0006h): length 0, the buffer is empty"),
        ("command room=0 set-labels offset=0", "CM 7 0 - 1 0", "refused: media disabled (0007h): length 0, the buffer is empty"),
        ("line address=1", "LT 2 2 0", "refused: invalid input (0002h), unknown, type 0"),
        ("line address=1", "LT 2 0 0", "refused: invalid input (0002h), BUT clean, type 0 (unknown source)"),
        ("status", "ES 0 0 5", "no log waits; 0 logs waiting, the highest is 5 (none)"),
        ("status", "ES 2 1 1", "waiting: log 1 (Warning); 1 log waiting, the highest is 1 (Warning)"),
        ("status", "ES 17 2 4", "waiting: log 0 (Info), log 4 (Dynamic Capacity); 2 logs waiting, the highest is 4 (Dynamic Capacity)"),
        ("total", "DT 0", "damage total: 0 lines"),
        ("total", "DT 4290772992", "damage total: 4,290,772,992 lines"),
        ("total", "DT -", "not a line of this record: DT -"),
        ("status", "ES 0 0", "not a line of this record: ES 0 0"),
        ("command get-timestamp", "CM 0 0", "not a line of this record: CM 0 0"),
        ("line address=0", "LT 2", "not a line of this record: LT 2"),
        ("bytes \"XX\"", "BAD 6", "the stream is bad at offset 6"),
    ];
    for (words, line, expected) in cases {
        assert_eq!(explained(&[(words, line)])[0], expected, "{words}: {line}");
    }
    // Flags 0 to 3 of Get Event Records: bit 1 is More.
    for (flags, words) in [
        (0, "overflow 0, more 0), 0 records, no more to read"),
        (1, "overflow 1, more 0), 0 records, no more to read"),
        (2, "overflow 0, more 1), 0 records, more to read"),
        (3, "overflow 1, more 1), 0 records, more to read"),
    ] {
        let line = format!("CM 0 32 {flags:02x}{} 1 0", "00".repeat(31));
        let said = &explained(&[("command get-event-records log=2", &line)])[1];
        assert_eq!(said, &format!("log 2 (Failure): flags {flags} ({words}"));
    }
    let lines = [
        (
            "command fill=01 get-timestamp",
            "CM 0 8 0500000000000000 1 0",
        ),
        ("command inject-poison address=1", "CM 2 1 ff 1 0"),
        ("command sanitize", "CM 1 1 ee 1 0"),
    ];
    assert_eq!(
        explained(&lines),
        [
            "success: get-timestamp, reply of 8 bytes, the other 2,040 bytes of the buffer still 0x01",
            "timestamp 5",
            "refused: invalid input (0002h): length 1, the other 2,047 bytes of the buffer still 0x00",
            "BYTES OF A REFUSED COMMAND: ff",
            "started (0001h): sanitize, reply of 1 byte, the other 2,047 bytes of the buffer still 0x00",
            "BYTES WITHOUT A REPLY: ee",
        ]
    );
}

#[test]
fn expectations_of_probe_lines() {
    let lines = [
        ("new 1 0 => success code=0", "NW 0"),
        ("command room=1 get-timestamp => reply-buffer-too-small code=0x100 length=0 reply=- kept=1", "CM 256 0 - 1 0"),
        ("command get-timestamp => success length=8 reply=00*8 timestamp=0 kept=0", "CM 0 8 0000000000000000 0 0"),
        ("command inject-poison address=0 => success reply= kept=1", "CM 0 0 - 1 0"),
        ("event log=5 fill=00 => invalid-input not-stored stored=0", "EV 2 0 0"),
        ("event log=0 fill=00 => success stored", "EV 0 1 0"),
        ("event log=0 fill=00 => stored vector=2", "EV 0 1 2"),
        ("event log=0 fill=00 => stored vector=none", "EV 0 1 0"),
        ("event log=0 fill=00 => stored vector=0", "EV 0 1 0"),
        ("event log=0 fill=00 => stored", "EV 0 1 5"),
        ("command inject-poison address=0 => success vector=0x2", "CM 0 0 - 1 2"),
        ("command inject-poison address=0 => success vector=none", "CM 0 0 - 1 2"),
        ("event log=0 fill=00 => vector=2", "EV 0 1 0"),
        ("media address=1 lines=1 type=0 => invalid-input stored=0 dropped=0", "MD 2 0 0"),
        ("line address=1 => invalid-input unknown answer=2 type=0", "LT 2 2 0"),
        ("status => bits=0x11 waiting=2 highest=4 logs=info,dynamic-capacity highest-log=dynamic-capacity", "ES 17 2 4"),
        ("status => bits=0 waiting=0 highest=5 logs=none highest-log=none", "ES 0 0 5"),
        ("total => lines=12", "DT 12"),
        ("total => lines=13", "DT 12"),
        ("event log=5 fill=00 => invalid-input not-stored", "EV 2 1 0"),
        ("command get-timestamp => kept=1", "CM 0 8 0000000000000000 0 0"),
        ("bytes \"PC\" => bad", "BAD 1"),
    ];
    let words: Vec<&str> = lines.iter().map(|(words, _)| *words).collect();
    let output: Vec<&str> = lines.iter().map(|(_, line)| *line).collect();
    let case = read(&format!("program probe\n{}", words.join("\n")));
    let report = check(&case, &(output.join("\n") + "\n"));
    let failed: Vec<&String> = report
        .lines
        .iter()
        .filter(|line| line.starts_with("fail"))
        .collect();
    assert_eq!((report.passed, report.failed), (17, 5), "{failed:?}");
    assert_eq!(
        *failed[0],
        "fail 13: command inject-poison address=0: expected success vector=none; \
         came success code=0 length=0 kept=1 vector=2"
    );
    assert_eq!(
        failed[2],
        "fail 20: total: expected lines=13; came lines=12"
    );
}

/// Runs the tool with these arguments and this standard input: its exit status
/// and what it prints on its two outputs.
fn tool(arguments: &[&str], input: &[u8]) -> (Option<i32>, Vec<u8>, String) {
    let mut child = Command::new(env!("CARGO_BIN_EXE_reference"))
        .args(arguments)
        .stdin(Stdio::piped())
        .stdout(Stdio::piped())
        .stderr(Stdio::piped())
        .spawn()
        .unwrap();
    // A tool that ends before it reads is no error.
    let _ = child.stdin.take().unwrap().write_all(input);
    let output = child.wait_with_output().unwrap();
    let errors = String::from_utf8(output.stderr).unwrap();
    (output.status.code(), output.stdout, errors)
}

#[test]
fn an_error_is_printed_once_by_each_subcommand() {
    let path = std::env::temp_dir().join(format!("case-{}.txt", std::process::id()));
    let name = path.to_str().unwrap();
    let wrong = [
        ("repeat 3\ncommand identify room=x\nend\n", "expected room= from 0 to 4096, not `x`"),
        ("\nlines 3\n", "expected new, command, event, media, line, status, total, label-area, label-bytes, pool, request, reply, write-again, walk, bytes, repeat or end, not `lines`"),
    ];
    for (text, message) in wrong {
        std::fs::write(&path, format!("program probe\n{text}")).unwrap();
        for subcommand in ["encode", "explain", "check"] {
            let (status, out, errors) = tool(&[subcommand, name], b"");
            assert_eq!(status, Some(1));
            assert_eq!(out, b"", "{subcommand}");
            assert_eq!(errors, format!("{name}:3: {message}\n"), "{subcommand}");
        }
    }
    std::fs::remove_file(&path).unwrap();
}

#[test]
fn decode_is_told_the_format() {
    let text = "program probe\nnew 1 0\nstatus\ncommand time=0 room=0 fill=aa identify\n";
    let stream = read(text).stream();
    let (status, out, _) = tool(&["decode", "--format", "probe"], &stream);
    assert_eq!(
        (status, String::from_utf8(out).unwrap()),
        (Some(0), text.to_string())
    );
    let (_, out, _) = tool(&["decode"], &read("new 1 0\nline address=0").stream());
    assert_eq!(out, b"new 1 0\nline address=0\n");
    let (_, out, _) = tool(&["decode", "--format", "bench"], b"NW\x01\0\0\0ES");
    assert_eq!(out, b"new 1 0\nbytes 4553\n");
    let (status, _, errors) = tool(&["decode", "--format", "other"], b"");
    assert_eq!(status, Some(1));
    assert_eq!(errors, "expected --format bench or probe, not `other`\n");
}
