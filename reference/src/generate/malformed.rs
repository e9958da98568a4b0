//! Profiles of bad streams, for both formats.

use super::builder::Builder;
use super::commands::plausible_payload;
use crate::device::numbers::{opcode, RECORD};
use crate::device::EFFECTS_IDENTIFIER;
use crate::host::request::Request;
use crate::probe::record::{Call, Record, MOST};

/// One record of each kind that bench has too.
fn one_of_each(b: &mut Builder) -> Vec<Record> {
    let mut command = |opcode, length| {
        Record::Command(Call {
            time: b.random.bits(),
            opcode,
            room: 2048,
            fill: 0x5a,
            payload: b.random.bytes(length),
        })
    };
    let commands = [
        command(opcode::GET_TIMESTAMP, 0),
        command(opcode::SET_TIMESTAMP, 8),
    ];
    let mut records = vec![Record::New {
        volatile: 1,
        persistent: 0,
    }];
    records.extend(commands);
    records.extend([
        Record::Event {
            time: b.random.bits(),
            log: 0,
            record: b.random.bytes(RECORD),
        },
        Record::Media {
            time: b.random.bits(),
            address: 64,
            lines: 1,
            kind: 0,
        },
        Record::Line { address: 64 },
    ]);
    records
}

/// Appends a record that the model does not run; only such ones may follow.
fn push_record(b: &mut Builder, record: &Record) {
    let bytes = b.bytes_of(record);
    b.push_bytes(&bytes);
}

/// One of the records cut at place `place` of all their bytes. The first one
/// begins the stream, the others come after some records.
fn cut(b: &mut Builder, records: &[Record], mut place: usize) {
    for (i, record) in records.iter().enumerate() {
        let bytes = b.bytes_of(record);
        if place < bytes.len() {
            if i > 0 {
                some_records(b);
            }
            return b.push_bytes(&bytes[..place]);
        }
        place -= bytes.len();
    }
}

/// Kinds of bad bench streams; the cut places come after them.
const BENCH_KINDS: usize = 32;
/// Every place at which one of each record may be cut.
const BENCH_CUTS: usize = 6 + 14 + 22 + 139 + 23 + 10;
pub const BENCH_STREAMS: usize = BENCH_KINDS + BENCH_CUTS;

/// One bad stream for each part: unknown marks, a wrong first mark, a later
/// NW, a refused NW, a length over 2,048, and a cut at every place.
pub fn bench(b: &mut Builder, part: usize) {
    let records = one_of_each(b);
    if part >= BENCH_KINDS {
        return cut(b, &records, (part - BENCH_KINDS) % BENCH_CUTS);
    }
    let big = [2049u16, 4096, 32768, 65535];
    let marks: [&[u8]; 8] = [b"XX", b"nw", b"cm", b"WN", b"MC", b"\0\0", b"N ", b"\r\n"];
    match part {
        0 => {}
        1 => b.push_bytes(b"N"),
        2 => b.push_bytes(b"X"),
        // A first mark other than NW, the record whole.
        3..=7 => push_record(b, &records[part - 2]),
        8..=15 => {
            if part % 2 == 0 {
                some_records(b);
            }
            b.push_bytes(marks[part - 8]);
            b.push_bytes(&[0; 40]);
        }
        // A later NW: at once, later, cut, refused by its numbers.
        16 => {
            b.new_device(1, 0);
            b.push_bytes(b"NW\x01\0\0\0");
        }
        17 => {
            some_records(b);
            b.push_bytes(b"NW\x01\0\0\0LT\0\0\0\0\0\0\0\0");
        }
        18 => {
            some_records(b);
            b.push_bytes(b"NW");
        }
        19 => {
            some_records(b);
            b.push_bytes(b"NW\0\0\0\0");
        }
        // A refused NW with records after it.
        20..=23 => {
            let units = [(0, 0), (1024, 0), (65535, 65535), (1023, 1)];
            let (volatile, persistent) = units[part - 20];
            let refused = Record::New {
                volatile,
                persistent,
            };
            push_record(b, &refused);
            push_record(b, &records[1]);
            b.push_bytes(b"XX");
        }
        // A CM length over 2,048, with and without the bytes.
        24..=31 => {
            some_records(b);
            let length = big[(part - 24) / 2];
            let mut bytes = b.bytes_of(&records[1]);
            bytes[12..14].copy_from_slice(&length.to_le_bytes());
            if part % 2 == 0 {
                bytes.resize(14 + usize::from(length), 0);
            }
            b.push_bytes(&bytes);
            push_record(b, &records[1]);
        }
        _ => b.push_bytes(b"NW"),
    }
}

/// NW and a few records before the bad place, so that its offset varies.
fn some_records(b: &mut Builder) {
    b.new_device(1, 0);
    for _ in 0..b.random.below(4) {
        let code = b.random.pick(&opcode::ALL);
        let payload = plausible_payload(b, code);
        b.command(code, payload);
        b.event(0);
    }
}

/// How a kind of bad probe stream is made, by number.
type Bad = fn(&mut Builder, &[Record], usize);

/// The kinds of bad probe streams, with the number of streams of each.
const PROBE_KINDS: [(usize, Bad); 6] = [
    (10 + 8 + 3, wrong_first),
    (3 * UNKNOWN.len(), unknown_mark),
    (9 * OVER_LIMIT.len(), over_limit),
    (3 * REQUEST_SIZES.len(), request_sizes),
    (8, cut_great),
    // One of each record, and a later NW.
    (
        6 + 17
            + 25
            + 141
            + 23
            + 10
            + 2
            + 2
            + (15 + 13 + 31 + 79 + 7 + 18 + 21 + 23)
            + (6 + 6)
            + 25
            + 6,
        cut,
    ),
];

pub const PROBE_STREAMS: usize = {
    let mut sum = 0;
    let mut kind = 0;
    while kind < PROBE_KINDS.len() {
        sum += PROBE_KINDS[kind].0;
        kind += 1;
    }
    sum
};

/// One bad stream for each part, by the kinds above.
pub fn probe(b: &mut Builder, part: usize) {
    let mut records = one_of_each(b);
    let later = records[0].clone();
    records.extend([Record::Status, Record::Total]);
    records.extend(one_of_each_of_host(b));
    records.extend([
        Record::LabelArea { size: 4096 },
        Record::LabelBytes {
            offset: 1,
            length: 2,
        },
    ]);
    records.push(a_pool_command(b));
    records.push(later);
    let mut part = part % PROBE_STREAMS;
    for (streams, make) in PROBE_KINDS {
        if part < streams {
            return make(b, &records, part);
        }
        part -= streams;
    }
}

/// A command of the pool manager's mailbox (W-208).
fn a_pool_command(b: &mut Builder) -> Record {
    Record::Pool(Call {
        time: b.random.bits(),
        opcode: opcode::SET_TIMESTAMP,
        room: 2048,
        fill: 0x5a,
        payload: b.random.bytes(8),
    })
}

/// Records of the host's side, among them requests with every form of fields.
fn one_of_each_of_host(b: &mut Builder) -> Vec<Record> {
    let requests = [
        Request::ClearEventRecords {
            log: 1,
            flags: 0,
            handles: vec![1, 2],
        },
        Request::SetPolicy {
            settings: b.random.bytes(5),
        },
        Request::GetLog {
            identifier: EFFECTS_IDENTIFIER,
            offset: 0,
            length: 4,
        },
        Request::ClearPoison {
            address: 64,
            data: [0x77; 64],
        },
        Request::Identify,
    ];
    let mut records: Vec<Record> = requests
        .into_iter()
        .map(|request| Record::Request {
            room: 100,
            fill: 0x5a,
            request,
        })
        .collect();
    let (opcode, reply) = (opcode::GET_TIMESTAMP, b.random.bytes(8));
    records.extend([
        Record::Reply {
            opcode,
            asked: 0,
            reply: reply.clone(),
        },
        Record::Rewrite {
            opcode,
            asked: 0,
            room: 8,
            fill: 0x5a,
            reply,
        },
        Record::Walk {
            address: 0,
            lines: 9,
            room: 16,
            fill: 0x5a,
        },
    ]);
    records
}

/// "An empty input prints nothing. The first record must be a make."
fn wrong_first(b: &mut Builder, records: &[Record], part: usize) {
    match part {
        0 => {}
        1 => b.push_bytes(b"N"),
        2 => b.push_bytes(b"E"),
        _ => {
            push_record(b, &records[part - 2]);
            push_record(b, &records[0]);
        }
    }
}

/// Marks that are not there: those of later requests, lower-case ones, others.
const UNKNOWN: [&[u8; 2]; 31] = [
    b"ar",
    b"ab",
    b"pc",
    b"TT",
    b"UM",
    b"DB",
    b"EL",
    b"LP",
    b"NX",
    b"HS",
    b"NZ",
    b"nw",
    b"cm",
    b"ev",
    b"md",
    b"lt",
    b"es",
    b"dt",
    b"Nw",
    b"nW",
    b"XX",
    b"WN",
    b"SE",
    b"EM",
    b"CV",
    b"\0\0",
    b"N ",
    b"\r\n",
    b"\xff\xff",
    b"BA",
    b"-1",
];

/// An unknown mark: first, last, or in the middle.
fn unknown_mark(b: &mut Builder, records: &[Record], part: usize) {
    let place = part / UNKNOWN.len();
    if place > 0 {
        some_records(b);
    }
    b.push_bytes(UNKNOWN[part % UNKNOWN.len()]);
    if place != 1 {
        b.push_bytes(&[0; 40]);
        push_record(b, &records[0]);
    }
}

/// The sizes that are at most 4,096: the place of the record in the list of one of each, the
/// offset of the size in it and that of the bytes after the head, and whether the size is that
/// of those bytes.
const OVER_LIMIT: [(usize, usize, usize, bool); 5] = [
    (2, 12, 17, false),
    (2, 15, 17, true),
    (3, 11, 13, true),
    (POOL_PLACE, 12, 17, false),
    (POOL_PLACE, 15, 17, true),
];
/// The place of the pool manager's command in the list of one of each, before the later NW.
const POOL_PLACE: usize = 18;

/// A room, payload length or record length over 4,096, with the bytes after the
/// head whole, half or not there.
fn over_limit(b: &mut Builder, records: &[Record], part: usize) {
    some_records(b);
    let (record, at, head, counts) = OVER_LIMIT[part / 9];
    let over = [4097u16, 32768, 65535][part / 3 % 3];
    let mut bytes = b.bytes_of(&records[record]);
    let whole = match counts {
        true => over.into(),
        false => bytes.len() - head,
    };
    bytes[at..at + 2].copy_from_slice(&over.to_le_bytes());
    bytes.resize(head + [whole, whole / 2, 0][part % 3], 0);
    b.push_bytes(&bytes);
    if part % 3 == 0 {
        push_record(b, &records[0]);
    }
}

/// Heads of records that a request brings with a size over its limit, an n that 0103h does
/// not have or an opcode that the record does not know. The sizes of AR and AB are those
/// just over 8,192 and those that are not over it in 16 bits.
const REQUEST_SIZES: [&[u8]; 35] = [
    b"AR\x01\x20\x00\x00",
    b"AR\x00\x20\x01\x00",
    b"AR\x00\x10\x00\x80",
    b"AR\xff\xff\xff\xff",
    b"AB\x00\x20\x01\x00",
    b"AB\x00\x00\x01\x20",
    b"AB\x01\x00\x00\x20",
    b"AB\x00\x10\x01\x10",
    b"AB\xff\xff\x01\x00",
    b"AB\x00\x80\x00\x80",
    b"AB\xff\xff\xff\xff",
    b"RQ\x03\x41\x00\x10\xaa",
    b"RP\x02\x41\x00\x00\x00\x00\x00\x00",
    b"RW\x03\x41\x00\x00\x00\x00\x00\x10\xaa\x00\x00",
    b"RQ\x00\x44\x00\x10\xaa",
    b"RP\x00\x44\x00\x00\x00\x00\x00\x00",
    b"RW\x00\x44\x00\x00\x00\x00\x00\x10\xaa\x00\x00",
    b"RQ\x00\x40\x01\x10\xaa",
    b"RQ\x00\x40\xff\xff\xaa",
    b"RQ\x01\x01\x00\x10\xaa\x00\x00\xe9\x03",
    b"RQ\x01\x01\x00\x10\xaa\x00\x00\xff\xff",
    b"RQ\x03\x01\x00\x10\xaa\x00",
    b"RQ\x03\x01\x00\x10\xaa\x03",
    b"RQ\x03\x01\x00\x10\xaa\x06",
    b"RQ\x03\x01\x00\x10\xaa\xff",
    b"RQ\x04\x01\x00\x10\xaa",
    b"RQ\x02\x41\x00\x10\xaa",
    b"RP\x01\x04\x01\x10\x00\x00\x01\x10",
    b"RP\x01\x04\xff\xff\x00\x00\xff\xff",
    b"RP\x04\x01\x00\x00\x00\x00\x00\x00",
    b"RW\x01\x43\x00\x00\x00\x00\x01\x10\xaa\x00\x00",
    b"RW\x01\x04\x01\x10\x00\x00\x00\x10\xaa\x01\x10",
    b"RW\x00\x42\x00\x00\x00\x00\x00\x10\xaa\x00\x00",
    b"WK\x00\x00\x00\x00\x00\x00\x00\x00\x01\x00\x00\x00\x00\x00\x00\x00\x01\x00\x01\x00\xaa",
    b"WK\x00\x00\x00\x00\x00\x00\x00\x00\x01\x00\x00\x00\x00\x00\x00\x00\xff\xff\xff\xff\xaa",
];

/// Such a head with nothing, few or enough bytes after it.
fn request_sizes(b: &mut Builder, records: &[Record], part: usize) {
    some_records(b);
    b.push_bytes(REQUEST_SIZES[part / 3]);
    b.push_bytes(&vec![0; [0, 9, MOST + 1][part % 3]]);
    push_record(b, &records[0]);
}

/// A payload of both mailboxes, a record and a reply of 4,096 bytes, cut in the middle and
/// before the last.
fn cut_great(b: &mut Builder, _: &[Record], part: usize) {
    some_records(b);
    let great = b.random.bytes(MOST);
    let call = |payload| Call {
        time: 0,
        opcode: opcode::IDENTIFY,
        room: 4096,
        fill: 0,
        payload,
    };
    let record = match part / 2 {
        0 => Record::Command(call(great)),
        1 => Record::Event {
            time: 0,
            log: 0,
            record: great,
        },
        2 => Record::Pool(call(great)),
        _ => Record::Reply {
            opcode: opcode::GET_LOG,
            asked: MOST as u32,
            reply: great,
        },
    };
    let bytes = b.bytes_of(&record);
    b.push_bytes(&bytes[..bytes.len() - [MOST / 2, 1][part % 2]]);
}
