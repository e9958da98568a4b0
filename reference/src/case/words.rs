//! From records back to case text, for `compare`, `decode` and `explain`.

use super::encode::{line_bytes, COMMANDS};
use super::host_lines;
use crate::bench::push_hex;
use crate::device::numbers::{number, opcode, RECORD};
use crate::device::EFFECTS_IDENTIFIER;
use crate::format::Format;
use crate::probe::record::{Call, Record};

/// Lower-case hex of bytes; equal bytes are written as `HH*COUNT`.
pub fn hex_text(bytes: &[u8]) -> String {
    let mut out = String::new();
    let equal = bytes.iter().all(|byte| byte == &bytes[0]);
    if equal && bytes.len() > 4 {
        push_hex(&mut out, &bytes[..1]);
        out.push_str(&format!("*{}", bytes.len()));
    } else {
        push_hex(&mut out, bytes);
    }
    out
}

/// Lower-case hex of bytes; each run of more than eight equal ones is written as
/// `HH*COUNT`, between commas.
pub fn hex_pieces(bytes: &[u8]) -> String {
    let mut out = String::new();
    for run in bytes.chunk_by(|one, other| one == other) {
        if run.len() <= 8 {
            push_hex(&mut out, run);
            continue;
        }
        if !out.is_empty() && !out.ends_with(',') {
            out.push(',');
        }
        push_hex(&mut out, &run[..1]);
        out.push_str(&format!("*{},", run.len()));
    }
    out.trim_end_matches(',').to_string()
}

/// Numbers joined by commas.
pub fn joined(numbers: &[impl ToString]) -> String {
    let texts: Vec<String> = numbers.iter().map(|number| number.to_string()).collect();
    texts.join(",")
}

/// The case text of a whole stream. It encodes to the same bytes again; a bad
/// rest is one `bytes` line.
pub fn stream_words(format: Format, stream: &[u8]) -> String {
    let mut lines = Vec::new();
    if format == Format::Probe {
        lines.push("program probe".to_string());
    }
    for (offset, record) in format.records(stream) {
        lines.push(match record {
            Some(record) => line_words(format, &record),
            None => {
                let mut text = "bytes ".to_string();
                push_hex(&mut text, &stream[offset as usize..]);
                text
            }
        });
    }
    lines.iter().map(|line| line.clone() + "\n").collect()
}

/// The case text of a record in a case of this format.
pub fn line_words(format: Format, record: &Record) -> String {
    match record {
        Record::New {
            volatile,
            persistent,
        } => format!("new {volatile} {persistent}"),
        Record::Command(call) => call_words(format, "command", call),
        Record::Pool(call) => call_words(format, "pool", call),
        Record::Event { time, log, record } => {
            format!("event time={time} log={log} {}", event_words(record))
        }
        Record::Media {
            time,
            address,
            lines,
            kind,
        } => format!("media time={time} address={address} lines={lines} type={kind}"),
        Record::Line { address } => format!("line address={address}"),
        Record::Status => "status".to_string(),
        Record::Total => "total".to_string(),
        Record::LabelArea { size } => format!("label-area size={size}"),
        Record::LabelBytes { offset, length } => {
            format!("label-bytes offset={offset} length={length}")
        }
        record => host_lines::words(record),
    }
}

/// The words of a command through either mailbox.
fn call_words(format: Format, first: &str, call: &Call) -> String {
    let mut head = format!("{first} time={}", call.time);
    if format == Format::Probe {
        head.push_str(&format!(" room={} fill={:02x}", call.room, call.fill));
    }
    command_words(format, &head, call.opcode, &call.payload)
}

/// The bytes of an event record: equal ones by `fill`, of 128 if not said.
fn event_words(record: &[u8]) -> String {
    let equal = record.iter().all(|byte| *byte == record[0]);
    let mut text = String::new();
    if !equal || record.is_empty() {
        push_hex(&mut text, record);
        return format!("bytes={text}");
    }
    push_hex(&mut text, &record[..1]);
    match record.len() {
        RECORD => format!("fill={text}"),
        length => format!("fill={text} length={length}"),
    }
}

/// The words of a command after those of its time and buffer.
fn command_words(format: Format, head: &str, code: u16, payload: &[u8]) -> String {
    let raw = hex_text(payload);
    let Some((name, _)) = COMMANDS.iter().find(|(_, known)| *known == code) else {
        return format!("{head} opcode={code:#06x} payload={raw}");
    };
    let words = format!("{head} {name}{}", payload_words(code, payload));
    let raw = format!("{head} {name} raw={raw}");
    // Only if the fields say the whole payload; else it is written raw.
    let bytes = line_bytes(format, &words);
    match bytes.is_ok() && bytes == line_bytes(format, &raw) {
        true => words,
        false => raw,
    }
}

/// The fields of a payload of the right length, each after a blank.
pub fn payload_words(code: u16, payload: &[u8]) -> String {
    match (code, payload.len()) {
        (opcode::GET_EVENT_RECORDS, 1) => format!(" log={}", payload[0]),
        (opcode::CLEAR_EVENT_RECORDS, 6..) => {
            let handles: Vec<u64> = payload[6..].chunks(2).map(number).collect();
            let mut words = format!(" log={} flags={}", payload[0], payload[1]);
            words.push_str(&format!(" count={}", payload[2]));
            if payload[3..6] != [0; 3] {
                words.push_str(&format!(" reserved={}", hex_text(&payload[3..6])));
            }
            words + &format!(" handles={}", joined(&handles))
        }
        (opcode::SET_POLICY, _) => format!(" settings={}", joined(payload)),
        (opcode::SET_TIMESTAMP, 8) => format!(" value={}", number(payload)),
        (opcode::GET_LOG, 24) => format!(
            " id={} offset={} length={}",
            identifier_words(&payload[..16]),
            number(&payload[16..20]),
            number(&payload[20..])
        ),
        (opcode::GET_LSA, 8) => format!(
            " offset={} length={}",
            number(&payload[..4]),
            number(&payload[4..])
        ),
        (opcode::SET_LSA, 8..) => {
            let mut words = format!(" offset={}", number(&payload[..4]));
            if payload[4..8] != [0; 4] {
                words.push_str(&format!(" reserved={}", hex_text(&payload[4..8])));
            }
            words + &format!(" data={}", hex_pieces(&payload[8..]))
        }
        (opcode::GET_POISON_LIST, 16) => format!(
            " address={} lines={}",
            number(&payload[..8]),
            number(&payload[8..])
        ),
        (opcode::INJECT_POISON, 8) => format!(" address={}", number(payload)),
        (opcode::CLEAR_POISON, 72) => format!(
            " address={} data={}",
            number(&payload[..8]),
            hex_text(&payload[8..])
        ),
        _ => String::new(),
    }
}

/// `effects` for the Command Effects Log's identifier, else its hex.
pub fn identifier_words(identifier: &[u8]) -> String {
    if identifier == EFFECTS_IDENTIFIER {
        "effects".to_string()
    } else {
        let mut out = String::new();
        push_hex(&mut out, identifier);
        out
    }
}
