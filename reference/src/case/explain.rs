//! `explain`: each line of an output in words beside the case line it answers.

use super::answer::{answer, hex_bytes, Answer, LOG_NAMES};
use super::encode::{Case, COMMANDS};
use super::host_answers;
use super::pairs;
use super::words::hex_pieces;
use crate::device::numbers::{number, opcode, LABEL_AREA};
use crate::device::pool::Mailbox;
use crate::probe::record::{Call, Record};

/// The whole explanation.
pub fn explain(case: &Case, output: &str) -> String {
    let (pairs, left) = pairs(case, output);
    let mut out = String::new();
    let mut say = |text: String| {
        out.push_str(&text);
        out.push('\n');
    };
    let mut lent = LABEL_AREA;
    for pair in &pairs {
        let words = cut(&pair.item.line.words);
        say(format!("line {}: {words}", pair.item.line.line));
        let Some(line) = pair.line else {
            say("    no line was printed".to_string());
            continue;
        };
        let answer = answer(case.format, pair.record.as_ref(), line);
        let mut texts = in_words(pair.record.as_ref(), &answer);
        match pair.record {
            Some(Record::LabelArea { size }) => lent = size as usize,
            Some(Record::Command(_)) if lent != LABEL_AREA => {
                texts.push(format!("the label area lent: {}", bytes(lent as u64)));
            }
            _ => {}
        }
        for text in texts {
            say(format!("    {text}"));
        }
    }
    for line in left {
        say(format!("a line without a record: {}", cut(line)));
    }
    out
}

/// A long text cut for reading.
fn cut(text: &str) -> String {
    match text.char_indices().nth(140) {
        Some((at, _)) => format!("{}...", &text[..at]),
        None => text.to_string(),
    }
}

/// `1 byte`, `2,048 bytes`.
pub fn counted(count: u64, one: &str, more: &str) -> String {
    let digits = count.to_string();
    let mut grouped = String::new();
    for (at, digit) in digits.chars().enumerate() {
        if at > 0 && (digits.len() - at) % 3 == 0 {
            grouped.push(',');
        }
        grouped.push(digit);
    }
    format!("{grouped} {}", if count == 1 { one } else { more })
}

pub fn bytes(count: u64) -> String {
    counted(count, "byte", "bytes")
}

fn lines(count: u64) -> String {
    counted(count, "line", "lines")
}

/// The number of records that a reply names.
fn records(answer: &Answer) -> String {
    counted(answer.number("count").unwrap_or(0), "record", "records")
}

fn in_words(record: Option<&Record>, answer: &Answer) -> Vec<String> {
    let field = |name: &str| answer.field(name).unwrap_or("?").to_string();
    if answer.has("bad") {
        return vec![format!("the stream is bad at offset {}", field("offset"))];
    }
    let Some(record) = record.filter(|_| !answer.has("unreadable")) else {
        let line = cut(&field("line"));
        return vec![format!("not a line of this record: {line}")];
    };
    match record {
        Record::New { .. } => vec![made(answer)],
        Record::Event { .. } => vec![event_report(answer)],
        Record::Media { .. } => vec![media_report(answer)],
        Record::Line { .. } => vec![line_test(answer)],
        Record::Status => status(answer),
        Record::Total => vec![format!(
            "damage total: {}",
            lines(answer.number("lines").unwrap_or(0))
        )],
        Record::LabelArea { size } => {
            let area = match size {
                0 => "an empty label area".to_string(),
                size => format!("the first {} of the label store", bytes((*size).into())),
            };
            vec![format!("lent from now on: {area}")]
        }
        Record::LabelBytes { offset, .. } => {
            vec![label_words("label store", (*offset).into(), answer)]
        }
        Record::Command(call) => {
            let injects = call.opcode == opcode::INJECT_POISON && answer.has("success");
            command_words(call, answer, &vector_words(answer, injects, injects))
        }
        Record::Pool(call) => {
            let taken = answer.has("success") || answer.has("started");
            let note = match taken && !Mailbox::Pool.has(call.opcode) {
                true => "; BUT THIS MAILBOX HAS NOT THE COMMAND",
                false => "",
            };
            command_words(call, answer, note)
        }
        record => host_answers::in_words(record, answer).unwrap_or_default(),
    }
}

/// What a command answered through either mailbox; `note` ends its first line.
fn command_words(call: &Call, answer: &Answer, note: &str) -> Vec<String> {
    let buffer = buffer(answer, u64::from(call.room), call.fill);
    let mut out = vec![command_head(call.opcode, answer) + &buffer + note];
    if call.opcode == opcode::SET_LSA && answer.has("success") {
        out.push(written_words(&call.payload));
    }
    reply_words(call.opcode, &call.payload, answer, &mut out);
    out
}

/// `refused: invalid input (0002h)`, or None of a call that is not refused.
pub fn refusal(answer: &Answer) -> Option<String> {
    let code = answer.number("code").filter(|code| *code != 0)?;
    let name = answer.words.first()?.replace('-', " ");
    Some(format!("refused: {name} ({code:04X}h)"))
}

fn made(answer: &Answer) -> String {
    match refusal(answer) {
        Some(refused) => format!("{refused}; the device beside it has one volatile unit"),
        None => "success: the device is made".to_string(),
    }
}

fn event_report(answer: &Answer) -> String {
    let stored = answer.has("stored");
    let said = match refusal(answer) {
        None if stored => "success: the event record is stored".to_string(),
        None => "success: not stored, the log is full and counts an overflow".to_string(),
        Some(refused) if stored => format!("{refused}, BUT STORED"),
        Some(refused) if answer.has("not-stored") => format!("{refused}, not stored"),
        Some(refused) => refused,
    };
    let success = answer.has("success");
    said + &vector_words(answer, success, success && stored)
}

/// The vector to raise (W-204), in capitals where the call can carry none. That there
/// is none is said where the call reports an event. Bench's line does not tell of it.
fn vector_words(answer: &Answer, reports: bool, can_carry: bool) -> String {
    match answer.number("vector") {
        Some(0) if reports => "; no vector".to_string(),
        None | Some(0) => String::new(),
        Some(vector) if can_carry => format!("; raise vector {vector}"),
        Some(vector) => format!("; BUT RAISE VECTOR {vector}"),
    }
}

fn media_report(answer: &Answer) -> String {
    let (Some(stored), Some(dropped)) = (answer.number("stored"), answer.number("dropped")) else {
        return refusal(answer).unwrap_or_default();
    };
    let counts = format!("{} stored, {} dropped", lines(stored), lines(dropped));
    match refusal(answer) {
        None => format!("success: {counts}"),
        Some(refused) if (stored, dropped) != (0, 0) => format!("{refused}, BUT {counts}"),
        Some(refused) => format!("{refused}, {counts}"),
    }
}

fn line_test(answer: &Answer) -> String {
    let kind = answer.field("type").unwrap_or("?");
    let word = answer.words.last().map_or("?", |word| word);
    match refusal(answer) {
        None if word == "damaged" => format!("damaged, type {}", type_words(kind)),
        None if word == "disabled" && kind == "0" => "disabled: a Sanitize runs".to_string(),
        None if word == "disabled" => format!("disabled, BUT type {}", type_words(kind)),
        None => word.to_string(),
        Some(refused) if answer.field("answer").is_none() => refused,
        Some(refused) if (word, kind) == ("unknown", "0") => format!("{refused}, unknown, type 0"),
        Some(refused) => format!("{refused}, BUT {word}, type {}", type_words(kind)),
    }
}

/// Which logs wait, how many and the highest.
fn status(answer: &Answer) -> Vec<String> {
    let value = |name: &str| answer.number(name).unwrap_or(0);
    let name = |log: u64| match LOG_NAMES.get(log as usize) {
        Some(name) => format!("{log} ({name})"),
        None => format!("{log} (none)"),
    };
    let waiting = (0..5).filter(|log| value("bits") >> log & 1 == 1).map(name);
    let waiting: Vec<String> = waiting.collect();
    let logs = match waiting.is_empty() {
        true => "no log waits".to_string(),
        false => format!("waiting: log {}", waiting.join(", log ")),
    };
    let count = counted(value("waiting"), "log", "logs");
    let highest = name(value("highest"));
    vec![format!("{logs}; {count} waiting, the highest is {highest}")]
}

fn type_words(kind: &str) -> String {
    let name = match kind {
        "0" => "unknown source",
        "1" => "external",
        "2" => "internal",
        "3" => "injected",
        "7" => "vendor specific",
        _ => "not in document 01",
    };
    format!("{kind} ({name})")
}

fn command_head(code: u16, answer: &Answer) -> String {
    let length = answer.number("length").unwrap_or(0);
    // "0001h, started .. that is no refusal" (W-207). Sanitize alone answers it, and it does
    // not answer 0000h.
    let sanitizes = code == opcode::SANITIZE;
    let head = match (answer.has("started"), sanitizes) {
        (true, true) => "started (0001h)",
        (true, false) => "BUT STARTED (0001h)",
        (false, true) if answer.has("success") => "BUT SUCCESS, not started",
        _ => "success",
    };
    if let Some(refused) = refusal(answer).filter(|_| head == "success") {
        return format!("{refused}: length {length}");
    }
    let name = COMMANDS.iter().find(|(_, known)| *known == code);
    let name = name.map_or(format!("opcode {code:04X}h"), |(name, _)| name.to_string());
    match length {
        0 => format!("{head}: {name}, no reply"),
        length => format!("{head}: {name}, reply of {}", bytes(length)),
    }
}

/// The bytes of the buffer that the answer should not have touched. Bench's
/// line does not tell of them.
pub fn buffer(answer: &Answer, room: u64, fill: u8) -> String {
    let (Some(kept), Some(length)) = (answer.number("kept"), answer.number("length")) else {
        return String::new();
    };
    if length > room {
        return format!(", LONGER THAN THE BUFFER of {}", bytes(room));
    }
    let others = bytes(room - length);
    let other = if length == 0 { "" } else { "other " };
    let all = if length == 0 && room > 1 {
        "all"
    } else {
        "the"
    };
    match (kept, room - length) {
        (0, _) => {
            format!(", NOT KEPT: the {other}{others} of the buffer are no longer all {fill:#04x}")
        }
        (_, 0) if room == 0 => ", the buffer is empty".to_string(),
        (_, 0) => ", which is the whole buffer".to_string(),
        _ => format!(", {all} {other}{others} of the buffer still {fill:#04x}"),
    }
}

/// The lines about the bytes of a reply.
pub fn reply_words(code: u16, payload: &[u8], answer: &Answer, out: &mut Vec<String>) {
    let reply = answer
        .field("reply")
        .and_then(hex_bytes)
        .unwrap_or_default();
    if reply.is_empty() {
        return;
    }
    if !answer.has("success") {
        let hex = cut(answer.field("reply").unwrap_or("?"));
        let what = match answer.has("started") {
            true => "BYTES WITHOUT A REPLY",
            false => "BYTES OF A REFUSED COMMAND",
        };
        out.push(format!("{what}: {hex}"));
        return;
    }
    match code {
        opcode::GET_EVENT_RECORDS => event_words(payload, answer, &reply, out),
        opcode::GET_POLICY => policy_words(&reply, out),
        opcode::GET_POISON_LIST => poison_words(answer, &reply, out),
        opcode::GET_LSA => {
            let offset = payload.get(..4).map_or(0, number);
            out.push(label_words("label area", offset, answer));
        }
        opcode::GET_LOG => {
            if let Some(entries) = answer.field("entries") {
                for entry in entries.split(',') {
                    let (opcode, effect) = entry.split_once(':').unwrap_or((entry, "?"));
                    out.push(format!("opcode {opcode}: effect {effect}"));
                }
            } else {
                out.push(format!("bytes {}", answer.field("data").unwrap_or("?")));
            }
        }
        _ => {
            for (name, value) in &answer.fields {
                if !["code", "length", "reply", "kept", "vector"].contains(&name.as_str()) {
                    out.push(format!("{name} {value}"));
                }
            }
        }
    }
}

/// Bytes that a Get LSA replied or the store showed, with their places.
fn label_words(what: &str, offset: u64, answer: &Answer) -> String {
    let data = answer.field("data").and_then(hex_bytes).unwrap_or_default();
    match data.len() as u64 {
        0 => format!("{what}: no bytes"),
        length => format!("{what}, {}: {}", places(offset, length), hex_pieces(&data)),
    }
}

/// What a Set LSA that was taken wrote.
fn written_words(payload: &[u8]) -> String {
    match payload.get(8..) {
        Some([]) | None => "label area: nothing is written".to_string(),
        Some(data) => {
            let offset = number(&payload[..4]);
            format!("label area, {} written", places(offset, data.len() as u64))
        }
    }
}

/// `byte 5`, `bytes 5 to 8`.
fn places(offset: u64, length: u64) -> String {
    match length {
        1 => format!("byte {offset}"),
        length => format!("bytes {offset} to {}", offset + length - 1),
    }
}

fn policy_words(reply: &[u8], out: &mut Vec<String>) {
    for (log, setting) in reply.iter().enumerate() {
        let name = LOG_NAMES.get(log).unwrap_or(&"?");
        let what = match setting {
            0 => "disabled".to_string(),
            setting => format!("vector {}, mode {}", setting >> 4, setting & 3),
        };
        out.push(format!("log {log} ({name}): {setting:02x}h, {what}"));
    }
}

fn event_words(payload: &[u8], answer: &Answer, reply: &[u8], out: &mut Vec<String>) {
    let field = |name: &str| answer.field(name).unwrap_or("?").to_string();
    // A reply that was captured does not tell of which log it is.
    let log = payload.first().map_or(String::new(), |log| {
        let name = LOG_NAMES.get(usize::from(*log)).unwrap_or(&"?");
        format!("log {log} ({name}): ")
    });
    // W-201: More is set where the log holds more records than the reply carries.
    let rest = match answer.number("more") {
        Some(0) => "no more to read",
        _ => "more to read",
    };
    out.push(format!(
        "{log}flags {} (overflow {}, more {}), {}, {rest}",
        field("flags"),
        field("overflow"),
        field("more"),
        records(answer)
    ));
    out.push(format!(
        "overflow count {}, first time {}, last time {}",
        field("overflow-count"),
        field("first-time"),
        field("last-time")
    ));
    for record in reply.get(32..).unwrap_or_default().chunks_exact(128) {
        let mut identifier = String::new();
        crate::bench::push_hex(&mut identifier, &record[..16]);
        out.push(format!(
            "record: handle {}, timestamp {}, identifier {identifier}, length {}, flags {:06x}h, \
             related handle {}{}",
            number(&record[20..22]),
            number(&record[24..32]),
            record[16],
            number(&record[17..20]),
            number(&record[22..24]),
            injection_words(record),
        ));
    }
}

/// The address of a record that is laid out as an injection's event: "128 zero bytes with
/// length 128 at byte 16, the address at bytes 48 to 55, then handle and time" (W-204).
fn injection_words(record: &[u8]) -> String {
    let named = |at: &usize| matches!(at, 16 | 20..=21 | 24..=31 | 48..=55);
    let others_zero = (0..record.len()).all(|at| named(&at) || record[at] == 0);
    match record[16] == 128 && others_zero {
        true => {
            let address = number(&record[48..56]);
            format!(", injection of address {address} ({address:#x})")
        }
        false => String::new(),
    }
}

fn poison_words(answer: &Answer, reply: &[u8], out: &mut Vec<String>) {
    let field = |name: &str| answer.field(name).unwrap_or("?").to_string();
    out.push(format!(
        "flags {} (more {}, overflow {}), overflow time {}, {}",
        field("flags"),
        field("more"),
        field("overflow"),
        field("overflow-time"),
        records(answer)
    ));
    let records = reply.get(32..).unwrap_or_default().chunks_exact(16);
    out.extend(records.map(record_words));
}

/// A record of a poison list.
pub fn record_words(record: &[u8]) -> String {
    let address = number(&record[..8]);
    format!(
        "record: address {} ({:#x}), type {}, {}",
        address & !7,
        address & !7,
        type_words(&(address & 7).to_string()),
        lines(number(&record[8..12]))
    )
}
