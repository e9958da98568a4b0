//! From the plain lines of a case to the bytes of a stream.

use super::answer::check_stated;
pub use super::fields::hex_groups;
use super::fields::Fields;
use super::host_lines;
use super::text::{plain_lines, whole_number, CaseError, PlainLine};
use crate::device::numbers::{opcode, MAILBOX, RECORD};
use crate::device::EFFECTS_IDENTIFIER;
use crate::format::Format;
use crate::probe::record::{Call, Record, LABEL_STORE, MOST};

/// A case line with its bytes and their place in the stream.
#[derive(Clone, Debug, PartialEq, Eq)]
pub struct Item {
    pub line: PlainLine,
    pub offset: u64,
    pub bytes: Vec<u8>,
}

/// A case: the program that it is for, and its lines.
#[derive(Clone, Debug, PartialEq, Eq)]
pub struct Case {
    pub format: Format,
    pub items: Vec<Item>,
}

impl Case {
    /// The whole stream.
    pub fn stream(&self) -> Vec<u8> {
        let bytes = self.items.iter().flat_map(|item| item.bytes.iter());
        bytes.copied().collect()
    }
}

/// The names of the commands, as the case text writes them.
pub const COMMANDS: [(&str, u16); 15] = [
    ("get-event-records", opcode::GET_EVENT_RECORDS),
    ("clear-event-records", opcode::CLEAR_EVENT_RECORDS),
    ("get-event-interrupt-policy", opcode::GET_POLICY),
    ("set-event-interrupt-policy", opcode::SET_POLICY),
    ("get-timestamp", opcode::GET_TIMESTAMP),
    ("set-timestamp", opcode::SET_TIMESTAMP),
    ("get-supported-logs", opcode::GET_SUPPORTED_LOGS),
    ("get-log", opcode::GET_LOG),
    ("identify", opcode::IDENTIFY),
    ("get-labels", opcode::GET_LSA),
    ("set-labels", opcode::SET_LSA),
    ("get-poison-list", opcode::GET_POISON_LIST),
    ("inject-poison", opcode::INJECT_POISON),
    ("clear-poison", opcode::CLEAR_POISON),
    ("sanitize", opcode::SANITIZE),
];

/// The case of a text.
pub fn case(file: &str, text: &str) -> Result<Case, CaseError> {
    let error = |(line, message): (usize, String)| CaseError {
        file: file.to_string(),
        line,
        message,
    };
    let lines = plain_lines(text).map_err(error)?;
    let (format, lines) = program(lines).map_err(error)?;
    let mut items = Vec::new();
    let mut offset = 0;
    for line in lines {
        let bytes = item_bytes(format, &line).map_err(|message| error((line.line, message)))?;
        let length = bytes.len() as u64;
        items.push(Item {
            line,
            offset,
            bytes,
        });
        offset += length;
    }
    Ok(Case { format, items })
}

/// The program that the first line names, bench if it names none, and the
/// lines after it.
fn program(mut lines: Vec<PlainLine>) -> Result<(Format, Vec<PlainLine>), (usize, String)> {
    let mut words = lines
        .first()
        .map_or("", |line| &line.words)
        .split_whitespace();
    if words.next() != Some("program") {
        return Ok((Format::Bench, lines));
    }
    let named = words.next().and_then(Format::named);
    match (named, words.next(), &lines[0].expected) {
        (Some(format), None, None) => {
            lines.remove(0);
            Ok((format, lines))
        }
        _ => {
            let message = "expected `program bench` or `program probe`";
            Err((lines[0].line, message.to_string()))
        }
    }
}

/// The bytes of a plain line, whose stated answer must be one of its record.
fn item_bytes(format: Format, line: &PlainLine) -> Result<Vec<u8>, String> {
    let (words, length) = length_field(&line.words)?;
    let record = record(format, &words)?;
    if let Some(expected) = &line.expected {
        check_stated(format, expected, record.as_ref())?;
    }
    bytes_of(format, &words, record.as_ref(), length)
}

/// The bytes of the words of one line.
pub fn line_bytes(format: Format, words: &str) -> Result<Vec<u8>, String> {
    let (words, length) = length_field(words)?;
    bytes_of(format, &words, record(format, &words)?.as_ref(), length)
}

fn bytes_of(
    format: Format,
    words: &str,
    record: Option<&Record>,
    length: Option<u16>,
) -> Result<Vec<u8>, String> {
    let Some(record) = record else {
        return raw_bytes(words.strip_prefix("bytes").unwrap_or_default());
    };
    let mut bytes = format
        .bytes(record)
        .ok_or_else(|| "expected a record of the case's program".to_string())?;
    if let Some(length) = length {
        let place = length_place(format, record);
        let (at, size) = place.ok_or("expected no `length-field=` here")?;
        if size == 1 && length > 255 {
            return Err("expected length-field= from 0 to 255".to_string());
        }
        bytes[at..at + size].copy_from_slice(&length.to_le_bytes()[..size]);
    }
    Ok(bytes)
}

/// The words of a line without `length-field=`, and the length that it puts into the
/// record, whatever follows.
fn length_field(words: &str) -> Result<(String, Option<u16>), String> {
    const NAME: &str = "length-field=";
    let first = words.split_whitespace().next().unwrap_or_default();
    let sized = [
        "command",
        "pool",
        "event",
        "request",
        "reply",
        "write-again",
    ]
    .contains(&first);
    if !sized || !words.contains(NAME) {
        return Ok((words.to_string(), None));
    }
    let (given, others): (Vec<&str>, Vec<&str>) = words
        .split_whitespace()
        .partition(|word| word.starts_with(NAME));
    let number = match given.as_slice() {
        [word] => whole_number(&word[NAME.len()..]).and_then(|n| u16::try_from(n).ok()),
        _ => None,
    };
    let number = number.ok_or("expected length-field= once, from 0 to 65535")?;
    Ok((others.join(" "), Some(number)))
}

/// Where a record's length field stands and how many bytes it has, if there is one.
fn length_place(format: Format, record: &Record) -> Option<(usize, usize)> {
    match (format, record) {
        (Format::Bench, Record::Command(_)) => Some((12, 2)),
        (Format::Probe, Record::Command(_) | Record::Pool(_)) => Some((15, 2)),
        (Format::Probe, Record::Event { .. }) => Some((11, 2)),
        _ => host_lines::length_place(record),
    }
}

/// The record of a line; None for a `bytes` line.
fn record(format: Format, words: &str) -> Result<Option<Record>, String> {
    let (first, rest) = words.split_once(char::is_whitespace).unwrap_or((words, ""));
    if first == "bytes" {
        return Ok(None);
    }
    if first == "program" {
        return Err("expected `program` on the first line only".to_string());
    }
    if !format.kinds().contains(&first) {
        let kinds = format.kinds().join(", ");
        return Err(format!(
            "expected {kinds}, bytes, repeat or end, not `{first}`"
        ));
    }
    let mut fields = Fields::new(rest)?;
    let record = match first {
        "new" => new(&fields)?,
        "command" => Record::Command(call(format, &mut fields)?),
        "pool" => Record::Pool(call(format, &mut fields)?),
        "event" => Record::Event {
            time: fields.number_or("time", u64::MAX, 0)?,
            log: fields.number("log", 255)? as u8,
            record: event_record(format, &mut fields)?,
        },
        "media" => Record::Media {
            time: fields.number_or("time", u64::MAX, 0)?,
            address: fields.number("address", u64::MAX)?,
            lines: fields.number("lines", u32::MAX.into())? as u32,
            kind: fields.number("type", 255)? as u8,
        },
        "line" => Record::Line {
            address: fields.number("address", u64::MAX)?,
        },
        "status" => Record::Status,
        "total" => Record::Total,
        "label-area" => Record::LabelArea {
            size: fields.number("size", LABEL_STORE as u64)? as u32,
        },
        "label-bytes" => label_bytes(&mut fields)?,
        first => host_lines::record(first, &mut fields)?.ok_or("expected a record's first word")?,
    };
    let bare = match record {
        Record::New { .. } => 2,
        Record::Command(_) | Record::Pool(_) | Record::Request { .. } => 1,
        Record::Reply { .. } | Record::Rewrite { .. } => 1,
        _ => 0,
    };
    fields.all_used(bare)?;
    Ok(Some(record))
}

/// A `new` line.
fn new(fields: &Fields) -> Result<Record, String> {
    let units = "expected `new VOLATILE PERSISTENT`, each from 0 to 65535";
    let unit = |text: &String| whole_number(text).and_then(|n| u16::try_from(n).ok());
    match fields.bare.as_slice() {
        [volatile, persistent] => Ok(Record::New {
            volatile: unit(volatile).ok_or(units)?,
            persistent: unit(persistent).ok_or(units)?,
        }),
        _ => Err(units.to_string()),
    }
}

/// A `label-bytes` line.
fn label_bytes(fields: &mut Fields) -> Result<Record, String> {
    let most = LABEL_STORE as u64;
    let (offset, length) = (
        fields.number("offset", most)?,
        fields.number("length", most)?,
    );
    match offset + length <= most {
        true => Ok(Record::LabelBytes {
            offset: offset as u16,
            length: length as u16,
        }),
        false => Err(format!(
            "expected offset= plus length= of at most {most} (see `bytes`)"
        )),
    }
}

/// A `command` or `pool` line. Bench lends a whole mailbox and has no words for it.
fn call(format: Format, fields: &mut Fields) -> Result<Call, String> {
    let time = fields.number_or("time", u64::MAX, 0)?;
    let (room, fill) = match format {
        Format::Bench => (MAILBOX as u64, 0),
        Format::Probe => (
            fields.number_or("room", MOST as u64, MAILBOX as u64)?,
            fields.fill()?.unwrap_or(0),
        ),
    };
    let opcode = opcode_of(fields)?;
    let raw = fields.take("raw").or(fields.take("payload"));
    let payload = match raw {
        Some(text) => hex_groups(&text)?,
        None if fields.bare.is_empty() => Vec::new(),
        None => payload(opcode, fields)?,
    };
    let most = format.most_payload();
    if payload.len() > most {
        return Err(format!(
            "expected a payload of at most {most} bytes (see `bytes`)"
        ));
    }
    Ok(Call {
        time,
        opcode,
        room: room as u16,
        fill,
        payload,
    })
}

/// The name of a command, or `opcode=N` if it is none of them.
pub fn name_of(code: u16) -> String {
    let found = COMMANDS.iter().find(|(_, known)| *known == code);
    found.map_or(format!("opcode={code:#06x}"), |(name, _)| name.to_string())
}

/// The opcode that a line names or gives as a number.
pub fn opcode_of(fields: &mut Fields) -> Result<u16, String> {
    let given = fields.take("opcode");
    match (fields.bare.first(), given) {
        (None, Some(text)) => whole_number(&text)
            .and_then(|n| u16::try_from(n).ok())
            .ok_or("expected opcode= from 0 to 0xffff".to_string()),
        (Some(name), None) => {
            let known = COMMANDS.iter().find(|(known, _)| known == name);
            known.map(|(_, code)| *code).ok_or_else(|| {
                let names: Vec<&str> = COMMANDS.iter().map(|(name, _)| *name).collect();
                let names = names.join(", ");
                format!("expected opcode= or one of {names}, not `{name}`")
            })
        }
        _ => Err("expected one command name or opcode=".to_string()),
    }
}

/// The payload of a command out of its fields.
fn payload(code: u16, fields: &mut Fields) -> Result<Vec<u8>, String> {
    let mut out = Vec::new();
    match code {
        opcode::GET_EVENT_RECORDS => out.push(fields.number("log", 255)? as u8),
        opcode::CLEAR_EVENT_RECORDS => {
            let handles = fields.list("handles", 65_535)?;
            out.push(fields.number("log", 255)? as u8);
            out.push(fields.number_or("flags", 255, 0)? as u8);
            let count = fields.number_or("count", 255, handles.len() as u64)?;
            out.push(u8::try_from(count).map_err(|_| "expected at most 255 handles")?);
            out.extend(fields.hex_or("reserved", 3, 0)?);
            for handle in handles {
                out.extend((handle as u16).to_le_bytes());
            }
        }
        opcode::SET_POLICY => {
            let settings = fields.list("settings", 255)?;
            out.extend(settings.iter().map(|setting| *setting as u8));
        }
        opcode::SET_TIMESTAMP => out.extend(fields.number("value", u64::MAX)?.to_le_bytes()),
        opcode::GET_LOG => {
            out.extend(identifier(fields)?);
            out.extend(four_bytes(fields, "offset")?);
            out.extend(four_bytes(fields, "length")?);
        }
        opcode::GET_LSA => {
            out.extend(four_bytes(fields, "offset")?);
            out.extend(four_bytes(fields, "length")?);
        }
        opcode::SET_LSA => {
            out.extend(four_bytes(fields, "offset")?);
            out.extend(fields.hex_or("reserved", 4, 0)?);
            out.extend(hex_groups(&fields.take("data").unwrap_or_default())?);
        }
        opcode::GET_POISON_LIST => {
            for name in ["address", "lines"] {
                out.extend(fields.number(name, u64::MAX)?.to_le_bytes());
            }
        }
        opcode::INJECT_POISON => out.extend(fields.number("address", u64::MAX)?.to_le_bytes()),
        opcode::CLEAR_POISON => {
            out.extend(fields.number("address", u64::MAX)?.to_le_bytes());
            out.extend(fields.hex_or("data", 64, 0)?);
        }
        _ => {}
    }
    Ok(out)
}

/// A number of four bytes.
fn four_bytes(fields: &mut Fields, name: &str) -> Result<[u8; 4], String> {
    let value = fields.number(name, u32::MAX.into())?;
    Ok((value as u32).to_le_bytes())
}

/// `id=`: the Command Effects Log's if not given.
pub fn identifier(fields: &mut Fields) -> Result<[u8; 16], String> {
    match fields.take("id").as_deref() {
        Some("effects") | None => Ok(EFFECTS_IDENTIFIER),
        Some(text) => {
            let bytes = hex_groups(&text.replace('-', ""))?;
            let wrong = |_| "expected id=effects or an id of 16 bytes".to_string();
            bytes.try_into().map_err(wrong)
        }
    }
}

/// The bytes of an `event` line: 128 for bench, any number for probe.
fn event_record(format: Format, fields: &mut Fields) -> Result<Vec<u8>, String> {
    let (size, fits) = match format {
        Format::Bench => ("128", RECORD..=RECORD),
        Format::Probe => ("at most 4096", 0..=MOST),
    };
    let record = match (fields.take("bytes"), fields.fill()?) {
        (Some(text), None) => hex_groups(&text)?,
        (None, Some(fill)) if format == Format::Probe => {
            let length = fields.number_or("length", MOST as u64, RECORD as u64)?;
            vec![fill; length as usize]
        }
        (None, Some(fill)) => vec![fill; RECORD],
        _ => return Err(format!("expected bytes=HEX of {size} bytes or fill=HH")),
    };
    if !fits.contains(&record.len()) {
        let length = record.len();
        return Err(format!(
            "expected an event record of {size} bytes, not {length}"
        ));
    }
    Ok(record)
}

/// The bytes of a `bytes` line: hex groups and ASCII in double quotes.
fn raw_bytes(text: &str) -> Result<Vec<u8>, String> {
    let mut out = Vec::new();
    for word in text.split_whitespace() {
        match word
            .strip_prefix('"')
            .and_then(|word| word.strip_suffix('"'))
        {
            Some(ascii) => out.extend(ascii.as_bytes()),
            None => out.extend(hex_groups(word)?),
        }
    }
    Ok(out)
}
