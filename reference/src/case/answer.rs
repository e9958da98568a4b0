//! The answer that a line gives to a record, taken apart into words and named
//! fields: the columns of document 10, then the parts of a reply.

use super::fields::hex_groups;
use super::host_answers::reply_of;
use super::layout::{layout, Part, WALK};
use super::text::whole_number;
use crate::bench::push_hex;
use crate::device::numbers::{return_name, RETURN_NAMES};
use crate::format::Format;
use crate::probe::record::Record;

/// The logs' names, by number.
pub const LOG_NAMES: [&str; 5] = ["Info", "Warning", "Failure", "Fatal", "Dynamic Capacity"];
/// What the `stored` of an event report and the `answer` of a line test mean.
const STORED: [&str; 2] = ["not-stored", "stored"];
const ANSWERS: [&str; 4] = ["clean", "damaged", "unknown", "disabled"];
/// The words of a line that is no answer of the record.
const NO_ANSWER: [&str; 3] = ["nothing", "bad", "unreadable"];

/// A log's name as the case text writes it; `none` for 5 ("5 if none").
fn log_word(log: u64) -> String {
    let name = LOG_NAMES.get(log as usize).unwrap_or(&"none");
    name.to_lowercase().replace(' ', "-")
}

/// The columns of a line after its mark, as document 10 has them; bench prints
/// neither `kept` nor `vector`. All are decimal numbers but those of bytes. RP's
/// columns are the fields of its reply, which are read by `host_answers`.
fn columns(format: Format, record: &Record) -> &'static [&'static str] {
    match record {
        Record::New { .. } => &["code"],
        Record::Command(_) if format == Format::Bench => &["code", "length", "reply"],
        Record::Command(_) => &["code", "length", "reply", "kept", "vector"],
        Record::Pool(_) => &["code", "length", "reply", "kept"],
        Record::Event { .. } if format == Format::Bench => &["code", "stored"],
        Record::Event { .. } => &["code", "stored", "vector"],
        Record::Media { .. } => &["code", "stored", "dropped"],
        Record::Line { .. } => &["code", "answer", "type"],
        Record::Status => &["bits", "waiting", "highest"],
        Record::Total => &["lines"],
        Record::Request { .. } => &["code", "length", "payload", "kept"],
        Record::Reply { .. } => &["code"],
        Record::Rewrite { .. } => &["code", "length", "reply", "kept"],
        Record::Walk { .. } => &["code", "length", "records", "kept"],
        Record::LabelArea { .. } => &[],
        Record::LabelBytes { .. } => &["data"],
    }
}

/// The columns that the program prints here. Bench prints no `reply` of length 0,
/// and "a refused EV, MD or LT prints mark and code only".
fn printed(format: Format, record: &Record, words: &[&str]) -> &'static [&'static str] {
    let all = columns(format, record);
    let zero = |at: usize| words.get(at) == Some(&"0");
    match (format, record) {
        (Format::Probe, _) => all,
        (Format::Bench, Record::Command(_)) if zero(1) => &all[..2],
        (Format::Bench, Record::Command(_)) => all,
        (Format::Bench, _) if zero(0) => all,
        (Format::Bench, _) => &all[..1],
    }
}

/// A line taken apart.
#[derive(Clone, Debug, Default, PartialEq, Eq)]
pub struct Answer {
    /// The words that hold, such as `success` and `damaged`.
    pub words: Vec<String>,
    pub fields: Vec<(String, String)>,
}

impl Answer {
    fn new(word: &str) -> Answer {
        Answer {
            words: vec![word.to_string()],
            fields: Vec::new(),
        }
    }

    /// The answer where no line was printed.
    pub fn nothing() -> Answer {
        Answer::new("nothing")
    }

    fn add(&mut self, name: &str, value: impl ToString) {
        self.fields.push((name.to_string(), value.to_string()));
    }

    pub fn has(&self, word: &str) -> bool {
        self.words.iter().any(|known| known == word)
    }

    /// The field of this name.
    pub fn field(&self, name: &str) -> Option<&str> {
        let found = self.fields.iter().find(|(known, _)| known == name);
        found.map(|(_, value)| value.as_str())
    }

    /// The field of this name as a number.
    pub fn number(&self, name: &str) -> Option<u64> {
        self.field(name)?.parse().ok()
    }

    /// Words and fields in one line; the bytes of a reply are left out.
    pub fn text(&self) -> String {
        let mut out = self.words.clone();
        for (name, value) in &self.fields {
            if !is_bytes(name) {
                out.push(format!("{name}={value}"));
            }
        }
        out.join(" ")
    }
}

/// The fields that hold bytes in hex.
pub const BYTES: [&str; 4] = ["reply", "data", "payload", "records"];

/// Whether a field holds bytes in hex.
pub fn is_bytes(name: &str) -> bool {
    BYTES.contains(&name)
}

/// The bytes of a lower-case hex text, as a line has it.
pub fn hex_bytes(text: &str) -> Option<Vec<u8>> {
    let plain = |byte: u8| matches!(byte, b'0'..=b'9' | b'a'..=b'f');
    if !text.bytes().all(plain) {
        return None;
    }
    hex_groups(text).ok()
}

/// The answer of `line` to `record`; None stands for a stream that is bad there.
pub fn answer(format: Format, record: Option<&Record>, line: &str) -> Answer {
    readable(format, record, line).unwrap_or_else(|| {
        let mut answer = Answer::new("unreadable");
        answer.add("line", line);
        answer
    })
}

fn readable(format: Format, record: Option<&Record>, line: &str) -> Option<Answer> {
    let words: Vec<&str> = line.split(' ').collect();
    if let ["BAD", offset] = words.as_slice() {
        let mut answer = Answer::new("bad");
        answer.add("offset", decimal(offset)?);
        return Some(answer);
    }
    let record = record?;
    let (mark, mut words) = words.split_first()?;
    let mut answer = Answer::default();
    if let (Record::Reply { opcode, .. }, Some((code, fields))) = (record, words.split_first()) {
        read_fields(&mut answer, *opcode, code, fields)?;
        words = &words[..1];
    }
    let names = printed(format, record, words);
    if *mark != record.mark() || words.len() != names.len() {
        return None;
    }
    for (name, word) in names.iter().zip(words) {
        match (*name, *word) {
            // "bytes lower-case hex, `-` if there are none"
            (name, "-") if is_bytes(name) && format == Format::Probe => answer.add(name, ""),
            (name, "") if is_bytes(name) => return None,
            (name, word) if is_bytes(name) => answer.add(name, hex_bytes(word).map(|_| word)?),
            (_, word) => answer.add(name, decimal(word)?),
        }
    }
    if let Some(code) = answer.number("code") {
        answer.words.push(return_name(code).to_string());
    }
    meaning(&mut answer, record)?;
    Some(answer)
}

/// The columns of RP after its code: "`RP 0` and the fields read; refused `RP code`,
/// for 0002h `RP 2 place`". None if they are none of these.
fn read_fields(answer: &mut Answer, opcode: u16, code: &str, words: &[&str]) -> Option<()> {
    match (code, words) {
        ("0", words) => {
            // The reply that the columns describe, taken apart as a command's.
            let reply = reply_of(opcode, words)?.bytes();
            let mut hex = String::new();
            push_hex(&mut hex, &reply);
            answer.add("reply", hex);
            add_parts(answer, layout(opcode), &[], &reply);
        }
        ("2", [place]) => answer.add("place", decimal(place)?),
        ("2", _) => return None,
        (_, []) => {}
        _ => return None,
    }
    Some(())
}

/// The named parts of bytes.
fn add_parts(answer: &mut Answer, parts: &[(&str, Part)], payload: &[u8], bytes: &[u8]) {
    for (name, part) in parts {
        if let Some(value) = part.value(payload, bytes) {
            answer.add(name, value);
        }
    }
}

/// A decimal number as a program prints it.
pub fn decimal(text: &str) -> Option<u64> {
    let number: u64 = text.parse().ok()?;
    (number.to_string() == text).then_some(number)
}

/// The bytes that a call wrote to its room; None if length or `kept` cannot be.
fn written(answer: &Answer, name: &str) -> Option<Vec<u8>> {
    let bytes = hex_bytes(answer.field(name).unwrap_or(""))?;
    let right = answer.number("length") == Some(bytes.len() as u64);
    let kept = answer.number("kept").is_none_or(|kept| kept <= 1);
    (right && kept).then_some(bytes)
}

/// Adds what the columns mean; None if they can mean nothing.
fn meaning(answer: &mut Answer, record: &Record) -> Option<()> {
    let one_of = |names: &[&str], name: &str| match answer.number(name) {
        Some(number) => names
            .get(number as usize)
            .map(|name| vec![name.to_string()]),
        None => Some(Vec::new()),
    };
    match record {
        Record::Command(call) | Record::Pool(call) => {
            let reply = written(answer, "reply")?;
            if answer.has("success") && !reply.is_empty() {
                add_parts(answer, layout(call.opcode), &call.payload, &reply);
            }
        }
        Record::Request { .. } => drop(written(answer, "payload")?),
        Record::Rewrite { .. } => drop(written(answer, "reply")?),
        Record::Walk { .. } => {
            let records = written(answer, "records")?;
            if answer.has("success") {
                answer.add("count", records.len() / 16);
                add_parts(answer, WALK, &[], &records);
            }
        }
        Record::Event { .. } => {
            let word = one_of(&STORED, "stored")?;
            answer.words.extend(word);
        }
        Record::Line { .. } => {
            let word = one_of(&ANSWERS, "answer")?;
            answer.words.extend(word);
        }
        Record::Status => {
            let bits = answer.number("bits").filter(|bits| *bits < 32)?;
            let waiting = (0..5).filter(|log| bits >> log & 1 == 1);
            let mut logs: Vec<String> = waiting.map(log_word).collect();
            if logs.is_empty() {
                logs.push(log_word(5));
            }
            let highest = answer.number("highest").filter(|log| *log <= 5)?;
            answer.add("logs", logs.join(","));
            answer.add("highest-log", log_word(highest));
        }
        Record::LabelBytes { length, .. } => {
            let bytes = hex_bytes(answer.field("data")?)?;
            Some(()).filter(|()| bytes.len() == usize::from(*length))?;
        }
        Record::New { .. } | Record::Media { .. } | Record::Total => {}
        Record::Reply { .. } | Record::LabelArea { .. } => {}
    }
    Some(())
}

/// The words and fields that can be stated of a record.
fn stateable(format: Format, record: &Record) -> (Vec<&'static str>, Vec<&'static str>) {
    let mut words = NO_ANSWER.to_vec();
    let mut fields = columns(format, record).to_vec();
    fields.push("offset");
    if fields.contains(&"code") {
        words.extend(RETURN_NAMES.iter().map(|(_, name)| *name));
    }
    match record {
        Record::Command(call) | Record::Pool(call) => {
            fields.extend(layout(call.opcode).iter().map(|(name, _)| *name));
        }
        Record::Event { .. } => words.extend(STORED),
        Record::Line { .. } => words.extend(ANSWERS),
        Record::Status => fields.extend(["logs", "highest-log"]),
        Record::Reply { opcode, .. } => {
            fields.extend(["place", "reply"]);
            fields.extend(layout(*opcode).iter().map(|(name, _)| *name));
        }
        Record::Walk { .. } => {
            fields.push("count");
            fields.extend(WALK.iter().map(|(name, _)| *name));
        }
        Record::New { .. } | Record::Media { .. } | Record::Total => {}
        Record::Request { .. } | Record::Rewrite { .. } => {}
        Record::LabelArea { .. } | Record::LabelBytes { .. } => {}
    }
    (words, fields)
}

/// An error if a stated answer has a word, field or value that its record never
/// gets. A `bytes` line, without a record, may hold any word and field.
pub fn check_stated(format: Format, expected: &str, record: Option<&Record>) -> Result<(), String> {
    let known = record.map(|record| stateable(format, record));
    for word in expected.split_whitespace() {
        let field = word.split_once('=');
        if let Some((words, fields)) = &known {
            let known = match field {
                Some((name, _)) => fields.contains(&name),
                None => words.contains(&word),
            };
            if !known {
                let fields: Vec<String> = fields.iter().map(|name| format!("{name}=")).collect();
                return Err(format!(
                    "expected after `=>` one of {}, {}, not `{word}`",
                    words.join(", "),
                    fields.join(", ")
                ));
            }
        }
        if let Some((name, value)) = field {
            check_value(name, value)?;
        }
    }
    Ok(())
}

/// The number of a stated vector: `none` is the column's 0 ("0 for none").
pub fn vector_number(text: &str) -> Option<u64> {
    match text {
        "none" => Some(0),
        text => whole_number(text),
    }
}

/// An error if a stated value is none that the field can have.
fn check_value(name: &str, value: &str) -> Result<(), String> {
    let (fits, what): (fn(&str) -> bool, &str) = match name {
        name if is_bytes(name) => (
            |text| text == "-" || hex_groups(text).is_ok(),
            "bytes in hex",
        ),
        "logs" | "highest-log" => (
            |name| (0..=5).any(|log| log_word(log) == name),
            "names of logs or none",
        ),
        "vector" => (|text| vector_number(text).is_some(), "a number or none"),
        "firmware" | "id" | "entries" => return Ok(()),
        _ => (|text| whole_number(text).is_some(), "numbers"),
    };
    let parts: Vec<&str> = match is_bytes(name) || name == "vector" {
        true => vec![value],
        false => value.split(',').collect(),
    };
    // An empty list has no part to look at.
    match value.is_empty() || parts.into_iter().all(fits) {
        true => Ok(()),
        false => Err(format!(
            "expected after `=>` {name}= with {what}, not `{value}`"
        )),
    }
}
