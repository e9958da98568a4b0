//! The answers to the lines of the host's side (document 02, W-202): the columns of
//! RP, which are the fields of the reply, and all four in words.

use super::answer::{decimal, hex_bytes, Answer};
use super::encode::name_of;
use super::explain::{buffer, bytes, counted, record_words, refusal, reply_words};
use super::words::payload_words;
use crate::host::layout::{layout, Field, Layout};
use crate::host::reply::{Reply, Value};
use crate::host::request::Request;
use crate::probe::record::Record;

/// The columns after `RP 0` as the reply that they describe; None if they describe
/// none.
pub fn reply_of(code: u16, words: &[&str]) -> Option<Reply> {
    let (head, each) = match layout(code)? {
        Layout::Fixed(head) => (head, [].as_slice()),
        Layout::Counted(head, each) => (head, each),
        Layout::Asked => {
            let [word] = words else { return None };
            return Some(Reply {
                code,
                head: vec![Value::Bytes(some_bytes(word)?)],
                records: Vec::new(),
            });
        }
    };
    let mut words = words.iter();
    let first = values(head, &mut words)?;
    let mut records = Vec::new();
    while !each.is_empty() && words.len() > 0 {
        records.push(values(each, &mut words)?);
    }
    // The count is the last of the fields before the records.
    let counted = each.is_empty() || first.last() == Some(&Value::Number(records.len() as u64));
    (counted && words.len() == 0).then_some(Reply {
        code,
        head: first,
        records,
    })
}

/// "bytes lower-case hex, `-` if there are none"
fn some_bytes(word: &str) -> Option<Vec<u8>> {
    match word {
        "-" => Some(Vec::new()),
        "" => None,
        word => hex_bytes(word),
    }
}

/// The next columns as the values of these fields, each one that the field can hold.
fn values<'a>(
    fields: &[Field],
    words: &mut impl Iterator<Item = &'a &'a str>,
) -> Option<Vec<Value>> {
    let mut out = Vec::new();
    for field in fields {
        let size = field.size();
        match field {
            Field::Zero(_) => {}
            Field::Bytes(_) => {
                let bytes = hex_bytes(words.next()?).filter(|bytes| bytes.len() == size)?;
                out.push(Value::Bytes(bytes));
            }
            Field::Number(_) | Field::Count => {
                let number = decimal(words.next()?)?;
                let most = u64::MAX >> (64 - 8 * size);
                out.push(Value::Number(Some(number).filter(|n| *n <= most)?));
            }
            Field::AddressAndType => {
                let (address, kind) = (decimal(words.next()?)?, decimal(words.next()?)?);
                if address % 64 != 0 || kind > 7 {
                    return None;
                }
                out.extend([Value::Number(address), Value::Number(kind)]);
            }
        }
    }
    Some(out)
}

/// The answer in words; None of another record.
pub fn in_words(record: &Record, answer: &Answer) -> Option<Vec<String>> {
    Some(match record {
        Record::Request {
            room,
            fill,
            request,
        } => {
            let buffer = buffer(answer, (*room).into(), *fill);
            request_answer(request, answer, &buffer)
        }
        Record::Reply { opcode, .. } => read_answer(*opcode, answer),
        Record::Rewrite {
            opcode,
            room,
            fill,
            reply,
            ..
        } => {
            let what = format!("{} reply written again", name_of(*opcode));
            let buffer = buffer(answer, (*room).into(), *fill);
            let mut out = vec![head(&what, answer) + &buffer];
            // "written again the same bytes"
            let same = written(answer, "reply") == *reply;
            match (refusal(answer), same) {
                (None, true) => out.push("the same bytes as read".to_string()),
                (None, false) => out.push("NOT THE SAME BYTES as read".to_string()),
                (Some(_), _) => {}
            }
            out
        }
        Record::Walk { room, fill, .. } => {
            let records = written(answer, "records");
            let count = counted(records.len() as u64 / 16, "record", "records");
            let what = format!("walk, {count}");
            let buffer = buffer(answer, (*room).into(), *fill);
            let mut out = vec![head(&what, answer) + &buffer];
            out.extend(records.chunks_exact(16).map(record_words));
            out
        }
        _ => return None,
    })
}

/// The bytes of a column.
fn written(answer: &Answer, name: &str) -> Vec<u8> {
    answer.field(name).and_then(hex_bytes).unwrap_or_default()
}

/// The refusal, or what was made and how long it is.
fn head(what: &str, answer: &Answer) -> String {
    let length = answer.number("length").unwrap_or(0);
    match refusal(answer) {
        Some(refused) => format!("{refused}: length {length}"),
        None if length == 0 => format!("success: {what}, no bytes"),
        None => format!("success: {what}, {}", bytes(length)),
    }
}

fn request_answer(request: &Request, answer: &Answer, buffer: &str) -> Vec<String> {
    let what = format!("request of {}", name_of(request.code()));
    let mut out = vec![head(&what, answer) + buffer];
    let payload = written(answer, "payload");
    let fields = payload_words(request.code(), &payload);
    if !fields.is_empty() {
        out.push(format!("payload:{fields}"));
    }
    if refusal(answer).is_none() && payload != request.payload() {
        out.push("NOT THE REQUEST MEANT".to_string());
    }
    out
}

fn read_answer(code: u16, answer: &Answer) -> Vec<String> {
    if let Some(refused) = refusal(answer) {
        return vec![match answer.field("place") {
            Some(place) => format!("{refused}: byte {place} has a reserved bit set"),
            None => refused,
        }];
    }
    let length = written(answer, "reply").len() as u64;
    let mut out = vec![match length {
        0 => format!("read: {} reply of no bytes", name_of(code)),
        length => format!("read: {} reply of {}", name_of(code), bytes(length)),
    }];
    reply_words(code, &[], answer, &mut out);
    out
}
