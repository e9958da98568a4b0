//! `compare`: generated streams through another program and through the model,
//! line by line.

use crate::case::words::{hex_text, line_words};
use crate::device::fault::{of_host, of_pool, FaultLine};
use crate::device::Config;
use crate::format::Format;
use crate::generate::{profile_named, profile_of, Profile};
use crate::source::Next;
use std::io::{Read, Write};
use std::process::{Child, Command, ExitStatus, Stdio};
use std::sync::mpsc;
use std::time::{Duration, Instant};

/// The program that is compared with the model: path and arguments.
pub struct Subject {
    words: Vec<String>,
}

impl Subject {
    /// A program given as text: a path, or a path and arguments with blanks
    /// between them.
    pub fn program(text: &str) -> Subject {
        if std::path::Path::new(text).exists() {
            return Subject::words(&[text]);
        }
        Subject::words(&text.split_whitespace().collect::<Vec<_>>())
    }

    /// A program given as words: a path and its arguments.
    pub fn words(words: &[&str]) -> Subject {
        Subject {
            words: words.iter().map(|word| word.to_string()).collect(),
        }
    }

    /// Its output for a stream, or what went wrong.
    pub fn output(&self, stream: Vec<u8>, timeout: Duration) -> Result<Vec<u8>, String> {
        run_child(&self.words, stream, timeout)
    }
}

/// Runs a child with the stream on its standard input. Input is written by one
/// thread and output read by another, so that neither side waits for the other
/// with a full pipe; a child that does not end in time, whether or not it has
/// closed its output, is ended by its handle. The threads end with the pipes.
fn run_child(words: &[String], stream: Vec<u8>, timeout: Duration) -> Result<Vec<u8>, String> {
    let (path, arguments) = words.split_first().ok_or("no program is named")?;
    let mut child = Command::new(path)
        .args(arguments)
        .stdin(Stdio::piped())
        .stdout(Stdio::piped())
        .spawn()
        .map_err(|error| format!("cannot run {path}: {error}"))?;
    let mut input = child.stdin.take().ok_or("the child has no input")?;
    let mut output = child.stdout.take().ok_or("the child has no output")?;
    // A child may stop before it has read all, so a failed write is no error.
    std::thread::spawn(move || drop(input.write_all(&stream)));
    let (sender, receiver) = mpsc::channel();
    std::thread::spawn(move || {
        let mut bytes = Vec::new();
        let result = output.read_to_end(&mut bytes).map(|_| bytes);
        let _ = sender.send(result);
    });
    let begin = Instant::now();
    let read = receiver.recv_timeout(timeout).ok();
    let status = match &read {
        Some(_) => end_of(&mut child, begin + timeout)?,
        None => None,
    };
    let (Some(bytes), Some(status)) = (read, status) else {
        let _ = child.kill();
        let _ = child.wait();
        return Err(format!("{path} did not end in {timeout:?}"));
    };
    let bytes = bytes.map_err(|error| error.to_string())?;
    // Document 01 names no exit status, so any is taken but that of a panic; an
    // end by a signal is no answer either.
    if matches!(status.code(), None | Some(101)) {
        return Err(format!("{path} stopped on an error: {status}"));
    }
    Ok(bytes)
}

/// The status with which the child ends up to `deadline`, if it ends.
fn end_of(child: &mut Child, deadline: Instant) -> Result<Option<ExitStatus>, String> {
    loop {
        let status = child.try_wait().map_err(|error| error.to_string())?;
        if status.is_some() || Instant::now() >= deadline {
            return Ok(status);
        }
        std::thread::sleep(Duration::from_micros(50));
    }
}

/// What to compare.
pub struct Plan {
    pub format: Format,
    pub seeds: std::ops::Range<u64>,
    pub profile: Option<String>,
    /// For a program over the device alone: the records of the host's side are
    /// taken out of the streams.
    pub without_host: bool,
    pub timeout: Duration,
}

impl Plan {
    fn stream(&self, seed: u64, profile: &Profile, part: usize) -> Vec<u8> {
        let stream = profile.stream_of(self.format, seed, part, None);
        match self.without_host {
            true => without_host(self.format, &stream),
            false => stream,
        }
    }
}

/// The streams of a plan: seed, profile and number of the stream.
fn streams(plan: &Plan) -> Vec<(u64, &'static Profile, usize)> {
    let mut all = Vec::new();
    for seed in plan.seeds.clone() {
        let named = plan.profile.as_deref();
        let named = named.and_then(|name| profile_named(plan.format, name));
        let profile = named.unwrap_or_else(|| profile_of(plan.format, seed));
        all.extend((0..profile.streams()).map(|part| (seed, profile, part)));
    }
    all
}

/// Runs a plan; `say` gets each difference. Returns streams passed and failed.
pub fn run(plan: &Plan, subject: &Subject, say: &mut dyn FnMut(String)) -> (usize, usize) {
    let (mut passed, mut failed) = (0, 0);
    for (seed, profile, part) in streams(plan) {
        let stream = plan.stream(seed, profile, part);
        let expected = plan.format.lines_of(&stream, Config::default());
        let difference = match subject.output(stream.clone(), plan.timeout) {
            Ok(came) if came == expected => None,
            Ok(came) => Some(difference(plan.format, &stream, &expected, &came)),
            Err(error) => Some(format!("  {error}")),
        };
        let Some(difference) = difference else {
            passed += 1;
            continue;
        };
        failed += 1;
        let place = place_words(seed, profile, part);
        say(format!("{place}\n{difference}"));
    }
    (passed, failed)
}

fn place_words(seed: u64, profile: &Profile, part: usize) -> String {
    format!("seed {seed}, profile {}, stream {part}", profile.name)
}

/// For each fault the first stream of the plan whose lines differ with it, if
/// there is one. A stream is made once for all faults not yet found, and a fault of the
/// host's side or of the pool manager's mailbox is not tried where no record of it is.
pub fn find_faults(plan: &Plan, faults: &[&FaultLine]) -> Vec<Option<String>> {
    let mut found = vec![None; faults.len()];
    for (seed, profile, part) in streams(plan) {
        if found.iter().all(Option::is_some) {
            break;
        }
        let stream = plan.stream(seed, profile, part);
        let expected = plan.format.lines_of(&stream, Config::default());
        let (host, pool) = (answers(&expected, is_host), answers(&expected, is_pool));
        for (line, found) in faults.iter().zip(&mut found) {
            if (of_host(line.fault) && !host) || (of_pool(line.fault) && !pool) {
                continue;
            }
            let faulty = Config {
                fault: Some(line.fault),
            };
            if found.is_none() && plan.format.lines_of(&stream, faulty) != expected {
                *found = Some(place_words(seed, profile, part));
            }
        }
    }
    found
}

/// The marks of the host's side (document 10, W-202).
const HOST_MARKS: [&[u8]; 4] = [b"RQ", b"RP", b"RW", b"WK"];

/// Whether a record or a line begins with a mark of the host's side.
fn is_host(bytes: &[u8]) -> bool {
    HOST_MARKS.iter().any(|mark| bytes.starts_with(mark))
}

/// Whether a record or a line begins with the mark of the pool manager's mailbox (W-208).
fn is_pool(bytes: &[u8]) -> bool {
    bytes.starts_with(b"PC")
}

/// Whether one of the lines is of this kind.
fn answers(lines: &[u8], kind: fn(&[u8]) -> bool) -> bool {
    lines.split(|byte| *byte == b'\n').any(kind)
}

/// A stream without its records of the host's side, which change no device. A bad
/// record stays: it is bad for a program that does not know its mark too.
pub fn without_host(format: Format, stream: &[u8]) -> Vec<u8> {
    without(format, stream, is_host)
}

/// A stream without the commands of the pool manager's mailbox, which "alter no answer of
/// those" of the first one (W-208).
pub fn without_pool(format: Format, stream: &[u8]) -> Vec<u8> {
    without(format, stream, is_pool)
}

fn without(format: Format, stream: &[u8], left_out: fn(&[u8]) -> bool) -> Vec<u8> {
    let records = format.records(stream);
    let begins = records.iter().map(|(offset, _)| *offset as usize);
    let ends = begins.clone().skip(1).chain([stream.len()]);
    let mut kept = Vec::new();
    for ((begin, end), (_, record)) in begins.zip(ends).zip(&records) {
        if record.is_none() || !left_out(&stream[begin..end]) {
            kept.extend(&stream[begin..end]);
        }
    }
    kept
}

/// The first line that differs, with the record it answers.
pub fn difference(format: Format, stream: &[u8], expected: &[u8], came: &[u8]) -> String {
    let (expected, came) = (split_lines(expected), split_lines(came));
    let same = expected.iter().zip(&came).take_while(|(a, b)| a == b);
    let number = same.count();
    let shown = |lines: &[Vec<u8>]| match lines.get(number) {
        Some(line) => String::from_utf8_lossy(line).trim_end().to_string(),
        None => "no line".to_string(),
    };
    let record = match words_of_record(format, stream, number) {
        Next::Record(offset, words) => format!("record {} at offset {offset}: {words}", number + 1),
        Next::Bad(offset) => {
            let from = offset as usize;
            let rest = hex_text(&stream[from..stream.len().min(from + 24)]);
            format!(
                "record {} at offset {offset}, bad: bytes {rest}",
                number + 1
            )
        }
        Next::End => "after the last record".to_string(),
    };
    let (expected, came) = (shown(&expected), shown(&came));
    let byte = reply_byte(&expected, &came);
    format!("  {record}\n  expected: {expected}\n  came:     {came}{byte}")
}

/// Record `number` of a stream, from 0, in words, or where the stream is bad
/// before it.
fn words_of_record(format: Format, stream: &[u8], number: usize) -> Next<String> {
    let records = format.records(stream);
    let bad = records.last().filter(|(_, record)| record.is_none());
    match records.get(number).or(bad) {
        Some((offset, Some(record))) => Next::Record(*offset, line_words(format, record)),
        Some((offset, None)) => Next::Bad(*offset),
        None => Next::End,
    }
}

/// Where two long replies differ first, since that is hard to see in hex, or
/// that a column after them does. Nothing where there is no reply.
fn reply_byte(expected: &str, came: &str) -> String {
    let reply = |line: &str| {
        // "`AB bytes`": the bytes are the first column.
        if let Some(bytes) = line.strip_prefix("AB ") {
            return Some(bytes.to_string());
        }
        let marks = ["CM ", "PC ", "RQ ", "RW ", "WK "];
        let columns = marks.iter().find_map(|mark| line.strip_prefix(mark))?;
        columns.split(' ').nth(2).map(str::to_string)
    };
    let (Some(expected), Some(came)) = (reply(expected), reply(came)) else {
        return String::new();
    };
    if expected == came {
        return match expected.as_str() {
            "-" => String::new(),
            _ => "\n  the replies are alike, a column after them differs".to_string(),
        };
    }
    let same = expected
        .bytes()
        .zip(came.bytes())
        .take_while(|(a, b)| a == b);
    format!("\n  the replies differ first at byte {}", same.count() / 2)
}

/// The lines with their line ends, so that a missing one is a difference.
fn split_lines(bytes: &[u8]) -> Vec<Vec<u8>> {
    bytes
        .split_inclusive(|byte| *byte == b'\n')
        .map(<[u8]>::to_vec)
        .collect()
}
