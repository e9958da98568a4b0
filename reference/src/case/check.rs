//! `check`: the answers a case states against the lines a program printed.

use super::answer::{answer, is_bytes, vector_number, Answer, BYTES};
use super::encode::Case;
use super::fields::hex_groups;
use super::text::whole_number;
use super::{pairs, Pair};
use crate::format::Format;

/// The report of a check: a line for each stated answer and the totals.
pub struct Report {
    pub lines: Vec<String>,
    pub passed: usize,
    pub failed: usize,
}

/// Checks every stated answer of the case against the program's output.
pub fn check(case: &Case, output: &str) -> Report {
    let items = &case.items;
    let (pairs, left) = pairs(case, output);
    let mut report = Report {
        lines: Vec::new(),
        passed: 0,
        failed: 0,
    };
    // The first record that begins in each case line.
    let mut first: Vec<Option<&Pair>> = items.iter().map(|_| None).collect();
    for pair in &pairs {
        first[pair.place].get_or_insert(pair);
    }
    for (item, pair) in items.iter().zip(first) {
        let Some(expected) = &item.line.expected else {
            continue;
        };
        let came = pair.map_or(Answer::nothing(), |pair| came(case.format, pair));
        let number = item.line.line;
        if meets(expected, &came) {
            report.passed += 1;
            report.lines.push(format!("pass {number}: {expected}"));
        } else {
            report.failed += 1;
            let words = &item.line.words;
            let came = asked_for(expected, &came);
            report.lines.push(format!(
                "fail {number}: {words}: expected {expected}; came {came}"
            ));
        }
    }
    if !left.is_empty() {
        report.failed += 1;
        report.lines.push(format!(
            "fail: expected no line after the last answer; came {}",
            left[0]
        ));
    }
    report
}

fn came(format: Format, pair: &Pair) -> Answer {
    match pair.line {
        Some(line) => answer(format, pair.record.as_ref(), line),
        None => Answer::nothing(),
    }
}

/// What came, with the whole reply only where the case asks for it.
fn asked_for(expected: &str, came: &Answer) -> String {
    let mut text = came.text();
    for name in BYTES {
        if expected.contains(&format!("{name}=")) {
            text.push_str(&format!(" {name}={}", came.field(name).unwrap_or("none")));
        }
    }
    text
}

/// Whether every word of the expectation holds of the answer; `name=value` is
/// a field.
pub fn meets(expected: &str, came: &Answer) -> bool {
    expected
        .split_whitespace()
        .all(|word| match word.split_once('=') {
            None => came.has(word),
            Some((name, value)) => match came.field(name) {
                None => false,
                Some(own) if is_bytes(name) => same_bytes(value, own),
                Some(own) if name == "vector" => vector_number(value) == whole_number(own),
                Some(own) => same_values(value, own),
            },
        })
}

/// Bytes in hex, where the case may write `HH*COUNT`, and `-` for none.
fn same_bytes(stated: &str, own: &str) -> bool {
    let stated = hex_groups(if stated == "-" { "" } else { stated });
    stated.is_ok() && stated == hex_groups(own)
}

/// Lists joined by commas, number by number; other values as text.
fn same_values(stated: &str, own: &str) -> bool {
    let (stated, own): (Vec<&str>, Vec<&str>) =
        (stated.split(',').collect(), own.split(',').collect());
    let same = |(stated, own): (&&str, &&str)| match (whole_number(stated), whole_number(own)) {
        (Some(stated), Some(own)) => stated == own,
        _ => stated == own,
    };
    stated.len() == own.len() && stated.iter().zip(&own).all(same)
}
