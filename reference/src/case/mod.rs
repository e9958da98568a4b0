//! The case tool: readable text to the records of bench or probe (`encode`),
//! their lines in words (`explain`) and stated answers against their lines
//! (`check`). The format is described in CASES.md.

pub mod answer;
pub mod check;
pub mod encode;
pub mod explain;
pub mod fields;
pub mod host_answers;
pub mod host_lines;
pub mod layout;
pub mod records;
pub mod text;
pub mod words;

use crate::probe::record::Record;
use encode::{Case, Item};

/// One line of the output beside the record it answers.
pub struct Pair<'a> {
    /// The case line in which the record begins.
    pub item: &'a Item,
    /// Its place among the items.
    pub place: usize,
    /// The record; None where the stream is bad.
    pub record: Option<Record>,
    /// The output's line, if one was printed.
    pub line: Option<&'a str>,
}

/// Pairs each record of the case with its line of the output; also gives the
/// lines left over.
pub fn pairs<'a>(case: &'a Case, output: &'a str) -> (Vec<Pair<'a>>, Vec<&'a str>) {
    let mut lines = output.lines();
    let mut pairs = Vec::new();
    let mut place = 0;
    let items = &case.items;
    for (offset, record) in case.format.records(&case.stream()) {
        // Offsets ascend, so the item is this one or a later one.
        while offset >= items[place].offset + items[place].bytes.len() as u64 {
            place += 1;
        }
        pairs.push(Pair {
            item: &items[place],
            place,
            record,
            line: lines.next(),
        });
    }
    (pairs, lines.collect())
}
