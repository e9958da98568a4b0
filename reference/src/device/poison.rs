//! Document 01 "Poison list". Entries are kept in a map from their first line
//! to length and type; addresses are line numbers here and sums are u128, so
//! that "sums are of whole numbers" holds without a thought.

use super::numbers::{Refusal, POISON_RECORDS, POISON_ROOM};
use super::{Config, Fault};
use std::collections::BTreeMap;

/// Length in lines and type of an entry.
type Body = (u128, u8);

/// The poison list with its overflow flag and time.
#[derive(Clone, Debug, Default, PartialEq, Eq)]
pub struct PoisonList {
    entries: BTreeMap<u128, Body>,
    /// The device time of the first drop: `Some` is the overflow flag.
    overflow: Option<u64>,
    /// Lines ever dropped, for a planted fault alone.
    dropped: u128,
}

/// An entry as seen from outside: first line, lines, type.
#[derive(Clone, Copy, Debug, PartialEq, Eq)]
pub struct Entry {
    pub start: u128,
    pub lines: u128,
    pub kind: u8,
}

impl PoisonList {
    /// A list of no entry with this one's flag and time (planted faults).
    pub fn without_entries(self) -> PoisonList {
        PoisonList {
            entries: BTreeMap::new(),
            ..self
        }
    }

    /// Clears the overflow flag (a planted fault).
    pub fn clear_flag(&mut self) {
        self.overflow = None;
    }

    /// The entries in ascending address order (house).
    pub fn entries(&self) -> impl DoubleEndedIterator<Item = Entry> + '_ {
        self.entries.iter().map(|(start, (lines, kind))| Entry {
            start: *start,
            lines: *lines,
            kind: *kind,
        })
    }

    /// How many entries are held.
    pub fn held(&self) -> usize {
        self.entries.len()
    }

    /// The overflow flag: `Some` with the time of the first drop.
    pub fn overflow(&self) -> Option<u64> {
        self.overflow
    }

    /// The entry that covers `line`.
    pub fn covering(&self, line: u128) -> Option<Entry> {
        let (start, (lines, kind)) = self.entries.range(..=line).next_back()?;
        (line < start + lines).then_some(Entry {
            start: *start,
            lines: *lines,
            kind: *kind,
        })
    }

    /// Entries that share a line with `start .. end`.
    pub fn sharing(&self, start: u128, end: u128) -> Vec<Entry> {
        if start >= end {
            return Vec::new();
        }
        let first = self.covering(start).map_or(start, |entry| entry.start);
        self.entries
            .range(first..end)
            .map(|(start, (lines, kind))| Entry {
                start: *start,
                lines: *lines,
                kind: *kind,
            })
            .collect()
    }

    /// The maximal runs of lines of `start .. end` that no entry covers, as
    /// (first line, line after the last), ascending.
    pub fn uncovered_runs(&self, start: u128, end: u128) -> Vec<(u128, u128)> {
        let mut runs = Vec::new();
        let mut from = start;
        for entry in self.sharing(start, end) {
            if from < entry.start {
                runs.push((from, entry.start));
            }
            from = entry.start + entry.lines;
        }
        if from < end {
            runs.push((from, end));
        }
        runs
    }

    fn room(config: Config) -> usize {
        if config.has(Fault::PoisonRoomOneMore) {
            POISON_ROOM + 1
        } else if config.has(Fault::PoisonRoomOneLess) {
            POISON_ROOM - 1
        } else {
            POISON_ROOM
        }
    }

    /// Whether another entry would find no room.
    pub fn full(&self, config: Config) -> bool {
        self.held() >= Self::room(config)
    }

    /// "A drop sets the overflow flag; the first sets the overflow time to the
    /// device time. Nothing clears the flag."
    fn drop_lines(&mut self, lines: u128, device_time: u64, config: Config) {
        self.dropped += lines;
        if self.overflow.is_none() || config.has(Fault::PoisonTimeOverwritten) {
            self.overflow = Some(device_time);
        }
    }

    /// Media report of accepted arguments: lines stored and lines dropped.
    pub fn report(
        &mut self,
        start: u128,
        end: u128,
        kind: u8,
        device_time: u64,
        config: Config,
    ) -> (u128, u128) {
        let mut runs = self.uncovered_runs(start, end);
        if config.has(Fault::OverlapByEndsOnly)
            && self.covering(start).is_none()
            && self.covering(end - 1).is_none()
        {
            runs = vec![(start, end)];
        }
        let (mut stored, mut dropped) = (0, 0);
        // "ascending, each run becomes an entry of that type while fewer than
        // 256 are held; the other runs are dropped"
        for (from, to) in runs {
            if config.has(Fault::TouchingEntriesMerged) && from > 0 {
                if let Some(before) = self.covering(from - 1).filter(|e| e.kind == kind) {
                    self.entries.insert(before.start, (to - before.start, kind));
                    stored += to - from;
                    continue;
                }
            }
            if self.full(config) {
                dropped += to - from;
                self.drop_lines(to - from, device_time, config);
            } else {
                self.entries.insert(from, (to - from, kind));
                stored += to - from;
            }
        }
        (stored, dropped)
    }

    /// Inject Poison on `line`: "covered, Success and nothing changes; 256 held,
    /// 0010h; else a one-line entry of type 3". Gives whether an entry was added.
    pub fn inject(&mut self, line: u128, config: Config) -> Result<bool, Refusal> {
        if self.covering(line).is_some() {
            return Ok(false);
        }
        if self.full(config) {
            return Err(Refusal::InjectPoisonLimit);
        }
        self.entries.insert(line, (1, 3));
        Ok(true)
    }

    /// Clear Poison on `line`.
    pub fn clear(&mut self, line: u128, device_time: u64, config: Config) {
        // "uncovered, Success"
        let Some(entry) = self.covering(line) else {
            return;
        };
        // "With 256 held" is said of the list before the entry is replaced.
        let full = self.full(config);
        self.entries.remove(&entry.start);
        let before = line - entry.start;
        let after = entry.start + entry.lines - (line + 1);
        if before > 0 {
            self.entries.insert(entry.start, (before, entry.kind));
        }
        if after == 0 {
            return;
        }
        if full && before > 0 {
            if !config.has(Fault::PartAfterDroppedWithoutFlag) {
                self.drop_lines(after, device_time, config);
            }
        } else {
            self.entries.insert(line + 1, (after, entry.kind));
        }
    }

    /// The reply of Get Poison List for the range `start .. end`.
    pub fn get(&self, start: u128, end: u128, config: Config) -> Vec<u8> {
        let sharing = self.sharing(start, end);
        let limit = if config.has(Fault::MoreFlagAt126) {
            POISON_RECORDS - 1
        } else {
            POISON_RECORDS
        };
        // "Flag bit 0: more than 126 entries share a line with the range; bit
        // 1: overflow. The time is 0 with bit 1 clear."
        let more = u8::from(sharing.len() > limit);
        let shown = !sharing.is_empty() || !config.has(Fault::OverflowFlagByRange);
        let overflow = u8::from(self.overflow.is_some() && shown);
        let count = sharing.len().min(POISON_RECORDS);
        let mut reply = vec![more | overflow << 1, 0];
        reply.extend(self.overflow.unwrap_or(0).to_le_bytes());
        reply.extend((count as u16).to_le_bytes());
        reply.extend([0; 20]);
        for entry in &sharing[..count] {
            let (mut from, mut to) = (entry.start, entry.start + entry.lines);
            if !config.has(Fault::RecordsNotCut) {
                from = from.max(start);
                to = to.min(end);
            }
            // "address with the type in bits 0 to 2, length 4, zero 4"
            let address = (from as u64 * 64) | u64::from(entry.kind);
            reply.extend(address.to_le_bytes());
            reply.extend(((to - from) as u32).to_le_bytes());
            reply.extend([0; 4]);
        }
        reply
    }

    /// "Damage total: the sum of entry lengths, worked out at each call."
    pub fn damage_total(&self, config: Config) -> u128 {
        let total: u128 = self.entries.values().map(|(lines, _)| lines).sum();
        match config.fault {
            Some(Fault::TotalCountsDropped) => total + self.dropped,
            Some(Fault::TotalCountsEntries) => self.held() as u128,
            _ => total,
        }
    }
}
