//! Profiles about the poison list: full lists, clears, reports, ranges and
//! addresses.

use super::builder::Builder;
use super::commands::one_step;
use crate::device::numbers::opcode;

/// A stretch of lines to work in: at the device's start, middle or end.
pub struct Region {
    pub base: u64,
    pub lines: u64,
}

pub fn region(b: &mut Builder, lines: u64) -> Region {
    let all = b.device_lines();
    let base = match b.random.below(3) {
        0 => 0,
        1 => all - lines,
        _ => b.random.below(all - lines),
    };
    Region { base, lines }
}

/// A line of the region, or one at an edge of an entry.
fn some_line(b: &mut Builder, region: &Region) -> u64 {
    if b.random.one_in(3) {
        region.base + b.random.below(region.lines)
    } else {
        b.edge_line()
    }
}

/// A report that begins and ends at lines chosen by `some_line`.
fn some_report(b: &mut Builder, region: &Region) {
    let (first, second) = (some_line(b, region), some_line(b, region));
    let (from, to) = (first.min(second), first.max(second) + 1);
    let kind = b.media_type();
    b.media(from * 64, (to - from) as u32, kind);
}

/// Fills the list to `held` entries of 1 to `longest` lines with gaps.
pub fn fill(b: &mut Builder, region: &Region, held: usize, longest: u64) {
    let step = region.lines / held as u64;
    for i in 0..held as u64 {
        let lines = b.random.between(1, longest.min(step - 1));
        let kind = b.media_type();
        let address = (region.base + i * step) * 64;
        if lines == 1 && b.random.one_in(2) {
            b.inject(address);
        } else {
            b.media(address, lines as u32, kind);
        }
    }
}

/// One report, injection or clear at an edge.
pub fn poison_step(b: &mut Builder, region: &Region) {
    let line = some_line(b, region);
    match b.random.below(11) {
        0..=2 => some_report(b, region),
        3..=4 => b.inject(line * 64),
        5..=7 => b.clear(line * 64),
        8 => {
            let kind = b.media_type();
            b.media(line * 64, 1, kind);
        }
        9 => {
            let lines = b.random.below(6);
            b.get_poison(line * 64, lines);
        }
        _ => b.line(line * 64),
    }
}

/// The list driven to 256 entries and past it, again and again.
pub fn full_list(b: &mut Builder) {
    b.any_device();
    let region = region(b, 256 * 6);
    let held = b.random.pick(&[253, 254, 255, 256]);
    fill(b, &region, held, 4);
    b.show_poison();
    b.set_target(1200);
    while b.more() {
        match b.random.below(6) {
            // Some room, then a report of several runs that exceeds it.
            0 => {
                for _ in 0..b.random.below(4) {
                    let line = b.edge_line();
                    b.clear(line * 64);
                }
                let from = region.base + b.random.below(region.lines / 2);
                let kind = b.media_type();
                let lines = b.random.between(2, 60) as u32;
                b.media(from * 64, lines, kind);
            }
            1 => some_report(b, &region),
            2 => {
                let line = some_line(b, &region);
                b.inject(line * 64);
                b.line(line * 64);
            }
            3 => {
                let line = some_line(b, &region);
                b.clear(line * 64);
                b.line(line * 64);
            }
            4 => b.show_poison(),
            _ => poison_step(b, &region),
        }
    }
    b.show_poison();
}

/// Clears at the first, middle and last line of entries, with a full list and
/// with one that is not.
pub fn clear_parts(b: &mut Builder) {
    b.any_device();
    let region = region(b, 256 * 12);
    let held = b.random.pick(&[3, 60, 255, 256, 256]);
    fill(b, &region, held, 9);
    b.show_poison();
    let value = b.random.bits();
    b.set_timestamp(value);
    while b.more() {
        let entries = b.entries();
        if entries.is_empty() {
            break;
        }
        let entry = b.random.pick(&entries);
        let (start, lines) = (entry.start as u64, entry.lines as u64);
        let line = match b.random.below(4) {
            0 => start,
            1 => start + lines - 1,
            2 => start + lines / 2,
            _ => b.edge_line(),
        };
        b.clear(line * 64);
        for near in [line.saturating_sub(1), line, line + 1, start] {
            b.line(near * 64);
        }
        if b.random.one_in(4) {
            b.inject(line * 64);
        }
        if b.random.one_in(10) {
            b.show_poison();
        }
    }
    b.show_poison();
}

/// Reports that contain, equal, touch and straddle entries.
pub fn reports(b: &mut Builder) {
    b.any_device();
    let size = b.random.pick(&[40, 120, 400]);
    let region = region(b, size);
    while b.more() {
        let entries = b.entries();
        let kind = b.media_type();
        if entries.is_empty() || b.random.one_in(4) {
            let from = region.base + b.random.below(region.lines);
            let most = (b.device_lines() - from).min(12);
            let lines = b.random.between(1, most) as u32;
            b.media(from * 64, lines, kind);
        } else {
            let all = b.device_lines();
            let first = b.random.pick(&entries);
            let last = b.random.pick(&entries);
            let start = first.start.min(last.start) as u64;
            let end = (first.start + first.lines).max(last.start + last.lines) as u64;
            // Each end one line before, at or after that of the entries.
            let from = (start + b.random.below(3)).saturating_sub(1);
            let to = (end + b.random.below(3) - 1).min(all);
            if from < to {
                b.media(from * 64, (to - from) as u32, kind);
            }
        }
        if b.random.one_in(3) {
            let line = some_line(b, &region);
            b.clear(line * 64);
        }
        let line = some_line(b, &region);
        b.line(line * 64);
        if b.random.one_in(4) {
            b.show_poison();
        }
    }
    b.show_poison();
}

/// Ranges that share a line with 125, 126, 127 and 256 entries.
pub fn list_ranges(b: &mut Builder) {
    b.any_device();
    let region = region(b, 256 * 8);
    let held = b.random.pick(&[125, 126, 127, 128, 252, 253, 256]);
    fill(b, &region, held, 5);
    b.set_target(held + 120);
    let entries = b.entries();
    let all = b.device_lines();
    b.show_poison();
    while b.more() {
        let count = b.random.pick(&[1, 2, 125, 126, 127, 128, 256]).min(held);
        let first = b.random.below((held - count) as u64 + 1) as usize;
        let (low, high) = (entries[first], entries[first + count - 1]);
        // From the line before, at or inside the first to the line before, at
        // or inside the last: one more or fewer entry, or a cut one.
        let from = (low.start as u64 + b.random.below(4)).saturating_sub(1);
        let end = (high.start + high.lines) as u64;
        let to = (end + 2).saturating_sub(b.random.below(4)).min(all);
        b.get_poison(from * 64, to.saturating_sub(from));
    }
}

/// Ranges of 0 lines, ranges at the device's end, ranges inside one entry.
pub fn range_edges(b: &mut Builder) {
    b.any_device();
    let region = region(b, 300);
    fill(b, &region, 30, 9);
    let all = b.device_lines();
    b.media((all - 3) * 64, 3, 7);
    while b.more() {
        match b.random.below(5) {
            0 => {
                let line = b.random.pick(&[0, all - 1, all, all + 1, all * 2]);
                let lines = b.random.below(3);
                b.get_poison(line * 64, lines);
            }
            1 => {
                let line = some_line(b, &region);
                b.get_poison(line * 64, 0);
            }
            2 => {
                let line = some_line(b, &region);
                let lines = (all - line + 1).saturating_sub(b.random.below(3));
                b.get_poison(line * 64, lines);
            }
            3 => {
                let (one, other) = (b.edge_line(), b.edge_line());
                let (from, to) = (one.min(other), one.max(other));
                b.get_poison(from * 64, to - from);
            }
            _ => {
                let line = b.edge_line();
                let lines = b.random.below(12);
                b.get_poison(line * 64, lines);
            }
        }
    }
}

/// Addresses near 2^64, unaligned ones and outside ones, alone and together.
pub fn addresses(b: &mut Builder) {
    b.any_device();
    let size = b.device_lines() * 64;
    b.media(0, 3, 1);
    b.media(size - 128, 2, 2);
    while b.more() {
        let base = b.random.pick(&[
            0,
            size - 64,
            size,
            size + 64,
            size - 128,
            1 << 31,
            1 << 32,
            1 << 38,
            1 << 58,
            1 << 63,
            (1 << 63) - 64,
            u64::MAX - 63,
            u64::MAX - 127,
            u64::MAX - 255,
        ]);
        let low = b.random.pick(&[0, 0, 0, 1, 8, 32, 63]);
        let address = base.wrapping_add(low);
        match b.random.below(6) {
            0 => b.line(address),
            1 => b.inject(address),
            2 => b.clear(address),
            3 => {
                let lines = b.random.pick(&[0, 1, 2, 3, 4, u64::MAX, 1 << 58]);
                b.get_poison(address, lines);
            }
            _ => {
                let lines = b.random.pick(&[0, 1, 2, 3, 4, u32::MAX]);
                let kind = b.random.pick(&[0, 1, 2, 7, 3, 4, 5, 6, 8, 10, 0x80, 0xff]);
                b.media(address, lines, kind);
            }
        }
        if b.random.one_in(6) {
            b.show_poison();
        }
    }
    b.show_poison();
}

/// Line counts near 2^26, 2^32, 2^58 and 2^64, whose products wrap.
pub fn line_counts(b: &mut Builder) {
    b.any_device();
    let all = b.device_lines();
    b.media(0, 1, 0);
    while b.more() {
        let near = b.random.below(5);
        let line = b.random.pick(&[0, 1, all - 1, all]);
        if b.random.one_in(2) {
            let centre = b
                .random
                .pick(&[1u64 << 26, 1 << 32, 1 << 31, all, all - line]);
            let lines = (centre + near).saturating_sub(2).min(u32::MAX.into());
            let kind = b.random.pick(&[0, 1, 2, 7, 9]);
            b.media(line * 64, lines as u32, kind);
        } else {
            let centre =
                b.random
                    .pick(&[1u64 << 32, 1 << 58, 1 << 59, 1 << 63, 0, all, all - line]);
            let lines = centre.wrapping_add(near).wrapping_sub(2);
            b.get_poison(line * 64, lines);
        }
        if b.random.one_in(5) {
            let line = b.edge_line();
            b.clear(line * 64);
        }
        if b.random.one_in(10) {
            b.show_poison();
        }
    }
    b.show_poison();
}

/// A device of 1,023 units, worked at its far end and as one long entry.
pub fn far_end(b: &mut Builder) {
    b.new_device(1000, 23);
    let all = b.device_lines();
    let region = Region {
        base: all - 800,
        lines: 800,
    };
    let begin = b.random.below(3);
    match begin {
        0 => b.media(0, all as u32, 7),
        1 => b.media(64, (all - 1) as u32, 2),
        _ => b.media((all - 1) * 64, 1, 0),
    }
    while b.more() {
        poison_step(b, &region);
        if b.random.one_in(12) {
            let lines = b.random.below(3);
            b.media((all - 1) * 64, lines as u32, 1);
            b.line(all * 64);
            b.get_poison((all - 1) * 64, lines);
            b.get_poison(all * 64, lines / 2);
        }
        if b.random.one_in(15) {
            b.show_poison();
        }
    }
    b.show_poison();
}

/// Drops at several device times, by reports and by clears: the first counts.
pub fn overflow_time(b: &mut Builder) {
    b.any_device();
    let region = region(b, 256 * 8);
    let before = b.random.one_in(2);
    if !before {
        let value = b.random.bits() >> b.random.below(64);
        b.set_timestamp(value);
    }
    fill(b, &region, 256, 6);
    b.set_target(420);
    b.show_poison();
    if before {
        // A drop before Set Timestamp has time 0, which later drops leave.
        b.media(region.base * 64, region.lines as u32, 1);
        b.set_timestamp(77);
        b.media(region.base * 64, region.lines as u32, 2);
        b.show_poison();
    }
    while b.more() {
        match b.random.below(4) {
            0 => {
                let value = b.random.bits() >> b.random.below(64);
                b.set_timestamp(value);
            }
            1 => some_report(b, &region),
            2 => {
                let line = some_line(b, &region);
                b.clear(line * 64);
            }
            _ => b.command(opcode::GET_TIMESTAMP, vec![]),
        }
        b.get_poison(region.base * 64, 4);
    }
    b.show_poison();
}

/// All poison steps mixed, the list growing and shrinking.
pub fn poison_mixed(b: &mut Builder) {
    b.any_device();
    let size = b.random.pick(&[100, 700, 3000]);
    let region = region(b, size);
    b.set_target(1500);
    if b.random.one_in(2) && size >= 700 {
        let held = b.random.pick(&[200, 256]);
        fill(b, &region, held, 8);
    }
    while b.more() {
        poison_step(b, &region);
        if b.random.one_in(20) {
            b.show_poison();
        }
    }
    b.show_poison();
}

/// Everything together.
pub fn mixed(b: &mut Builder) {
    b.any_device();
    let region = region(b, 1200);
    b.set_target(1500);
    if b.random.one_in(2) {
        fill(b, &region, 256, 4);
    }
    while b.more() {
        if b.random.one_in(2) {
            poison_step(b, &region);
        } else {
            one_step(b);
        }
        if b.random.one_in(30) {
            b.show();
        }
    }
    b.show();
}
