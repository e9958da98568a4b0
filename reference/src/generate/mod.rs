//! Adversarial streams, deterministic by seed. A profile says what a stream is
//! about; a seed chooses a profile unless one is named.

pub mod builder;
pub mod commands;
pub mod events;
pub mod host;
pub mod interrupts;
pub mod labels;
pub mod malformed;
pub mod poison;
pub mod pool;
pub mod probe;
pub mod reserved;
pub mod sanitize;

use crate::format::Format;
use builder::Builder;

/// How a profile makes its streams.
enum Make {
    /// One stream a seed.
    One(fn(&mut Builder)),
    /// Several small streams a seed, by number.
    Several(usize, fn(&mut Builder, usize)),
}

/// A kind of stream.
pub struct Profile {
    pub name: &'static str,
    pub what: &'static str,
    /// It makes streams of some 10 MB, so that few seeds choose it.
    pub large: bool,
    /// Its streams make no sense in the other format.
    one_format: bool,
    make: Make,
}

impl Profile {
    /// How many streams a seed has.
    pub fn streams(&self) -> usize {
        match self.make {
            Make::One(_) => 1,
            Make::Several(streams, _) => streams,
        }
    }

    /// Stream number `part` of a seed, as a bench stream.
    pub fn stream(&self, seed: u64, part: usize, records: Option<usize>) -> Vec<u8> {
        self.stream_of(Format::Bench, seed, part, records)
    }

    /// Stream number `part` of a seed.
    pub fn stream_of(
        &self,
        format: Format,
        seed: u64,
        part: usize,
        records: Option<usize>,
    ) -> Vec<u8> {
        let mut builder = Builder::new(format, seed, records);
        match self.make {
            Make::One(make) => make(&mut builder),
            Make::Several(_, make) => make(&mut builder, part),
        }
        builder.finish()
    }
}

const fn one(name: &'static str, make: fn(&mut Builder), what: &'static str) -> Profile {
    Profile {
        name,
        what,
        large: false,
        one_format: false,
        make: Make::One(make),
    }
}

const fn large(name: &'static str, make: fn(&mut Builder), what: &'static str) -> Profile {
    Profile {
        large: true,
        ..one(name, make, what)
    }
}

const fn several(
    name: &'static str,
    streams: usize,
    make: fn(&mut Builder, usize),
    what: &'static str,
) -> Profile {
    Profile {
        name,
        what,
        large: false,
        one_format: false,
        make: Make::Several(streams, make),
    }
}

/// Of its own format only.
const fn only(profile: Profile) -> Profile {
    Profile {
        one_format: true,
        ..profile
    }
}

/// The profiles of bench; those not for one format alone are probe's too.
pub const PROFILES: &[Profile] = &[
    one(
        "full-logs",
        events::full_logs,
        "logs filled to seven, eight and past it; clears of the oldest",
    ),
    one(
        "overflow",
        events::overflow,
        "overflow counts and times, ended and begun again",
    ),
    large(
        "overflow-count-limit",
        events::overflow_count_limit,
        "an overflow count at 65,535 and past it (9 MB)",
    ),
    one(
        "wrong-handles",
        events::wrong_handles,
        "wrong, surplus, swapped and foreign handles",
    ),
    large(
        "handles-come-round",
        events::handles_come_round,
        "handles past 65,535, of log 0 with injections (9 MB)",
    ),
    one(
        "clear-all",
        events::clear_all,
        "Clear All with and without overflow, with n nonzero",
    ),
    one(
        "reserved",
        reserved::reserved,
        "Clear Event Records with reserved flag bits and bytes, right and wrong otherwise",
    ),
    one(
        "drain",
        events::drain,
        "a host that clears what it read, with reports between the two",
    ),
    one(
        "vectors",
        interrupts::vectors,
        "logs that go from empty to one record and back under changing policies",
    ),
    one(
        "clock",
        events::clock,
        "clocks that go back and times that saturate",
    ),
    one(
        "wrong-lengths",
        commands::wrong_lengths,
        "every length of 0 to 80 and some great ones for every opcode",
    ),
    one(
        "policy",
        commands::policy,
        "policy bytes of every value that is taken, four and five of them, and some refused",
    ),
    one(
        "modes",
        reserved::modes,
        "modes 2 and 3 at every place of a policy, with what it enables",
    ),
    one(
        "get-log",
        commands::get_log,
        "Get Log offsets, lengths and identifiers at every edge",
    ),
    one(
        "label-ranges",
        labels::ranges,
        "Set LSA, then Get LSA of the same, overlapping, neighbouring and apart bytes",
    ),
    one(
        "label-edges",
        labels::label_edges,
        "label offsets and lengths at every edge, sums that wrap in 16 and 32 bits",
    ),
    one(
        "label-refusals",
        labels::label_refusals,
        "Set LSA with reserved bytes, label payloads of every length, what was not written",
    ),
    one(
        "labels-kept",
        labels::labels_kept,
        "labels under all other calls, refused ones included",
    ),
    several(
        "sanitize-rows",
        sanitize::ROW_STREAMS,
        sanitize::rows,
        "Sanitize on devices at the edges of the ten rows, about the due time (20 streams)",
    ),
    one(
        "sanitize-refusals",
        sanitize::refusals,
        "refused calls of every kind, just before a due time and at it",
    ),
    one(
        "sanitize-disabled",
        sanitize::disabled,
        "every call while media is disabled, right and wrong otherwise",
    ),
    one(
        "sanitize-at-due",
        sanitize::at_due,
        "each call at a due time with logs of every state: injections, reports, Sanitize",
    ),
    one(
        "sanitize-clock",
        sanitize::clock,
        "clocks that go back or are set during the work, beginnings near 2^64",
    ),
    one(
        "sanitize-full-list",
        sanitize::full_list,
        "Sanitize with a list at 256 entries throughout, with and without overflow",
    ),
    one(
        "sanitize-mixed",
        sanitize::sanitize_mixed,
        "Sanitize while one runs, when one is due and when it is over, among all calls",
    ),
    one(
        "unknown-opcodes",
        commands::unknown_opcodes,
        "every opcode of 16 bits, and payloads at those near the commands",
    ),
    several(
        "devices",
        commands::DEVICE_STREAMS,
        commands::devices,
        "unit counts at every edge, refused ones included (22 streams)",
    ),
    only(several(
        "malformed",
        malformed::BENCH_STREAMS,
        malformed::bench,
        "bad streams of every kind, a cut at every place (246 streams)",
    )),
    one(
        "commands-mixed",
        commands::commands_mixed,
        "all commands but the poison commands, mixed",
    ),
    one(
        "poison-full-list",
        poison::full_list,
        "lists driven to 256 entries and past it",
    ),
    one(
        "poison-clear-parts",
        poison::clear_parts,
        "clears at the first, middle and last line of entries",
    ),
    one(
        "poison-reports",
        poison::reports,
        "reports that contain, equal, touch and straddle entries",
    ),
    one(
        "poison-list-ranges",
        poison::list_ranges,
        "ranges that share a line with 125, 126, 127 and 256 entries",
    ),
    one(
        "poison-range-edges",
        poison::range_edges,
        "ranges of 0 lines, at the device's end and inside entries",
    ),
    one(
        "poison-addresses",
        poison::addresses,
        "addresses near 2^64, unaligned and outside",
    ),
    one(
        "poison-line-counts",
        poison::line_counts,
        "line counts near 2^32, 2^58 and 2^64",
    ),
    one(
        "poison-far-end",
        poison::far_end,
        "a device of 1,023 units at its far end",
    ),
    one(
        "poison-overflow-time",
        poison::overflow_time,
        "drops at several device times",
    ),
    one(
        "inject-events",
        interrupts::inject_events,
        "injections and reports to log 0 with policies, clears and clocks",
    ),
    one(
        "inject-full-log",
        interrupts::inject_full_log,
        "injections while log 0 holds seven and eight records, with and without overflow",
    ),
    one(
        "inject-full-list",
        interrupts::inject_full_list,
        "injections with 254 to 256 entries while log 0 is empty and while it is not",
    ),
    one(
        "poison-mixed",
        poison::poison_mixed,
        "all poison calls mixed",
    ),
    one("mixed", poison::mixed, "everything together"),
];

/// The profiles of probe alone: what bench does not carry.
pub const PROBE_PROFILES: &[Profile] = &[
    one(
        "rooms",
        probe::rooms,
        "room at every edge with every opcode and several fills",
    ),
    one("fills", probe::fills, "fills that are bytes of the reply"),
    one(
        "refusal-order",
        probe::refusal_order,
        "small rooms, wrong lengths, unknown opcodes and own refusals together",
    ),
    one(
        "event-sizes",
        probe::event_sizes,
        "event records of other sizes, logs that are not there, both",
    ),
    one(
        "refused-makes",
        probe::refused_makes,
        "refused makes, and the one volatile unit used on",
    ),
    one(
        "later-makes",
        probe::later_makes,
        "several devices one after the other, each with a state that may not stay",
    ),
    one(
        "status",
        probe::status,
        "every combination of waiting logs, asked after every call",
    ),
    one(
        "total",
        probe::total,
        "the damage total after every call, with full lists and clears",
    ),
    several(
        "malformed",
        malformed::PROBE_STREAMS,
        malformed::probe,
        "bad streams of every kind, marks of later requests, a cut at every place (748 streams)",
    ),
    one(
        "label-areas",
        labels::label_areas,
        "label areas of every size with every kind of command",
    ),
    one(
        "label-store",
        labels::label_store,
        "the label store under makes, changing sizes and rooms of every kind",
    ),
    one(
        "sanitize-lent",
        sanitize::lent,
        "rooms, fills and label areas of every size just before a due time and at it",
    ),
    one(
        "sanitize-makes",
        sanitize::makes,
        "makes, walks, event sizes, status and total during the work of a Sanitize",
    ),
    one(
        "pool-replies",
        pool::replies,
        "each of the seven commands through both mailboxes on devices of every state",
    ),
    one(
        "pool-order",
        pool::order,
        "rooms, payload lengths, opcodes and own refusals together at the pool's mailbox",
    ),
    one(
        "pool-opcodes",
        pool::opcodes,
        "every opcode at the pool's mailbox, every length of 0 to 25 and some great ones",
    ),
    one(
        "pool-get-log",
        pool::get_log,
        "Get Log at the ends of both effects logs through both mailboxes, wrong identifiers",
    ),
    one(
        "pool-sanitize",
        pool::about_due,
        "pool commands before, at and after a due time, then each call of the first mailbox",
    ),
    one(
        "pool-silence",
        pool::silence,
        "many pool commands between all other calls, makes and areas of wrong sizes included",
    ),
    one(
        "everything",
        probe::everything,
        "all calls of probe mixed, makes and every size included",
    ),
    one(
        "host-requests",
        host::requests,
        "every request in rooms about its need, handles about 255",
    ),
    one(
        "host-replies",
        host::replies,
        "made-up replies read and written again: cut, wrong counts, reserved bits, any bytes",
    ),
    one(
        "host-device-replies",
        host::device_replies,
        "replies that the device gives, read and written again, some altered",
    ),
    several(
        "host-walks",
        host::WALK_STREAMS,
        host::walks,
        "walks of lists of 0 to 256 entries that halving cuts, refused ranges (7 streams)",
    ),
    large(
        "long",
        probe::long,
        "records of up to 4,113 bytes, some 7 MB of them",
    ),
];

/// Seeds `compare` runs where none are given: two rounds of [`SEED_ROUND`].
pub const DEFAULT_SEEDS: std::ops::Range<u64> = 0..2 * SEED_ROUND;
/// Each large profile is chosen by one seed of a round.
const SEED_ROUND: u64 = 229;

/// Every profile of a format.
pub fn profiles(format: Format) -> Vec<&'static Profile> {
    match format {
        Format::Bench => PROFILES.iter().collect(),
        Format::Probe => {
            let both = PROFILES.iter().filter(|profile| !profile.one_format);
            both.chain(PROBE_PROFILES).collect()
        }
    }
}

/// The profile of this name.
pub fn profile_named(format: Format, name: &str) -> Option<&'static Profile> {
    let mut all = profiles(format).into_iter();
    all.find(|profile| profile.name == name)
}

/// The profile that a seed chooses.
pub fn profile_of(format: Format, seed: u64) -> &'static Profile {
    let all = profiles(format).into_iter();
    let (large, small): (Vec<_>, Vec<_>) = all.partition(|profile| profile.large);
    // The last seeds of a round choose the large profiles.
    let (round, place) = (seed / SEED_ROUND, seed % SEED_ROUND);
    let smalls = SEED_ROUND - large.len() as u64;
    if place >= smalls {
        return large[(place - smalls) as usize];
    }
    small[((round * smalls + place) % small.len() as u64) as usize]
}
