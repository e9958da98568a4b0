//! The comparison: planted faults are found, a difference is reported, large
//! streams pass through a child process, and a seed gives one stream.

mod common;

use common::{each_step, rightly_lent};
use reference::case::answer::answer;
use reference::compare::{find_faults, run, without_host, Plan, Subject};
use reference::device::events::EventLog;
use reference::device::numbers::opcode;
use reference::device::{Config, Device};
use reference::format::Format::{self, Bench, Probe};
use reference::generate::builder::clear_payload;
use reference::generate::{profile_named, profile_of, profiles, DEFAULT_SEEDS};
use reference::probe::record::{Call, Record};
use std::process::Command;
use std::time::Duration;

const PROGRAM: &str = env!("CARGO_BIN_EXE_reference");

fn plan(format: Format, seeds: std::ops::Range<u64>, profile: Option<&str>) -> Plan {
    Plan {
        format,
        seeds,
        profile: profile.map(str::to_string),
        without_host: false,
        timeout: Duration::from_secs(60),
    }
}

#[test]
fn default_seeds_find_every_planted_fault() {
    for format in [Bench, Probe] {
        let faults = format.faults();
        let plan = plan(format, DEFAULT_SEEDS, None);
        for (line, found) in faults.iter().zip(find_faults(&plan, &faults)) {
            assert!(found.is_some(), "{} is not found in {format:?}", line.name);
        }
    }
}

#[test]
fn probe_sees_every_fault_of_bench_and_more() {
    let names = |format: Format| -> Vec<&str> {
        let faults = format.faults().into_iter();
        faults.map(|line| line.name).collect()
    };
    let (bench, probe) = (names(Bench), names(Probe));
    assert!(bench.iter().all(|name| probe.contains(name)));
    assert!(probe.len() > bench.len());
    // The others are not seen by bench: its streams give the same lines.
    let plan = plan(Bench, 0..20, None);
    let more: Vec<_> = Probe.faults().split_off(bench.len());
    assert!(find_faults(&plan, &more).iter().all(Option::is_none));
}

#[test]
fn default_seeds_use_every_profile() {
    for format in [Bench, Probe] {
        let seeds = DEFAULT_SEEDS.map(|seed| profile_of(format, seed).name);
        let names: Vec<&str> = seeds.collect();
        for profile in profiles(format) {
            assert!(names.contains(&profile.name), "{format:?} {}", profile.name);
        }
    }
}

#[test]
fn profiles_say_how_many_streams_they_have() {
    for format in [Bench, Probe] {
        for profile in profiles(format) {
            let said = profile
                .what
                .contains(&format!("({} streams)", profile.streams()));
            assert_eq!(said, profile.streams() > 1, "{}", profile.name);
        }
    }
}

/// At least as many seeds for each as there were before W-205 to W-208 brought their profiles:
/// 10 or 11 of bench, 7 or 8 of probe.
#[test]
fn every_profile_has_its_seeds() {
    for (format, least) in [(Bench, 10), (Probe, 7)] {
        let names: Vec<&str> = DEFAULT_SEEDS
            .map(|seed| profile_of(format, seed).name)
            .collect();
        for profile in profiles(format) {
            let least = if profile.large { 2 } else { least };
            let seeds = names.iter().filter(|name| **name == profile.name).count();
            assert!(seeds >= least, "{format:?} {}: {seeds}", profile.name);
        }
    }
}

/// The records of the host's side change no device: without them a stream gives the
/// same lines but theirs. A bad rest stays bad, at an offset of its own.
#[test]
fn a_stream_without_the_hosts_side() {
    let marks = ["RQ ", "RP ", "RW ", "WK "];
    let lines = |stream: &[u8]| -> Vec<String> {
        let text = String::from_utf8(Probe.lines_of(stream, Config::default())).unwrap();
        let line = |line: &str| line.split_inclusive("BAD ").next().unwrap().to_string();
        text.lines().map(line).collect()
    };
    for (name, least) in [("everything", 10), ("host-replies", 10), ("malformed", 0)] {
        let profile = profile_named(Probe, name).unwrap();
        for part in 0..profile.streams() {
            let whole = profile.stream_of(Probe, 3, part, None);
            let (all, left) = (lines(&whole), lines(&without_host(Probe, &whole)));
            let host = |line: &&String| marks.iter().any(|mark| line.starts_with(mark));
            assert!(all.iter().filter(host).count() >= least, "{name}");
            let others: Vec<_> = all.iter().filter(|line| !host(line)).collect();
            assert_eq!(left.iter().collect::<Vec<_>>(), others, "{name} {part}");
        }
    }
}

#[test]
fn a_program_without_the_hosts_side() {
    // A fault of the host's side is not seen where its records are taken out.
    let faulty = format!("{PROGRAM} probe --fault ");
    let host = Probe.faults().last().unwrap().name;
    let subject = Subject::program(&(faulty + host));
    let mut plan = plan(Probe, 0..1, Some("host-walks"));
    assert!(run(&plan, &subject, &mut |_| {}).1 > 0, "{host}");
    plan.without_host = true;
    assert_eq!(run(&plan, &subject, &mut |_| {}), (7, 0));
}

#[test]
fn a_difference_is_reported() {
    let faulty = Subject::program(&format!("{PROGRAM} bench --fault surplus-handles-pass"));
    let mut said = Vec::new();
    let one = plan(Bench, 0..1, Some("wrong-handles"));
    let totals = run(&one, &faulty, &mut |text| said.push(text));
    assert_eq!(totals, (0, 1));
    assert!(said[0].starts_with("seed 0, profile wrong-handles, stream 0\n  record "));
    assert!(said[0].contains("clear-event-records log="));
    assert!(said[0].contains("\n  expected: CM 14 0\n  came:     CM 0 0"));
    // A probe record is said with its room and fill.
    let faulty = Subject::program(&format!("{PROGRAM} probe --fault room-2048-refused"));
    let one = plan(Probe, 0..1, Some("get-log"));
    let totals = run(&one, &faulty, &mut |text| said.push(text));
    assert_eq!(totals, (0, 1));
    assert!(said[1].contains(" room=2048 fill="));
    assert!(said[1].contains("\n  came:     CM 256 0 - 1 0"));
    // A long reply that is right beside a byte that was not kept.
    let faulty = Subject::program(&format!("{PROGRAM} probe --fault byte-past-reply"));
    let totals = run(&one, &faulty, &mut |text| said.push(text));
    assert_eq!(totals, (0, 1));
    assert!(said[2].ends_with("\n  the replies are alike, a column after them differs"));
    // The vector differs where there is no reply.
    let faulty = Subject::program(&format!("{PROGRAM} probe --fault inject-vector-not-told"));
    let one = plan(Probe, 0..1, Some("inject-events"));
    let totals = run(&one, &faulty, &mut |text| said.push(text));
    assert_eq!(totals, (0, 1));
    assert!(said[3].contains(" inject-poison address="));
    assert!(said[3].ends_with("\n  expected: CM 0 0 - 1 2\n  came:     CM 0 0 - 1 0"));
}

#[test]
fn a_child_without_difference_and_with_one() {
    for (format, name) in [(Bench, "bench"), (Probe, "probe")] {
        let plan = plan(format, 1..2, Some("overflow"));
        let totals = |program: &str| run(&plan, &Subject::program(program), &mut |_| {});
        let same = format!("{PROGRAM} {name}");
        assert_eq!(totals(&same), (1, 0));
        let faulty = format!("{same} --fault first-overflow-time-overwritten");
        assert_eq!(totals(&faulty), (0, 1));
        // A program that is not there and one that answers nothing.
        assert_eq!(totals("/no/such/program"), (0, 1));
        assert_eq!(totals("true"), (0, 1));
    }
}

#[test]
fn a_child_that_does_not_end_is_a_failure() {
    let mut plan = plan(Bench, 1..2, Some("overflow"));
    plan.timeout = Duration::from_millis(200);
    let endless = Subject::program("sleep 1000");
    assert_eq!(run(&plan, &endless, &mut |_| {}), (0, 1));
    // Nor one that closes its output and goes on, most of its input unread.
    let closing = Subject::words(&["sh", "-c", "exec >&-; exec sleep 1000"]);
    let mut said = String::new();
    let totals = run(&plan, &closing, &mut |text| said = text);
    assert_eq!(totals, (0, 1));
    assert!(said.ends_with("did not end in 200ms"), "{said}");
}

#[test]
fn a_large_stream_passes_without_waiting() {
    let bench = plan(Bench, 5..6, Some("handles-come-round"));
    let same = Subject::program(&format!("{PROGRAM} bench"));
    assert_eq!(run(&bench, &same, &mut |_| {}), (1, 0));
    let probe = plan(Probe, 5..6, Some("long"));
    let same = Subject::program(&format!("{PROGRAM} probe"));
    assert_eq!(run(&probe, &same, &mut |_| {}), (1, 0));
}

#[test]
fn streams_are_the_same_for_a_seed_and_differ_between_seeds() {
    for format in [Bench, Probe] {
        for profile in profiles(format).iter().filter(|profile| !profile.large) {
            let make = |seed| profile.stream_of(format, seed, 0, None);
            assert_eq!(make(7), make(7));
        }
        let mixed = profile_named(format, "mixed").unwrap();
        let make = |seed| mixed.stream_of(format, seed, 0, Some(50));
        assert_ne!(make(7), make(8));
    }
}

/// The lines of a profile's stream.
fn text(format: Format, name: &str, part: usize) -> String {
    let profile = profile_named(format, name).unwrap();
    let stream = profile.stream_of(format, 1, part, None);
    String::from_utf8(format.lines_of(&stream, Config::default())).unwrap()
}

#[test]
fn profiles_reach_what_they_are_about() {
    reach(Bench);
    reach(Probe);
}

fn reach(format: Format) {
    let text = |name: &str, part: usize| text(format, name, part);
    // Overflow count ffff after the flags 01 and the zero byte.
    assert!(text("overflow-count-limit", 0).contains(" 0100ffff"));
    // Handles of both sides of 65,535 in one reply.
    let round = text("handles-come-round", 0);
    let both = |line: &str| handles(line).windows(2).any(|pair| pair == [65_535, 1]);
    assert!(round.lines().any(both));
    assert!(text("poison-full-list", 0).contains("CM 16 0"));
    let malformed = profile_named(format, "malformed").unwrap();
    for part in 0..malformed.streams() {
        assert!(text("malformed", part).lines().count() < 40);
    }
}

/// A Clear Event Records of just the handles that the last read gave.
struct Drain {
    log: u8,
    handles: Vec<u16>,
    /// The flags of the read.
    flags: u64,
    /// The event reports between the read and the clear.
    reports: usize,
    /// The return number of the clear.
    code: u64,
}

/// The clears of what was read in the streams of a profile's default seeds.
fn drains(format: Format, name: &str) -> Vec<Drain> {
    let mut found = Vec::new();
    for seed in DEFAULT_SEEDS.filter(|seed| profile_of(format, *seed).name == name) {
        let stream = profile_of(format, seed).stream_of(format, seed, 0, None);
        let text = String::from_utf8(format.lines_of(&stream, Config::default())).unwrap();
        let (mut log, mut handles_read, mut flags, mut reports) = (255, vec![], 0, 0);
        for ((_, record), line) in format.records(&stream).iter().zip(text.lines()) {
            let answer = answer(format, record.as_ref(), line);
            let code = answer.number("code").unwrap_or(0);
            match record.as_ref().unwrap() {
                Record::Event { .. } => reports += 1,
                Record::Command(Call {
                    opcode: opcode::GET_EVENT_RECORDS,
                    payload,
                    ..
                }) if code == 0 => {
                    (log, handles_read, reports) = (payload[0], handles(line), 0);
                    flags = answer.number("flags").unwrap();
                }
                Record::Command(Call {
                    opcode: opcode::CLEAR_EVENT_RECORDS,
                    payload,
                    ..
                }) if *payload == clear_payload(log, 0, &handles_read) => found.push(Drain {
                    log,
                    handles: handles_read.clone(),
                    flags,
                    reports,
                    code,
                }),
                _ => {}
            }
        }
    }
    found
}

#[test]
fn default_seeds_drain_logs() {
    for format in [Bench, Probe] {
        let drains = drains(format, "drain");
        let some = |is: &dyn Fn(&Drain) -> bool| drains.iter().any(is);
        for log in 0..5 {
            for flags in [0, 1] {
                // Without a call between, and with reports that stay or, with
                // eight held, are counted.
                assert!(some(&|d| (d.log, d.flags, d.reports) == (log, flags, 0)));
                assert!(some(&|d| (d.log, d.flags) == (log, flags) && d.reports > 0));
            }
        }
        for held in 0..=8 {
            assert!(some(&|d| d.handles.len() == held && d.reports == 0));
            assert!(some(&|d| d.handles.len() == held && d.reports > 0));
        }
        // A clear of what was read is accepted; one refused for its room is
        // repeated and then accepted.
        let refused = |d: &Drain| format == Probe && d.code == 0x0100;
        assert!(drains.iter().all(|d| d.code == 0 || refused(d)));
        assert_eq!(some(&refused), format == Probe);
        for pair in drains.windows(2).filter(|pair| refused(&pair[0])) {
            assert_eq!(pair[0].handles, pair[1].handles);
        }
        // Handles that have come round.
        let round = |d: &Drain| d.handles.windows(2).any(|pair| pair == [65_535, 1]);
        let drains = self::drains(format, "handles-come-round");
        assert!(drains.iter().any(|d| round(d) && d.code == 0));
    }
}

#[test]
fn malformed_probe_streams_end_bad() {
    let malformed = profile_named(Probe, "malformed").unwrap();
    let bad = |part: &usize| {
        let text = text(Probe, "malformed", *part);
        text.lines().last().unwrap_or_default().starts_with("BAD ")
    };
    // All but the empty input and the cuts before a record's first byte: of NW,
    // two CM, EV, MD, LT, ES, DT, five RQ, RP, RW, WK, AR, AB, PC and a later NW.
    let bad = (0..malformed.streams()).filter(bad).count();
    assert_eq!(bad, malformed.streams() - 1 - 20);
}

#[test]
fn probe_profiles_reach_what_they_are_about() {
    let text = |name| text(Probe, name, 0);
    // A reply that fills its room, one with a byte to spare, a refused room.
    let rooms = text("rooms");
    assert!(rooms.contains("CM 0 2048 "));
    assert!(rooms.contains("CM 256 0 - 1 0\n"));
    // Not stored for want of a place, for the size, for the log.
    let sizes = text("event-sizes");
    for line in ["EV 0 1 0\n", "EV 0 0 0\n", "EV 22 0 0\n", "EV 2 0 0\n"] {
        assert!(sizes.contains(line));
    }
    // Last line and the one past it of the one volatile unit.
    let makes = text("refused-makes");
    for line in ["NW 2\n", "LT 0 1 3\n", "LT 15 2 0\n", "MD 15 0 0\n"] {
        assert!(makes.contains(line));
    }
    let status = text("status");
    for bits in 0..32 {
        assert!(status.contains(&format!("\nES {bits} ")), "{bits}");
    }
    assert!(text("total").contains("DT "));
    let requests = text("host-requests");
    for line in ["RQ 0 ", "RQ 256 0 - 1\n", "RQ 22 0 - 1\n"] {
        assert!(requests.contains(line), "{line}");
    }
    // The places of reserved bytes of all three kinds of replies.
    let replies = text("host-replies");
    for place in [1, 2, 7, 12, 22, 31, 32, 44, 47, 48, 63] {
        assert!(replies.contains(&format!("\nRP 2 {place}\n")), "{place}");
    }
    for line in ["RP 22\n", "RW 22 0 - 1\n", "RW 2 0 - 1\n", "RW 256 0 - 1\n"] {
        assert!(replies.contains(line), "{line}");
    }
    assert!(text("host-device-replies").contains("\nRP 0 "));
    for profile in profiles(Probe).iter().filter(|profile| !profile.large) {
        let host = profile.name.starts_with("host-");
        for part in (0..profile.streams()).filter(|_| host) {
            let length = self::text(Probe, profile.name, part).len();
            assert!(length < 300_000, "{} {part}: {length}", profile.name);
        }
    }
    for profile in profiles(Probe).iter().filter(|profile| profile.large) {
        assert!(profile.stream_of(Probe, 1, 0, None).len() > 3_000_000);
    }
}

/// Walks of the default seeds: of lists of every number of entries that the profile
/// names, with entries that halving cut, in rooms of just their bytes and one byte
/// short.
#[test]
fn default_seeds_walk_lists() {
    let (mut exact, mut longer, mut short, mut cut) = (0, 0, 0, 0);
    let mut codes = Vec::new();
    for seed in DEFAULT_SEEDS.filter(|seed| profile_of(Probe, *seed).name == "host-walks") {
        let profile = profile_of(Probe, seed);
        for part in 0..profile.streams() {
            let stream = profile.stream_of(Probe, seed, part, None);
            let text = String::from_utf8(Probe.lines_of(&stream, Config::default())).unwrap();
            let mut lengths = Vec::new();
            for ((_, record), line) in Probe.records(&stream).iter().zip(text.lines()) {
                let answer = answer(Probe, record.as_ref(), line);
                let Some(Record::Walk { room, .. }) = record else {
                    continue;
                };
                let code = answer.number("code").unwrap();
                codes.push(code);
                let length = answer.number("length").unwrap();
                let room = u64::from(*room);
                match code {
                    0 if room == length && length > 0 => exact += 1,
                    0 if length > 0 => longer += 1,
                    0x0100 if lengths.contains(&(room + 1)) => short += 1,
                    _ => {}
                }
                lengths.push(length);
                // More than 126 records that touch in one type: parts of an entry.
                if length > 126 * 16 && touching(&answer) {
                    cut += 1;
                }
            }
        }
    }
    assert!(exact > 100 && longer > 100 && short > 20 && cut > 20);
    for code in [0, 2, 0x000f, 0x0100] {
        assert!(codes.contains(&code));
    }
}

/// The last column of a line of probe.
fn last_column(line: &[u8]) -> u64 {
    let line = std::str::from_utf8(line).unwrap().trim_end();
    line.rsplit(' ').next().unwrap().parse().unwrap()
}

/// How a log stands at a call.
fn state(log: &EventLog) -> &'static str {
    match log.overflow_count() {
        _ if log.is_empty() => "empty",
        _ if !log.is_full() => "in part",
        0 => "full",
        _ => "overflown",
    }
}

/// The situations of W-204 in the streams of the default seeds, with how often each is
/// reached. The streams are run by the probe's model, for bench too, since its lines tell
/// the vector.
fn situations(format: Format) -> std::collections::BTreeMap<String, usize> {
    let mut found = std::collections::BTreeMap::new();
    let names = ["vectors", "handles-come-round"];
    for seed in DEFAULT_SEEDS {
        let profile = profile_of(format, seed);
        if !names.contains(&profile.name) && !profile.name.starts_with("inject-") {
            continue;
        }
        let mut injected = false;
        each_step(format, profile, seed, |record, before, after| {
            let vector = match record {
                Record::Event { .. } | Record::Command(_) => last_column(after.line.as_bytes()),
                _ => 0,
            };
            let mut count = |what: String| *found.entry(what).or_insert(0) += 1;
            let state = |log: usize| state(before.log(log));
            match record {
                Record::Event { log, .. } if *log < 5 => {
                    let log = usize::from(*log);
                    count(format!("report, log {log} {}, vector {vector}", state(log)));
                }
                Record::Event { .. } => count(format!("report refused, vector {vector}")),
                Record::Command(Call {
                    opcode: opcode::INJECT_POISON,
                    payload,
                    ..
                }) => {
                    let line = String::from_utf8_lossy(after.line.as_bytes()).to_string();
                    let code = line.split(' ').nth(1).unwrap();
                    let entries = before.poison_list().held();
                    let added = after.device().poison_list().held() > entries;
                    let what = match (code, added) {
                        ("0", true) => "adds an entry".to_string(),
                        ("0", false) if entries == 256 => "covered at 256 entries".to_string(),
                        ("0", false) => "covered".to_string(),
                        (code, _) => format!("refused with {code}"),
                    };
                    count(format!(
                        "inject {what}, log 0 {}, vector {vector}",
                        state(0)
                    ));
                    if added && !before.log(0).is_full() {
                        let handle = before.log(0).next_handle();
                        if [65_535, 1, 2].contains(&handle) {
                            count(format!("inject, handle {handle}"));
                        }
                        if payload[4..] != [0; 4] {
                            count("inject, address above 4 GiB".to_string());
                        }
                    }
                    injected = true;
                    return;
                }
                Record::Command(Call {
                    opcode: opcode::GET_EVENT_RECORDS,
                    payload,
                    ..
                }) if injected && payload == &[0] => count("inject, then read".to_string()),
                _ => {}
            }
            injected = false;
        });
    }
    found
}

/// Document 02, W-204: every situation that its sentences part is reached by the default
/// seeds of both formats, those of the vector in bench's streams too.
#[test]
fn default_seeds_reach_vectors_and_injections() {
    for format in [Bench, Probe] {
        let found = situations(format);
        let vectors = [2, 3, 4, 5, 2];
        let mut wanted: Vec<String> = vec!["report refused, vector 0".to_string()];
        for (log, vector) in vectors.iter().enumerate() {
            wanted.push(format!("report, log {log} empty, vector {vector}"));
            for state in ["empty", "in part", "full", "overflown"] {
                wanted.push(format!("report, log {log} {state}, vector 0"));
            }
        }
        wanted.push("inject adds an entry, log 0 empty, vector 2".to_string());
        for state in ["empty", "in part", "full", "overflown"] {
            for what in ["adds an entry", "covered", "covered at 256 entries"] {
                wanted.push(format!("inject {what}, log 0 {state}, vector 0"));
            }
            for code in [2, 15, 16, 22] {
                wanted.push(format!(
                    "inject refused with {code}, log 0 {state}, vector 0"
                ));
            }
        }
        wanted.extend(["inject, handle 65535", "inject, handle 1"].map(String::from));
        wanted.extend(["inject, address above 4 GiB", "inject, then read"].map(String::from));
        for what in &wanted {
            assert!(found.contains_key(what), "{format:?}: {what} in {found:#?}");
        }
        // No other vector is carried anywhere.
        for what in found.keys().filter(|what| !what.ends_with("vector 0")) {
            let known = wanted.contains(what) || !what.contains("vector");
            assert!(known, "{format:?}: {what}");
        }
        // Often, not by chance.
        for (what, least) in [
            ("inject adds an entry, log 0 empty, vector 2", 50),
            ("inject adds an entry, log 0 full, vector 0", 50),
            ("inject adds an entry, log 0 overflown, vector 0", 50),
            ("inject covered, log 0 empty, vector 0", 30),
            ("inject refused with 16, log 0 empty, vector 0", 20),
            ("inject covered at 256 entries, log 0 empty, vector 0", 10),
            ("inject, then read", 300),
        ] {
            assert!(found[what] >= least, "{format:?}: {what}: {}", found[what]);
        }
    }
}

/// The reserved place that is set in a Clear Event Records of six bytes or more: a flag
/// bit or a byte, or that there are several; none if all are zero.
fn reserved_place(payload: &[u8]) -> Option<String> {
    let bits = (1..8).filter(|bit| payload[1] >> bit & 1 == 1);
    let bytes = (3..6).filter(|place| payload[*place] != 0);
    let mut set: Vec<String> = bits.map(|bit| format!("bit {bit}")).collect();
    set.extend(bytes.map(|place| format!("byte {place}")));
    match set.len() {
        0 | 1 => set.pop(),
        _ => Some("several".to_string()),
    }
}

/// The return number of a command on a copy of the device.
fn number_of(device: &Device, code: u16, payload: &[u8]) -> u16 {
    let answer = device.clone().answer(code, payload, 0);
    answer.err().map_or(0, |refusal| refusal.number())
}

/// The situations of W-205 in the streams of the default seeds, with how often each is
/// reached. A Clear is said with the number that it would get without what is reserved.
fn reserved_situations(format: Format) -> std::collections::BTreeMap<String, usize> {
    let mut found = std::collections::BTreeMap::new();
    let names = ["reserved", "modes", "clear-all", "policy", "vectors"];
    for seed in DEFAULT_SEEDS {
        let profile = profile_of(format, seed);
        if !names.contains(&profile.name) {
            continue;
        }
        each_step(format, profile, seed, |record, before, after| {
            let mut count = |what: String| *found.entry(what).or_insert(0) += 1;
            let Some((code, payload)) = rightly_lent(record, after) else {
                return;
            };
            match (code, payload.len()) {
                (opcode::CLEAR_EVENT_RECORDS, 6..) => {
                    let zeros = [
                        &[payload[0], payload[1] & 1, payload[2], 0, 0, 0],
                        &payload[6..],
                    ];
                    let number = number_of(before, code, &zeros.concat());
                    let all = match payload[1] & 1 {
                        0 => "by handles",
                        _ => "all",
                    };
                    let state = match payload[0] {
                        log @ 0..=4 => state(before.log(log.into())),
                        _ => "not there",
                    };
                    match reserved_place(payload) {
                        Some(place) => {
                            count(format!("clear {all}, {place}, else {number}"));
                            count(format!("clear {all}, log {state}, else {number}"));
                        }
                        None => count(format!("{}: clear {all}, {number}", profile.name)),
                    }
                }
                (opcode::SET_POLICY, length) => {
                    let bad = |setting: &&u8| **setting & 3 >= 2;
                    let number = number_of(before, code, payload);
                    match payload.iter().filter(bad).count() {
                        0 => count(format!("{}: set, {number}", profile.name)),
                        1 => {
                            let place = payload.iter().position(|setting| bad(&setting)).unwrap();
                            let mode = payload[place] & 3;
                            count(format!("set {length}, byte {place} mode {mode}, {number}"));
                        }
                        _ => count(format!("set {length}, several, {number}")),
                    }
                }
                _ => {}
            }
        });
    }
    found
}

/// Document 02, W-205: every reserved place alone, beside every other answer that a clear
/// can get, in logs of every state; modes 2 and 3 at every place of four and five bytes; and
/// payloads that are taken, often.
#[test]
fn default_seeds_reach_reserved_places_and_modes() {
    for format in [Bench, Probe] {
        let found = reserved_situations(format);
        let mut wanted = Vec::new();
        let bits = (1..8).map(|bit| format!("bit {bit}"));
        let bytes = (3..6).map(|place| format!("byte {place}"));
        for place in bits.chain(bytes).chain(["several".to_string()]) {
            for number in [0, 2, 14, 22] {
                wanted.push(format!("clear by handles, {place}, else {number}"));
            }
            for number in [0, 2, 22] {
                wanted.push(format!("clear all, {place}, else {number}"));
            }
        }
        for state in ["empty", "in part", "full", "overflown"] {
            for number in [0, 14, 22] {
                wanted.push(format!("clear by handles, log {state}, else {number}"));
            }
            wanted.push(format!("clear all, log {state}, else 2"));
        }
        wanted.push("clear by handles, log not there, else 2".to_string());
        wanted.push("clear all, log not there, else 2".to_string());
        wanted.push("clear all, log overflown, else 0".to_string());
        for length in [4, 5] {
            for place in 0..length {
                for mode in [2, 3] {
                    wanted.push(format!("set {length}, byte {place} mode {mode}, 2"));
                }
            }
            wanted.push(format!("set {length}, several, 2"));
        }
        for length in [3, 6] {
            wanted.push(format!("set {length}, several, 22"));
        }
        for what in &wanted {
            assert!(found.contains_key(what), "{format:?}: {what} in {found:#?}");
        }
        // What is taken, often.
        for (what, least) in [
            ("reserved: clear by handles, 0", 150),
            ("reserved: clear all, 0", 20),
            ("clear-all: clear all, 0", 80),
            ("vectors: clear by handles, 0", 300),
            ("vectors: clear all, 0", 50),
            ("vectors: set, 0", 300),
            ("policy: set, 0", 800),
            ("modes: set, 0", 500),
        ] {
            let times = found.get(what).copied().unwrap_or(0);
            assert!(times >= least, "{format:?}: {what}: {times}");
        }
    }
}

/// Whether two records of a walk touch and are of one type.
fn touching(answer: &reference::case::answer::Answer) -> bool {
    let list = |name: &str| -> Vec<u64> {
        let text = answer.field(name).unwrap().split(',');
        text.map(|number| number.parse().unwrap()).collect()
    };
    let (addresses, types, lengths) = (list("addresses"), list("types"), list("lengths"));
    (1..addresses.len())
        .any(|i| addresses[i - 1] + lengths[i - 1] * 64 == addresses[i] && types[i - 1] == types[i])
}

/// The handles in a line of Get Event Records.
fn handles(line: &str) -> Vec<u16> {
    let reply = line.split(' ').nth(3).unwrap_or_default();
    let records = reply.len().saturating_sub(64) / 256;
    let handle = |at: usize| {
        let from = 64 + at * 256 + 40;
        let low = u16::from_str_radix(&reply[from..from + 2], 16).unwrap();
        let high = u16::from_str_radix(&reply[from + 2..from + 4], 16).unwrap();
        low | high << 8
    };
    (0..records).map(handle).collect()
}

/// A list has the name and what it is about, with a blank between them whatever the name.
#[test]
fn lists_of_faults_and_profiles() {
    for (format, word) in [(Bench, "bench"), (Probe, "probe")] {
        let listed = |subcommand: &str| -> Vec<(String, String)> {
            let arguments = [subcommand, "--format", word];
            let output = Command::new(PROGRAM).args(arguments).output().unwrap();
            let text = String::from_utf8(output.stdout).unwrap();
            let lines = text.lines().map(|line| line.split_once(' ').unwrap());
            lines
                .map(|(name, what)| (name.to_string(), what.trim_start().to_string()))
                .collect()
        };
        let faults = format.faults().into_iter();
        let faults: Vec<_> = faults
            .map(|line| (line.name.into(), line.what.into()))
            .collect();
        assert_eq!(listed("faults"), faults);
        let profiles = profiles(format).into_iter();
        let profiles: Vec<_> = profiles.map(|p| (p.name.into(), p.what.into())).collect();
        assert_eq!(listed("profiles"), profiles);
    }
}

#[test]
fn every_subcommand_has_help() {
    for name in [
        "bench", "probe", "generate", "profiles", "encode", "decode", "explain", "check",
        "compare", "faults",
    ] {
        let output = Command::new(PROGRAM).args([name, "--help"]).output();
        let output = output.unwrap();
        assert!(output.status.success());
        let text = String::from_utf8(output.stdout).unwrap();
        assert!(text.starts_with(&format!("reference {name}")));
    }
    let unknown = Command::new(PROGRAM).arg("unknown").output().unwrap();
    assert_eq!(unknown.status.code(), Some(1));
}
