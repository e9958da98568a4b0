//! The walk of the poison list: "ask for a range, and where the reply says more,
//! halve the range and ask for each half, down to one line, an odd line going to the
//! second half".

use super::put;
use super::request::Request;
use crate::device::fault::sanitize::WrongDisabled;
use crate::device::numbers::{number, Refusal, LABEL_AREA, MAILBOX};
use crate::device::{Config, Device, Fault};

/// A reply of Get Poison List has its records after this many bytes.
const HEAD: usize = 32;

/// The walk of a range of the device: its records, as in the reply, written to the
/// caller's room; the return number and the length. The device stays as it is.
pub fn walk(
    device: &Device,
    address: u64,
    lines: u64,
    room: &mut [u8],
    config: Config,
) -> (u16, usize) {
    // Get Poison List changes nothing; the mailbox command may, so it gets a copy. It works
    // while media is disabled, and at time 0 no work is due (W-207).
    let mut device = device.clone();
    let mut records = Vec::new();
    let mut walked = part(&mut device, address, lines, &mut records, config);
    if config.has(Fault::WalkRefusedIsEmpty) {
        walked = Ok(());
    }
    let refused = Fault::Disabled(WrongDisabled::WalkRefused);
    if device.media_disabled() && config.has(refused) {
        walked = Err(Refusal::MediaDisabled);
    }
    if config.has(Fault::WalkJoinsNeighbours) {
        records = joined(&records);
    }
    put(walked.map(|()| records), room, config)
}

/// The records with those that touch and are of one type made one (a planted fault).
fn joined(records: &[u8]) -> Vec<u8> {
    let mut out: Vec<(u64, u64)> = Vec::new();
    for record in records.chunks_exact(16) {
        let (address, lines) = (number(&record[..8]), number(&record[8..12]));
        match out.last_mut() {
            Some((last, count)) if *last + *count * 64 == address => *count += lines,
            _ => out.push((address, lines)),
        }
    }
    let bytes = |(address, lines): (u64, u64)| [address.to_le_bytes(), lines.to_le_bytes()];
    out.into_iter().flat_map(bytes).flatten().collect()
}

/// Appends the records of one range. "a walk over a range the device refuses gives
/// the device's number": such a range is refused whole, before any half is asked for,
/// since the halves of a range that is taken are taken too.
fn part(
    device: &mut Device,
    address: u64,
    lines: u64,
    records: &mut Vec<u8>,
    config: Config,
) -> Result<(), Refusal> {
    let reply = ask(device, address, lines)?;
    // "Flag bit 0: more than 126 entries share a line with the range"
    let more = reply[0] & 1 == 1 && !config.has(Fault::WalkStopsAt126);
    if more && lines > 1 {
        let first = match config.has(Fault::WalkOddLineFirst) {
            true => lines - lines / 2,
            false => lines / 2,
        };
        let middle = address + first * 64;
        part(device, address, first, records, config)?;
        return match config.fault {
            Some(Fault::WalkSecondHalfSkipped) => Ok(()),
            // Only where the first half is not halved again: the walk would not end in
            // any time worth waiting for.
            Some(Fault::WalkFirstHalfTwice) if ask(device, address, first)?[0] & 1 == 0 => {
                part(device, address, first, records, config)
            }
            Some(Fault::WalkOddLineLost) => part(device, middle, lines / 2, records, config),
            _ => part(device, middle, lines - first, records, config),
        };
    }
    let count = number(&reply[10..12]) as usize;
    records.extend(&reply[HEAD..HEAD + count * 16]);
    Ok(())
}

/// The reply of Get Poison List through the mailbox, with a label area of the right size:
/// "`WK` .. is not touched by `AR`" (document 10).
fn ask(device: &mut Device, address: u64, lines: u64) -> Result<Vec<u8>, Refusal> {
    let request = Request::GetPoisonList { address, lines };
    let (mut labels, mut mailbox) = ([0; LABEL_AREA], [0; MAILBOX]);
    let payload = request.payload();
    let answer = device.command(request.code(), &payload, 0, &mut labels, &mut mailbox);
    match Refusal::of(answer.number) {
        Some(refusal) => Err(refusal),
        None => Ok(mailbox[..answer.length].to_vec()),
    }
}
