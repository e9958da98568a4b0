//! The host's side of the mailbox (document 02, W-202): the twelve requests built
//! from their fields, replies read into theirs and written again, and the walk of
//! the poison list. It knows the device by its mailbox command alone.

pub mod layout;
pub mod reply;
pub mod request;
pub mod walk;

use crate::device::numbers::Refusal;
use crate::device::{Config, Fault};

/// Writes bytes to the first places of the caller's room: the return number and
/// the length. "Refusals, each leaving the caller's room unaltered: 0100h first,
/// exactly where the request, the written reply or the walk's records need more
/// than the room".
fn put(bytes: Result<Vec<u8>, Refusal>, room: &mut [u8], config: Config) -> (u16, usize) {
    match bytes {
        Ok(bytes) if fits(bytes.len(), room.len(), config) => {
            room[..bytes.len()].copy_from_slice(&bytes);
            (0, bytes.len())
        }
        Ok(bytes) => {
            if config.has(Fault::HostWritesWhatFits) {
                let fitting = bytes.len().min(room.len());
                room[..fitting].copy_from_slice(&bytes[..fitting]);
            }
            (Refusal::ReplyBufferTooSmall.number(), 0)
        }
        Err(refusal) => (refusal.number(), 0),
    }
}

/// Whether so many bytes do not need more than the room.
fn fits(need: usize, room: usize, config: Config) -> bool {
    match config.has(Fault::HostExactRoomRefused) {
        true => need < room || need == 0,
        false => need <= room,
    }
}
