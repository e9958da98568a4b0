//! Document 02, W-205: the reserved places of Clear Event Records and the modes of Set
//! Event Interrupt Policy. Of the other payloads Set LSA alone has a rule of this kind, which
//! stands in `labels.rs`.

use super::labels;
use super::numbers::opcode;
use super::{Config, Fault};

/// Flag bits 1 to 7 of Clear Event Records; bit 0 is Clear All.
const RESERVED_FLAGS: u8 = 0xfe;

/// "Clear Event Records with a flag bit 1 to 7 set or a reserved byte not zero": the flags
/// are byte 1 of the payload, the reserved bytes 3 to 5.
pub fn in_clear(payload: &[u8], config: Config) -> bool {
    let without_handles = payload[2] == 0;
    if config.has(Fault::ClearReservedIgnoredWithoutHandles) && without_handles {
        return false;
    }
    let all = payload[1] & 1 == 1;
    payload[1] & looked_at(all, config) != 0 || in_bytes(&payload[3..6], all, config)
}

/// The flag bits that must be 0, which are the same with and without Clear All.
fn looked_at(all: bool, config: Config) -> u8 {
    match config.fault {
        Some(Fault::ClearFlagIgnored(bit)) => RESERVED_FLAGS & !(1 << bit),
        Some(Fault::ClearFlagsIgnored) => 0,
        Some(Fault::ClearFlagsIgnoredWithClearAll) if all => 0,
        Some(Fault::ClearFlagsIgnoredWithoutClearAll) if !all => 0,
        Some(Fault::ClearAllRefused) => 0xff,
        _ => RESERVED_FLAGS,
    }
}

/// Whether one of the three reserved bytes is not zero.
fn in_bytes(bytes: &[u8], all: bool, config: Config) -> bool {
    let mut places = (3..).zip(bytes);
    match config.fault {
        Some(Fault::ClearByteIgnored(ignored)) => {
            places.any(|(place, byte)| place != ignored && *byte != 0)
        }
        Some(Fault::ClearBytesIgnored) => false,
        Some(Fault::ClearBytesIgnoredWithClearAll) if all => false,
        Some(Fault::ClearBytesOver127Ignored) => bytes.iter().any(|byte| *byte as i8 > 0),
        Some(Fault::ClearBytesRefusedTogether) => bytes.iter().all(|byte| *byte != 0),
        _ => bytes != [0; 3],
    }
}

/// The place of the first setting given "with a low-two-bits mode of 2 or 3".
pub fn bad_mode(settings: &[u8], config: Config) -> Option<usize> {
    let bad = |place: usize| {
        let mode = settings[place] & 3;
        match config.fault {
            Some(Fault::ModeTaken(taken)) => mode >= 2 && mode != taken,
            Some(Fault::ModesTaken) => false,
            Some(Fault::ModeIgnoredOfByte(ignored)) => mode >= 2 && place != ignored,
            Some(Fault::ModeOfFirstByteOnly) => mode >= 2 && place == 0,
            Some(Fault::SettingBitsReserved) => settings[place] >= 2,
            _ => mode >= 2,
        }
    };
    (0..settings.len()).find(|place| bad(*place))
}

/// Whether a payload of any length has something reserved set (for planted faults, which
/// look at it at another place).
pub fn in_payload(code: u16, payload: &[u8]) -> bool {
    let config = Config::default();
    match code {
        opcode::CLEAR_EVENT_RECORDS => payload.len() >= 6 && in_clear(payload, config),
        opcode::SET_POLICY => bad_mode(payload, config).is_some(),
        opcode::SET_LSA => payload.len() > 4 && labels::reserved(payload, config),
        _ => false,
    }
}
