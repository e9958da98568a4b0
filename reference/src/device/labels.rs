//! Document 02, W-206: the two commands on the label area. The area is the caller's, lent
//! with each command; the device holds nothing of it. Where a planted fault takes a range
//! or an area that is not right, a byte past the area reads as 0 and is not written.

use super::fault::{WrongEnd, WrongReserved};
use super::numbers::{number, opcode, Refusal, LABEL_AREA, MAILBOX};
use super::{Config, Fault};

/// "The caller lends 4,096 bytes of label area": whether an area of so many is one.
pub fn fits(size: usize) -> bool {
    size == LABEL_AREA
}

/// "Get payload not 8 or Set payload under 8, 0016h": whether a payload of so many bytes is
/// taken by the command.
pub fn length_fits(code: u16, length: usize, config: Config) -> bool {
    match config.fault {
        Some(Fault::GetLabelsLongerTaken) if code == opcode::GET_LSA => length >= 8,
        Some(Fault::SetLabelsOfNoDataIs16h) if code == opcode::SET_LSA => length > 8,
        Some(Fault::SetLabelsShortTaken) if code == opcode::SET_LSA => length >= 4,
        _ if code == opcode::GET_LSA => length == 8,
        _ => length >= 8,
    }
}

/// A field of four bytes; a planted fault reads two of them.
fn field(bytes: &[u8], config: Config, short: Fault) -> u64 {
    match config.has(short) {
        true => number(&bytes[..2]),
        false => number(bytes),
    }
}

/// "end past 4,096 ... 0002h": whether the bytes from `offset` on end in the area. The sum
/// is one of whole numbers.
fn end_fits(offset: u64, length: u64, wrong: Option<WrongEnd>) -> bool {
    let area = LABEL_AREA as u64;
    let end = offset + length;
    match wrong {
        Some(WrongEnd::In32Bits) => end & 0xffff_ffff <= area,
        Some(WrongEnd::In16Bits) => end & 0xffff <= area,
        Some(WrongEnd::At4096Refused) => end < area,
        Some(WrongEnd::At4097Taken) => end <= area + 1,
        Some(WrongEnd::OfOffsetAlone) => offset <= area,
        Some(WrongEnd::OfNoneAt4096Refused) if length == 0 => offset < area,
        Some(WrongEnd::OfNoneAnywhere) if length == 0 => true,
        _ => end <= area,
    }
}

/// Get LSA after the check of its length: "offset 4, length 4 ... replies those bytes".
pub fn get(payload: &[u8], area: &mut [u8], config: Config) -> Result<Vec<u8>, Refusal> {
    let mut offset = field(&payload[..4], config, Fault::GetLabelsOffsetIn16Bits);
    let mut length = field(&payload[4..8], config, Fault::GetLabelsLengthIn16Bits);
    let most = MAILBOX as u64;
    let over = match config.fault {
        Some(Fault::GetLabelsOver2048Taken | Fault::GetLabelsCutAt2048) => false,
        Some(Fault::GetLabelsOf2048Refused) => length >= most,
        Some(Fault::GetLabelsOfNoneRefused) => length == 0 || length > most,
        _ => length > most,
    };
    let wrong_end = match config.fault {
        Some(Fault::GetLabelsEnd(wrong)) => Some(wrong),
        _ => None,
    };
    if over || !end_fits(offset, length, wrong_end) {
        return Err(Refusal::InvalidInput);
    }
    match config.fault {
        Some(Fault::GetLabelsCutAt2048) => length = length.min(most),
        Some(Fault::GetLabelsOffsetIgnored) => offset = 0,
        _ => {}
    }
    let read = |place: u64| area.get(place as usize).copied().unwrap_or(0);
    let reply = (offset..offset + length).map(read).collect();
    if config.has(Fault::GetLabelsClears) {
        write(area, offset, &vec![0; length as usize]);
    }
    Ok(reply)
}

/// Set LSA after the check of its length: "offset 4, four reserved, data ... writes the data
/// and no other byte of the area".
pub fn set(payload: &[u8], area: &mut [u8], config: Config) -> Result<(), Refusal> {
    // Fewer than eight bytes come here by a planted fault only.
    let (head, data) = payload.split_at(payload.len().min(8));
    let mut offset = field(&head[..4], config, Fault::SetLabelsOffsetIn16Bits);
    let wrong_end = match config.fault {
        Some(Fault::SetLabelsEnd(wrong)) => Some(wrong),
        _ => None,
    };
    // "end past 4,096 or reserved bytes of Set not zero, 0002h": the order of the two does
    // not show.
    if reserved(payload, config) {
        match config.fault {
            Some(Fault::SetLabelsReserved(WrongReserved::Is16h)) => {
                return Err(Refusal::InvalidPayloadLength);
            }
            Some(Fault::SetLabelsReserved(WrongReserved::Writes)) => write(area, offset, data),
            _ => {}
        }
        return Err(Refusal::InvalidInput);
    }
    if !end_fits(offset, data.len() as u64, wrong_end) {
        if config.has(Fault::SetLabelsWritesWhatFits) {
            write(area, offset, data);
        }
        return Err(Refusal::InvalidInput);
    }
    if config.has(Fault::SetLabelsOffsetIgnored) {
        offset = 0;
    }
    match config.fault {
        None => write(area, offset, data),
        Some(fault) => faulty_write(area, offset, &head[4..], data, fault),
    }
    Ok(())
}

/// "reserved bytes of Set not zero": bytes 4 to 7 of its payload. Fewer than eight bytes come
/// here by a planted fault only.
pub fn reserved(payload: &[u8], config: Config) -> bool {
    let bytes = &payload[4..payload.len().min(8)];
    let Some(Fault::SetLabelsReserved(wrong)) = config.fault else {
        return bytes.iter().any(|byte| *byte != 0);
    };
    match wrong {
        WrongReserved::Ignored => false,
        WrongReserved::IgnoredWithoutData if payload.len() == 8 => false,
        WrongReserved::ByteIgnored(ignored) => {
            let mut places = (4..).zip(bytes);
            places.any(|(place, byte)| place != ignored && *byte != 0)
        }
        WrongReserved::AddedIn8Bits => bytes.iter().fold(0, |sum: u8, b| sum.wrapping_add(*b)) != 0,
        WrongReserved::AddedIn16Bits => {
            let pairs = bytes.chunks(2).map(|pair| number(pair) as u16);
            pairs.fold(0, |sum: u16, pair| sum.wrapping_add(pair)) != 0
        }
        WrongReserved::Xored => bytes.iter().fold(0, |bits, byte| bits ^ byte) != 0,
        WrongReserved::NegativeTaken => number(bytes) as u32 as i32 > 0,
        _ => bytes.iter().any(|byte| *byte != 0),
    }
}

/// Writes the bytes from `offset` on, those that lie in the area.
fn write(area: &mut [u8], offset: u64, data: &[u8]) {
    for (place, byte) in (offset..).zip(data) {
        if let Some(old) = area.get_mut(place as usize) {
            *old = *byte;
        }
    }
}

/// The writing of a Set LSA with a planted fault.
fn faulty_write(area: &mut [u8], offset: u64, reserved: &[u8], data: &[u8], fault: Fault) {
    let end = offset + data.len() as u64;
    match fault {
        Fault::SetLabelsByteLess => write(area, offset, &data[..data.len().saturating_sub(1)]),
        Fault::SetLabelsByteMore => write(area, offset, &[data, &[0]].concat()),
        Fault::SetLabelsRestCleared => {
            write(area, offset, data);
            write(area, end, &[0; LABEL_AREA]);
        }
        Fault::SetLabelsReservedWritten => write(area, offset, &[reserved, data].concat()),
        Fault::SetLabelsOred => {
            let old = area.get(offset as usize..).unwrap_or_default().iter();
            let both: Vec<u8> = old.zip(data).map(|(old, new)| old | new).collect();
            write(area, offset, &both);
        }
        _ => write(area, offset, data),
    }
}

/// What a planted fault does to the area after a command, whether refused or not.
pub fn faulty_after(code: u16, payload: &[u8], refused: bool, area: &mut [u8], config: Config) {
    match config.fault {
        Some(Fault::LabelsNotKept) => area.fill(0),
        Some(Fault::RefusalClearsLabels) if refused => area.fill(0),
        Some(Fault::SetTimestampClearsLabels) if !refused && code == opcode::SET_TIMESTAMP => {
            area.fill(0);
        }
        Some(Fault::ClearPoisonWritesLabels) if !refused && code == opcode::CLEAR_POISON => {
            let offset = number(&payload[..8]) % LABEL_AREA as u64;
            write(area, offset, &payload[8..]);
        }
        _ => {}
    }
}
