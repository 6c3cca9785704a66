//! "Places, views and values": a number as a double, an integer signed and unsigned, ticks.

use super::float;
use super::kinds::*;
use super::number::read_big_endian;
use super::payload::Payload;
use super::places::{check, Place, Refused};

/// The number in a fixed payload, which a checked place holds whole.
fn fixed(bytes: &[u8], payload: Payload) -> Result<u64, Refused> {
    bytes.get(payload.start..payload.end).and_then(read_big_endian).ok_or(Refused::Fault(1))
}

/// The integer of 08 or 09: "for 09 the signed answer is minus (M plus 1)".
fn integer(kind: u8, payload: Payload) -> Option<i128> {
    match kind {
        INTEGER_POSITIVE => Some(i128::from(payload.number)),
        INTEGER_NEGATIVE => Some(-(i128::from(payload.number) + 1)),
        _ => None,
    }
}

/// The bits of the double: "exact or refused: Float32 widened, Float64 as it is, an integer from -2^53 to 2^53. Any other
/// integer is 'out of range', any other kind 'wrong kind'."
pub fn double(bytes: &[u8], place: Place) -> Result<u64, Refused> {
    let payload = check(bytes, place)?;
    match place.kind {
        FLOAT32 => Ok(float::widen(fixed(bytes, payload)? as u32)),
        FLOAT64 => fixed(bytes, payload),
        kind => {
            let value = integer(kind, payload).ok_or(Refused::WrongKind)?;
            if (-(1 << 53)..=1 << 53).contains(&value) {
                Ok((value as f64).to_bits())
            } else {
                Err(Refused::OutOfRange)
            }
        }
    }
}

/// "An integer read as signed 64-bit is 'out of range' outside -2^63 to 2^63 - 1".
pub fn signed(bytes: &[u8], place: Place) -> Result<i64, Refused> {
    let payload = check(bytes, place)?;
    let value = integer(place.kind, payload).ok_or(Refused::WrongKind)?;
    i64::try_from(value).map_err(|_| Refused::OutOfRange)
}

/// "and read as unsigned 64-bit it is so for 09".
pub fn unsigned(bytes: &[u8], place: Place) -> Result<u64, Refused> {
    let payload = check(bytes, place)?;
    let value = integer(place.kind, payload).ok_or(Refused::WrongKind)?;
    u64::try_from(value).map_err(|_| Refused::OutOfRange)
}

/// "Ticks are read signed, from 12 or 13 only, else 'wrong kind'."
pub fn ticks(bytes: &[u8], place: Place) -> Result<i64, Refused> {
    let payload = check(bytes, place)?;
    match place.kind {
        DATE_TIME | TIME_SPAN => Ok(fixed(bytes, payload)? as i64),
        _ => Err(Refused::WrongKind),
    }
}
