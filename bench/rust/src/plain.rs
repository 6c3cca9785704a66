//! The straightforward Rust versions. None is inlined, so that both sides pay for a call.

use ajuqvane_tests::independent::number;

use crate::reader::{self, Place};
use crate::validator;
use crate::writer::{self, Refused};

/// Value, bytes taken, whether minimal.
#[inline(never)]
pub fn varuint(part: &[u8]) -> Option<(u64, usize, bool)> {
    number::read_varuint(part).ok().map(|number| (number.value, number.taken, number.minimal))
}

#[inline(never)]
pub fn is_text(part: &[u8]) -> bool {
    core::str::from_utf8(part).is_ok()
}

/// Whether Float32 holds these bits, as Rust would ask it: there and back.
#[inline(never)]
pub fn float32_holds(bits: u64) -> bool {
    let value = f64::from_bits(bits);
    !value.is_nan() && f64::from(value as f32).to_bits() == bits
}

/// The mask.
#[inline(never)]
pub fn validate(modes: u32, payload: &[u8]) -> u32 {
    validator::validate(modes, payload)
}

#[inline(never)]
pub fn top(payload: &[u8]) -> Result<Place, u32> {
    reader::top(payload)
}

/// The next field and where its name begins.
#[inline(never)]
pub fn step(payload: &[u8], place: Place, last: Option<usize>) -> Result<(Place, usize), u32> {
    reader::step(payload, place, last)
}

#[inline(never)]
pub fn lookup(payload: &[u8], place: Place, name: &[u8]) -> Result<Place, u32> {
    reader::lookup(payload, place, name)
}

/// The bits of a number as a double.
#[inline(never)]
pub fn double(payload: &[u8], place: Place) -> Result<u64, u32> {
    reader::double(payload, place)
}

#[inline(never)]
pub fn write(list: &[u8], output: &mut [u8], work: &mut [u32]) -> Result<usize, Refused> {
    writer::write(list, output, work)
}

#[inline(never)]
pub fn sum(bytes: &[u8]) -> u64 {
    bytes.iter().map(|byte| u64::from(*byte)).sum()
}
