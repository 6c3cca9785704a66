//! The careful Rust versions: as one would write them who counts the nanoseconds and has no heap, in plain safe Rust. None is
//! inlined, so that all sides of a row pay for a call.

mod names;
mod validator;
mod writer;

pub use names::{table, Table};

use crate::writer::Refused;

/// The mask.
#[inline(never)]
pub fn validate(modes: u32, payload: &[u8], table: &mut Table) -> u32 {
    validator::validate(modes, payload, table)
}

#[inline(never)]
pub fn write(list: &[u8], output: &mut [u8], work: &mut [u32], table: &mut Table) -> Result<usize, Refused> {
    writer::write(list, output, work, table)
}

/// By 8 bytes at a time, since most names and texts are short.
#[inline(always)]
fn is_ascii(text: &[u8]) -> bool {
    let mut all = 0;
    if let Some(last) = text.last_chunk::<8>() {
        for eight in text.as_chunks::<8>().0 {
            all |= u64::from_ne_bytes(*eight);
        }
        all |= u64::from_ne_bytes(*last);
    } else {
        for byte in text {
            all |= u64::from(*byte);
        }
    }
    all & 0x8080_8080_8080_8080 == 0
}
