//! The validator: one reading of the payload from front to back by positions, the names of open objects in a lent table, no
//! heap, at most 32 calls deep.

use super::is_ascii;
use super::names::{Names, Table};
use crate::parts::{fixed, is_bare, is_known, narrow};

const NAMES: u32 = 1;
const FORMAT: u32 = 2;
const PADDING: u32 = 4;

const CUT: u32 = 1;
const UNKNOWN: u32 = 2;
const DEEP: u32 = 4;
const UNIFORM: u32 = 2048;

struct Validator<'p, 't> {
    payload: &'p [u8],
    names: Names<'t>,
    modes: u32,
    mask: u32,
}

pub fn validate(modes: u32, payload: &[u8], table: &mut Table) -> u32 {
    if payload.len() > 65_536 {
        return 8;
    }
    let mut validator = Validator { payload, names: Names::new(table), modes, mask: 0 };
    match validator.top() {
        Err(fault) => fault,
        Ok(end) if modes & PADDING != 0 && end < payload.len() => validator.mask | 4096,
        Ok(_) => validator.mask,
    }
}

impl Validator<'_, '_> {
    fn asks(&self, mode: u32) -> bool {
        self.modes & mode != 0
    }

    fn top(&mut self) -> Result<usize, u32> {
        let id = *self.payload.first().ok_or(CUT)?;
        if !is_known(id) {
            return Err(UNKNOWN);
        }
        self.field(id, 1, self.payload.len(), 1)
    }

    /// The VarUInt at a position, which moves past it.
    #[inline(always)]
    fn number(&mut self, at: &mut usize, end: usize) -> Result<u64, u32> {
        let part = &self.payload[*at..end];
        match part.first() {
            None => Err(CUT),
            Some(first) if *first < 0x80 => {
                *at += 1;
                Ok((*first).into())
            }
            Some(_) => {
                let (value, minimal, rest) = crate::parts::varuint(part).ok_or(CUT)?;
                *at = end - rest.len();
                if self.modes & FORMAT != 0 && !minimal {
                    self.mask |= 64;
                }
                Ok(value)
            }
        }
    }

    /// A VarUInt and so many bytes behind it: where they end.
    #[inline(always)]
    fn sized(&mut self, at: &mut usize, end: usize) -> Result<usize, u32> {
        let size = self.number(at, end)?;
        if size > (end - *at) as u64 {
            return Err(CUT);
        }
        Ok(*at + size as usize)
    }

    #[inline(always)]
    fn text(&mut self, start: usize, end: usize) {
        let text = &self.payload[start..end];
        if self.asks(FORMAT) && !is_ascii(text) && core::str::from_utf8(text).is_err() {
            self.mask |= 512;
        }
    }

    /// A field from its payload on: where it ends.
    fn field(&mut self, id: u8, mut at: usize, end: usize, depth: u32) -> Result<usize, u32> {
        if let Some(length) = fixed(id) {
            let length = length as usize;
            if length > end - at {
                return Err(CUT);
            }
            if id == 0x0B && self.asks(FORMAT) && narrow(&self.payload[at..at + 8]).is_some() {
                self.mask |= 256;
            }
            return Ok(at + length);
        }
        if matches!(id, 0x08 | 0x09) {
            let number = self.number(&mut at, end)?;
            if id == 0x09 && self.asks(FORMAT) && number >= 1 << 63 {
                self.mask |= 128;
            }
            return Ok(at);
        }
        let end = self.sized(&mut at, end)?;
        match id {
            0x02 => self.object(0, at, end, depth)?,
            0x03 => {
                let id = self.shared(&mut at, end, 0x80)?;
                if at == end {
                    return Err(UNIFORM);
                }
                self.object(id, at, end, depth)?;
            }
            0x04 => {
                let count = self.number(&mut at, end)?;
                self.array(0, count, at, end, depth)?;
            }
            0x05 => {
                let count = self.number(&mut at, end)?;
                let id = self.shared(&mut at, end, 0)?;
                if count == 0 || is_bare(id) {
                    return Err(UNIFORM);
                }
                self.array(id, count, at, end, depth)?;
            }
            0x07 => self.text(at, end),
            0x1E => drop(self.number(&mut at, end)?),
            0x1F => {
                let name = self.sized(&mut at, end)?;
                self.text(at, name);
            }
            _ => {}
        }
        Ok(end)
    }

    /// The ID in a shared byte that has these flags.
    fn shared(&mut self, at: &mut usize, end: usize, flags: u8) -> Result<u8, u32> {
        let id = self.payload[*at..end].first().ok_or(CUT)? ^ flags;
        *at += 1;
        if is_known(id) {
            Ok(id)
        } else {
            Err(UNKNOWN)
        }
    }

    /// The type byte at a position that is in the payload.
    #[inline(always)]
    fn kind(&self, at: usize, flags: u8) -> Result<u8, u32> {
        let id = self.payload[at] ^ flags;
        if is_known(id) {
            Ok(id)
        } else {
            Err(UNKNOWN)
        }
    }

    /// The fields of an object, all of one shared ID unless that is 0.
    fn object(&mut self, shared: u8, mut at: usize, end: usize, depth: u32) -> Result<(), u32> {
        if at == end {
            return Ok(());
        }
        if depth == 32 {
            return Err(DEEP);
        }
        let mut object = self.names.open();
        let (mut first, mut several, mut empty) = (0, false, false);
        while at < end {
            let mut id = shared;
            if shared == 0 {
                id = self.kind(at, 0xC0)?;
                at += 1;
                several |= first != 0 && first != id;
                first = id;
            }
            let name_end = self.sized(&mut at, end)?;
            if self.asks(NAMES) {
                let twin = if at == name_end {
                    self.mask |= 32;
                    std::mem::replace(&mut empty, true)
                } else {
                    // One pair of equal names is enough.
                    self.mask & 16 == 0 && self.names.note(&mut object, self.payload, at, name_end - at)
                };
                if twin {
                    self.mask |= 16;
                }
            }
            self.text(at, name_end);
            at = self.field(id, name_end, end, depth + 1)?;
        }
        if self.names.close(object, self.payload).is_some() {
            self.mask |= 16;
        }
        if shared == 0 && !several && self.asks(FORMAT) {
            self.mask |= 1024;
        }
        Ok(())
    }

    /// The items of an array, all of one shared ID unless that is 0.
    fn array(&mut self, shared: u8, count: u64, mut at: usize, end: usize, depth: u32) -> Result<(), u32> {
        if count > 0 && depth == 32 {
            return Err(DEEP);
        }
        if shared != 0 && !(shared == 0x0B && self.asks(FORMAT)) {
            if let Some(length) = fixed(shared) {
                // Nothing can be wrong with the items but their number.
                return if u128::from(count) * u128::from(length) == (end - at) as u128 { Ok(()) } else { Err(CUT) };
            }
        }
        let (mut first, mut several) = (0, false);
        for _ in 0..count {
            let mut id = shared;
            if shared == 0 {
                if at == end {
                    return Err(CUT);
                }
                id = self.kind(at, 0x40)?;
                at += 1;
                several |= first != 0 && first != id;
                first = id;
            }
            at = self.field(id, at, end, depth + 1)?;
        }
        if at < end {
            return Err(CUT);
        }
        if first != 0 && !several && !is_bare(first) && self.asks(FORMAT) {
            self.mask |= 1024;
        }
        Ok(())
    }
}

#[cfg(test)]
mod tests {
    use ajuqvane_tests::generate::{payloads, Random};
    use ajuqvane_tests::independent::mask::mask;

    /// What is measured does what the library does: it agrees with the independent implementation.
    #[test]
    fn agrees_with_the_independent_implementation() {
        let mut table = super::super::table();
        for index in 0..50_000 {
            let payload = payloads::payload(&mut Random::new(23, index));
            for modes in 0..8 {
                assert_eq!(super::validate(modes, &payload, &mut table), mask(modes, &payload), "{payload:02x?}");
            }
        }
    }
}
