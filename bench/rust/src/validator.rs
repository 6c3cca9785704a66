//! The validator as one would write it in Rust without further thought: slices that get shorter, `core::str::from_utf8`, a
//! `HashSet` of names, a cast to f32 and back.

use std::collections::HashSet;

use crate::parts::{fixed, is_bare, narrow, Form, Reader};

const NAMES: u32 = 1;
const FORMAT: u32 = 2;
const PADDING: u32 = 4;

struct Validator {
    names: bool,
    format: bool,
    mask: u32,
}

pub fn validate(modes: u32, payload: &[u8]) -> u32 {
    if payload.len() > 65_536 {
        return 8;
    }
    let mut validator = Validator { names: modes & NAMES != 0, format: modes & FORMAT != 0, mask: 0 };
    let mut reader = Reader { rest: payload };
    match validator.field(&mut reader, Form::Typed { flags: 0, named: false }, 1) {
        Err(fault) => fault,
        Ok(_) => {
            if modes & PADDING != 0 && !reader.rest.is_empty() {
                validator.mask |= 4096;
            }
            validator.mask
        }
    }
}

impl Validator {
    fn number(&mut self, reader: &mut Reader) -> Result<u64, u32> {
        let (value, minimal) = reader.number()?;
        if self.format && !minimal {
            self.mask |= 64;
        }
        Ok(value)
    }

    fn text(&mut self, bytes: &[u8]) {
        if self.format && core::str::from_utf8(bytes).is_err() {
            self.mask |= 512;
        }
    }

    /// A field's ID and name.
    fn field<'a>(&mut self, reader: &mut Reader<'a>, form: Form, depth: u32) -> Result<(u8, &'a [u8]), u32> {
        if depth > 32 {
            return Err(4);
        }
        let (id, named) = reader.kind(form)?;
        let mut name: &[u8] = &[];
        if named {
            let length = self.number(reader)?;
            name = reader.take(length)?;
            if self.names && name.is_empty() {
                self.mask |= 32;
            }
            self.text(name);
        }
        if let Some(length) = fixed(id) {
            let bytes = reader.take(length)?;
            if self.format && id == 0x0B && narrow(bytes).is_some() {
                self.mask |= 256;
            }
            return Ok((id, name));
        }
        let number = self.number(reader)?;
        if !matches!(id, 0x08 | 0x09) {
            let part = reader.take(number)?;
            self.sized(id, Reader { rest: part }, depth)?;
        } else if self.format && id == 0x09 && number >= 1 << 63 {
            self.mask |= 128;
        }
        Ok((id, name))
    }

    fn sized(&mut self, id: u8, mut part: Reader, depth: u32) -> Result<(), u32> {
        match id {
            0x02 => self.object(part, Form::Typed { flags: 0xC0, named: true }, depth),
            0x03 => {
                let id = part.shared(0x80)?;
                if part.rest.is_empty() {
                    return Err(2048);
                }
                self.object(part, Form::Shared { id, named: true }, depth)
            }
            0x04 => {
                let count = self.number(&mut part)?;
                self.array(part, count, Form::Typed { flags: 0x40, named: false }, depth)
            }
            0x05 => {
                let count = self.number(&mut part)?;
                let id = part.shared(0)?;
                if count == 0 || is_bare(id) {
                    return Err(2048);
                }
                self.array(part, count, Form::Shared { id, named: false }, depth)
            }
            0x07 => {
                self.text(part.rest);
                Ok(())
            }
            0x1E => self.number(&mut part).map(drop),
            0x1F => {
                let length = self.number(&mut part)?;
                let name = part.take(length)?;
                self.text(name);
                Ok(())
            }
            _ => Ok(()),
        }
    }

    fn object(&mut self, mut part: Reader, form: Form, depth: u32) -> Result<(), u32> {
        let mut seen = HashSet::new();
        let (mut one, mut several) = (None, false);
        while !part.rest.is_empty() {
            let (id, name) = self.field(&mut part, form, depth + 1)?;
            several |= *one.get_or_insert(id) != id;
            if self.names && !seen.insert(name) {
                self.mask |= 16;
            }
        }
        if self.format && matches!(form, Form::Typed { .. }) && one.is_some() && !several {
            self.mask |= 1024;
        }
        Ok(())
    }

    fn array(&mut self, mut part: Reader, count: u64, form: Form, depth: u32) -> Result<(), u32> {
        let (mut one, mut several) = (None, false);
        for _ in 0..count {
            let (id, _) = self.field(&mut part, form, depth + 1)?;
            several |= *one.get_or_insert(id) != id;
        }
        if !part.rest.is_empty() {
            return Err(1);
        }
        if self.format && matches!(form, Form::Typed { .. }) && !several {
            if let Some(id) = one {
                if !is_bare(id) {
                    self.mask |= 1024;
                }
            }
        }
        Ok(())
    }
}

#[cfg(test)]
mod tests {
    use ajuqvane_tests::generate::{payloads, Random};
    use ajuqvane_tests::independent::mask::mask;

    /// What is measured does what the library does: it agrees with the independent implementation.
    #[test]
    fn agrees_with_the_independent_implementation() {
        for index in 0..50_000 {
            let payload = payloads::payload(&mut Random::new(19, index));
            for modes in 0..8 {
                assert_eq!(super::validate(modes, &payload), mask(modes, &payload), "{payload:02x?}");
            }
        }
    }
}
