//! What the reader, the validator and the writer share: a part that is read from the front, and the kinds.

/// A part of the payload that is read from the front. Where that is, the end of the part says, and what is left of it.
#[derive(Clone, Copy)]
pub struct Reader<'a> {
    pub rest: &'a [u8],
}

/// What precedes the payload of a field or item.
#[derive(Clone, Copy)]
pub enum Form {
    Typed { flags: u8, named: bool },
    Shared { id: u8, named: bool },
}

impl<'a> Reader<'a> {
    pub fn byte(&mut self) -> Result<u8, u32> {
        let (first, rest) = self.rest.split_first().ok_or(1_u32)?;
        self.rest = rest;
        Ok(*first)
    }

    pub fn take(&mut self, count: u64) -> Result<&'a [u8], u32> {
        let (part, rest) = split(self.rest, count).ok_or(1_u32)?;
        self.rest = rest;
        Ok(part)
    }

    /// A VarUInt, and whether it is minimal.
    pub fn number(&mut self) -> Result<(u64, bool), u32> {
        let (value, minimal, rest) = varuint(self.rest).ok_or(1_u32)?;
        self.rest = rest;
        Ok((value, minimal))
    }

    /// The ID in a shared byte that has these flags.
    pub fn shared(&mut self, flags: u8) -> Result<u8, u32> {
        let id = self.byte()? ^ flags;
        if is_known(id) {
            Ok(id)
        } else {
            Err(2)
        }
    }

    /// The kind of the field or item at the front, and whether a name follows.
    pub fn kind(&mut self, form: Form) -> Result<(u8, bool), u32> {
        match form {
            Form::Shared { id, named } => Ok((id, named)),
            Form::Typed { flags, named } => {
                let byte = self.byte()?;
                if byte & 0xC0 != flags || !is_known(byte & 0x3F) {
                    return Err(2);
                }
                Ok((byte & 0x3F, named))
            }
        }
    }
}

/// The VarUInt at the front of a part, if it is there, whether it is minimal, and what follows it.
pub fn varuint(part: &[u8]) -> Option<(u64, bool, &[u8])> {
    let (first, rest) = part.split_first()?;
    let others = first.leading_ones();
    if others == 0 {
        return Some(((*first).into(), true, rest));
    }
    let (bytes, rest) = rest.split_at_checked(others as usize)?;
    let start = if others >= 7 { 0 } else { u64::from(*first) & (0x7F >> others) };
    let value = bytes.iter().fold(start, |value, byte| value << 8 | u64::from(*byte));
    Some((value, value >= 1 << (7 * others), rest))
}

pub fn split(part: &[u8], length: u64) -> Option<(&[u8], &[u8])> {
    part.split_at_checked(usize::try_from(length).ok()?)
}

pub fn is_known(id: u8) -> bool {
    matches!(id, 0x01..=0x14 | 0x1E | 0x1F)
}

/// The kinds that a uniform array cannot have.
pub fn is_bare(id: u8) -> bool {
    matches!(id, 0x01 | 0x0C | 0x0D)
}

/// The length of the kinds whose payload always has the same.
pub fn fixed(kind: u8) -> Option<u64> {
    match kind {
        0x01 | 0x0C | 0x0D => Some(0),
        0x0A => Some(4),
        0x0B | 0x12 | 0x13 => Some(8),
        0x14 => Some(12),
        0x11 => Some(16),
        0x0E..=0x10 => Some(20),
        _ => None,
    }
}

/// The Float32 that holds a Float64.
pub fn narrow(bytes: &[u8]) -> Option<[u8; 4]> {
    let value = f64::from_be_bytes(bytes.try_into().ok()?);
    let narrow = value as f32;
    (!value.is_nan() && f64::from(narrow).to_bits() == value.to_bits()).then(|| narrow.to_be_bytes())
}
