//! What stands before a field's contents, in "the order at a field": the type byte and the name, then the payload's
//! header, its size, and the shared byte of 03 and 05. The mask and the calls on places both read fields by this.

use super::kinds::*;
use super::number::{read_big_endian, read_varuint};
use super::{float, text};

/// A stopping fault, by its value in the table.
#[derive(Clone, Copy, Debug, PartialEq, Eq)]
#[repr(u32)]
pub enum Stop {
    /// "bytes end early, a size does not fit, a counted item is missing, bytes left in a container"
    Bounds = 1,
    /// "unknown ID, or other flag bits than the place asks"
    Type = 2,
    /// "a field at depth 33"
    Depth = 4,
    /// "input over 65,536 bytes (tested first)"
    Length = 8,
    /// "03 with no field; 05 with count 0 or with items of 01, 0C or 0D"
    Uniform = 2048,
}

impl Stop {
    pub fn value(self) -> u32 {
        self as u32
    }
}

/// "Mode bits: Names 1, Format 2, Padding 4; other bits are ignored."
pub const NAMES: u32 = 1;
pub const FORMAT: u32 = 2;
pub const PADDING: u32 = 4;

pub const NAMES_EQUAL: u32 = 16;
pub const NAME_EMPTY: u32 = 32;
pub const NOT_MINIMAL: u32 = 64;
pub const BELOW_SIGNED: u32 = 128;
pub const FLOAT_TOO_WIDE: u32 = 256;
pub const NOT_TEXT: u32 = 512;
pub const NOT_UNIFORM: u32 = 1024;
pub const BYTES_AFTER: u32 = 4096;

/// "Otherwise the mask is the sum of these, each once, where its mode is asked."
pub struct Flaws {
    modes: u32,
    sum: u32,
}

impl Flaws {
    pub fn asked(modes: u32) -> Flaws {
        Flaws { modes, sum: 0 }
    }

    pub fn asks(&self, mode: u32) -> bool {
        self.modes & mode != 0
    }

    pub fn sum(&self) -> u32 {
        self.sum
    }

    /// Notes the fault if its mode is asked and the test, which is only then made, finds it.
    pub fn note(&mut self, mode: u32, value: u32, found: impl FnOnce() -> bool) {
        if self.asks(mode) && found() {
            self.sum |= value;
        }
    }
}

/// How a field stands in what is around it, which says what comes before its payload.
#[derive(Clone, Copy, Debug, PartialEq, Eq)]
pub enum Form {
    /// "the top field has the bare ID"
    Top,
    /// "a field of 02 has ID + C0 hex, then name length and name"
    Field,
    /// "an item of 04 has ID + 40 hex"
    Item,
    /// "Fields of 03 have name and payload"
    UniformField(u8),
    /// "items of 05 only payload"
    UniformItem(u8),
}

/// The contents of a container: where its fields or items stand.
#[derive(Clone, Copy, Debug, PartialEq, Eq)]
pub struct Contents {
    pub start: usize,
    pub end: usize,
    pub form: Form,
    /// The count of 04 and 05.
    pub count: Option<u64>,
}

/// A payload, read up to its contents.
#[derive(Clone, Copy, Debug, PartialEq, Eq)]
pub struct Payload {
    pub start: usize,
    pub end: usize,
    /// Where the payload goes on "after its size if it has one".
    pub after_size: usize,
    /// The M of an integer, the id of 1E, the name length of 1F.
    pub number: u64,
    /// Where the rest of a custom starts.
    pub rest: usize,
    pub contents: Option<Contents>,
}

/// A field, read up to its contents.
#[derive(Clone, Copy, Debug, PartialEq, Eq)]
pub struct Field {
    pub kind: u8,
    pub name_start: usize,
    pub name_end: usize,
    pub payload: Payload,
}

/// The VarUInt at a byte, within an end: its value, and where it ends. Cut there, it is fault 1.
fn varuint(bytes: &[u8], at: usize, end: usize, flaws: &mut Flaws) -> Result<(u64, usize), Stop> {
    let part = bytes.get(at..end).ok_or(Stop::Bounds)?;
    let number = read_varuint(part).map_err(|_| Stop::Bounds)?;
    flaws.note(FORMAT, NOT_MINIMAL, || !number.minimal);
    Ok((number.value, at + number.taken))
}

/// Where so many bytes from a byte end, if that is no further than the end. The number, which may be hostile, is compared
/// with what remains; it is never added first.
fn fit(size: u64, at: usize, end: usize) -> Result<usize, Stop> {
    let remains = end.checked_sub(at).ok_or(Stop::Bounds)?;
    match usize::try_from(size) {
        Ok(size) if size <= remains => Ok(at + size),
        _ => Err(Stop::Bounds),
    }
}

/// A field at a byte, "up to its contents", depth apart: "type byte present (1), then ID and flags (2); name; payload
/// header; size; for 03 and 05 the shared byte". All is measured against the end of what is around it.
pub fn read_field(bytes: &[u8], at: usize, end: usize, form: Form, flaws: &mut Flaws) -> Result<Field, Stop> {
    let (kind, after_type) = match form {
        Form::Top => type_byte(bytes, at, end, 0)?,
        Form::Field => type_byte(bytes, at, end, FIELD_FLAGS)?,
        Form::Item => type_byte(bytes, at, end, ITEM_FLAGS)?,
        Form::UniformField(kind) | Form::UniformItem(kind) => (kind, at),
    };
    let (name_start, name_end) = match form {
        Form::Field | Form::UniformField(_) => {
            let (length, name_start) = varuint(bytes, after_type, end, flaws)?;
            let name_end = fit(length, name_start, end)?;
            let name = bytes.get(name_start..name_end).ok_or(Stop::Bounds)?;
            flaws.note(NAMES, NAME_EMPTY, || name.is_empty());
            flaws.note(FORMAT, NOT_TEXT, || !text::is_text(name));
            (name_start, name_end)
        }
        Form::Top | Form::Item | Form::UniformItem(_) => (after_type, after_type),
    };
    let payload = read_payload(bytes, kind, name_end, end, flaws)?;
    Ok(Field { kind, name_start, name_end, payload })
}

/// The ID in the type byte or shared byte at a byte, within an end, and where it ends: "present (1), then ID and flags
/// (2)".
fn type_byte(bytes: &[u8], at: usize, end: usize, flags: u8) -> Result<(u8, usize), Stop> {
    let byte = bytes.get(at..end).and_then(|part| part.first()).ok_or(Stop::Bounds)?;
    let id = byte & 0x3F;
    if byte & 0xC0 != flags || !is_known(id) {
        return Err(Stop::Type);
    }
    Ok((id, at + 1))
}

/// The payload of a kind at a byte, up to its contents. The kind is to be known; any other is fault 2.
pub fn read_payload(bytes: &[u8], kind: u8, start: usize, end: usize, flaws: &mut Flaws) -> Result<Payload, Stop> {
    let mut payload = Payload { start, end: start, after_size: start, number: 0, rest: start, contents: None };
    if let Some(length) = fixed_length(kind) {
        payload.end = fit(length as u64, start, end)?;
        payload.rest = payload.end;
        if kind == FLOAT64 {
            let bits = bytes.get(start..payload.end).and_then(read_big_endian).ok_or(Stop::Bounds)?;
            flaws.note(FORMAT, FLOAT_TOO_WIDE, || float::float32_holds(bits));
        }
        return Ok(payload);
    }
    let (number, after) = varuint(bytes, start, end, flaws)?;
    if kind == INTEGER_POSITIVE || kind == INTEGER_NEGATIVE {
        flaws.note(FORMAT, BELOW_SIGNED, || kind == INTEGER_NEGATIVE && number >= 1 << 63);
        payload.number = number;
        payload.end = after;
        payload.rest = after;
        return Ok(payload);
    }
    // "Size counts all that follows it."
    payload.after_size = after;
    payload.end = fit(number, after, end)?;
    payload.rest = after;
    let end = payload.end;
    match kind {
        OBJECT => {
            payload.contents = Some(Contents { start: after, end, form: Form::Field, count: None });
        }
        UNIFORM_OBJECT => {
            let (shared, start) = type_byte(bytes, after, end, SHARED_FIELD_FLAGS)?;
            if start == end {
                return Err(Stop::Uniform);
            }
            payload.contents = Some(Contents { start, end, form: Form::UniformField(shared), count: None });
        }
        ARRAY => {
            let (count, start) = varuint(bytes, after, end, flaws)?;
            payload.contents = Some(Contents { start, end, form: Form::Item, count: Some(count) });
        }
        UNIFORM_ARRAY => {
            let (count, at) = varuint(bytes, after, end, flaws)?;
            let (shared, start) = type_byte(bytes, at, end, 0)?;
            if count == 0 || has_no_payload(shared) {
                return Err(Stop::Uniform);
            }
            let form = Form::UniformItem(shared);
            payload.contents = Some(Contents { start, end, form, count: Some(count) });
        }
        BINARY => {}
        STRING => {
            let string = bytes.get(after..end).ok_or(Stop::Bounds)?;
            flaws.note(FORMAT, NOT_TEXT, || !text::is_text(string));
        }
        CUSTOM_BY_ID => {
            (payload.number, payload.rest) = varuint(bytes, after, end, flaws)?;
        }
        CUSTOM_BY_NAME => {
            let (length, name_start) = varuint(bytes, after, end, flaws)?;
            payload.number = length;
            payload.rest = fit(length, name_start, end)?;
            let name = bytes.get(name_start..payload.rest).ok_or(Stop::Bounds)?;
            flaws.note(FORMAT, NOT_TEXT, || !text::is_text(name));
        }
        _ => return Err(Stop::Type),
    }
    Ok(payload)
}
