//! "The mask": the validator.

use std::collections::HashSet;

use super::kinds::{has_no_payload, ARRAY, OBJECT};
use super::payload::*;
use super::{DEPTH_LIMIT, LENGTH_LIMIT};

/// The mask of an input: the first stopping fault "is the whole mask", "otherwise the mask is the sum" of the faults
/// whose modes are asked.
pub fn mask(modes: u32, bytes: &[u8]) -> u32 {
    if bytes.len() > LENGTH_LIMIT {
        return Stop::Length.value();
    }
    let mut flaws = Flaws::asked(modes);
    match check_field(bytes, 0, bytes.len(), 1, Form::Top, &mut flaws) {
        Err(stop) => stop.value(),
        Ok(field) => {
            flaws.note(PADDING, BYTES_AFTER, || field.payload.end < bytes.len());
            flaws.sum()
        }
    }
}

/// "Order at a field: depth; .. ; contents."
fn check_field(bytes: &[u8], at: usize, end: usize, depth: u32, form: Form, flaws: &mut Flaws) -> Result<Field, Stop> {
    if depth > DEPTH_LIMIT {
        return Err(Stop::Depth);
    }
    let field = read_field(bytes, at, end, form, flaws)?;
    if let Some(contents) = field.payload.contents {
        check_contents(bytes, field.kind, contents, depth, flaws)?;
    }
    Ok(field)
}

/// "Fields must fill their container exactly", "and fields of a container stand one deeper".
fn check_contents(bytes: &[u8], kind: u8, contents: Contents, depth: u32, flaws: &mut Flaws) -> Result<(), Stop> {
    let mut names = HashSet::new();
    let mut ids = Ids::default();
    let mut at = contents.start;
    match contents.count {
        // An object: a field is met where bytes remain.
        None => {
            while at < contents.end {
                let field = check_field(bytes, at, contents.end, depth + 1, contents.form, flaws)?;
                ids.meet(field.kind);
                // "two fields of one object have byte-equal names, empty ones too"
                if flaws.asks(NAMES) {
                    let name = bytes.get(field.name_start..field.name_end).ok_or(Stop::Bounds)?;
                    let new = names.insert(name);
                    flaws.note(NAMES, NAMES_EQUAL, || !new);
                }
                at = field.payload.end;
            }
        }
        // "each counted item is met at its depth before its bytes are looked for". Every item takes a byte or more, so
        // that a hostile count ends with the bytes.
        Some(count) => {
            for _ in 0..count {
                let item = check_field(bytes, at, contents.end, depth + 1, contents.form, flaws)?;
                ids.meet(item.kind);
                at = item.payload.end;
            }
            if at != contents.end {
                return Err(Stop::Bounds);
            }
        }
    }
    // "02 with a field, or 04 with an item not of 01, 0C, 0D, whose fields all have one ID"
    flaws.note(FORMAT, NOT_UNIFORM, || match (kind, ids) {
        (OBJECT, Ids::One(_)) => true,
        (ARRAY, Ids::One(id)) => !has_no_payload(id),
        _ => false,
    });
    Ok(())
}

/// The IDs met in a container.
#[derive(Clone, Copy, Default)]
enum Ids {
    #[default]
    None,
    One(u8),
    Several,
}

impl Ids {
    fn meet(&mut self, id: u8) {
        *self = match *self {
            Ids::None => Ids::One(id),
            Ids::One(before) if before == id => Ids::One(id),
            _ => Ids::Several,
        };
    }
}
