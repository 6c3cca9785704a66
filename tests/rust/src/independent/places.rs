//! "Places, views": the top place, the check of a place, steps, views and lookup.

use super::kinds::{is_known, is_object};
use super::payload::*;
use super::{DEPTH_LIMIT, LENGTH_LIMIT};

/// "A place is a small value: kind, start, end (of the field's payload), depth". Its numbers may be forged.
#[derive(Clone, Copy, Debug, PartialEq, Eq)]
pub struct Place {
    pub kind: u8,
    pub start: u64,
    pub end: u64,
    pub depth: u32,
}

/// Why a call gives no place, view or value.
#[derive(Clone, Copy, Debug, PartialEq, Eq)]
pub enum Refused {
    Fault(u32),
    WrongKind,
    NotThere,
    OutOfRange,
}

impl From<Stop> for Refused {
    fn from(stop: Stop) -> Refused {
        Refused::Fault(stop.value())
    }
}

/// What a step gives.
#[derive(Clone, Copy, Debug, PartialEq, Eq)]
pub enum Step {
    /// A field's place and the range of its name, "empty for an item" and then at its payload's start.
    Field(Place, usize, usize),
    NoMore,
}

fn place_of(field: &Field, depth: u32) -> Place {
    Place { kind: field.kind, start: field.payload.start as u64, end: field.payload.end as u64, depth }
}

/// "The top place is read at byte 0 as a step reads a field, with depth 1."
pub fn top(bytes: &[u8]) -> Result<Place, Refused> {
    if bytes.len() > LENGTH_LIMIT {
        return Err(Stop::Length.into());
    }
    let field = read_field(bytes, 0, bytes.len(), Form::Top, &mut Flaws::asked(0))?;
    Ok(place_of(&field, 1))
}

/// "Places can be forged, so each call checks in this order: long input 8; start past end or end past the input 1; depth 0
/// or past 32 is 4; unknown kind 2; all before the contents by the mask's order, as if the input stopped at end; payload
/// not ending there 1."
pub fn check(bytes: &[u8], place: Place) -> Result<Payload, Stop> {
    if bytes.len() > LENGTH_LIMIT {
        return Err(Stop::Length);
    }
    if place.start > place.end || place.end > bytes.len() as u64 {
        return Err(Stop::Bounds);
    }
    if place.depth == 0 || place.depth > DEPTH_LIMIT {
        return Err(Stop::Depth);
    }
    if !is_known(place.kind) {
        return Err(Stop::Type);
    }
    let (start, end) = (place.start as usize, place.end as usize);
    let payload = read_payload(bytes, place.kind, start, end, &mut Flaws::asked(0))?;
    if payload.end != end {
        return Err(Stop::Bounds);
    }
    Ok(payload)
}

/// "A step takes a container's place and the last place it gave, of which only the end counts, or none for the contents'
/// start, and meets the next field there (1 if outside the contents) by the mask's order up to its contents, .. or 'no
/// more' where the contents end; on a leaf, 'wrong kind'."
pub fn step(bytes: &[u8], place: Place, last: Option<u64>) -> Result<Step, Refused> {
    let payload = check(bytes, place)?;
    let contents = payload.contents.ok_or(Refused::WrongKind)?;
    let at = match last {
        None => contents.start,
        Some(end) => {
            usize::try_from(end).ok().filter(|end| (contents.start..=contents.end).contains(end)).ok_or(Stop::Bounds)?
        }
    };
    if at == contents.end {
        return Ok(Step::NoMore);
    }
    let depth = place.depth + 1;
    if depth > DEPTH_LIMIT {
        return Err(Stop::Depth.into());
    }
    let field = read_field(bytes, at, contents.end, contents.form, &mut Flaws::asked(0))?;
    Ok(Step::Field(place_of(&field, depth), field.name_start, field.name_end))
}

/// "A view is the named part of the caller's payload, unchanged: .. a place's payload after its size if it has one."
pub fn view(bytes: &[u8], place: Place) -> Result<(usize, usize), Refused> {
    let payload = check(bytes, place)?;
    Ok((payload.after_size, payload.end))
}

/// "Lookup by name steps to the first field byte-equal to it, or answers 'not there'; a fault met on the way is the
/// answer; on a kind that is no object, 'wrong kind'."
pub fn lookup(bytes: &[u8], place: Place, name: &[u8]) -> Result<Place, Refused> {
    check(bytes, place)?;
    if !is_object(place.kind) {
        return Err(Refused::WrongKind);
    }
    let mut last = None;
    loop {
        match step(bytes, place, last)? {
            Step::NoMore => return Err(Refused::NotThere),
            Step::Field(field, name_start, name_end) => {
                if bytes.get(name_start..name_end) == Some(name) {
                    return Ok(field);
                }
                last = Some(field.end);
            }
        }
    }
}
