//! The reading calls as one would write them in Rust without further thought: slices that get shorter, a `Result` with the
//! answer's number for a refusal. Every call checks its place, as the library's do.

use crate::parts::{fixed, is_bare, is_known, Form, Reader};

/// What the calls answer where they meet no fault; the numbers are the library's.
pub const NO_MORE: u32 = 3;
pub const NOT_THERE: u32 = 5;
pub const WRONG_KIND: u32 = 6;
pub const OUT_OF_RANGE: u32 = 7;

#[derive(Clone, Copy, Debug, PartialEq, Eq)]
pub struct Place {
    pub kind: u8,
    pub start: usize,
    pub end: usize,
    pub depth: u32,
}

/// A payload that was read up to its contents.
enum Opened<'a> {
    /// The bytes of a kind that always has the same number of them.
    Fixed(&'a [u8]),
    /// The M of an integer.
    Integer(u64),
    /// Any other leaf.
    Sized,
    Container(Reader<'a>, Form),
}

/// The payload of a known kind, up to its contents.
fn payload_of<'a>(reader: &mut Reader<'a>, kind: u8) -> Result<Opened<'a>, u32> {
    if let Some(length) = fixed(kind) {
        return Ok(Opened::Fixed(reader.take(length)?));
    }
    if matches!(kind, 0x08 | 0x09) {
        return Ok(Opened::Integer(reader.number()?.0));
    }
    let (size, _) = reader.number()?;
    let mut part = Reader { rest: reader.take(size)? };
    match kind {
        0x02 => Ok(Opened::Container(part, Form::Typed { flags: 0xC0, named: true })),
        0x03 => {
            let id = part.shared(0x80)?;
            if part.rest.is_empty() {
                return Err(2048);
            }
            Ok(Opened::Container(part, Form::Shared { id, named: true }))
        }
        0x04 => {
            part.number()?;
            Ok(Opened::Container(part, Form::Typed { flags: 0x40, named: false }))
        }
        0x05 => {
            let (count, _) = part.number()?;
            let id = part.shared(0)?;
            if count == 0 || is_bare(id) {
                return Err(2048);
            }
            Ok(Opened::Container(part, Form::Shared { id, named: false }))
        }
        0x1E => {
            part.number()?;
            Ok(Opened::Sized)
        }
        0x1F => {
            let (length, _) = part.number()?;
            part.take(length)?;
            Ok(Opened::Sized)
        }
        _ => Ok(Opened::Sized),
    }
}

/// A field or item up to its contents, in a part that ends there: its place, its name, and where that begins.
fn field_of<'a>(reader: &mut Reader<'a>, form: Form, depth: u32, end: usize) -> Result<(Place, &'a [u8], usize), u32> {
    let (kind, named) = reader.kind(form)?;
    let mut name: &[u8] = &[];
    if named {
        let (length, _) = reader.number()?;
        name = reader.take(length)?;
    }
    let start = end - reader.rest.len();
    payload_of(reader, kind)?;
    Ok((Place { kind, start, end: end - reader.rest.len(), depth }, name, start - name.len()))
}

/// The check of a place.
fn open(payload: &[u8], place: Place) -> Result<Opened<'_>, u32> {
    if payload.len() > 65_536 {
        return Err(8);
    }
    let part = payload.get(place.start..place.end).ok_or(1_u32)?;
    if place.depth == 0 || place.depth > 32 {
        return Err(4);
    }
    if !is_known(place.kind) {
        return Err(2);
    }
    let mut reader = Reader { rest: part };
    let opened = payload_of(&mut reader, place.kind)?;
    if !reader.rest.is_empty() {
        return Err(1);
    }
    Ok(opened)
}

pub fn top(payload: &[u8]) -> Result<Place, u32> {
    if payload.len() > 65_536 {
        return Err(8);
    }
    let mut reader = Reader { rest: payload };
    let (place, _, _) = field_of(&mut reader, Form::Typed { flags: 0, named: false }, 1, payload.len())?;
    Ok(place)
}

/// The next field and where its name begins.
pub fn step(payload: &[u8], place: Place, last: Option<usize>) -> Result<(Place, usize), u32> {
    let Opened::Container(mut contents, form) = open(payload, place)? else { return Err(WRONG_KIND) };
    if let Some(last) = last {
        let over = last.checked_sub(place.end - contents.rest.len()).ok_or(1_u32)?;
        contents.take(over as u64)?;
    }
    if contents.rest.is_empty() {
        return Err(NO_MORE);
    }
    if place.depth == 32 {
        return Err(4);
    }
    let (field, _, name) = field_of(&mut contents, form, place.depth + 1, place.end)?;
    Ok((field, name))
}

pub fn lookup(payload: &[u8], place: Place, name: &[u8]) -> Result<Place, u32> {
    let Opened::Container(mut contents, form) = open(payload, place)? else { return Err(WRONG_KIND) };
    if !matches!(place.kind, 0x02 | 0x03) {
        return Err(WRONG_KIND);
    }
    while !contents.rest.is_empty() {
        if place.depth == 32 {
            return Err(4);
        }
        let (field, met, _) = field_of(&mut contents, form, place.depth + 1, place.end)?;
        if met == name {
            return Ok(field);
        }
    }
    Err(NOT_THERE)
}

/// The bits of a number as a double.
pub fn double(payload: &[u8], place: Place) -> Result<u64, u32> {
    match (place.kind, open(payload, place)?) {
        (0x0A, Opened::Fixed(part)) => {
            let bits = u32::from_be_bytes(part.try_into().map_err(|_| 1_u32)?);
            let value = f32::from_bits(bits);
            if value.is_nan() {
                // A cast would make it quiet.
                return Ok(u64::from(bits >> 31) << 63 | 2047 << 52 | u64::from(bits & 0x7F_FFFF) << 29);
            }
            Ok(f64::from(value).to_bits())
        }
        (0x0B, Opened::Fixed(part)) => Ok(u64::from_be_bytes(part.try_into().map_err(|_| 1_u32)?)),
        (0x08, Opened::Integer(number)) if number <= 1 << 53 => Ok((number as f64).to_bits()),
        (0x09, Opened::Integer(number)) if number < 1 << 53 => Ok((-1.0 - number as f64).to_bits()),
        (0x08 | 0x09, _) => Err(OUT_OF_RANGE),
        _ => Err(WRONG_KIND),
    }
}

#[cfg(test)]
mod tests {
    use ajuqvane_tests::cases::Answer;
    use ajuqvane_tests::generate::{payloads, places, Random};
    use ajuqvane_tests::independent::places::{Place, Refused};
    use ajuqvane_tests::reading::Reading;

    fn refused(number: u32) -> Answer {
        match number {
            super::NO_MORE => Answer::NoMore,
            super::NOT_THERE => Answer::Refused(Refused::NotThere),
            super::WRONG_KIND => Answer::Refused(Refused::WrongKind),
            super::OUT_OF_RANGE => Answer::Refused(Refused::OutOfRange),
            fault => Answer::Refused(Refused::Fault(fault)),
        }
    }

    fn ours(place: Place) -> super::Place {
        super::Place { kind: place.kind, start: place.start as usize, end: place.end as usize, depth: place.depth }
    }

    fn theirs(place: super::Place) -> Place {
        Place { kind: place.kind, start: place.start as u64, end: place.end as u64, depth: place.depth }
    }

    /// What is measured does what the library does: it agrees with the independent implementation.
    #[test]
    fn agrees_with_the_independent_implementation() {
        for index in 0..50_000 {
            let mut random = Random::new(29, index);
            let payload = payloads::payload(&mut random);
            for question in places::questions(&mut random, &payload, 12) {
                let Some((_, reading)) = question.reading() else { continue };
                let answer = match reading {
                    Reading::Top => super::top(&payload).map(|place| Answer::Place(theirs(place))),
                    Reading::Step(place, last) => super::step(&payload, ours(place), last.map(|last| last as usize))
                        .map(|(field, name)| Answer::Field(theirs(field), name as u64, field.start as u64)),
                    Reading::Lookup(place, name) => {
                        super::lookup(&payload, ours(place), name).map(|place| Answer::Place(theirs(place)))
                    }
                    Reading::Double(place) => {
                        super::double(&payload, ours(place)).map(|bits| Answer::Value(i128::from(bits)))
                    }
                    _ => continue,
                };
                assert_eq!(answer.unwrap_or_else(refused), reading.by_independent(&payload), "{question}");
            }
        }
    }
}
