//! A walk by steps: from the top place into every container, and what it shows.

use crate::cases::Answer;
use crate::independent::kinds::*;
use crate::independent::number::{read_big_endian, read_varuint};
use crate::independent::places::{Place, Refused};
use crate::independent::tree::{Float, Tree};
use crate::reading::Reading;

/// What a walk shows: the places and the ranges of the names, in the order in which they were met, each container before its
/// fields; and the tree, or the first answer that no walk through a sound payload gets.
#[derive(Debug, PartialEq, Eq)]
pub struct Walk {
    pub fields: Vec<(Place, u64, u64)>,
    pub tree: Result<Tree, Answer>,
}

/// The walk through a payload by the answers of one who is asked.
pub fn walk(payload: &[u8], ask: &dyn Fn(Reading) -> Answer) -> Walk {
    let mut fields = Vec::new();
    let tree = match ask(Reading::Top) {
        Answer::Place(place) => shown(payload, place, ask, &mut fields),
        other => Err(other),
    };
    Walk { fields, tree }
}

fn broken<T>(how: impl Into<String>) -> Result<T, Answer> {
    Err(Answer::Broken(how.into()))
}

/// The value that a place is read by, None where it is out of range.
fn value(answer: Answer) -> Result<Option<i128>, Answer> {
    match answer {
        Answer::Value(value) => Ok(Some(value)),
        Answer::Refused(Refused::OutOfRange) => Ok(None),
        other => Err(other),
    }
}

/// The tree of a place: its value by the call for its kind, or else by its view; and its fields by steps up to "no more".
fn shown(
    payload: &[u8],
    place: Place,
    ask: &dyn Fn(Reading) -> Answer,
    fields: &mut Vec<(Place, u64, u64)>,
) -> Result<Tree, Answer> {
    let (start, end) = match ask(Reading::View(place)) {
        Answer::View(start, end) => (start as usize, end as usize),
        other => return Err(other),
    };
    let Some(part) = payload.get(start..end) else { return broken("a view outside the payload") };
    // What a VarUInt at the front of the view says, and what follows it.
    let split = || match read_varuint(part) {
        Ok(number) => Ok((number.value, &part[number.taken..])),
        Err(_) => broken("no VarUInt"),
    };
    Ok(match place.kind {
        NULL => Tree::Null,
        FALSE => Tree::Bool(false),
        TRUE => Tree::Bool(true),
        OBJECT | UNIFORM_OBJECT => Tree::Object(steps(payload, place, ask, fields)?),
        ARRAY | UNIFORM_ARRAY => {
            Tree::Array(steps(payload, place, ask, fields)?.into_iter().map(|(_, tree)| tree).collect())
        }
        BINARY => Tree::Binary(part.to_vec()),
        STRING => Tree::String(part.to_vec()),
        INTEGER_POSITIVE => match value(ask(Reading::Unsigned(place)))? {
            Some(value) => Tree::Integer(value),
            None => return broken("no 64-bit number"),
        },
        INTEGER_NEGATIVE => match value(ask(Reading::Signed(place)))? {
            Some(value) => Tree::Integer(value),
            None => Tree::Integer(-1 - i128::from(split()?.0)),
        },
        FLOAT32 | FLOAT64 => match value(ask(Reading::Double(place)))? {
            // A NaN's width and bits are in the view.
            Some(bits) if !f64::from_bits(bits as u64).is_nan() => Tree::Float(Float::Number(bits as u64)),
            Some(_) => match (read_big_endian(part), place.kind) {
                (Some(bits), FLOAT32) => Tree::Float(Float::of_32(bits as u32)),
                (Some(bits), _) => Tree::Float(Float::of_64(bits)),
                (None, _) => return broken("no float"),
            },
            None => return broken("a float out of range"),
        },
        DATE_TIME | TIME_SPAN => match value(ask(Reading::Ticks(place)))? {
            Some(ticks) => Tree::Fixed(place.kind, (ticks as i64).to_be_bytes().to_vec()),
            None => return broken("ticks out of range"),
        },
        CUSTOM_BY_ID => {
            let (id, rest) = split()?;
            Tree::CustomById(id, rest.to_vec())
        }
        CUSTOM_BY_NAME => {
            let (length, after) = split()?;
            if length > after.len() as u64 {
                return broken("a custom's name outside its view");
            }
            let (name, rest) = after.split_at(length as usize);
            Tree::CustomByName(name.to_vec(), rest.to_vec())
        }
        kind => Tree::Fixed(kind, part.to_vec()),
    })
}

/// The fields of a container with their names.
fn steps(
    payload: &[u8],
    place: Place,
    ask: &dyn Fn(Reading) -> Answer,
    fields: &mut Vec<(Place, u64, u64)>,
) -> Result<Vec<(Vec<u8>, Tree)>, Answer> {
    let mut named = Vec::new();
    let mut last = None;
    loop {
        let (field, start, end) = match ask(Reading::Step(place, last)) {
            Answer::Field(field, start, end) => (field, start, end),
            Answer::NoMore => return Ok(named),
            other => return Err(other),
        };
        if field.depth != place.depth + 1 {
            return broken("a field that is not one deeper");
        }
        // Every field has a byte of its own, so that more of them would have no end.
        if fields.len() > payload.len() {
            return broken("more fields than bytes");
        }
        fields.push((field, start, end));
        let Some(name) = payload.get(start as usize..end as usize) else {
            return broken("a name outside the payload");
        };
        named.push((name.to_vec(), shown(payload, field, ask, fields)?));
        last = Some(field.end);
    }
}
