//! Places true and forged, last places, and names that nearly match, with the questions that these give.

use super::Random;
use crate::cases::Question;
use crate::independent::kinds::*;
use crate::independent::places::{check, step, top, Place, Step};

/// At most so many places are collected of a payload.
const MOST: usize = 200;

/// The places of a payload and the ranges of their names, as far as steps give them, parents before their fields.
pub fn places(bytes: &[u8]) -> Vec<(Place, usize, usize)> {
    let mut found = Vec::new();
    if let Ok(place) = top(bytes) {
        found.push((place, 0, 0));
    }
    let mut index = 0;
    while let Some((place, _, _)) = found.get(index).copied() {
        index += 1;
        let mut last = None;
        while let Ok(Step::Field(field, start, end)) = step(bytes, place, last) {
            if found.len() >= MOST {
                return found;
            }
            found.push((field, start, end));
            last = Some(field.end);
        }
    }
    found
}

/// A number for a start or an end: near 0, near the length, near another, near 2^64 - 1, or near an edge.
fn offset(random: &mut Random, length: usize, near: u64) -> u64 {
    let little = random.below(4) as u64;
    match random.below(8) {
        0 => little,
        1 => (length as u64).wrapping_add(little).wrapping_sub(2),
        2 => u64::MAX - little,
        3 => random.edge(),
        4 => random.below(length + 2) as u64,
        _ => near.wrapping_add(little).wrapping_sub(2),
    }
}

/// A place with one field or more changed.
pub fn forge(random: &mut Random, bytes: &[u8], place: Place) -> Place {
    let mut place = place;
    for _ in 0..random.between(1, 2) {
        match random.below(4) {
            0 => {
                place.kind = match random.below(4) {
                    0 => random.byte(),
                    1 => place.kind ^ *random.pick(&[0x40, 0x80, 0xC0, 0x01]),
                    _ => *random.pick(&ALL),
                }
            }
            1 => place.start = offset(random, bytes.len(), place.start),
            2 => place.end = offset(random, bytes.len(), place.end),
            _ => {
                place.depth = match random.below(4) {
                    0 => random.next() as u32,
                    _ => *random.pick(&[0, 1, 2, 3, 16, 30, 31, 32, 33, 34, 255, 256, 1 << 31, u32::MAX]),
                }
            }
        }
    }
    place
}

/// A place that no step gave: any kind, mostly a known one and often a uniform one, at any bytes of the payload, or at numbers
/// anywhere.
fn invented(random: &mut Random, bytes: &[u8]) -> Place {
    let kind = match random.below(8) {
        0 => random.byte(),
        1..=3 => *random.pick(&[UNIFORM_OBJECT, UNIFORM_ARRAY]),
        _ => *random.pick(&ALL),
    };
    let depth = if random.below(8) == 0 { random.next() as u32 } else { random.between(0, 34) as u32 };
    let (start, end) = match random.below(8) {
        0 => (offset(random, bytes.len(), 1), offset(random, bytes.len(), bytes.len() as u64)),
        1 => (random.next(), random.next()),
        2 => {
            let start = random.below(bytes.len() + 1);
            (start as u64, random.between(start, bytes.len()) as u64)
        }
        // A byte as a size that fits, so that what stands before the contents is reached.
        _ => {
            let starts: Vec<usize> =
                (0..bytes.len().min(MOST)).filter(|at| at + usize::from(bytes[*at]) < bytes.len()).collect();
            let start = if starts.is_empty() { 0 } else { *random.pick(&starts) };
            let size = bytes.get(start).map_or(0, |size| usize::from(*size));
            (start as u64, (start + 1 + size) as u64)
        }
    };
    Place { kind, start, end, depth }
}

/// A name to look up in a place: one that is there, nearly one, an empty one, or any of the payload.
fn name(random: &mut Random, bytes: &[u8], place: Place, places: &[(Place, usize, usize)]) -> Vec<u8> {
    let inside: Vec<_> = places
        .iter()
        .filter(|(field, _, _)| {
            place.start < field.start && field.end <= place.end && field.depth == place.depth.wrapping_add(1)
        })
        .collect();
    let range = match (inside.is_empty(), places.is_empty()) {
        (false, _) if random.below(5) != 0 => Some(**random.pick(&inside)),
        (_, false) => Some(*random.pick(places)),
        _ => None,
    };
    let mut name = range.and_then(|(_, start, end)| bytes.get(start..end)).unwrap_or(&[]).to_vec();
    match random.below(16) {
        0 => {
            if let Some(last) = name.last_mut() {
                *last ^= 1;
            }
        }
        1 => {
            if let Some(first) = name.first_mut() {
                *first ^= 0x20;
            }
        }
        2 if !name.is_empty() => {
            let at = random.below(name.len());
            name[at] ^= 1 << random.below(8);
        }
        3 => name.push(0),
        4 => {
            name.pop();
        }
        5 => name.clear(),
        // With the byte before it, or the one after it.
        6 => {
            if let Some((_, start, end)) = range {
                let longer = if random.below(2) == 0 { start.saturating_sub(1)..end } else { start..end + 1 };
                name = bytes.get(longer).map_or(name, <[u8]>::to_vec);
            }
        }
        7 => name.extend_from_within(..),
        _ => {}
    }
    name
}

/// One of the places, mostly of one of the kinds if there is any, and one time in three forged; or an invented one. If there
/// are no places, a forged one.
fn place(random: &mut Random, bytes: &[u8], found: &[(Place, usize, usize)], kinds: &[u8]) -> Place {
    if random.below(10) == 0 {
        return invented(random, bytes);
    }
    let fitting: Vec<_> = found.iter().filter(|(place, _, _)| kinds.contains(&place.kind)).collect();
    let place = match (fitting.is_empty(), found.is_empty()) {
        (false, _) if random.below(6) != 0 => random.pick(&fitting).0,
        (_, false) => random.pick(found).0,
        _ => {
            let end = bytes.len() as u64;
            Place { kind: *random.pick(&ALL), start: 1, end, depth: random.between(1, 32) as u32 }
        }
    };
    if random.below(3) == 0 {
        forge(random, bytes, place)
    } else {
        place
    }
}

/// Some questions about places of a payload: steps, views, lookups and values, of true places and of forged ones.
pub fn questions(random: &mut Random, bytes: &[u8], count: usize) -> Vec<Question> {
    let found = places(bytes);
    let containers = [OBJECT, UNIFORM_OBJECT, ARRAY, UNIFORM_ARRAY];
    let numbers = [INTEGER_POSITIVE, INTEGER_NEGATIVE, FLOAT32, FLOAT64];
    let mut questions = vec![Question::Top { bytes: bytes.to_vec() }];
    for _ in 0..count {
        let bytes = bytes.to_vec();
        questions.push(match random.below(12) {
            0..=3 => {
                let place = place(random, &bytes, &found, &containers);
                let last = last(random, &bytes, place, &found);
                Question::Step { bytes, place, last }
            }
            4 | 5 => Question::View { place: place(random, &bytes, &found, &ALL), bytes },
            6 | 7 => {
                let place = place(random, &bytes, &found, &containers[..2]);
                let name = name(random, &bytes, place, &found);
                Question::Lookup { bytes, place, name }
            }
            8 => Question::Double { place: place(random, &bytes, &found, &numbers), bytes },
            9 => Question::Signed { place: place(random, &bytes, &found, &numbers[..2]), bytes },
            10 => Question::Unsigned { place: place(random, &bytes, &found, &numbers[..2]), bytes },
            _ => Question::Ticks { place: place(random, &bytes, &found, &[DATE_TIME, TIME_SPAN]), bytes },
        });
    }
    questions
}

/// The end of a last place: none, one that a step gave, one of the contents' ends, or a forged one.
fn last(random: &mut Random, bytes: &[u8], place: Place, found: &[(Place, usize, usize)]) -> Option<u64> {
    let contents = check(bytes, place).ok().and_then(|payload| payload.contents);
    match random.below(8) {
        0 | 1 => None,
        2 => contents.map(|contents| contents.end as u64),
        3 => contents.map(|contents| offset(random, bytes.len(), contents.start as u64)),
        4 => contents.map(|contents| offset(random, bytes.len(), contents.end as u64)),
        5 => Some(offset(random, bytes.len(), place.end)),
        _ => match found.is_empty() {
            true => None,
            false => Some(random.pick(found).0.end),
        },
    }
}
