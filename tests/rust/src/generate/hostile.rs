//! Inputs that make a call go deep or keep much: containers within one another to the deepest with many names at each level,
//! as many names as fit, names that are hard to tell apart, long ones, and such objects and payloads as the generators make.

use super::objects::{object, Value};
use super::{lists, payloads, Random};
use crate::independent::kinds::*;
use crate::independent::number::push_varuint;
use crate::independent::{DEPTH_LIMIT, LENGTH_LIMIT};

/// A payload and a write list, mostly of the same value.
pub struct Input {
    pub label: String,
    pub payload: Vec<u8>,
    pub list: Vec<u8>,
}

const SEED: u64 = 29;
/// An object's fields.
type Fields = Vec<(Vec<u8>, Value)>;

/// Inputs of each generator.
const GENERATED: u64 = 150;

fn null() -> Value {
    Value::Leaf(NULL, Vec::new())
}

fn shuffle<T>(list: &mut [T]) {
    let mut random = Random::new(SEED, list.len() as u64);
    for i in (1..list.len()).rev() {
        list.swap(i, random.below(i + 1));
    }
}

/// A number in letters, so many of so many from one byte on, so far apart.
fn spelled(mut number: usize, width: usize, first: u8, step: u8, letters: usize) -> Vec<u8> {
    let mut name = vec![first; width];
    for byte in name.iter_mut().rev() {
        *byte = first + step * (number % letters) as u8;
        number /= letters;
    }
    name
}

/// As many of these names as fit in so many bytes of a uniform object, or of a write list, shuffled, each a field of a null.
fn fields(names: impl Iterator<Item = Vec<u8>>, bytes: usize, list: bool) -> Fields {
    let mut left = bytes;
    let mut fields = Vec::new();
    for name in names {
        let taken =
            1 + usize::from(list) + name.len() + usize::from(name.len() > 127) + usize::from(name.len() > 16_383);
        if taken > left {
            break;
        }
        left -= taken;
        fields.push((name, null()));
    }
    shuffle(&mut fields);
    fields
}

fn letters(width: usize) -> impl Iterator<Item = Vec<u8>> {
    (0..26_usize.pow(width as u32)).map(move |number| spelled(number, width, b'a', 1, 26))
}

/// Each name but the last ones is told from those that follow by one byte that has one bit more, so that a part that is split by
/// its middle loses one name at a time.
fn one_by_one(length: usize, ends: usize) -> impl Iterator<Item = Vec<u8>> {
    let alone = (0..length - ends).flat_map(move |at| {
        (0..7).rev().map(move |bit| {
            let mut name = vec![0; length];
            name[at] = 1 << bit;
            name
        })
    });
    let rest = (1..1 << 14).map(move |number: usize| {
        let mut name = vec![0; length];
        name[length - ends - 2] = (number >> 7) as u8 & 0x7F;
        name[length - ends - 1] = number as u8 & 0x7F;
        name
    });
    // Those of the last two bytes that are also alone.
    alone.chain(rest.filter(move |name| name.iter().map(|byte| byte.count_ones()).sum::<u32>() > 1))
}

/// Containers around a value, one for each of so many levels. The form: 0 objects, 1 arrays, 2 by turns. An object has so many
/// names beside that of the next one, before it and behind.
fn within(inner: Value, levels: usize, form: usize, uniform: bool, names: usize) -> Value {
    (0..levels).fold(inner, |inner, level| {
        if form == 1 || form == 2 && level % 2 == 0 {
            return Value::Array(vec![inner]);
        }
        let kind = match &inner {
            Value::Array(_) => ARRAY,
            Value::Object(true, _) => UNIFORM_OBJECT,
            _ => OBJECT,
        };
        let mut fields: Fields = letters(3)
            .take(names)
            .map(|name| match (uniform, kind) {
                (false, _) => (name, null()),
                (true, ARRAY) => (name, Value::Array(Vec::new())),
                (true, UNIFORM_OBJECT) => (name, Value::Object(true, vec![(vec![b'a'], null())])),
                (true, _) => (name, Value::Object(false, Vec::new())),
            })
            .collect();
        shuffle(&mut fields);
        let middle = fields.len() / 2;
        fields.insert(middle, (b"inner".to_vec(), inner));
        Value::Object(uniform, fields)
    })
}

/// So many uniform arrays within one another, each the only item, and an integer in the innermost.
fn uniform_arrays(levels: usize) -> Vec<u8> {
    let mut contents = vec![0x01, INTEGER_POSITIVE, 5];
    let sized = |contents: &[u8], mut bytes: Vec<u8>| {
        push_varuint(&mut bytes, contents.len() as u64);
        [bytes.as_slice(), contents].concat()
    };
    for _ in 1..levels {
        contents = sized(&contents, vec![0x01, UNIFORM_ARRAY]);
    }
    sized(&contents, vec![UNIFORM_ARRAY])
}

/// All inputs.
pub fn inputs() -> Vec<Input> {
    let room = LENGTH_LIMIT - 64;
    let deepest = DEPTH_LIMIT as usize - 2;
    let mut values: Vec<(String, Value)> = Vec::new();
    let alike: [(&str, Fields); 10] = [
        ("most names", fields((0..=0xFFFF).map(|n: usize| vec![(n >> 8) as u8, n as u8]), room, false)),
        ("most names in a list", fields((0..0x4000).map(|n: usize| vec![(n >> 7) as u8, n as u8 & 0x7F]), room, true)),
        ("3 letters", fields(letters(3), room, true)),
        ("8 letters", fields(letters(4).map(|name| [name, b"same".to_vec()].concat()), room, true)),
        ("equal low halves", fields((0..1 << 12).map(|n| spelled(n, 4, 1, 16, 8)), room, true)),
        ("one by one, 24", fields(one_by_one(24, 4), room, true)),
        ("one by one, 90", fields(one_by_one(90, 4), room, true)),
        ("one by one, 6", fields(one_by_one(6, 4), room, true)),
        ("long fronts", fields((0..16).map(|n| [vec![b'f'; 4_000], vec![n, 1, 1, 1, 1]].concat()), room, true)),
        ("two long names", fields((0..2).map(|n| [vec![n], vec![b'f'; 32_000]].concat()), room, true)),
    ];
    for (label, fields) in alike {
        for twins in [false, true] {
            let mut fields = fields.clone();
            if twins {
                let middle = fields.len() / 2;
                fields[middle].0 = fields[0].0.clone();
            }
            let twins = if twins { ", twins" } else { "" };
            for uniform in [false, true] {
                // A list takes a byte more for each field.
                let name = format!("{label}{twins}{}", if uniform { ", uniform" } else { "" });
                let value = Value::Object(uniform, fields.clone());
                let mut fewer = fields.clone();
                fewer.truncate(fields.len() * 9 / 10);
                values.push((
                    format!("{name}, at depth 31"),
                    within(Value::Object(uniform, fewer), deepest, 0, false, 3),
                ));
                values.push((name, value));
            }
        }
    }
    for levels in [deepest, deepest + 1, deepest + 2, deepest + 3] {
        for form in 0..3 {
            for uniform in [false, true] {
                for names in [0, 1, 15, 16, 17, 40, 300, 400] {
                    let inner = Value::Object(false, fields(letters(3), 4 * names, true));
                    let label = format!(
                        "{levels} around, form {form}, {names} names each{}",
                        if uniform { ", uniform" } else { "" }
                    );
                    values.push((label, within(inner, levels, form, uniform, names)));
                }
            }
        }
    }
    let mut inputs: Vec<Input> = values
        .into_iter()
        .map(|(label, value)| Input { label, payload: value.payload(), list: value.list().bytes })
        .collect();
    inputs.push(Input { label: "uniform arrays".to_string(), payload: uniform_arrays(31), list: vec![ARRAY; 32] });
    inputs.push(Input {
        label: "uniform arrays, too deep".to_string(),
        payload: uniform_arrays(32),
        list: vec![ARRAY; 33],
    });
    inputs.push(Input { label: "empty".to_string(), payload: Vec::new(), list: Vec::new() });
    inputs.push(Input {
        label: "too long".to_string(),
        payload: vec![4; LENGTH_LIMIT + 1],
        list: vec![4; LENGTH_LIMIT + 1],
    });
    inputs.push(Input {
        label: "text".to_string(),
        payload: "Maße 鞋楦 ".repeat(4_000).into_bytes(),
        list: vec![0; 9],
    });
    for index in 0..GENERATED {
        let mut random = Random::new(SEED, index);
        let value = object(&mut random);
        inputs.push(Input { label: format!("object {index}"), payload: value.payload(), list: value.list().bytes });
        let (payload, list) = (payloads::payload(&mut random), lists::list(&mut random));
        inputs.push(Input { label: format!("generated {index}"), payload, list });
        let (payload, list) = (payloads::depth_edge(&mut random), lists::many_containers(&mut random));
        inputs.push(Input { label: format!("edge of depth {index}"), payload, list });
    }
    inputs
}
