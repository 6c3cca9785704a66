//! "The write list": the writer, its refusals and their order.

use std::collections::HashSet;

use super::encode::encode;
use super::kinds::*;
use super::number::{read_big_endian, read_varuint};
use super::text::is_text;
use super::tree::{Float, Tree};
use super::{DEPTH_LIMIT, LENGTH_LIMIT};

/// A refusal by its number, and its place in the list.
#[derive(Clone, Copy, Debug, PartialEq, Eq)]
pub struct Refusal {
    pub number: u32,
    pub place: usize,
}

fn refuse<T>(number: u32, place: usize) -> Result<T, Refusal> {
    Err(Refusal { number, place })
}

/// Writes the encoding of a list into the output. "Success answers the encoding's length and leaves output past it
/// untouched"; the work numbers then "hold the sizes as encoded, in order of opening, the rest zero". "A refusal zeroes all
/// work numbers"; that it leaves all of the output untouched is not in document 01 but in docs/DECISIONS.md, 33.
pub fn write(list: &[u8], output: &mut [u8], work: &mut [u32]) -> Result<usize, Refusal> {
    work.fill(0);
    let tree = tree_of_list(list)?;
    let encoding = encode(&tree);
    if work.len() < encoding.sizes.len() {
        return refuse(10, 0);
    }
    let length = encoding.bytes.len();
    if length > LENGTH_LIMIT {
        return refuse(11, 0);
    }
    let Some(target) = output.get_mut(..length) else { return refuse(11, 0) };
    target.copy_from_slice(&encoding.bytes);
    for (number, size) in work.iter_mut().zip(&encoding.sizes) {
        *number = *size as u32;
    }
    Ok(length)
}

/// A container that is open.
enum Open {
    Object { fields: Vec<(Vec<u8>, Tree)>, names: HashSet<Vec<u8>>, own: Vec<u8> },
    Array { items: Vec<Tree>, own: Vec<u8> },
}

/// "Order: 9; then the first faulty frame, by 8, 7, 6, kind 2, name 2, 3, 5, 4, payload 2, 5; then 1".
pub fn tree_of_list(list: &[u8]) -> Result<Tree, Refusal> {
    if list.len() > LENGTH_LIMIT {
        return refuse(9, 0);
    }
    let mut open: Vec<Open> = Vec::new();
    let mut top: Option<Tree> = None;
    let mut at = 0;
    while let Some(kind) = list.get(at).copied() {
        let frame = at;
        // "frame after the top field is complete"
        if top.is_some() {
            return refuse(8, frame);
        }
        at += 1;
        if kind == 0x00 {
            // "close with none open"; "00 closes the innermost and has nothing after it".
            let (name, tree) = match open.pop() {
                None => return refuse(7, frame),
                Some(Open::Object { fields, own, .. }) => (own, Tree::Object(fields)),
                Some(Open::Array { items, own }) => (own, Tree::Array(items)),
            };
            place_in(&mut open, &mut top, name, tree);
            continue;
        }
        // "field at depth 33 (a close is no field)": with 32 open, a field stands at depth 33.
        if open.len() >= DEPTH_LIMIT as usize {
            return refuse(6, frame);
        }
        // "03 and 05 are no writable kinds."
        if !is_known(kind) || kind == UNIFORM_OBJECT || kind == UNIFORM_ARRAY {
            return refuse(2, frame);
        }
        let mut reader = Frame { list, at, frame };
        let mut name = Vec::new();
        if let Some(Open::Object { names, .. }) = open.last_mut() {
            let length = reader.number()?;
            let bytes = reader.bytes(length)?;
            if bytes.is_empty() {
                return refuse(3, frame);
            }
            if !is_text(bytes) {
                return refuse(5, frame);
            }
            if !names.insert(bytes.to_vec()) {
                return refuse(4, frame);
            }
            name = bytes.to_vec();
        }
        match kind {
            OBJECT => open.push(Open::Object { fields: Vec::new(), names: HashSet::new(), own: name }),
            ARRAY => open.push(Open::Array { items: Vec::new(), own: name }),
            _ => {
                let tree = reader.leaf(kind)?;
                place_in(&mut open, &mut top, name, tree);
            }
        }
        at = reader.at;
    }
    // "list ends with no field or an open container"
    match top {
        Some(tree) => Ok(tree),
        None => refuse(1, list.len()),
    }
}

fn place_in(open: &mut [Open], top: &mut Option<Tree>, name: Vec<u8>, tree: Tree) {
    match open.last_mut() {
        None => *top = Some(tree),
        Some(Open::Object { fields, .. }) => fields.push((name, tree)),
        Some(Open::Array { items, .. }) => items.push(tree),
    }
}

/// A frame while it is read: "cut frame, VarUInt not minimal" are refusal 2 at its first byte.
struct Frame<'a> {
    list: &'a [u8],
    at: usize,
    frame: usize,
}

impl<'a> Frame<'a> {
    fn number(&mut self) -> Result<u64, Refusal> {
        match self.list.get(self.at..).and_then(|rest| read_varuint(rest).ok()) {
            Some(number) if number.minimal => {
                self.at += number.taken;
                Ok(number.value)
            }
            _ => refuse(2, self.frame),
        }
    }

    fn bytes(&mut self, length: u64) -> Result<&'a [u8], Refusal> {
        let rest = self.list.get(self.at..).unwrap_or(&[]);
        match usize::try_from(length).ok().and_then(|length| rest.get(..length)) {
            Some(bytes) => {
                self.at += bytes.len();
                Ok(bytes)
            }
            None => refuse(2, self.frame),
        }
    }

    fn leaf(&mut self, kind: u8) -> Result<Tree, Refusal> {
        if let Some(length) = fixed_length(kind) {
            let bytes = self.bytes(length as u64)?;
            return Ok(match kind {
                NULL => Tree::Null,
                FALSE => Tree::Bool(false),
                TRUE => Tree::Bool(true),
                FLOAT32 => Tree::Float(Float::of_32(read_big_endian(bytes).unwrap_or(0) as u32)),
                FLOAT64 => Tree::Float(Float::of_64(read_big_endian(bytes).unwrap_or(0))),
                _ => Tree::Fixed(kind, bytes.to_vec()),
            });
        }
        let number = self.number()?;
        match kind {
            INTEGER_POSITIVE => return Ok(Tree::Integer(i128::from(number))),
            // "09 with M of 2^63 or more"
            INTEGER_NEGATIVE if number >= 1 << 63 => return refuse(2, self.frame),
            INTEGER_NEGATIVE => return Ok(Tree::Integer(-1 - i128::from(number))),
            _ => {}
        }
        let part = self.bytes(number)?;
        // "a custom's id, name length or name that passes its size makes a cut frame"
        let mut inner = Frame { list: part, at: 0, frame: self.frame };
        match kind {
            BINARY => Ok(Tree::Binary(part.to_vec())),
            STRING if !is_text(part) => refuse(5, self.frame),
            STRING => Ok(Tree::String(part.to_vec())),
            CUSTOM_BY_ID => {
                let id = inner.number()?;
                Ok(Tree::CustomById(id, part.get(inner.at..).unwrap_or(&[]).to_vec()))
            }
            CUSTOM_BY_NAME => {
                let length = inner.number()?;
                let name = inner.bytes(length)?;
                if !is_text(name) {
                    return refuse(5, self.frame);
                }
                Ok(Tree::CustomByName(name.to_vec(), part.get(inner.at..).unwrap_or(&[]).to_vec()))
            }
            _ => refuse(2, self.frame),
        }
    }
}
