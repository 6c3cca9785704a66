//! "Trees": the kinds without their spellings, the tree of a payload, and the limits.

use std::collections::HashSet;

use super::encode::encode;
use super::kinds::*;
use super::number::read_big_endian;
use super::payload::{read_field, Flaws};
use super::payload::{Field, Form};
use super::text::is_text;
use super::{float, DEPTH_LIMIT, LENGTH_LIMIT};

/// "A float is its binary64 pattern if no NaN, else width and bits."
#[derive(Clone, Copy, Debug, PartialEq, Eq)]
pub enum Float {
    Number(u64),
    Nan32(u32),
    Nan64(u64),
}

impl Float {
    pub fn of_32(bits: u32) -> Float {
        if float::is_nan32(bits) {
            Float::Nan32(bits)
        } else {
            Float::Number(float::widen(bits))
        }
    }

    pub fn of_64(bits: u64) -> Float {
        if float::is_nan64(bits) {
            Float::Nan64(bits)
        } else {
            Float::Number(bits)
        }
    }
}

/// "Kinds as above, but 02 and 03 are one kind, 04 and 05 one, 08 and 09 one, 0A and 0B one, False and True one."
#[derive(Clone, Debug, PartialEq, Eq)]
pub enum Tree {
    Null,
    Bool(bool),
    Object(Vec<(Vec<u8>, Tree)>),
    Array(Vec<Tree>),
    Binary(Vec<u8>),
    String(Vec<u8>),
    Integer(i128),
    Float(Float),
    /// 0E to 14: a kind whose payload is so many bytes.
    Fixed(u8, Vec<u8>),
    CustomById(u64, Vec<u8>),
    CustomByName(Vec<u8>, Vec<u8>),
}

impl Tree {
    /// The depth of its deepest field, its own being 1.
    pub fn depth(&self) -> u32 {
        match self {
            Tree::Object(fields) => 1 + fields.iter().map(|(_, tree)| tree.depth()).max().unwrap_or(0),
            Tree::Array(items) => 1 + items.iter().map(Tree::depth).max().unwrap_or(0),
            _ => 1,
        }
    }

    pub fn containers(&self) -> usize {
        match self {
            Tree::Object(fields) => 1 + fields.iter().map(|(_, tree)| tree.containers()).sum::<usize>(),
            Tree::Array(items) => 1 + items.iter().map(Tree::containers).sum::<usize>(),
            _ => 0,
        }
    }

    /// "Trees within the limits have non-empty UTF-8 field names, unique in each object, UTF-8 strings, UTF-8 custom names
    /// (these may be empty), integers from -2^63 to 2^64 - 1, depth 32 and 65,536 encoded bytes at most."
    pub fn is_within_limits(&self) -> bool {
        self.has_sound_parts() && self.depth() <= DEPTH_LIMIT && encode(self).bytes.len() <= LENGTH_LIMIT
    }

    fn has_sound_parts(&self) -> bool {
        match self {
            Tree::Null | Tree::Bool(_) | Tree::Binary(_) | Tree::CustomById(..) => true,
            Tree::Object(fields) => {
                let mut names = HashSet::new();
                fields.iter().all(|(name, tree)| {
                    !name.is_empty() && is_text(name) && names.insert(name) && tree.has_sound_parts()
                })
            }
            Tree::Array(items) => items.iter().all(Tree::has_sound_parts),
            Tree::String(string) => is_text(string),
            Tree::Integer(value) => (-(1 << 63)..1 << 64).contains(value),
            Tree::Float(Float::Number(bits)) => !float::is_nan64(*bits),
            Tree::Float(Float::Nan32(bits)) => float::is_nan32(*bits),
            Tree::Float(Float::Nan64(bits)) => float::is_nan64(*bits),
            Tree::Fixed(kind, bytes) => {
                matches!(*kind, OBJECT_ATTACHMENT..=OBJECT_ID) && fixed_length(*kind) == Some(bytes.len())
            }
            Tree::CustomByName(name, _) => is_text(name),
        }
    }
}

/// The tree of a payload that the bounds check passes; bytes after the top field are no part of it. None for any other.
pub fn tree_of(bytes: &[u8]) -> Option<Tree> {
    if bytes.len() > LENGTH_LIMIT {
        return None;
    }
    field_tree(bytes, 0, bytes.len(), 1, Form::Top).map(|(_, tree)| tree)
}

fn field_tree(bytes: &[u8], at: usize, end: usize, depth: u32, form: Form) -> Option<(Field, Tree)> {
    if depth > DEPTH_LIMIT {
        return None;
    }
    let field = read_field(bytes, at, end, form, &mut Flaws::asked(0)).ok()?;
    let payload = field.payload;
    let part = bytes.get(payload.after_size..payload.end)?;
    let rest = bytes.get(payload.rest..payload.end)?;
    let tree = match field.kind {
        NULL => Tree::Null,
        FALSE => Tree::Bool(false),
        TRUE => Tree::Bool(true),
        OBJECT | UNIFORM_OBJECT => {
            let contents = payload.contents?;
            let mut fields = Vec::new();
            let mut at = contents.start;
            while at < contents.end {
                let (inner, tree) = field_tree(bytes, at, contents.end, depth + 1, contents.form)?;
                fields.push((bytes.get(inner.name_start..inner.name_end)?.to_vec(), tree));
                at = inner.payload.end;
            }
            Tree::Object(fields)
        }
        ARRAY | UNIFORM_ARRAY => {
            let contents = payload.contents?;
            let mut items = Vec::new();
            let mut at = contents.start;
            for _ in 0..contents.count? {
                let (inner, tree) = field_tree(bytes, at, contents.end, depth + 1, contents.form)?;
                items.push(tree);
                at = inner.payload.end;
            }
            if at != contents.end {
                return None;
            }
            Tree::Array(items)
        }
        BINARY => Tree::Binary(part.to_vec()),
        STRING => Tree::String(part.to_vec()),
        INTEGER_POSITIVE => Tree::Integer(i128::from(payload.number)),
        INTEGER_NEGATIVE => Tree::Integer(-1 - i128::from(payload.number)),
        FLOAT32 => Tree::Float(Float::of_32(read_big_endian(part)? as u32)),
        FLOAT64 => Tree::Float(Float::of_64(read_big_endian(part)?)),
        CUSTOM_BY_ID => Tree::CustomById(payload.number, rest.to_vec()),
        CUSTOM_BY_NAME => {
            let length = usize::try_from(payload.number).ok()?;
            Tree::CustomByName(bytes.get(payload.rest.checked_sub(length)?..payload.rest)?.to_vec(), rest.to_vec())
        }
        kind => Tree::Fixed(kind, part.to_vec()),
    };
    Some((field, tree))
}
