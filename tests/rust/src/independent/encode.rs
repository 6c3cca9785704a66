//! "The encoding takes minimal VarUInts, Float32 where the float rule allows, 03 for an object with one or more fields of
//! one ID, 05 for an array with one or more items of one ID other than 01, 0C, 0D. Inner encodings settle the IDs first."

use super::float::narrow;
use super::kinds::*;
use super::number::push_varuint;
use super::tree::{Float, Tree};

/// The encoding of a tree, with the sizes of its containers in order of opening.
pub struct Encoding {
    pub bytes: Vec<u8>,
    pub sizes: Vec<usize>,
}

/// The encoding of any tree, within the limits or not. (An integer outside -2^64 to 2^64 - 1 has none; it is cut to these.)
pub fn encode(tree: &Tree) -> Encoding {
    let mut sizes = Vec::new();
    let field = encode_field(tree, &mut sizes);
    let mut bytes = vec![field.id];
    bytes.extend_from_slice(&field.payload);
    Encoding { bytes, sizes }
}

struct Encoded {
    id: u8,
    payload: Vec<u8>,
}

fn leaf(id: u8, payload: Vec<u8>) -> Encoded {
    Encoded { id, payload }
}

fn sized(id: u8, part: &[u8]) -> Encoded {
    let mut payload = Vec::with_capacity(part.len() + 3);
    push_varuint(&mut payload, part.len() as u64);
    payload.extend_from_slice(part);
    Encoded { id, payload }
}

/// The one ID of these encodings, if there are one or more and all have it.
fn one_id(encoded: &[Encoded]) -> Option<u8> {
    let first = encoded.first()?.id;
    encoded.iter().all(|other| other.id == first).then_some(first)
}

fn number(value: u64) -> Vec<u8> {
    let mut payload = Vec::new();
    push_varuint(&mut payload, value);
    payload
}

fn encode_field(tree: &Tree, sizes: &mut Vec<usize>) -> Encoded {
    match tree {
        Tree::Null => leaf(NULL, Vec::new()),
        Tree::Bool(false) => leaf(FALSE, Vec::new()),
        Tree::Bool(true) => leaf(TRUE, Vec::new()),
        Tree::Binary(bytes) => sized(BINARY, bytes),
        Tree::String(bytes) => sized(STRING, bytes),
        Tree::Integer(value) => {
            let id = if *value >= 0 { INTEGER_POSITIVE } else { INTEGER_NEGATIVE };
            let magnitude = if *value >= 0 { *value } else { -1 - *value };
            leaf(id, number(u64::try_from(magnitude).unwrap_or(u64::MAX)))
        }
        Tree::Float(Float::Nan32(bits)) => leaf(FLOAT32, bits.to_be_bytes().to_vec()),
        Tree::Float(Float::Nan64(bits)) => leaf(FLOAT64, bits.to_be_bytes().to_vec()),
        Tree::Float(Float::Number(bits)) => match narrow(*bits) {
            Some(narrow) => leaf(FLOAT32, narrow.to_be_bytes().to_vec()),
            None => leaf(FLOAT64, bits.to_be_bytes().to_vec()),
        },
        Tree::Fixed(kind, bytes) => leaf(*kind, bytes.clone()),
        Tree::CustomById(id, rest) => {
            let mut part = number(*id);
            part.extend_from_slice(rest);
            sized(CUSTOM_BY_ID, &part)
        }
        Tree::CustomByName(name, rest) => {
            let mut part = number(name.len() as u64);
            part.extend_from_slice(name);
            part.extend_from_slice(rest);
            sized(CUSTOM_BY_NAME, &part)
        }
        Tree::Object(fields) => {
            let opened = sizes.len();
            sizes.push(0);
            let encoded: Vec<Encoded> = fields.iter().map(|(_, tree)| encode_field(tree, sizes)).collect();
            let shared = one_id(&encoded);
            let mut part = Vec::new();
            part.extend(shared.map(|id| id | SHARED_FIELD_FLAGS));
            for ((name, _), field) in fields.iter().zip(&encoded) {
                if shared.is_none() {
                    part.push(field.id | FIELD_FLAGS);
                }
                push_varuint(&mut part, name.len() as u64);
                part.extend_from_slice(name);
                part.extend_from_slice(&field.payload);
            }
            sizes[opened] = part.len();
            sized(if shared.is_some() { UNIFORM_OBJECT } else { OBJECT }, &part)
        }
        Tree::Array(items) => {
            let opened = sizes.len();
            sizes.push(0);
            let encoded: Vec<Encoded> = items.iter().map(|tree| encode_field(tree, sizes)).collect();
            let shared = one_id(&encoded).filter(|id| !has_no_payload(*id));
            let mut part = number(items.len() as u64);
            part.extend(shared);
            for item in &encoded {
                if shared.is_none() {
                    part.push(item.id | ITEM_FLAGS);
                }
                part.extend_from_slice(&item.payload);
            }
            sizes[opened] = part.len();
            sized(if shared.is_some() { UNIFORM_ARRAY } else { ARRAY }, &part)
        }
    }
}
