//! Payloads: canonical encodings, untidy ones, ones with lies in their sizes, counts and type bytes, and damaged bytes.

use super::{trees, Random};
use crate::independent::encode::encode;
use crate::independent::kinds::*;
use crate::independent::number::{minimal_length, push_varuint, push_varuint_of_length};
use crate::independent::tree::{Float, Tree};
use crate::independent::{float, LENGTH_LIMIT};

/// How untidy an encoding is: the share, of a thousand, of each way.
#[derive(Clone, Copy, Default)]
pub struct Untidy {
    /// VarUInts longer than minimal.
    pub long: u32,
    /// 02 and 04 where 03 and 05 are due.
    pub loose: u32,
    /// Float64 where Float32 holds.
    pub wide: u32,
    /// Sizes, counts, name lengths, type bytes and shared bytes that are not true.
    pub lies: u32,
}

struct Writer<'a> {
    random: &'a mut Random,
    untidy: Untidy,
}

impl Writer<'_> {
    fn number(&mut self, output: &mut Vec<u8>, value: u64) {
        let mut length = minimal_length(value);
        if self.random.per_mille(self.untidy.long) {
            length = self.random.between(length, 9);
        }
        push_varuint_of_length(output, value, length);
    }

    /// A size, a count or a length, that may be a lie: near the true one, near an edge, or anything.
    fn measure(&mut self, output: &mut Vec<u8>, value: usize) {
        let mut value = value as u64;
        if self.random.per_mille(self.untidy.lies) {
            value = match self.random.below(6) {
                0 => value.wrapping_add(1),
                1 => value.wrapping_sub(1),
                2 => value.wrapping_add(self.random.below(9) as u64).wrapping_sub(4),
                3 => 0,
                4 => u64::MAX - self.random.below(70) as u64,
                _ => self.random.edge(),
            };
        }
        self.number(output, value);
    }

    fn type_byte(&mut self, output: &mut Vec<u8>, id: u8, flags: u8) {
        let mut byte = id | flags;
        if self.random.per_mille(self.untidy.lies / 2) {
            byte = match self.random.below(4) {
                0 => id | *self.random.pick(&[0x00, 0x40, 0x80, 0xC0]),
                1 => flags | *self.random.pick(&[0x00, 0x15, 0x1D, 0x20, 0x21, 0x3F]),
                2 => flags | *self.random.pick(&ALL),
                _ => self.random.byte(),
            };
        }
        output.push(byte);
    }

    fn sized(&mut self, part: &[u8]) -> Vec<u8> {
        let mut payload = Vec::with_capacity(part.len() + 9);
        self.measure(&mut payload, part.len());
        payload.extend_from_slice(part);
        payload
    }

    /// Whether a container of these IDs is written uniform, and by which ID.
    fn shared(&mut self, ids: &[u8], allowed: impl Fn(u8) -> bool) -> Option<u8> {
        if self.random.per_mille(self.untidy.lies / 4) {
            // A uniform container that may not be one.
            return Some(ids.first().copied().unwrap_or(*self.random.pick(&ALL)));
        }
        let first = *ids.first()?;
        let due = ids.iter().all(|id| *id == first) && allowed(first);
        (due && !self.random.per_mille(self.untidy.loose)).then_some(first)
    }

    fn field(&mut self, tree: &Tree) -> (u8, Vec<u8>) {
        let mut payload = Vec::new();
        let id = match tree {
            Tree::Null => NULL,
            Tree::Bool(false) => FALSE,
            Tree::Bool(true) => TRUE,
            Tree::Binary(bytes) => {
                payload = self.sized(bytes);
                BINARY
            }
            Tree::String(bytes) => {
                payload = self.sized(bytes);
                STRING
            }
            Tree::Integer(value) => {
                let magnitude = if *value >= 0 { *value } else { -1 - *value };
                self.number(&mut payload, magnitude as u64);
                if *value >= 0 {
                    INTEGER_POSITIVE
                } else {
                    INTEGER_NEGATIVE
                }
            }
            Tree::Float(Float::Nan32(bits)) => {
                payload.extend_from_slice(&bits.to_be_bytes());
                FLOAT32
            }
            Tree::Float(Float::Nan64(bits)) => {
                payload.extend_from_slice(&bits.to_be_bytes());
                FLOAT64
            }
            Tree::Float(Float::Number(bits)) => match float::narrow(*bits) {
                Some(narrow) if !self.random.per_mille(self.untidy.wide) => {
                    payload.extend_from_slice(&narrow.to_be_bytes());
                    FLOAT32
                }
                _ => {
                    payload.extend_from_slice(&bits.to_be_bytes());
                    FLOAT64
                }
            },
            Tree::Fixed(kind, bytes) => {
                payload.extend_from_slice(bytes);
                *kind
            }
            Tree::CustomById(id, rest) => {
                let mut part = Vec::new();
                self.number(&mut part, *id);
                part.extend_from_slice(rest);
                payload = self.sized(&part);
                CUSTOM_BY_ID
            }
            Tree::CustomByName(name, rest) => {
                let mut part = Vec::new();
                self.measure(&mut part, name.len());
                part.extend_from_slice(name);
                part.extend_from_slice(rest);
                payload = self.sized(&part);
                CUSTOM_BY_NAME
            }
            Tree::Object(fields) => {
                let encoded: Vec<_> = fields.iter().map(|(_, tree)| self.field(tree)).collect();
                let ids: Vec<u8> = encoded.iter().map(|(id, _)| *id).collect();
                let shared = self.shared(&ids, |_| true);
                let mut part = Vec::new();
                if let Some(id) = shared {
                    self.type_byte(&mut part, id, SHARED_FIELD_FLAGS);
                }
                for ((name, _), (id, payload)) in fields.iter().zip(&encoded) {
                    if shared.is_none() {
                        self.type_byte(&mut part, *id, FIELD_FLAGS);
                    }
                    self.measure(&mut part, name.len());
                    part.extend_from_slice(name);
                    part.extend_from_slice(payload);
                }
                payload = self.sized(&part);
                if shared.is_some() {
                    UNIFORM_OBJECT
                } else {
                    OBJECT
                }
            }
            Tree::Array(items) => {
                let encoded: Vec<_> = items.iter().map(|tree| self.field(tree)).collect();
                let ids: Vec<u8> = encoded.iter().map(|(id, _)| *id).collect();
                let shared = self.shared(&ids, |id| !has_no_payload(id));
                let mut part = Vec::new();
                self.measure(&mut part, items.len());
                if let Some(id) = shared {
                    self.type_byte(&mut part, id, 0);
                }
                for (id, payload) in &encoded {
                    if shared.is_none() {
                        self.type_byte(&mut part, *id, ITEM_FLAGS);
                    }
                    part.extend_from_slice(payload);
                }
                payload = self.sized(&part);
                if shared.is_some() {
                    UNIFORM_ARRAY
                } else {
                    ARRAY
                }
            }
        };
        (id, payload)
    }
}

/// An untidy encoding of a tree.
pub fn untidy(random: &mut Random, tree: &Tree, untidy: Untidy) -> Vec<u8> {
    let mut writer = Writer { random, untidy };
    let (id, payload) = writer.field(tree);
    let mut bytes = Vec::new();
    writer.type_byte(&mut bytes, id, 0);
    bytes.extend_from_slice(&payload);
    bytes
}

/// Shares of untidiness: none of one way, some, or all.
fn untidiness(random: &mut Random) -> Untidy {
    let shares = [0, 0, 30, 200, 1000];
    Untidy { long: *random.pick(&shares), loose: *random.pick(&shares), wide: *random.pick(&shares), lies: 0 }
}

/// A payload around some depth, from the inside: what stands innermost is a leaf, an empty or a broken container, and
/// each container around it is of another form. The innermost field has the depth.
pub fn depth_edge(random: &mut Random) -> Vec<u8> {
    let innermost: [(u8, &[u8]); 27] = [
        (NULL, &[]),
        (INTEGER_POSITIVE, &[5]),
        (STRING, &[1, b'a']),
        (OBJECT, &[0]),
        (OBJECT, &[1, 0xC1]),
        (OBJECT, &[2, 0xD5, 0]),
        (OBJECT, &[4, 0xC8, 1, b'a', 5]),
        (UNIFORM_OBJECT, &[0]),
        (UNIFORM_OBJECT, &[1, 0x95]),
        (UNIFORM_OBJECT, &[1, 8]),
        (UNIFORM_OBJECT, &[1, 0x88]),
        (UNIFORM_OBJECT, &[4, 8, 1, b'a', 5]),
        (UNIFORM_OBJECT, &[4, 0x48, 1, b'a', 5]),
        (UNIFORM_OBJECT, &[4, 0x88, 1, b'a', 5]),
        (UNIFORM_OBJECT, &[4, 0xC8, 1, b'a', 5]),
        (ARRAY, &[0]),
        (ARRAY, &[1, 0]),
        (ARRAY, &[1, 1]),
        (ARRAY, &[2, 1, 0x41]),
        (ARRAY, &[9, 0xFF, 255, 255, 255, 255, 255, 255, 255, 255]),
        (ARRAY, &[2, 0, 0x41]),
        (UNIFORM_ARRAY, &[1, 0]),
        (UNIFORM_ARRAY, &[2, 0, 8]),
        (UNIFORM_ARRAY, &[2, 1, 8]),
        (UNIFORM_ARRAY, &[2, 1, 13]),
        (UNIFORM_ARRAY, &[3, 1, 8, 5]),
        (UNIFORM_ARRAY, &[3, 1, 0x88, 5]),
    ];
    let (id, payload) = *random.pick(&innermost);
    let (mut id, mut payload) = (id, payload.to_vec());
    let depth = random.between(30, 34);
    for _ in 1..depth {
        let mut part = Vec::new();
        let around = *random.pick(&[OBJECT, UNIFORM_OBJECT, ARRAY, UNIFORM_ARRAY]);
        let around = if around == UNIFORM_ARRAY && has_no_payload(id) { ARRAY } else { around };
        match around {
            OBJECT => part.extend_from_slice(&[id | FIELD_FLAGS, 1, b'n']),
            UNIFORM_OBJECT => part.extend_from_slice(&[id | SHARED_FIELD_FLAGS, 1, b'n']),
            ARRAY => part.extend_from_slice(&[1, id | ITEM_FLAGS]),
            _ => part.extend_from_slice(&[1, id]),
        }
        part.extend_from_slice(&payload);
        payload.clear();
        push_varuint(&mut payload, part.len() as u64);
        payload.extend_from_slice(&part);
        id = around;
    }
    let mut bytes = vec![id];
    bytes.extend_from_slice(&payload);
    bytes
}

/// Bytes that mean something somewhere.
const TELLING: [u8; 45] = [
    0x00, 0x01, 0x02, 0x03, 0x04, 0x05, 0x06, 0x07, 0x08, 0x09, 0x0A, 0x0B, 0x0C, 0x0D, 0x0E, 0x11, 0x13, 0x14, 0x15,
    0x1E, 0x1F, 0x20, 0x3F, 0x41, 0x42, 0x44, 0x45, 0x48, 0x61, 0x7F, 0x80, 0x81, 0x82, 0x83, 0x84, 0x88, 0x8D, 0xC0,
    0xC1, 0xC2, 0xC3, 0xC4, 0xC8, 0xFE, 0xFF,
];

/// A few telling bytes.
pub fn few(random: &mut Random) -> Vec<u8> {
    (0..random.below(14)).map(|_| *random.pick(&TELLING)).collect()
}

/// Damages bytes in one to three ways: bits flipped, bytes changed, put in, taken out, cut off or added, or the bytes
/// spliced with others.
pub fn damage(random: &mut Random, bytes: &mut Vec<u8>, other: &[u8]) {
    for _ in 0..random.between(1, 3) {
        let at = random.below(bytes.len() + 1);
        match random.below(9) {
            0 | 1 => {
                if let Some(byte) = bytes.get_mut(at) {
                    *byte ^= 1 << random.below(8);
                }
            }
            2 => {
                if let Some(byte) = bytes.get_mut(at) {
                    *byte = *random.pick(&TELLING);
                }
            }
            3 => {
                if let Some(byte) = bytes.get_mut(at) {
                    *byte = byte.wrapping_add(if random.below(2) == 0 { 1 } else { 255 });
                }
            }
            4 => bytes.insert(at, *random.pick(&TELLING)),
            5 => {
                if at < bytes.len() {
                    bytes.remove(at);
                }
            }
            6 => bytes.truncate(at),
            7 => bytes.extend(few(random)),
            _ => {
                let from = random.below(other.len() + 1);
                bytes.truncate(at);
                bytes.extend_from_slice(other.get(from..).unwrap_or(&[]));
            }
        }
    }
}

/// A payload of any sort.
pub fn payload(random: &mut Random) -> Vec<u8> {
    let mut bytes = match random.below(100) {
        0..=21 => encode(&trees::tree(random, false)).bytes,
        22..=29 => encode(&trees::tree(random, true)).bytes,
        30..=54 => {
            let hostile = random.below(2) == 0;
            let tree = trees::tree(random, hostile);
            let how = untidiness(random);
            untidy(random, &tree, how)
        }
        55..=74 => {
            let hostile = random.below(2) == 0;
            let tree = trees::tree(random, hostile);
            let how = Untidy { lies: *random.pick(&[10, 30, 100]), ..untidiness(random) };
            untidy(random, &tree, how)
        }
        75..=83 => depth_edge(random),
        84..=98 => few(random),
        _ => encode(&trees::long(random)).bytes,
    };
    match random.below(12) {
        0..=2 => {
            let hostile = random.below(2) == 0;
            let other = encode(&trees::tree(random, hostile)).bytes;
            damage(random, &mut bytes, &other);
        }
        3 => bytes.extend(few(random)),
        4 if random.below(20) == 0 => bytes.resize(LENGTH_LIMIT - 1 + random.below(4), 0),
        _ => {}
    }
    bytes
}
