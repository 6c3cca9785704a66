//! Random trees: within the limits, or hostile ones with equal, empty and broken names, texts that are none, integers
//! below -2^63, and depths past 32.

use super::Random;
use crate::independent::kinds::*;
use crate::independent::tree::{Float, Tree};

/// Texts that are UTF-8, and nearly equal to one another.
const TEXTS: [&[u8]; 24] = [
    b"name",
    b"namf",
    b"nam",
    b"name ",
    b"Name",
    b"name\0",
    b"a",
    b"b",
    b"aa",
    b"x",
    b"id",
    b"last",
    b"heel_height",
    b"toe_spring",
    b"\xC3\xA4",
    b"\xC2\x80",
    b"\xDF\xBF",
    b"\xE0\xA0\x80",
    b"\xED\x9F\xBF",
    b"\xEE\x80\x80",
    b"\xEF\xBF\xBF",
    b"\xF0\x90\x80\x80",
    b"\xF4\x8F\xBF\xBF",
    b"Stra\xC3\x9Fe",
];

/// Bytes that are no UTF-8, each by another rule.
const NO_TEXTS: [&[u8]; 14] = [
    b"\x80",
    b"\xC3",
    b"\xC0\x80",
    b"\xC1\xBF",
    b"\xE0\x9F\xBF",
    b"\xED\xA0\x80",
    b"\xED\xBF\xBF",
    b"\xF0\x8F\xBF\xBF",
    b"\xF4\x90\x80\x80",
    b"\xF5\x80\x80\x80",
    b"\xFF",
    b"a\xE2\x82",
    b"\xC3\x28",
    b"name\xF0\x90\x80",
];

/// Lengths at which a size takes another byte.
const LENGTHS: [usize; 10] = [0, 1, 2, 20, 63, 126, 127, 128, 129, 255];

/// A text, UTF-8 if not hostile.
pub fn text(random: &mut Random, hostile: bool) -> Vec<u8> {
    let mut text = match random.below(8) {
        0 => Vec::new(),
        1 => vec![b'a' + random.below(26) as u8; *random.pick(&LENGTHS)],
        2 => (0..random.below(6)).flat_map(|_| random.pick(&TEXTS).to_vec()).collect(),
        _ => random.pick(&TEXTS).to_vec(),
    };
    if hostile && random.below(8) == 0 {
        let at = random.below(text.len() + 1);
        let broken = *random.pick(&NO_TEXTS);
        text.splice(at..at, broken.iter().copied());
    }
    text
}

/// A name that is not empty, or for a hostile tree perhaps empty or no text.
pub fn name(random: &mut Random, hostile: bool) -> Vec<u8> {
    let name = text(random, hostile);
    if name.is_empty() && !(hostile && random.below(3) == 0) {
        return random.pick(&TEXTS).to_vec();
    }
    name
}

/// A leaf of any kind.
pub fn leaf(random: &mut Random, hostile: bool) -> Tree {
    match random.below(16) {
        0 => Tree::Null,
        1 => Tree::Bool(false),
        2 => Tree::Bool(true),
        3 => {
            let length = *random.pick(&LENGTHS);
            Tree::Binary(random.bytes(length))
        }
        4 | 5 => Tree::String(text(random, hostile)),
        6 | 7 => Tree::Integer(i128::from(random.edge())),
        8 => {
            let magnitude = random.edge();
            Tree::Integer(-1 - i128::from(if hostile { magnitude } else { magnitude & ((1 << 63) - 1) }))
        }
        9 => Tree::Float(Float::of_32(random.float_bits())),
        10 | 11 => Tree::Float(Float::of_64(random.double_bits())),
        12 => {
            let length = random.below(4);
            Tree::CustomById(random.edge(), random.bytes(length))
        }
        13 => {
            let length = random.below(4);
            let name = text(random, hostile);
            Tree::CustomByName(name, random.bytes(length))
        }
        _ => {
            let kind = random.between(OBJECT_ATTACHMENT as usize, OBJECT_ID as usize) as u8;
            Tree::Fixed(kind, random.bytes(fixed_length(kind).unwrap_or(0)))
        }
    }
}

/// A leaf of the kind that another leaf has, so that uniform containers come up.
fn leaf_like(random: &mut Random, model: &Tree, hostile: bool) -> Tree {
    for _ in 0..12 {
        let other = leaf(random, hostile);
        if std::mem::discriminant(&other) == std::mem::discriminant(model) {
            return other;
        }
    }
    model.clone()
}

/// An object of these trees. Unless it is hostile, its names are unique: where one came before, it is made longer.
fn object(random: &mut Random, trees: Vec<Tree>, hostile: bool) -> Tree {
    let mut fields: Vec<(Vec<u8>, Tree)> = Vec::new();
    for (index, tree) in trees.into_iter().enumerate() {
        let mut name = name(random, hostile);
        if !hostile || random.below(4) != 0 {
            if let Some((before, _)) = fields.iter().find(|(before, _)| *before == name) {
                name = [before.as_slice(), index.to_string().as_bytes()].concat();
                // Longer names of the pool end in no digit, so that this one is new.
                name.push(b'_');
            }
        }
        fields.push((name, tree));
    }
    Tree::Object(fields)
}

fn container(random: &mut Random, trees: Vec<Tree>, hostile: bool) -> Tree {
    if random.below(2) == 0 {
        object(random, trees, hostile)
    } else {
        Tree::Array(trees)
    }
}

/// A tree of about so many fields.
fn mixed(random: &mut Random, fields: usize, depth: u32, hostile: bool) -> Tree {
    if fields <= 1 || depth == 0 {
        return match random.below(5) {
            0 => container(random, Vec::new(), hostile),
            _ => leaf(random, hostile),
        };
    }
    let mut trees = Vec::new();
    let mut left = fields - 1;
    let alike = random.below(3) == 0;
    while left > 0 {
        let share = random.between(1, left);
        let tree = match trees.first() {
            Some(first) if alike && !matches!(first, Tree::Object(_) | Tree::Array(_)) => {
                leaf_like(random, first, hostile)
            }
            _ => mixed(random, share, depth - 1, hostile),
        };
        trees.push(tree);
        left -= share;
    }
    container(random, trees, hostile)
}

/// Containers one in another, down to a depth, with some leaves beside them.
fn chain(random: &mut Random, depth: usize, hostile: bool) -> Tree {
    let mut tree = match random.below(3) {
        0 => container(random, Vec::new(), hostile),
        _ => leaf(random, hostile),
    };
    for _ in 1..depth {
        let mut trees = vec![tree];
        if random.below(4) == 0 {
            trees.push(leaf(random, hostile));
        }
        if random.below(6) == 0 {
            trees.insert(0, leaf(random, hostile));
        }
        tree = container(random, trees, hostile);
    }
    tree
}

/// A container of many leaves of one kind, or of all but one.
fn wide(random: &mut Random, hostile: bool) -> Tree {
    let model = leaf(random, hostile);
    let count = *random.pick(&[1, 2, 3, 5, 9, 40, 127, 128, 129, 200]);
    let mut trees: Vec<Tree> = (0..count).map(|_| leaf_like(random, &model, hostile)).collect();
    if random.below(3) == 0 {
        let at = random.below(count + 1);
        let other = leaf(random, hostile);
        trees.insert(at, other);
    }
    container(random, trees, hostile)
}

/// A tree whose encoding is near 65,536 bytes, a little more or less.
pub fn long(random: &mut Random) -> Tree {
    // A binary as the top field has 1 + 3 bytes before it, and each container and name around it some more.
    let length = 65_536 - 4 - random.below(24);
    let mut tree = match random.below(3) {
        0 => Tree::Binary(vec![0xFF; length]),
        1 => Tree::String(vec![b'a'; length]),
        _ => Tree::CustomById(5, vec![0; length]),
    };
    for _ in 0..random.below(3) {
        tree = container(random, vec![tree], false);
    }
    tree
}

/// A tree within the limits, but for its length now and then, if it is not hostile; else one with anything in it.
pub fn tree(random: &mut Random, hostile: bool) -> Tree {
    match random.below(100) {
        0..=9 => leaf(random, hostile),
        10..=21 => {
            let depth = if hostile { random.between(31, 34) } else { random.between(28, 32) };
            chain(random, depth, hostile)
        }
        22..=39 => wide(random, hostile),
        40..=42 => {
            let length = *random.pick(&[16_382_usize, 16_383, 16_384, 16_385]);
            let inner = Tree::Binary(vec![1; length - random.below(5)]);
            let beside = leaf(random, hostile);
            container(random, vec![inner, beside], hostile)
        }
        _ => {
            let fields = *random.pick(&[2, 3, 4, 6, 10, 20, 60]);
            mixed(random, fields, 6, hostile)
        }
    }
}
