//! Write lists of trees and damaged ones, so that every refusal is frequent; lengths of output and work numbers around the
//! edges; and the program's input.

use super::{payloads, trees, Random};
use crate::cases::Question;
use crate::independent::encode::encode;
use crate::independent::float;
use crate::independent::kinds::*;
use crate::independent::number::{minimal_length, push_varuint, push_varuint_of_length};
use crate::independent::program::WORK_NUMBERS;
use crate::independent::tree::{Float, Tree};
use crate::independent::write::tree_of_list;
use crate::independent::LENGTH_LIMIT;

/// A frame in its parts, so that each can be changed.
#[derive(Clone, Debug)]
pub struct Frame {
    pub kind: u8,
    pub name: Option<Vec<u8>>,
    pub payload: Vec<u8>,
}

impl Frame {
    fn push(&self, list: &mut Vec<u8>) {
        list.push(self.kind);
        if let Some(name) = &self.name {
            push_varuint(list, name.len() as u64);
            list.extend_from_slice(name);
        }
        list.extend_from_slice(&self.payload);
    }
}

/// The frames of a tree. A float that Float32 holds may stand as 0A or as 0B.
pub fn frames(random: &mut Random, tree: &Tree) -> Vec<Frame> {
    let mut frames = Vec::new();
    push_frames(random, &mut frames, None, tree);
    frames
}

fn sized(part: &[u8]) -> Vec<u8> {
    let mut payload = Vec::new();
    push_varuint(&mut payload, part.len() as u64);
    payload.extend_from_slice(part);
    payload
}

fn push_frames(random: &mut Random, frames: &mut Vec<Frame>, name: Option<Vec<u8>>, tree: &Tree) {
    let mut payload = Vec::new();
    let kind = match tree {
        Tree::Object(_) => OBJECT,
        Tree::Array(_) => ARRAY,
        Tree::Float(Float::Number(bits)) => match float::narrow(*bits) {
            Some(narrow) if random.below(2) == 0 => {
                payload.extend_from_slice(&narrow.to_be_bytes());
                FLOAT32
            }
            _ => {
                payload.extend_from_slice(&bits.to_be_bytes());
                FLOAT64
            }
        },
        Tree::CustomByName(name, rest) => {
            let mut part = sized(name);
            part.extend_from_slice(rest);
            payload = sized(&part);
            CUSTOM_BY_NAME
        }
        // A leaf's payload in a list is that of its encoding.
        leaf => {
            let encoding = encode(leaf).bytes;
            payload.extend_from_slice(&encoding[1..]);
            encoding[0]
        }
    };
    frames.push(Frame { kind, name, payload });
    match tree {
        Tree::Object(fields) => {
            for (name, tree) in fields {
                push_frames(random, frames, Some(name.clone()), tree);
            }
        }
        Tree::Array(items) => {
            for tree in items {
                push_frames(random, frames, None, tree);
            }
        }
        _ => return,
    }
    frames.push(Frame { kind: 0, name: None, payload: Vec::new() });
}

/// The list of frames.
pub fn list_of(frames: &[Frame]) -> Vec<u8> {
    let mut list = Vec::new();
    for frame in frames {
        frame.push(&mut list);
    }
    list
}

/// Changes one thing of the frames, each change aiming at one refusal.
fn spoil(random: &mut Random, frames: &mut Vec<Frame>) {
    let at = random.below(frames.len());
    let close = Frame { kind: 0, name: None, payload: Vec::new() };
    match random.below(15) {
        // 1: the list ends early, between frames.
        0 => frames.truncate(at),
        // 2: a bad kind.
        1 => frames[at].kind = *random.pick(&[0x03, 0x05, 0x15, 0x1D, 0x20, 0x42, 0x88, 0xC8, 0xFF]),
        // 2: a frame that is cut inside.
        2 => {
            frames[at].payload.pop();
        }
        // 2: a number that is not minimal, at the front of a payload or of what a size counts.
        3 => {
            let number = random.edge();
            let mut payload = Vec::new();
            push_varuint_of_length(&mut payload, number, minimal_length(number) + 1);
            let kind = *random.pick(&[INTEGER_POSITIVE, INTEGER_NEGATIVE, CUSTOM_BY_ID, CUSTOM_BY_NAME]);
            let payload = if kind >= CUSTOM_BY_ID { sized(&payload) } else { payload };
            frames[at] = Frame { kind, payload, name: frames[at].name.clone() };
        }
        // 2: 09 with a large M.
        4 => {
            let mut payload = Vec::new();
            push_varuint(&mut payload, (1 << 63) - 1 + random.below(3) as u64);
            frames[at] = Frame { kind: INTEGER_NEGATIVE, payload, name: frames[at].name.clone() };
        }
        // 3: an empty name.
        5 => {
            if let Some(name) = named(random, frames) {
                name.clear();
            }
        }
        // 4: the name of the frame before, which mostly is one of the same object.
        6 => {
            let pairs: Vec<usize> =
                (1..frames.len()).filter(|at| frames[*at].name.is_some() && frames[*at - 1].name.is_some()).collect();
            if !pairs.is_empty() {
                let at = *random.pick(&pairs);
                frames[at].name = frames[at - 1].name.clone();
            }
        }
        // 4: a name used in the same object or in another.
        7 => {
            let names: Vec<Vec<u8>> = frames.iter().filter_map(|frame| frame.name.clone()).collect();
            if !names.is_empty() {
                let other = random.pick(&names).clone();
                if let Some(name) = named(random, frames) {
                    *name = other;
                }
            }
        }
        // 5: a name, a string or a custom name that is no text.
        8 => {
            let text = trees::text(random, true);
            match random.below(3) {
                0 => frames[at] = Frame { kind: STRING, payload: sized(&text), name: frames[at].name.clone() },
                1 => {
                    let payload = sized(&sized(&text));
                    frames[at] = Frame { kind: CUSTOM_BY_NAME, payload, name: frames[at].name.clone() };
                }
                _ => {
                    if let Some(name) = named(random, frames) {
                        *name = text;
                    }
                }
            }
        }
        // 6: containers put in, so that the depth grows.
        9 => {
            let count = if random.below(3) == 0 { random.between(1, 33) } else { random.between(29, 33) };
            let name = frames[at].name.clone();
            for index in 0..count {
                let name = if index == 0 { name.clone() } else { None };
                frames.insert(at + index, Frame { kind: ARRAY, name, payload: Vec::new() });
            }
            if let Some(inner) = frames.get_mut(at + count) {
                inner.name = None;
            }
            let end = random.between(at + count, frames.len());
            for _ in 0..count {
                frames.insert(end.min(frames.len()), close.clone());
            }
        }
        // 7 and 8: a close put in.
        10 => frames.insert(at, close),
        // 8: frames after the top field.
        11 => {
            let again = frames[at].clone();
            frames.push(again);
        }
        // A frame twice, taken out, or another's name on it.
        12 => {
            let again = frames[at].clone();
            frames.insert(at, again);
        }
        13 => {
            // A close as often as any other.
            let closes: Vec<usize> = (0..frames.len()).filter(|at| frames[*at].kind == 0).collect();
            let at = if closes.is_empty() || random.below(2) == 0 { at } else { *random.pick(&closes) };
            frames.remove(at);
        }
        _ => {
            frames[at].name = match frames[at].name {
                None => Some(trees::name(random, true)),
                Some(_) => None,
            }
        }
    }
}

/// The name of one of the frames that have one.
fn named<'a>(random: &mut Random, frames: &'a mut [Frame]) -> Option<&'a mut Vec<u8>> {
    let mut names: Vec<&mut Vec<u8>> = frames.iter_mut().filter_map(|frame| frame.name.as_mut()).collect();
    if names.is_empty() {
        return None;
    }
    let at = random.below(names.len());
    Some(names.swap_remove(at))
}

/// A write list of any sort.
pub fn list(random: &mut Random) -> Vec<u8> {
    match random.below(200) {
        // 7, 1 and other refusals at the front.
        0..=9 => return payloads::few(random),
        // 9, and lists that are just not too long.
        10 | 11 => {
            let tree = trees::long(random);
            let mut list = list_of(&frames(random, &tree));
            if random.below(2) == 0 {
                list.resize(LENGTH_LIMIT - 1 + random.below(4), 0);
            }
            return list;
        }
        // 11: an encoding that is longer than its list, and one that just fits.
        12 => {
            // 65,536 bytes are those of 32,764 empty arrays, or of 21,842 and three nulls beside them.
            let count = *random.pick(&[16_382, 16_383, 21_841, 21_842, 21_843, 32_763, 32_764, 32_765, 32_767]);
            let mut list = vec![ARRAY];
            list.extend((0..count).flat_map(|_| [ARRAY, 0]));
            list.extend((0..random.below(6)).map(|_| NULL));
            list.push(0);
            return list;
        }
        13 => return many_names(random),
        _ => {}
    }
    let hostile = random.below(5) == 0;
    let tree = trees::tree(random, hostile);
    let mut frames = frames(random, &tree);
    if random.below(2) == 0 {
        for _ in 0..random.between(1, 2) {
            if !frames.is_empty() {
                spoil(random, &mut frames);
            }
        }
    }
    let mut list = list_of(&frames);
    if random.below(8) == 0 {
        let other = trees::tree(random, false);
        let other = list_of(&self::frames(random, &other));
        payloads::damage(random, &mut list, &other);
    }
    list
}

/// An object of as many short names as some 1,536 bytes hold, and now and then one of them twice.
fn many_names(random: &mut Random) -> Vec<u8> {
    let length = 1_530 + random.below(12);
    let frame = |kind, name| Frame { kind, name, payload: Vec::new() };
    let mut frames = vec![frame(OBJECT, None)];
    // The object's frame and its close.
    let mut taken = 2;
    let ones = (0..128).map(|a| vec![a]);
    let twos = (0..128).flat_map(|a| (0..128).map(move |b| vec![a, b]));
    for mut name in ones.chain(twos) {
        // The last takes all that is left.
        let rest: usize = length - taken;
        if rest < 8 {
            name.resize(rest - 2, b'x');
        }
        taken += 2 + name.len();
        frames.push(frame(*random.pick(&[NULL, TRUE]), Some(name)));
        if taken == length {
            break;
        }
    }
    if random.below(2) == 0 {
        let (a, b) = (random.between(1, frames.len() - 1), random.between(1, frames.len() - 1));
        frames[a].name = frames[b].name.clone();
    }
    frames.push(frame(0, None));
    list_of(&frames)
}

/// The lengths around one: it, one less and one more, and zero.
fn around(length: usize) -> Vec<usize> {
    let mut lengths = vec![0, length.saturating_sub(1), length, length + 1];
    lengths.dedup();
    lengths
}

/// Questions about a list: lengths of output and work numbers that are ample, and around what it needs. Of a short list now
/// and then all lengths around, each with each.
pub fn questions(random: &mut Random, list: &[u8]) -> Vec<Question> {
    let (length, containers) = match tree_of_list(list) {
        Ok(tree) => {
            let encoding = encode(&tree);
            (encoding.bytes.len(), encoding.sizes.len())
        }
        Err(_) => (list.len(), random.below(6)),
    };
    let question = |output_length, work_length| Question::Write { list: list.to_vec(), output_length, work_length };
    if list.len() < 200 && random.below(8) == 0 {
        let lengths = around(length)
            .into_iter()
            .flat_map(|output| around(containers).into_iter().map(move |work| (output, work)));
        return lengths.map(|(output, work)| question(output, work)).collect();
    }
    let mut questions = Vec::new();
    for _ in 0..2 {
        let output_length = match random.below(6) {
            0 => length.saturating_sub(1),
            1 => length,
            2 => length + 1,
            3 => *random.pick(&[0, 1, LENGTH_LIMIT - 1, LENGTH_LIMIT, LENGTH_LIMIT + 1, 70_000]),
            _ => length + random.below(40),
        };
        let work_length = match random.below(6) {
            0 => containers.saturating_sub(1),
            1 => containers,
            2 => containers + 1,
            3 => 0,
            _ => containers + random.below(10),
        };
        questions.push(question(output_length, work_length));
    }
    questions
}

/// The program's input for a list: hexadecimal with line feeds anywhere, and now and then another character or an odd
/// number of digits.
pub fn input(random: &mut Random, list: &[u8]) -> Vec<u8> {
    let feeds = *random.pick(&[0, 20, 200, 500]);
    let mut input = Vec::with_capacity(2 * list.len() + 8);
    for byte in list {
        for digit in [byte >> 4, byte & 15] {
            input.push(b"0123456789abcdef"[usize::from(digit)]);
            if random.per_mille(feeds) {
                input.push(b'\n');
            }
        }
    }
    input.push(b'\n');
    if random.below(4) == 0 {
        let at = random.below(input.len() + 1);
        match random.below(3) {
            0 => input.insert(at, *random.pick(b"0123456789abcdef")),
            1 => input.insert(at, *random.pick(b"A\r \tFgx\0G/:`\xFF")),
            _ => input.truncate(at),
        }
    }
    input
}

/// The program lends so many work numbers; a list of more containers than that is refusal 10.
pub fn many_containers(random: &mut Random) -> Vec<u8> {
    let count = WORK_NUMBERS - 3 + random.below(5);
    let mut list = vec![ARRAY];
    list.extend((0..count).flat_map(|_| [ARRAY, 0]));
    list.push(0);
    list
}
