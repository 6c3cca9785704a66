//! Objects full of names, shuffled, as the contents of an object: for each field a type byte, a length byte and the name, and no
//! payload. And contents of uniform objects, without the type bytes, that are hard to search.

use std::collections::HashSet;
use std::fmt;

use ajuqvane_tests::generate::Random;

const SEED: u64 = 23;

/// How the names are made from numbers.
#[derive(Clone, Copy, PartialEq, Eq)]
pub enum Names {
    /// So many letters.
    Letters(usize),
    /// Five letters, and then always the same eight.
    SameEnd,
    /// So many bytes whose low halves are always the same, so that all marks are equal.
    SameMarks(usize),
}

impl fmt::Display for Names {
    fn fmt(&self, f: &mut fmt::Formatter<'_>) -> fmt::Result {
        match self {
            Names::Letters(length) => write!(f, "{length} letters"),
            Names::SameEnd => f.write_str("same last 8 bytes"),
            Names::SameMarks(length) => write!(f, "{length} bytes, equal marks"),
        }
    }
}

fn letters(mut number: usize, length: usize) -> Vec<u8> {
    let mut name = vec![b'a'; length];
    for letter in name.iter_mut().rev() {
        *letter = b'a' + (number % 26) as u8;
        number /= 26;
    }
    name
}

impl Names {
    fn name(self, number: usize) -> Vec<u8> {
        match self {
            Names::Letters(length) => letters(number, length),
            Names::SameEnd => [letters(number, 5), b"constant".to_vec()].concat(),
            Names::SameMarks(length) => (0..length).rev().map(|at| (number >> (4 * at) << 4) as u8 | 1).collect(),
        }
    }

    /// How many there are.
    fn most(self) -> usize {
        match self {
            Names::Letters(length) => 26_usize.saturating_pow(length as u32),
            Names::SameEnd => 26_usize.pow(5),
            Names::SameMarks(length) => 1 << (4 * length),
        }
    }
}

/// The contents of an object, the frames that describe them, and how many names they have.
pub struct Contents {
    pub bytes: Vec<u8>,
    pub frames: Vec<u8>,
    pub names: usize,
}

fn shuffle<T>(list: &mut [T]) {
    let mut random = Random::new(SEED, list.len() as u64);
    for i in (1..list.len()).rev() {
        list.swap(i, random.below(i + 1));
    }
}

/// As many names as fit in so many bytes, each that of a null.
pub fn contents(names: Names, most: usize) -> Contents {
    let count = names.most().min(most / (2 + names.name(0).len()));
    let mut numbers: Vec<usize> = (0..count).collect();
    shuffle(&mut numbers);
    let mut contents = Contents { bytes: Vec::new(), frames: Vec::new(), names: count };
    for number in numbers {
        let name = names.name(number);
        for (bytes, kind) in [(&mut contents.bytes, 0xC1), (&mut contents.frames, 0x01)] {
            bytes.extend([kind, name.len() as u8]);
            bytes.extend(&name);
        }
    }
    contents
}

/// Contents of uniform objects that take the search long, each as large as fits in so many bytes.
pub fn hostile(most: usize) -> Vec<(String, Contents)> {
    let mut hostile = Vec::new();
    // The most names that all differ.
    let short = (0..=2)
        .flat_map(|length| (0..1_usize << (8 * length)).map(move |number| number.to_be_bytes()[8 - length..].to_vec()));
    hostile.push(("up to 2 bytes, any".to_string(), uniform(short, most)));
    let pairs = (0..1 << 16).map(|number: usize| number.wrapping_mul(40_503).to_be_bytes()[6..].to_vec());
    hostile.push(("2 bytes, any".to_string(), uniform(pairs, most)));
    let ascii =
        (0..1 << 21).map(|number: usize| [number >> 14, number >> 7, number].map(|byte| byte as u8 & 127).to_vec());
    hostile.push(("3 bytes, ASCII".to_string(), uniform(ascii.step_by(97), most)));
    let marks = (0..1 << 16).map(|number| Names::SameMarks(4).name(number * 40_503 % 65_536));
    hostile.push(("equal marks, 4 bytes".to_string(), uniform(marks, most)));
    for length in [3, 4, 6, 8, 32] {
        // All marks are equal, and each split of the first bytes takes off one name.
        let one_by_one = (0..length).flat_map(|at| (4..8).map(move |bit| (at, 0x01 | 1 << bit))).map(|(at, byte)| {
            let mut name = vec![0x01; length];
            name[at] = byte;
            name
        });
        let spread = (0..1 << 20).map(|number| Names::SameMarks(length.min(5)).name(number));
        let spread = spread.map(|end| [vec![0x01; length - end.len()], end].concat());
        hostile.push((format!("equal marks, one by one, {length} bytes"), uniform(one_by_one.chain(spread), most)));
    }
    for length in [16, 32, 64] {
        // The same, with the last four bytes always equal and one bit of the others for each split.
        let one_by_one = (0..length - 4).flat_map(|at| (0..8).map(move |bit| (at, 1 << bit))).map(|(at, byte)| {
            let mut name = vec![0; length];
            name[at] = byte;
            name
        });
        let spread = (0..1 << 16).map(|number: usize| {
            let mut name = vec![0; length];
            name[length - 6..length - 4].copy_from_slice(&(number as u16).to_be_bytes());
            name
        });
        hostile.push((format!("equal ends, one by one, {length} bytes"), uniform(one_by_one.chain(spread), most)));
    }
    for (group, length) in [(8, 120), (16, 120), (16, 20)] {
        // Groups of equal keys that differ far behind only.
        let names = (0..1 << 16).map(|number: usize| {
            let mut name = vec![0x07; length];
            for (at, byte) in name[length - 4..].iter_mut().enumerate() {
                *byte = ((number / group) >> (4 * at)) as u8 & 15;
            }
            name[length - 5] = (number % group) as u8;
            name
        });
        hostile.push((format!("{group} with long fronts each, {length} bytes"), uniform(names, most)));
    }
    hostile
}

/// As many different names as fit.
fn uniform(names: impl Iterator<Item = Vec<u8>>, most: usize) -> Contents {
    let mut met = HashSet::new();
    let (mut taken, mut picked) = (0, Vec::new());
    for name in names {
        if met.insert(name.clone()) {
            taken += 1 + name.len();
            if taken > most {
                break;
            }
            picked.push(name);
        }
    }
    shuffle(&mut picked);
    let bytes = picked.iter().flat_map(|name| [vec![name.len() as u8], name.clone()].concat()).collect();
    Contents { bytes, frames: Vec::new(), names: picked.len() }
}
