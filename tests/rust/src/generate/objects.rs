//! Objects of many names: few and as many as fit, typed and uniform, alone and with objects around them whose names are partly
//! the same, with names that are hard to tell apart, in several orders, with no twins, with one pair of them at a chosen
//! distance, and with many. Each is made as a payload and as a write list, sound and damaged.

use super::Random;
use crate::independent::kinds::*;
use crate::independent::number::push_varuint;
use crate::independent::{DEPTH_LIMIT, LENGTH_LIMIT};

/// A field's value.
#[derive(Clone)]
pub enum Value {
    Leaf(u8, Vec<u8>),
    /// Whether a payload has it as a uniform object; its fields then are of one kind.
    Object(bool, Vec<(Vec<u8>, Value)>),
    Array(Vec<Value>),
}

impl Value {
    fn kind(&self) -> u8 {
        match self {
            Value::Leaf(kind, _) => *kind,
            Value::Object(false, _) => OBJECT,
            Value::Object(true, _) => UNIFORM_OBJECT,
            Value::Array(_) => ARRAY,
        }
    }

    /// How many names the object with the most of them has.
    pub fn most_names(&self) -> usize {
        match self {
            Value::Leaf(..) => 0,
            Value::Object(_, fields) => {
                fields.iter().map(|(_, value)| value.most_names()).fold(fields.len(), usize::max)
            }
            Value::Array(items) => items.iter().map(Value::most_names).max().unwrap_or(0),
        }
    }

    /// The payload whose top field has this value.
    pub fn payload(&self) -> Vec<u8> {
        let mut bytes = vec![self.kind()];
        self.push_payload(&mut bytes);
        bytes
    }

    fn push_payload(&self, bytes: &mut Vec<u8>) {
        let mut contents = Vec::new();
        match self {
            Value::Leaf(_, payload) => return bytes.extend(payload),
            Value::Object(uniform, fields) => {
                if *uniform {
                    contents.extend(fields.first().map(|(_, value)| value.kind() | SHARED_FIELD_FLAGS));
                }
                for (name, value) in fields {
                    if !uniform {
                        contents.push(value.kind() | 0xC0);
                    }
                    push_varuint(&mut contents, name.len() as u64);
                    contents.extend(name);
                    value.push_payload(&mut contents);
                }
            }
            Value::Array(items) => {
                push_varuint(&mut contents, items.len() as u64);
                for item in items {
                    contents.push(item.kind() | 0x40);
                    item.push_payload(&mut contents);
                }
            }
        }
        push_varuint(bytes, contents.len() as u64);
        bytes.extend(contents);
    }

    /// The write list whose top field has this value.
    pub fn list(&self) -> List {
        let mut list = List { bytes: Vec::new(), frames: Vec::new(), containers: 0 };
        self.push_frames(None, &mut list);
        list
    }

    fn push_frames(&self, name: Option<&[u8]>, list: &mut List) {
        let kind = if self.kind() == UNIFORM_OBJECT { OBJECT } else { self.kind() };
        list.frames.push(list.bytes.len());
        list.bytes.push(kind);
        if let Some(name) = name {
            push_varuint(&mut list.bytes, name.len() as u64);
            list.bytes.extend(name);
        }
        match self {
            Value::Leaf(_, payload) => return list.bytes.extend(payload),
            Value::Object(_, fields) => fields.iter().for_each(|(name, value)| value.push_frames(Some(name), list)),
            Value::Array(items) => items.iter().for_each(|item| item.push_frames(None, list)),
        }
        list.containers += 1;
        list.frames.push(list.bytes.len());
        list.bytes.push(0);
    }
}

/// A write list, where its frames begin, and how many containers it opens.
pub struct List {
    pub bytes: Vec<u8>,
    pub frames: Vec<usize>,
    pub containers: usize,
}

/// What names are spelled with.
#[derive(Clone, Copy)]
enum Letters {
    /// So many bytes from one byte on, so far apart.
    Bytes { first: u8, step: u8, count: usize },
    /// 64 letters of two bytes.
    Pairs,
}

impl Letters {
    const ALL: Letters = Letters::Bytes { first: 0, step: 1, count: 256 };

    fn pick(random: &mut Random, text: bool) -> Letters {
        match random.below(if text { 6 } else { 8 }) {
            0 => Letters::Bytes { first: b'0', step: 1, count: 2 },
            1 => Letters::Bytes { first: b'a', step: 1, count: 26 },
            2 => Letters::Bytes { first: 0x21, step: 1, count: 94 },
            3 => Letters::Bytes { first: 0, step: 1, count: 128 },
            // Equal in the low half of each byte.
            4 => Letters::Bytes { first: 0x01 + random.below(15) as u8, step: 16, count: 8 },
            5 => Letters::Pairs,
            6 => Letters::ALL,
            _ => Letters::Bytes { first: random.below(16) as u8, step: 16, count: 16 },
        }
    }

    fn count(self) -> usize {
        match self {
            Letters::Bytes { count, .. } => count,
            Letters::Pairs => 64,
        }
    }

    fn push(self, name: &mut Vec<u8>, letter: usize) {
        match self {
            Letters::Bytes { first, step, .. } => name.push(first + step * letter as u8),
            Letters::Pairs => name.extend([0xC3, 0x80 + letter as u8]),
        }
    }

    /// The last letters of a number, so many.
    fn push_number(self, name: &mut Vec<u8>, number: usize, width: usize) {
        let base = self.count();
        let mut divisor = base.saturating_pow(width.saturating_sub(1) as u32);
        for _ in 0..width {
            self.push(name, number / divisor % base);
            divisor = (divisor / base).max(1);
        }
    }

    /// How many letters tell so many numbers apart.
    fn width(self, numbers: usize) -> usize {
        let mut width = 1;
        while self.count().saturating_pow(width as u32) < numbers {
            width += 1;
        }
        width
    }
}

/// How names are made from numbers, a name of its own for each.
enum Spelling {
    /// The number, with something before it and behind it that all have.
    Within { letters: Letters, width: usize, front: Vec<u8>, end: Vec<u8> },
    /// One name is the front of another: the number of the row, and then so much of a text.
    Fronts { letters: Letters, width: usize, text: Vec<u8> },
    /// One to three letters, as if at random.
    Short { letters: Letters },
}

/// Fronts and ends that names have in common are so long.
const COMMON: [usize; 14] = [0, 0, 0, 1, 1, 2, 3, 4, 5, 7, 8, 9, 16, 33];

impl Spelling {
    /// A spelling of so many names with at most so many bytes each, or the shortest there is.
    fn pick(random: &mut Random, text: bool, numbers: usize, longest: usize) -> Spelling {
        let letters = Letters::pick(random, text);
        let mut width = letters.width(numbers);
        match random.below(8) {
            0 => {
                let length = random.between(1, longest.clamp(1, 40));
                let width = if numbers <= length { 0 } else { letters.width(numbers.div_ceil(length)) };
                let same = random.byte() & 0x7F;
                let text = (0..length).map(|_| if random.below(4) == 0 { random.byte() & 0x7F } else { same });
                Spelling::Fronts { letters, width, text: text.collect() }
            }
            1 if letters.count().saturating_pow(3) >= numbers => Spelling::Short { letters },
            _ => {
                if random.below(4) == 0 {
                    width += random.below(3);
                }
                let room = longest.saturating_sub(2 * width);
                let long = random.per_mille(4);
                let common = |random: &mut Random| {
                    let length = if long { random.between(100, 300) } else { *random.pick(&COMMON) };
                    vec![random.byte() & 0x7F; length.min(room / 2)]
                };
                let (front, end) = (common(random), common(random));
                Spelling::Within { letters, width, front, end }
            }
        }
    }

    fn name(&self, number: usize) -> Vec<u8> {
        let mut name = Vec::new();
        match self {
            Spelling::Within { letters, width, front, end } => {
                name.reserve_exact(front.len() + 2 * width + end.len());
                name.extend(front);
                letters.push_number(&mut name, number, *width);
                name.extend(end);
            }
            Spelling::Fronts { letters, width, text } => {
                letters.push_number(&mut name, number / text.len(), *width);
                name.extend(&text[..number % text.len() + 1]);
            }
            Spelling::Short { letters } => {
                let base = letters.count();
                let all = base + base * base + base * base * base;
                // A prime that divides none of these.
                let mut number = number * 1_000_003 % all;
                let mut width = 1;
                while number >= base.pow(width as u32) {
                    number -= base.pow(width as u32);
                    width += 1;
                }
                letters.push_number(&mut name, number, width);
            }
        }
        name
    }
}

/// The numbers of an object's names, in an order and with twins. None stands for an empty name.
fn numbers(random: &mut Random, count: usize, first: usize, twins: bool) -> Vec<Option<usize>> {
    let mut numbers: Vec<Option<usize>> = (first..first + count).map(Some).collect();
    match random.below(8) {
        0 => {}
        1 => numbers.reverse(),
        2 => numbers.rotate_left(count / 2),
        3 if count > 1 => {
            let (i, j) = (random.below(count), random.below(count));
            numbers.swap(i, j);
        }
        _ => {
            for i in (1..count).rev() {
                numbers.swap(i, random.below(i + 1));
            }
        }
    }
    if count < 2 || !twins {
        return numbers;
    }
    match random.below(100) {
        0..=39 => {}
        40..=84 => {
            let (i, j) = pair(random, count);
            numbers[j] = numbers[i];
        }
        85..=93 => {
            let share = *random.pick(&[20, 100, 500]);
            for j in 1..count {
                if random.per_mille(share) {
                    numbers[j] = numbers[random.below(j)];
                }
            }
        }
        94..=95 => numbers.fill(Some(first)),
        96 => numbers[random.below(count)] = None,
        97 => {
            let (i, j) = pair(random, count);
            numbers[i] = None;
            numbers[j] = None;
        }
        98 => numbers.fill(None),
        _ => {
            // Two of each.
            for j in count / 2..count {
                numbers[j] = numbers[j - count / 2];
            }
        }
    }
    numbers
}

/// Where a pair of twins stands, of two names or more.
fn pair(random: &mut Random, count: usize) -> (usize, usize) {
    let middle = count / 2;
    let (i, j) = match random.below(12) {
        0 | 1 => {
            let i = random.below(count - 1);
            (i, i + 1)
        }
        2 => (0, count - 1),
        3 => (0, 1),
        4 => (count - 2, count - 1),
        5 => *random.pick(&[(14, 15), (15, 16), (16, 17), (15, 17), (14, 16), (0, 15), (0, 16), (1, 16)]),
        6 => *random.pick(&[(7, 8), (8, 9), (6, 7), (0, 7), (0, 8), (31, 32), (32, 33), (0, 32)]),
        7 => (middle - 1, middle),
        8 => (random.below(middle), middle),
        9 => (middle - 1, random.between(middle, count - 1)),
        _ => (count, count),
    };
    if i < j && j < count {
        return (i, j);
    }
    let j = random.between(1, count - 1);
    (random.below(j), j)
}

/// How many names an object has. None: as many as fit.
fn count(random: &mut Random) -> Option<usize> {
    Some(match random.below(10_000) {
        0..=3 => return None,
        4..=7 => random.between(20_479, 20_482),
        8..=19 => random.between(8_191, 8_193),
        20..=49 => random.between(2_047, 2_049),
        50..=199 => random.between(511, 513),
        200..=499 => random.between(40, 400),
        500..=1_999 => random.between(0, 3),
        2_000..=4_999 => random.between(15, 18),
        5_000..=5_999 => random.between(7, 9),
        6_000..=6_999 => random.between(31, 33),
        _ => random.between(0, 40),
    })
}

fn leaf(random: &mut Random) -> Value {
    match random.below(5) {
        0 => Value::Leaf(TRUE, Vec::new()),
        1 => Value::Leaf(FALSE, Vec::new()),
        2 => Value::Leaf(INTEGER_POSITIVE, vec![random.below(128) as u8]),
        3 => Value::Leaf(STRING, vec![1, b'a' + random.below(26) as u8]),
        _ => Value::Leaf(NULL, Vec::new()),
    }
}

/// An object of many names, with objects around it or none.
pub fn object(random: &mut Random) -> Value {
    let count = count(random);
    let text = random.below(3) != 0;
    let mut around = match random.below(20) {
        0..=9 => 0,
        10..=16 => random.between(1, 3),
        // The fields of the inner object are at depth 33 now and then.
        _ => random.between(1, DEPTH_LIMIT as usize),
    };
    let wanted = count.unwrap_or(LENGTH_LIMIT);
    // So many different names are only in a uniform object of nulls with names of any two bytes.
    let most = wanted > 20_000 && random.below(4) != 0;
    let uniform = most || random.below(2) == 0;
    // Now and then one of the objects around has many names too, before the inner one.
    let many = if random.per_mille(if wanted > 2_000 { 300 } else { 3 }) { random.between(40, 900) } else { 0 };
    if many > 0 {
        around = around.max(1);
    }
    // A name's length, and a type byte; those of write lists have both. The objects around take about so much.
    let overhead = if uniform { 1 } else { 2 };
    let room = LENGTH_LIMIT - 40 - around * 100 - many * if most { 4 } else { 8 };
    let mut longest = (room / wanted.max(1)).saturating_sub(overhead + 1);
    if many > 0 {
        longest = longest.min(30);
    }
    let spelling = match most {
        true => Spelling::Within { letters: Letters::ALL, width: 2, front: Vec::new(), end: Vec::new() },
        false => {
            let beside = if many > 0 { 1_000 } else { 64 };
            Spelling::pick(random, text, wanted.min(LENGTH_LIMIT / 3) + beside, longest)
        }
    };
    let same = leaf(random);
    let light = wanted > 2_000;
    let mut left = room;
    let mut fields = Vec::new();
    let twins = random.below(4) != 0;
    for number in numbers(random, wanted.min(LENGTH_LIMIT / 3), 0, twins) {
        let name = number.map_or_else(Vec::new, |number| spelling.name(number));
        let value = match () {
            () if light => Value::Leaf(NULL, Vec::new()),
            () if uniform => same.clone(),
            () => leaf(random),
        };
        let Value::Leaf(_, payload) = &value else { break };
        let taken = overhead + usize::from(name.len() > 127) + name.len() + payload.len();
        if taken > left {
            break;
        }
        left -= taken;
        fields.push((name, value));
    }
    let mut value = Value::Object(uniform && !fields.is_empty(), fields);
    let level = random.below(around);
    for at in 0..around {
        let before = match (at == level, many) {
            (true, 1..) => many,
            _ => {
                let most = *random.pick(&[0, 1, 3, 17, 40]);
                random.between(0, most)
            }
        };
        value = around_it(random, value, &spelling, before);
    }
    value
}

/// An object around another: so many names before it and few behind it, which are partly those of the other. Or an array.
fn around_it(random: &mut Random, inner: Value, spelling: &Spelling, before: usize) -> Value {
    if before <= 40 && random.below(8) == 0 {
        let mut items = vec![inner];
        if random.below(2) == 0 {
            items.insert(random.below(2), leaf(random));
        }
        return Value::Array(items);
    }
    let behind = random.between(0, before.min(3));
    let first = *random.pick(&[0, 0, 0, 1, 20]);
    let twins = random.below(4) == 0;
    let uniform = before <= 40 && random.below(2) == 0;
    let mut inner = Some(inner);
    let kind = inner.as_ref().map_or(OBJECT, Value::kind);
    let mut fields = Vec::new();
    for (index, number) in numbers(random, before + 1 + behind, first, twins).into_iter().enumerate() {
        let name = number.map_or_else(Vec::new, |number| spelling.name(number));
        let value = match (index == before, uniform) {
            (true, _) => inner.take().unwrap_or(Value::Array(Vec::new())),
            (false, false) => leaf(random),
            (false, true) => small(kind, &name),
        };
        fields.push((name, value));
    }
    Value::Object(uniform, fields)
}

/// The smallest value of a container's kind. An object that has a field has it with a name of the object around.
fn small(kind: u8, name: &[u8]) -> Value {
    match kind {
        UNIFORM_OBJECT => Value::Object(true, vec![(name.to_vec(), Value::Leaf(NULL, Vec::new()))]),
        OBJECT => Value::Object(false, Vec::new()),
        _ => Value::Array(Vec::new()),
    }
}

/// Damages a payload: it is cut, or longer, or one of its bytes is another.
pub fn damage_payload(random: &mut Random, payload: &mut Vec<u8>) {
    match random.below(8) {
        0 => payload.truncate(random.below(payload.len() + 1)),
        1 => payload.push(random.byte()),
        _ => {
            let at = random.below(payload.len());
            payload[at] = random.byte();
        }
    }
}

/// Damages a write list: a frame of a fault of its own at any place, a frame that stands twice, or a name that does so before
/// another fault or behind it, a frame that goes, a close more or a close less, a cut. The frames before that are known afterwards.
pub fn damage_list(random: &mut Random, list: &mut List) {
    let index = random.below(list.frames.len() + 1);
    let frame = |index: usize| {
        let end = list.frames.get(index + 1).copied().unwrap_or(list.bytes.len());
        list.frames.get(index).copied().unwrap_or(end)..end
    };
    let at = frame(index).start;
    let mut instead = at..at;
    let new: Vec<u8> = match random.below(18) {
        0 => vec![0x15],
        1 => vec![UNIFORM_OBJECT, 1, b'~'],
        2 => vec![NULL, 0],
        3 => vec![NULL, 1, 0xFF],
        4 => vec![NULL, 0x80, 1, b'~'],
        5 => vec![NULL, 0xBF, 0xFF, b'~'],
        6 => vec![INTEGER_NEGATIVE, 1, b'~', 0xFF, 0x80, 0, 0, 0, 0, 0, 0, 0],
        7 => vec![STRING, 1, b'~', 1, 0xC3],
        8 => vec![INTEGER_POSITIVE, 1, b'~', 0x80, 5],
        9 => vec![0],
        // A frame again, of this object or another.
        10 | 11 => list.bytes[frame(random.below(list.frames.len()))].to_vec(),
        12 => {
            instead = frame(*random.pick(&[index, index, list.frames.len().saturating_sub(1)]));
            Vec::new()
        }
        13 => {
            instead = random.below(list.bytes.len() + 1)..list.bytes.len();
            Vec::new()
        }
        14 => {
            let at = random.below(list.bytes.len());
            instead = at..at + 1;
            vec![random.byte()]
        }
        // A name again, with its length written long, which is refused for that; or before a payload that is refused.
        15 | 16 => {
            let again = &list.bytes[frame(random.below(list.frames.len()))];
            let long = random.below(2) == 0;
            match again {
                [kind, length, rest @ ..] if *length < 0x80 && long => [&[*kind, 0x80, *length], rest].concat(),
                [_, length, rest @ ..] if usize::from(*length) <= rest.len() => {
                    let name = &rest[..usize::from(*length)];
                    [&[INTEGER_POSITIVE, *length], name, &[0x80, 5]].concat()
                }
                _ => again.to_vec(),
            }
        }
        // As many objects within one another as are refused.
        _ => [OBJECT, 1, b'~'].repeat(DEPTH_LIMIT as usize),
    };
    list.frames.retain(|frame| *frame <= instead.start);
    list.bytes.splice(instead, new);
}
