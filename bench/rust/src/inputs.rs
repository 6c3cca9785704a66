//! What is measured on: numbers, texts, patterns and payloads, the same in every run.

use ajuqvane_tests::generate::{lists, Random};
use ajuqvane_tests::independent::encode::encode;
use ajuqvane_tests::independent::kinds::*;
use ajuqvane_tests::independent::number::push_varuint;
use ajuqvane_tests::independent::tree::{tree_of, Float, Tree};
use ajuqvane_tests::independent::LENGTH_LIMIT;

const SEED: u64 = 17;

/// VarUInts one after another, of every length, with the byte at which each starts.
pub fn varuints(count: usize) -> (Vec<u8>, Vec<usize>) {
    let mut random = Random::new(SEED, 1);
    let (mut bytes, mut starts) = (Vec::new(), Vec::new());
    for _ in 0..count {
        starts.push(bytes.len());
        let value = random.next() >> random.below(64);
        push_varuint(&mut bytes, value);
    }
    (bytes, starts)
}

/// 64-bit patterns around the float rule.
pub fn patterns(count: usize) -> Vec<u64> {
    let mut random = Random::new(SEED, 2);
    (0..count).map(|_| random.double_bits()).collect()
}

/// A text that repeats another up to so many bytes, cut at a character.
fn repeated(text: &str, length: usize) -> Vec<u8> {
    let mut whole = text.repeat(length / text.len() + 1);
    let mut end = length;
    while !whole.is_char_boundary(end) {
        end -= 1;
    }
    whole.truncate(end);
    whole.into_bytes()
}

pub fn ascii(length: usize) -> Vec<u8> {
    repeated("The last is measured at the ball, the waist and the instep; the heel is set by eye. ", length)
}

pub fn european(length: usize) -> Vec<u8> {
    repeated(
        "Für jeden Leisten ein Maß: où l'on mesure, från tå till häl, até à ponta; každá bota má svou míru. ",
        length,
    )
}

pub fn cjk(length: usize) -> Vec<u8> {
    repeated("鞋楦的長度與圍度由匠人量定靴型の寸法は職人が測る신발골의치수는장인이잰다", length)
}

fn name(text: &str) -> Vec<u8> {
    text.as_bytes().to_vec()
}

fn integer(value: usize) -> Tree {
    Tree::Integer(value as i128)
}

fn float32(random: &mut Random) -> Tree {
    Tree::Float(Float::of_32((random.between(20, 400) as f32 / 8.0).to_bits()))
}

/// A manifest of lasts: nested objects, texts, attachments, measures; some 5,000 fields in about 64 KiB.
pub fn manifest() -> Vec<u8> {
    manifest_in(|tree| encode(tree).bytes)
}

/// The write list of such a manifest, in about 64 KiB too.
pub fn manifest_list() -> Vec<u8> {
    manifest_in(list_of)
}

/// As many lasts as fit in this form.
fn manifest_in(form: impl Fn(&Tree) -> Vec<u8>) -> Vec<u8> {
    let mut random = Random::new(SEED, 3);
    let makers = ["Anna Hofer", "J. Beck", "Søren Lind", "Łucja Maj"];
    let mut lasts = Vec::new();
    loop {
        let number = lasts.len() + 1;
        lasts.push(Tree::Object(vec![
            (name("id"), integer(number)),
            (name("name"), Tree::String(name(&format!("last {number:04}")))),
            (name("maker"), Tree::String(name(makers[random.below(4)]))),
            (name("note"), Tree::String(name("measured by hand at the ball and the instep"))),
            (name("left"), Tree::Bool(number % 2 == 0)),
            (name("size"), integer(random.between(34, 48))),
            (name("mesh"), Tree::Fixed(BINARY_ATTACHMENT, random.bytes(20))),
            (name("scan"), Tree::Fixed(OBJECT_ATTACHMENT, random.bytes(20))),
            (
                name("at"),
                Tree::Fixed(DATE_TIME, (638_000_000_000_000_000 + random.next() % (1 << 40)).to_be_bytes().to_vec()),
            ),
            (
                name("fit"),
                Tree::Object(vec![
                    (name("ball"), float32(&mut random)),
                    (name("heel"), float32(&mut random)),
                    (name("toe"), integer(random.below(90))),
                    (name("wide"), Tree::Bool(random.below(2) == 0)),
                ]),
            ),
            (name("tags"), Tree::Array(vec![Tree::String(name("oak")), Tree::Null, integer(random.below(4))])),
        ]));
        let tree = Tree::Object(vec![
            (name("schema"), integer(3)),
            (name("vault"), Tree::String(name("Leisten und Maße"))),
            (name("lasts"), Tree::Array(lasts.clone())),
        ]);
        let bytes = form(&tree);
        if bytes.len() > LENGTH_LIMIT - 256 {
            return bytes;
        }
    }
}

/// One array of Float32.
pub fn floats(count: usize) -> Vec<u8> {
    let mut random = Random::new(SEED, 4);
    encode(&Tree::Array((0..count).map(|_| float32(&mut random)).collect())).bytes
}

/// The name of 14 bytes that a field of `names` has.
pub fn measure_name(index: usize) -> Vec<u8> {
    name(&format!("measuring_{index:04}"))
}

/// One object of so many names of 14 bytes, 16 bytes a field.
pub fn names(count: usize) -> Vec<u8> {
    encode(&measures((0..count).map(measure_name))).bytes
}

/// The same, in no order.
pub fn shuffled_names(count: usize) -> Vec<u8> {
    encode(&measures(shuffled((0..count).map(measure_name).collect()))).bytes
}

fn measures(names: impl IntoIterator<Item = Vec<u8>>) -> Tree {
    Tree::Object(names.into_iter().enumerate().map(|(index, name)| (name, integer(index % 100))).collect())
}

fn shuffled(mut names: Vec<Vec<u8>>) -> Vec<Vec<u8>> {
    let mut random = Random::new(SEED, 7);
    for index in 1..names.len() {
        names.swap(index, random.below(index + 1));
    }
    names
}

/// An object of these names that has nothing else.
pub fn nulls(names: Vec<Vec<u8>>) -> Tree {
    Tree::Object(names.into_iter().map(|name| (name, Tree::Null)).collect())
}

/// So many names of this many small letters, ascending.
fn letters(length: u32, count: usize) -> Vec<Vec<u8>> {
    let digit = |index: usize, place: u32| b'a' + (index / 26_usize.pow(place) % 26) as u8;
    (0..count).map(|index| (0..length).rev().map(|place| digit(index, place)).collect()).collect()
}

/// How many fit in so many bytes, where each takes this many, beside an object's type byte, size and shared byte.
fn fitting(length: usize, each: usize) -> usize {
    (length - 5) / each
}

/// Names of 3 bytes, as many as fit in so many bytes where a field has `more` bytes beside its name.
pub fn short_names(length: usize, more: usize) -> Vec<Vec<u8>> {
    letters(3, fitting(length, 3 + more))
}

pub fn shuffled_short_names(length: usize, more: usize) -> Vec<Vec<u8>> {
    shuffled(short_names(length, more))
}

/// Names that all have the same last 8 bytes and differ in 3 before them, in no order.
pub fn same_ends(length: usize, more: usize) -> Vec<Vec<u8>> {
    let names = shuffled(letters(3, fitting(length, 11 + more)));
    names.into_iter().map(|front| [front, name("_of_last")].concat()).collect()
}

/// Names that all have the same first 60 bytes and differ in 3 behind them, in no order.
pub fn same_fronts(length: usize, more: usize) -> Vec<Vec<u8>> {
    let front = name("measured by hand at the ball, the waist, the instep and the: ");
    let names = shuffled(letters(3, fitting(length, front.len() + 3 + more)));
    names.into_iter().map(|end| [&front[..], &end].concat()).collect()
}

/// The most names that fit: every name of one byte, then of two, then of three, each a field that has nothing else.
pub fn most_names(length: usize) -> Vec<u8> {
    let mut fields: Vec<(Vec<u8>, Tree)> = Vec::new();
    // The type byte, a size of 3 bytes, the shared byte.
    let mut taken = 5;
    let ones = (0..=0x7F_u32).filter_map(char::from_u32).map(|c| c.to_string());
    let pairs = (0..0x80 * 0x80_u32).filter_map(|p| Some([char::from_u32(p / 0x80)?, char::from_u32(p % 0x80)?]));
    let twos = (0x80..=0x7FF_u32).filter_map(char::from_u32).map(|c| c.to_string());
    let threes = (0x800..=0xFFFF_u32).filter_map(char::from_u32).map(|c| c.to_string());
    for text in ones.chain(pairs.map(String::from_iter)).chain(twos).chain(threes) {
        taken += 1 + text.len();
        if taken > length {
            break;
        }
        fields.push((text.into_bytes(), Tree::Null));
    }
    encode(&Tree::Object(fields)).bytes
}

/// An array of chains of containers, each down to depth 32.
pub fn deep() -> Vec<u8> {
    let mut chains = Vec::new();
    loop {
        let mut chain = integer(chains.len() % 100);
        for depth in 0..30 {
            chain = match (chains.len() + depth) % 2 {
                0 => Tree::Array(vec![chain]),
                _ => Tree::Object(vec![(name("n"), chain)]),
            };
        }
        chains.push(chain);
        let bytes = encode(&Tree::Array(chains.clone())).bytes;
        if bytes.len() > LENGTH_LIMIT - 256 {
            return bytes;
        }
    }
}

/// The write list of a tree; of its floats that Float32 holds, half are Float64 there.
fn list_of(tree: &Tree) -> Vec<u8> {
    lists::list_of(&lists::frames(&mut Random::new(SEED, 5), tree))
}

/// The write list of one array of integers of one and two bytes.
pub fn integer_list(count: usize) -> Vec<u8> {
    let mut random = Random::new(SEED, 6);
    list_of(&Tree::Array((0..count).map(|_| integer(random.below(256))).collect()))
}

/// The name of 13 bytes that a frame of `name_list` has.
fn frame_name(index: usize) -> Vec<u8> {
    name(&format!("measuring{index:04}"))
}

/// The write list of one object of so many names of 13 bytes, 16 bytes a frame.
pub fn name_list(count: usize) -> Vec<u8> {
    list_of(&measures((0..count).map(frame_name)))
}

/// The same, in no order.
pub fn shuffled_name_list(count: usize) -> Vec<u8> {
    list_of(&measures(shuffled((0..count).map(frame_name).collect())))
}

/// The write list of an object of these names that has nothing else.
pub fn null_list(names: Vec<Vec<u8>>) -> Vec<u8> {
    list_of(&nulls(names))
}

/// The write list of the array of chains.
pub fn deep_list() -> Vec<u8> {
    tree_of(&deep()).map_or_else(Vec::new, |tree| list_of(&tree))
}
