//! leaves [quick|whole] [--independent]: the library's small calls held to references that are plain or Rust's own: the
//! VarUInt for every first byte, length and boundary; UTF-8 on every sequence of 1, 2 and 3 bytes and on those of 4 at the
//! edges; equality; the float rule on 10 million patterns; widening on a share of the 2^32 patterns, or on all (whole).
//! Prints the count of each family and last `compared N, differences M`; the exit status is 1 if M is not 0, and 2 if the
//! library has none of the calls. With --independent the independent implementation is held to the
//! references instead (its equality is Rust's own, so that family then says nothing).

use std::process::ExitCode;

use ajuqvane_tests::cases::hexadecimal;
use ajuqvane_tests::generate::Random;
use ajuqvane_tests::independent::{float, number, text};
use ajuqvane_tests::library;

const SEED: u64 = 11;
/// At most so many differences of a family are printed.
const PRINTED: u64 = 10;

/// The calls that are held to the references; None for one that is not there.
trait Leaves {
    fn varuint(part: &[u8], answer: &mut [u64]) -> Option<u32>;
    fn is_text(part: &[u8]) -> Option<u32>;
    fn are_equal(a: &[u8], b: &[u8]) -> Option<u32>;
    fn float32_holds(bits: u64) -> Option<u32>;
    fn widen(bits: u32) -> Option<u64>;
}

struct Library;

impl Leaves for Library {
    fn varuint(part: &[u8], answer: &mut [u64]) -> Option<u32> {
        library::varuint(part, answer)
    }
    fn is_text(part: &[u8]) -> Option<u32> {
        library::is_text(part)
    }
    fn are_equal(a: &[u8], b: &[u8]) -> Option<u32> {
        library::are_equal(a, b)
    }
    fn float32_holds(bits: u64) -> Option<u32> {
        library::float32_holds(bits)
    }
    fn widen(bits: u32) -> Option<u64> {
        library::widen(bits)
    }
}

struct Independent;

impl Leaves for Independent {
    fn varuint(part: &[u8], answer: &mut [u64]) -> Option<u32> {
        if answer.len() < 3 {
            return Some(library::TOO_FEW);
        }
        let (code, values) = number::varuint_in_numbers(part);
        answer[..values.len()].copy_from_slice(&values);
        Some(code)
    }
    fn is_text(part: &[u8]) -> Option<u32> {
        Some(u32::from(text::is_text(part)))
    }
    fn are_equal(a: &[u8], b: &[u8]) -> Option<u32> {
        Some(u32::from(a == b))
    }
    fn float32_holds(bits: u64) -> Option<u32> {
        Some(u32::from(float::float32_holds(bits)))
    }
    fn widen(bits: u32) -> Option<u64> {
        Some(float::widen(bits))
    }
}

/// A family of comparisons.
struct Family {
    name: &'static str,
    compared: u64,
    different: u64,
}

impl Family {
    fn new(name: &'static str) -> Family {
        Family { name, compared: 0, different: 0 }
    }

    #[inline(always)]
    fn hold(&mut self, same: bool, difference: impl FnOnce() -> String) {
        self.compared += 1;
        if !same {
            self.differs(difference());
        }
    }

    #[cold]
    fn differs(&mut self, difference: String) {
        self.different += 1;
        if self.different <= PRINTED {
            println!("{}: {difference}", self.name);
        }
    }
}

fn main() -> ExitCode {
    let (mut whole, mut independent) = (false, false);
    for word in std::env::args().skip(1) {
        match word.as_str() {
            "quick" => whole = false,
            "whole" => whole = true,
            "--independent" => independent = true,
            _ => {
                eprintln!("usage: leaves [quick|whole] [--independent]");
                return ExitCode::from(2);
            }
        }
    }
    let families = if independent { all::<Independent>(whole) } else { all::<Library>(whole) };
    let (mut compared, mut different) = (0, 0);
    for family in &families {
        match family.compared {
            0 => println!("{}: skipped, the library has no such call", family.name),
            count => println!("{}: {count}, differences {}", family.name, family.different),
        }
        compared += family.compared;
        different += family.different;
    }
    println!("compared {compared}, differences {different}");
    ExitCode::from(if different != 0 {
        1
    } else if compared == 0 {
        2
    } else {
        0
    })
}

fn all<L: Leaves>(whole: bool) -> Vec<Family> {
    vec![
        varuint::<L>(),
        varuint_examples::<L>(),
        varuint_received::<L>(),
        sequences::<L>(),
        long_texts::<L>(),
        equality::<L>(),
        float_rule::<L>(),
        widening::<L>(whole),
    ]
}

/// The reference: the bytes as one large number, less the leading ones. None if it is cut off.
fn varuint_whole(part: &[u8]) -> Option<[u64; 3]> {
    let first = *part.first()?;
    let taken = (0..8).take_while(|bit| first & (0x80 >> bit) != 0).count() + 1;
    if part.len() < taken {
        return None;
    }
    let whole = part[..taken].iter().fold(0_u128, |whole, byte| whole * 256 + u128::from(*byte));
    // The leading ones are the top taken - 1 bits of 8 * taken; the zero after them, if there is room, is a bit of the value.
    let bits = 8 * taken - (taken - 1);
    let value = (whole % (1 << bits)) as u64;
    // "The bound for n bytes, n from 1 to 8, is 2^(7n) - 1": it is minimal if it passes the bound for one byte less.
    let minimal = taken == 1 || value >= 1 << (7 * (taken - 1));
    Some([value, taken as u64, u64::from(minimal)])
}

/// The whole number, or how many bytes are missing: the fewest zeros that make it whole.
fn varuint_reference(part: &[u8]) -> Result<[u64; 3], u64> {
    varuint_whole(part).ok_or_else(|| {
        let joined = |missing: &usize| varuint_whole(&[part, &vec![0; *missing]].concat()).is_some();
        (1..=9).find(joined).unwrap_or(0) as u64
    })
}

const BEFORE: [u64; 5] = [0xAAAA, 0xBBBB, 0xCCCC, 0xDDDD, 0xEEEE];

/// One part, with 0 to 5 answer numbers lent.
fn hold_varuint<L: Leaves>(family: &mut Family, part: &[u8], lent: usize) {
    let mut answer = BEFORE;
    let Some(given) = L::varuint(part, &mut answer[..lent]) else { return };
    let mut expected = BEFORE;
    let reference = varuint_reference(part);
    let same = match (lent, reference) {
        // Too few numbers, whatever the part holds.
        (0..=2, _) => given == library::TOO_FEW && answer == expected,
        (_, Err(missing)) => {
            expected[0] = missing;
            given == 1 && answer == expected
        }
        (_, Ok(three)) => {
            expected[..3].copy_from_slice(&three);
            given == 0 && answer == expected
        }
    };
    family.hold(same, || format!("{} with {lent} lent: {given} {answer:?}, not {expected:?}", hexadecimal(part)));
}

fn varuint<L: Leaves>() -> Family {
    let mut family = Family::new("VarUInt: every first byte, length and boundary");
    let mut random = Random::new(SEED, 1);
    hold_varuint::<L>(&mut family, &[], 3);
    for first in 0..=255 {
        for length in 1..=12 {
            for lent in 0..=5 {
                for fill in [0x00, 0x01, 0x7F, 0x80, 0xFF] {
                    let mut part = vec![fill; length];
                    part[0] = first;
                    hold_varuint::<L>(&mut family, &part, lent);
                }
            }
            for _ in 0..40 {
                let mut part = random.bytes(length);
                part[0] = first;
                hold_varuint::<L>(&mut family, &part, 3);
            }
        }
    }
    // Every bound and its neighbours in every form that holds it, whole and cut everywhere.
    for bits in 0..=64 {
        for near in -3..=3 {
            let value = ((1_i128 << bits) + near).clamp(0, i128::from(u64::MAX)) as u64;
            for length in 1..=9 {
                let mut part = Vec::new();
                number::push_varuint_of_length(&mut part, value, length);
                part.extend_from_slice(&[0xFF, 0x00]);
                for end in 0..=part.len() {
                    hold_varuint::<L>(&mut family, &part[..end], 3);
                }
            }
        }
    }
    for _ in 0..1_000_000 {
        let mut part = [0; 12];
        part[..8].copy_from_slice(&random.next().to_be_bytes());
        part[8..].copy_from_slice(&(random.next() as u32).to_be_bytes());
        let length = random.between(0, 12);
        // Long forms are as frequent as short ones.
        part[0] |= !(0xFF_u64 >> random.below(9)) as u8;
        hold_varuint::<L>(&mut family, &part[..length], 3);
    }
    family
}

/// Compact Binary 1.0, 2.7.
fn varuint_examples<L: Leaves>() -> Family {
    let mut family = Family::new("VarUInt: the examples of Spec 2.7");
    let examples: [(u64, &[u8]); 10] = [
        (0x01, &[0x01]),
        (0x7F, &[0x7F]),
        (0x80, &[0x80, 0x80]),
        (0x123, &[0x81, 0x23]),
        (0x1234, &[0x92, 0x34]),
        (0x12345, &[0xC1, 0x23, 0x45]),
        (0x123456, &[0xD2, 0x34, 0x56]),
        (0x1234567, &[0xE1, 0x23, 0x45, 0x67]),
        (0x12345678, &[0xF0, 0x12, 0x34, 0x56, 0x78]),
        (0x123456789ABCDEF0, &[0xFF, 0x12, 0x34, 0x56, 0x78, 0x9A, 0xBC, 0xDE, 0xF0]),
    ];
    for (value, bytes) in examples {
        let mut answer = [0; 3];
        if let Some(given) = L::varuint(bytes, &mut answer) {
            let same = given == 0 && answer == [value, bytes.len() as u64, 1];
            family.hold(same, || format!("{}: {given} {answer:?}", hexadecimal(bytes)));
        }
    }
    family
}

/// Document 02, M-107: "Our receiver must know how many bytes to wait for." One that holds nothing at first and waits each time
/// for as many bytes as it is told, whichever they are: one byte fewer never makes the value whole, it waits at most twice, and
/// then it holds the value and no byte behind it.
fn varuint_received<L: Leaves>() -> Family {
    let mut family = Family::new("VarUInt: received by waiting for what is missing");
    let mut random = Random::new(SEED, 5);
    for index in 0..1_000_000_u32 {
        let mut coming = random.bytes(9);
        // Every first byte, 3,900 times and more.
        coming[0] = index as u8;
        let (mut held, mut waits) = (0, 0);
        let mut answer = BEFORE;
        let Some(mut given) = L::varuint(&coming[..held], &mut answer) else { break };
        let mut sound = true;
        while sound && given == 1 {
            let enough = held + answer[0] as usize;
            waits += 1;
            sound = held < enough && enough <= 9 && waits <= 2;
            if sound {
                let mut fewer = BEFORE;
                sound = L::varuint(&coming[..enough - 1], &mut fewer) == Some(1) && fewer[0] == 1;
                held = enough;
                answer = BEFORE;
                given = L::varuint(&coming[..held], &mut answer).unwrap_or(2);
            }
        }
        sound &=
            given == 0 && answer[1] == held as u64 && varuint_whole(&coming) == Some([answer[0], answer[1], answer[2]]);
        family.hold(sound, || format!("{}: {held} held after {waits} waits, {given} {answer:?}", hexadecimal(&coming)));
    }
    family
}

#[inline(always)]
fn hold_text<L: Leaves>(family: &mut Family, part: &[u8]) {
    if let Some(given) = L::is_text(part) {
        let expected = u32::from(core::str::from_utf8(part).is_ok());
        family.hold(given == expected, || format!("{}: {given}, not {expected}", hexadecimal(part)));
    }
}

fn sequences<L: Leaves>() -> Family {
    let mut family = Family::new("UTF-8: every sequence of 1, 2 and 3 bytes, those of 4 at the edges");
    hold_text::<L>(&mut family, &[]);
    for a in 0..=255 {
        hold_text::<L>(&mut family, &[a]);
        for b in 0..=255 {
            hold_text::<L>(&mut family, &[a, b]);
            for c in 0..=255 {
                hold_text::<L>(&mut family, &[a, b, c]);
            }
        }
    }
    let edges = [
        0x00, 0x41, 0x7F, 0x80, 0x81, 0x8F, 0x90, 0x9F, 0xA0, 0xBE, 0xBF, 0xC0, 0xC1, 0xC2, 0xDF, 0xE0, 0xED, 0xEF,
        0xF0, 0xF4, 0xF5, 0xFF,
    ];
    // Every first and second byte of four, and after them the edges; and every last byte after the edges.
    for a in 0xC0..=255 {
        for b in 0..=255 {
            for c in edges {
                for d in edges {
                    hold_text::<L>(&mut family, &[a, b, c, d]);
                }
            }
        }
    }
    for a in [0xEF, 0xF0, 0xF1, 0xF3, 0xF4, 0xF5, 0xF7, 0xF8] {
        for b in edges {
            for c in 0..=255 {
                for d in 0..=255 {
                    hold_text::<L>(&mut family, &[a, b, c, d]);
                }
            }
        }
    }
    family
}

/// A text of about so many bytes, of characters of one width or of all.
fn long_text(random: &mut Random, length: usize) -> Vec<u8> {
    let width = random.below(6);
    let mut text = String::new();
    while text.len() < length {
        let width = if width >= 4 { random.below(4) } else { width };
        let (least, greatest) = [(0, 0x7F), (0x80, 0x7FF), (0x800, 0xFFFF), (0x1_0000, 0x10_FFFF)][width];
        text.extend(char::from_u32(random.between(least, greatest) as u32));
    }
    text.into_bytes()
}

fn long_texts<L: Leaves>() -> Family {
    let mut family = Family::new("UTF-8: long texts, whole and damaged, at every offset");
    let mut random = Random::new(SEED, 2);
    for round in 0..60_000 {
        let length = match round % 1000 {
            0 => 65_536,
            1..=20 => random.below(5000),
            _ => random.below(200),
        };
        let mut text = long_text(&mut random, length);
        let offset = random.below(text.len().min(16) + 1);
        hold_text::<L>(&mut family, &text);
        hold_text::<L>(&mut family, &text[offset..]);
        for _ in 0..4 {
            let at = random.below(text.len() + 1);
            hold_text::<L>(&mut family, &text[..at]);
            if let Some(byte) = text.get(at).copied() {
                text[at] = match random.below(3) {
                    0 => byte ^ 1 << random.below(8),
                    1 => *random.pick(&[0x80, 0xBF, 0xC0, 0xC2, 0xE0, 0xED, 0xF0, 0xF4, 0xF5, 0xFF]),
                    _ => random.byte(),
                };
                hold_text::<L>(&mut family, &text);
                text[at] = byte;
            }
        }
        if !text.is_empty() {
            let at = random.below(text.len());
            text.remove(at);
            hold_text::<L>(&mut family, &text);
        }
    }
    family
}

fn equality<L: Leaves>() -> Family {
    let mut family = Family::new("Equality: every length to 300, every place that differs, every cut");
    let mut random = Random::new(SEED, 3);
    let mut hold = |a: &[u8], b: &[u8]| {
        if let Some(given) = L::are_equal(a, b) {
            let expected = u32::from(a == b);
            family.hold(given == expected, || format!("{} {}: {given}", hexadecimal(a), hexadecimal(b)));
        }
    };
    for length in 0..=300 {
        let a = random.bytes(length);
        let mut b = a.clone();
        hold(&a, &b);
        for at in 0..length {
            b[at] ^= 1 << random.below(8);
            hold(&a, &b);
            b[at] = a[at];
            hold(&a, &b[..at]);
            hold(&a[..at], &b);
            hold(&a[at..], &b[at..]);
            hold(&a[..at], &b[..at]);
        }
    }
    family
}

fn float_rule<L: Leaves>() -> Family {
    let mut family = Family::new("Float rule: patterns against a round trip through f32");
    let mut random = Random::new(SEED, 4);
    let mut hold = |bits: u64| {
        if let Some(given) = L::float32_holds(bits) {
            let value = f64::from_bits(bits);
            // "Every NaN keeps its width."
            let expected = u32::from(!value.is_nan() && f64::from(value as f32).to_bits() == bits);
            family.hold(given == expected, || format!("{bits:#018x}: {given}, not {expected}"));
        }
    };
    // Every exponent with every single bit, every run of ones from the top, and their neighbours.
    for sign in [0, 1 << 63] {
        for e in 0..2048 {
            for bit in 0..=52 {
                for f in [1_u64 << bit, (1_u64 << 52) - (1 << bit)] {
                    for near in [0, 1, u64::MAX] {
                        hold(sign | e << 52 | f.wrapping_add(near) & ((1 << 52) - 1));
                    }
                }
            }
        }
    }
    // What f32 has, and its neighbours.
    for _ in 0..2_000_000 {
        let bits = f64::from(f32::from_bits(random.float_bits())).to_bits();
        hold(bits);
        hold(bits ^ 1 << random.below(64));
    }
    for _ in 0..5_000_000 {
        hold(random.double_bits());
    }
    family
}

fn widening<L: Leaves>(whole: bool) -> Family {
    let mut family =
        Family::new(if whole { "Widening: all 2^32 patterns" } else { "Widening: a sixteenth of the 2^32 patterns" });
    let mut hold = |bits: u32| {
        if let Some(given) = L::widen(bits) {
            let value = f32::from_bits(bits);
            let expected = if value.is_nan() {
                // "a NaN keeps its sign, its fraction moves up 29 bits"
                u64::from(bits >> 31) << 63 | 2047 << 52 | u64::from(bits & 0x7F_FFFF) << 29
            } else {
                f64::from(value).to_bits()
            };
            family.hold(given == expected, || format!("{bits:#010x}: {given:#018x}, not {expected:#018x}"));
        }
    };
    if whole {
        (0..=u32::MAX).for_each(hold);
    } else {
        // One pattern of each sixteen, another each time, and all that are near a change of the exponent.
        (0..1_u32 << 28).for_each(|block| hold(block << 4 | block.wrapping_mul(0x9E37_79B9) >> 28));
        for e in 0..512_u32 {
            (0..512).for_each(|near| hold((e << 23).wrapping_add(near).wrapping_sub(256)));
        }
    }
    family
}
