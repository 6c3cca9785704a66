//! names [--spread] COUNT [SEED]: makes COUNT objects of few names and many (`generate/objects.rs`), each as a payload and as a write list,
//! some of them damaged, and holds the library's masks and what its writer answers to the independent implementation's. The
//! mask is asked with names alone and strict, and with other modes now and then; where the library takes a table for it, with
//! tables of several lengths too, each between numbers that may not be touched and all zeros afterwards. A failing question is
//! printed as a line of a case file, with the library's answer after it. Then it is printed how often each was compared and
//! what was met, and last `objects N, compared M, differences D`; the exit status is 1 if D is not 0, and 2 if the library has
//! none of the calls. With --spread the independent implementation answers alone, and what is printed is what was met.

use std::collections::BTreeMap;
use std::process::ExitCode;

use ajuqvane_tests::cases::{Answer, Answers, Independent, Question};
use ajuqvane_tests::generate::objects::{damage_list, damage_payload, object};
use ajuqvane_tests::generate::Random;
use ajuqvane_tests::independent::payload::NAMES_EQUAL;
use ajuqvane_tests::independent::LENGTH_LIMIT;
use ajuqvane_tests::library::{self, Library};
use ajuqvane_tests::tables;

/// The seed if none is given.
const SEED: u64 = 20_261_115;
/// The modes: names alone, and all.
const NAMES: u32 = 1;
const STRICT: u32 = 7;
/// Payloads of more bytes are asked with a table that is short for them only now and then: it takes long.
const SMALL: usize = 4_096;
/// Objects are counted by the greatest of these that does not pass the number of their names.
const SIZES: [usize; 14] = [0, 4, 8, 9, 15, 16, 17, 18, 33, 512, 513, 2_048, 8_192, 20_481];
/// At most so many failing inputs are printed.
const PRINTED: u64 = 20;

fn main() -> ExitCode {
    let mut words: Vec<String> = std::env::args().skip(1).collect();
    let spread = words.iter().any(|word| word == "--spread");
    words.retain(|word| word != "--spread");
    let numbers: Vec<Option<u64>> = words.iter().map(|word| word.parse().ok()).collect();
    let (count, seed) = match numbers.as_slice() {
        [Some(count)] => (*count, SEED),
        [Some(count), Some(seed)] => (*count, *seed),
        _ => {
            eprintln!("usage: names [--spread] COUNT [SEED]");
            return ExitCode::from(2);
        }
    };
    if !spread && !library::HAS_VALIDATE && !library::HAS_WRITE {
        eprintln!("the library has no call to compare");
        return ExitCode::from(2);
    }
    let mut tally = Tally { spread, ..Tally::default() };
    for index in 0..count {
        let mut random = Random::new(seed, index);
        tally.index = index;
        let value = object(&mut random);
        let names = value.most_names();
        let least = *SIZES.iter().rfind(|size| **size <= names).unwrap_or(&0);
        tally.meet(format!("{least:5} names or more"));
        compare_masks(&mut random, value.payload(), &mut tally);
        let mut list = value.list();
        while random.below(3) == 0 && !list.bytes.is_empty() {
            damage_list(&mut random, &mut list);
            if random.below(4) != 0 {
                break;
            }
        }
        // Damage may open containers more.
        let work = list.containers + 40;
        compare_write(&mut random, list.bytes, work, &mut tally);
    }
    for (what, count) in &tally.met {
        println!("{what}: {count}");
    }
    for (kind, count) in &tally.compared {
        println!("{kind}: {count}");
    }
    if !library::HAS_VALIDATE_WITH {
        println!("mask with a table: the library has no such call");
    }
    let compared: u64 = tally.compared.values().sum();
    println!("objects {count}, compared {compared}, differences {}", tally.different);
    ExitCode::from(u8::from(tally.different != 0))
}

#[derive(Default)]
struct Tally {
    /// Whether nothing is compared.
    spread: bool,
    /// The object that is compared.
    index: u64,
    compared: BTreeMap<&'static str, u64>,
    /// How often an answer had what.
    met: BTreeMap<String, u64>,
    different: u64,
}

impl Tally {
    fn hold(&mut self, kind: &'static str, same: bool, line: impl FnOnce() -> String) {
        *self.compared.entry(kind).or_default() += 1;
        if !same {
            self.different += 1;
            if self.different <= PRINTED {
                println!("object {}: {}", self.index, line());
            }
        }
    }

    /// The library's answer to a question is the independent implementation's, which is given back.
    fn ask(&mut self, kind: &'static str, question: &Question) -> Option<Answer> {
        let expected = Independent.answer(question)?;
        if self.spread {
            return Some(expected);
        }
        let given = Library.answer(question)?;
        self.hold(kind, expected == given, || format!("{question}\t{expected}\tlibrary: {given}"));
        Some(expected)
    }

    fn meet(&mut self, what: String) {
        *self.met.entry(what).or_default() += 1;
    }
}

fn compare_masks(random: &mut Random, mut payload: Vec<u8>, tally: &mut Tally) {
    if random.below(16) == 0 {
        damage_payload(random, &mut payload);
    }
    let mut modes = vec![NAMES, STRICT];
    match random.below(16) {
        0 => modes.push(0),
        1 => modes.push(random.next() as u32),
        _ => {}
    }
    let mut question = Question::Mask { modes: 0, bytes: payload };
    for asked in modes {
        let Question::Mask { modes, .. } = &mut question else { return };
        *modes = asked;
        let Some(Answer::Mask(expected)) = tally.ask("mask", &question) else { return };
        if asked == NAMES {
            tally.meet(match expected {
                0 => "no twins".to_string(),
                8 => "too long".to_string(),
                _ if expected & NAMES_EQUAL != 0 => "twins".to_string(),
                _ => "another mask".to_string(),
            });
        }
        let Question::Mask { bytes, .. } = &question else { return };
        compare_with(random, asked, bytes, expected, tally);
    }
}

/// With a table, of a length that is too short, just enough or more.
fn compare_with(random: &mut Random, modes: u32, payload: &[u8], expected: u32, tally: &mut Tally) {
    if !library::HAS_VALIDATE_WITH || tally.spread {
        return;
    }
    let short = payload.len() <= SMALL || random.below(64) == 0;
    let numbers = match random.below(if short { 6 } else { 2 }) {
        // As many as there can be names, or twice so many, and around.
        0 => random.between((payload.len() / 3).saturating_sub(2), payload.len()),
        1 => *random.pick(&[20_480, 32_768, 65_536]),
        2 => 0,
        3 => random.below(9),
        4 => random.below(80),
        _ => random.below(payload.len() + 1),
    };
    let Some(held) = tables::holds(modes, payload, numbers, || expected) else { return };
    tally.hold("mask with a table", held.is_ok(), || {
        let question = Question::Mask { modes, bytes: payload.to_vec() };
        format!("{question}\t{expected}\tlibrary, with {numbers} numbers: {}", held.unwrap_err())
    });
}

fn compare_write(random: &mut Random, list: Vec<u8>, containers: usize, tally: &mut Tally) {
    let longest = (list.len() + 4 * containers).min(LENGTH_LIMIT + 1);
    let output_length = if random.below(32) == 0 { random.below(longest + 1) } else { longest };
    let work_length = if random.below(32) == 0 { random.below(containers) } else { containers };
    let question = Question::Write { list, output_length, work_length };
    match tally.ask("write", &question) {
        Some(Answer::RefusedList(refusal)) => tally.meet(format!("refusal {:2}", refusal.number)),
        Some(_) => tally.meet("written".to_string()),
        None => {}
    }
}
