//! compare [--spread] COUNT [SEED]: makes COUNT payloads, each with questions about it (its mask in modes 0 to 7 and in one
//! random number, and what else the library has calls for: questions about places true and forged, and a walk by steps
//! through the whole payload), and COUNT write lists if the library has a writer, each with lengths of output and work numbers
//! around what it needs, and holds the library's answers to the independent implementation's. The program that writes a list is
//! asked about some of them, a process for each, if it is built. A failing question is printed as a line of a case file, with the library's answer after it.
//! Each kind of question is printed with how often it was compared, and last `compared N, differences M`; the exit status is
//! 1 if M is not 0, and 2 if the library has no call. With --spread the independent implementation answers alone, and what
//! is printed is how often each answer comes.

use std::collections::BTreeMap;
use std::process::ExitCode;

use ajuqvane_tests::cases::{hexadecimal, Answer, Answers, Independent, Question};
use ajuqvane_tests::generate::{lists, mask_questions, payloads, places, Random};
use ajuqvane_tests::independent::tree::tree_of;
use ajuqvane_tests::independent::{mask, number, places as independent_places, text};
use ajuqvane_tests::library::{self, Library};
use ajuqvane_tests::reading::Reading;
use ajuqvane_tests::walk::walk;
use ajuqvane_tests::{program, tables, writing};

/// The seed if none is given.
const SEED: u64 = 20_260_101;
/// Questions about places of each payload.
const PLACES: usize = 12;
/// The values of so many fields of each walk are compared.
const WALKED: usize = 16;
/// The program is asked about one of so many lists.
const PROGRAM: u64 = 400;
/// Tables of so many numbers are lent to the validator, for payloads of fewer bytes than these; short ones take long.
const TABLES: [usize; 10] = [0, 1, 2, 3, 4, 5, 16, 33, 64, 1_000];
const TABLED: usize = 2_000;
/// At most so many failing inputs are printed.
const PRINTED: u64 = 20;

fn main() -> ExitCode {
    let mut numbers = Vec::new();
    let mut spread = false;
    for word in std::env::args().skip(1) {
        match (word.as_str(), word.parse::<u64>()) {
            ("--spread", _) => spread = true,
            (_, Ok(number)) => numbers.push(number),
            (_, Err(_)) => return usage(),
        }
    }
    let (count, seed) = match numbers.as_slice() {
        [count] => (*count, SEED),
        [count, seed] => (*count, *seed),
        _ => return usage(),
    };
    if spread {
        print_spread(count, seed);
        return ExitCode::SUCCESS;
    }
    if !library::HAS_ANY {
        eprintln!("the library has no call to compare");
        return ExitCode::from(2);
    }
    let mut tally = Tally::default();
    for index in 0..count {
        let mut random = Random::new(seed, index);
        tally.index = index;
        let payload = payloads::payload(&mut random);
        compare_leaves(&mut random, &payload, &mut tally);
        if library::HAS_PLACES {
            compare_walk(&payload, &mut tally);
        }
        let mut questions = questions(&mut random, &payload, library::HAS_PLACES);
        if library::HAS_WRITE {
            let list = write_list(&mut random);
            questions.extend(lists::questions(&mut random, &list));
            if index % PROGRAM == 0 && program::is_there() {
                questions.push(Question::Program { input: lists::input(&mut random, &list) });
            }
        }
        for question in questions {
            if let Some(given) = Library.answer(&question) {
                let expected = Independent.answer(&question);
                tally.hold(question.kind(), expected.as_ref() == Some(&given), || {
                    let expected = expected.map_or("none".to_string(), |answer| answer.to_string());
                    format!("{question}\t{expected}\tlibrary: {given}")
                });
            }
            compare_more(&mut random, &question, &mut tally);
        }
    }
    for (kind, count) in &tally.compared {
        println!("{kind}: {count}");
    }
    println!("compared {}, differences {}", tally.compared.values().sum::<u64>(), tally.different);
    ExitCode::from(u8::from(tally.different != 0))
}

fn usage() -> ExitCode {
    eprintln!("usage: compare [--spread] COUNT [SEED]");
    ExitCode::from(2)
}

#[derive(Default)]
struct Tally {
    /// The input that is compared.
    index: u64,
    compared: BTreeMap<&'static str, u64>,
    different: u64,
}

impl Tally {
    fn hold(&mut self, kind: &'static str, same: bool, line: impl FnOnce() -> String) {
        *self.compared.entry(kind).or_default() += 1;
        if !same {
            self.different += 1;
            if self.different <= PRINTED {
                println!("input {}: {}", self.index, line());
            }
        }
    }
}

/// The questions of one payload.
fn questions(random: &mut Random, payload: &[u8], with_places: bool) -> Vec<Question> {
    let mut questions = mask_questions(random, payload);
    if with_places {
        questions.extend(places::questions(random, payload, PLACES));
    }
    questions
}

/// The write list of one input.
fn write_list(random: &mut Random) -> Vec<u8> {
    match random.below(400) {
        0 => lists::many_containers(random),
        _ => lists::list(random),
    }
}

/// What a case file has no question for: the mask with a table lent, the check of a place by itself, the other numbers that say
/// of a step whether there is a last place, and a writer that is lent no number for its answer.
fn compare_more(random: &mut Random, question: &Question, tally: &mut Tally) {
    if let Question::Mask { modes, bytes } = question {
        let numbers = if bytes.len() < TABLED { *random.pick(&TABLES) } else { bytes.len() / 3 };
        if let Some(held) = tables::holds(*modes, bytes, numbers, || mask::mask(*modes, bytes)) {
            tally.hold("mask with a table", held.is_ok(), || {
                format!("{question}\tlibrary, with {numbers} numbers: {}", held.unwrap_err())
            });
        }
    }
    if let Question::Write { list, output_length, work_length } = question {
        if let Some(refuses) = writing::refuses_none_lent(list, *output_length, *work_length) {
            tally.hold("write, no number lent", refuses, || format!("{question}\twith no number lent for the answer"));
        }
    }
    let Some((bytes, reading)) = question.reading() else { return };
    let Some(place) = reading.place() else { return };
    if let Some(given) = library::check(bytes, place) {
        let expected = independent_places::check(bytes, place).map_or_else(|stop| stop.value(), |_| 0);
        tally.hold("check", given == expected, || format!("check, as {question}\t{expected}\tlibrary: {given}"));
    }
    if let Reading::Step(place, last) = reading {
        // No last place whatever its end, and one by any number but 0.
        let (some, end) = match last {
            None => (0, random.next() >> random.below(64)),
            Some(end) => (1 << random.below(32) | random.next() as u32, end),
        };
        let mut answer = [0; 5];
        if let Some(code) = library::step(bytes, place, some, end, &mut answer) {
            let given = reading.told(code, &answer);
            let expected = reading.by_independent(bytes);
            tally.hold("step, said otherwise", given == expected, || {
                format!("{question}\t{expected}\tlibrary, with {some} {end} for the last place: {given}")
            });
        }
    }
}

/// A walk by steps through the library: it meets what a walk through the independent implementation meets, and shows the
/// tree of a payload that has one. At each of its first fields the calls on values are compared too.
fn compare_walk(payload: &[u8], tally: &mut Tally) {
    let absent = || Answer::Broken("no such call".to_string());
    let given = walk(payload, &|reading| reading.by_library(payload).unwrap_or_else(absent));
    let expected = walk(payload, &|reading| reading.by_independent(payload));
    tally
        .hold("walk", given == expected, || format!("walk {}\t{expected:?}\tlibrary: {given:?}", hexadecimal(payload)));
    if let Some(tree) = tree_of(payload) {
        let same = given.tree.as_ref() == Ok(&tree);
        tally.hold("tree by a walk", same, || {
            format!("walk {}\t{tree:?}\tlibrary: {:?}", hexadecimal(payload), given.tree)
        });
    }
    for (place, _, _) in given.fields.iter().take(WALKED) {
        for reading in
            [Reading::Double(*place), Reading::Signed(*place), Reading::Unsigned(*place), Reading::Ticks(*place)]
        {
            let expected = reading.by_independent(payload);
            let given = reading.by_library(payload).unwrap_or_else(absent);
            tally.hold("value on a walk", given == expected, || {
                format!("{}\t{expected}\tlibrary: {given}", reading.question(payload))
            });
        }
    }
}

/// The number, text and equality calls on parts of a payload.
fn compare_leaves(random: &mut Random, payload: &[u8], tally: &mut Tally) {
    let mut part = || {
        let start = random.below(payload.len() + 1);
        let end = random.between(start, payload.len().min(start + 300));
        &payload[start..end]
    };
    let (a, b) = (part(), part());
    let mut hold = |call: &'static str, same: bool, given: String| {
        tally.hold(call, same, || format!("{call} {} {}\tlibrary: {given}", hexadecimal(a), hexadecimal(b)));
    };
    // No count of missing bytes.
    let before = [11, 12, 13];
    let mut answer = before;
    if let Some(given) = library::varuint(a, &mut answer) {
        let (code, values) = number::varuint_in_numbers(a);
        let mut expected = before;
        expected[..values.len()].copy_from_slice(&values);
        hold("varuint", (given, answer) == (code, expected), format!("{given} {answer:?}"));
    }
    if let Some(given) = library::is_text(a) {
        hold("is_text", given == u32::from(text::is_text(a)), given.to_string());
    }
    if let Some(given) = library::are_equal(a, b) {
        hold("are_equal", given == u32::from(a == b), given.to_string());
        let copy = a.to_vec();
        let given = library::are_equal(a, &copy).unwrap_or(2);
        hold("are_equal to itself", given == 1, given.to_string());
    }
}

fn print_spread(count: u64, seed: u64) {
    let mut spread: BTreeMap<(&str, String), u64> = BTreeMap::new();
    for index in 0..count {
        let mut random = Random::new(seed, index);
        let payload = payloads::payload(&mut random);
        let mut questions = questions(&mut random, &payload, true);
        let list = write_list(&mut random);
        questions.extend(lists::questions(&mut random, &list));
        questions.push(Question::Program { input: lists::input(&mut random, &list) });
        for question in questions {
            if let Some(answer) = Independent.answer(&question) {
                let label = match answer {
                    Answer::Printed(text) if text.starts_with("refused") => {
                        text.split(" at ").next().unwrap_or("").to_string()
                    }
                    Answer::Printed(_) => "printed".to_string(),
                    Answer::Written(..) => "ok".to_string(),
                    Answer::Place(_) => "place".to_string(),
                    Answer::Field(..) => "field".to_string(),
                    Answer::View(..) => "view".to_string(),
                    Answer::Value(_) => "value".to_string(),
                    Answer::RefusedList(refusal) => format!("refused {:2}", refusal.number),
                    Answer::Mask(mask) => format!("{mask:5}"),
                    other => other.to_string(),
                };
                *spread.entry((question.kind(), label)).or_default() += 1;
            }
        }
    }
    for ((kind, label), count) in &spread {
        println!("{count:9} {kind} {label}");
    }
}
