//! archive COUNT COMMAND..: compares the static library as C calls it with the independent implementation on COUNT
//! generated payloads and write lists: COMMAND runs the program that calls it (archive/caller.c).
//! Every payload and list stands between pages that cannot be touched, against the end of its page or the start. The last line
//! is `compared N, differences M`; the exit status is 1 if M is not 0, and 2 if the library has no call or the program ends.

use std::process::ExitCode;

use ajuqvane_tests::caller::{push_request, Arguments, Call, Caller, Given, ABSENT};
use ajuqvane_tests::cases::{hexadecimal, Question};
use ajuqvane_tests::generate::objects::object;
use ajuqvane_tests::generate::{lists, payloads, places, Random};
use ajuqvane_tests::independent::places::check;
use ajuqvane_tests::independent::write::write;
use ajuqvane_tests::independent::{float, mask, number, text};
use ajuqvane_tests::library::TOO_FEW;
use ajuqvane_tests::reading::Reading;

const SEED: u64 = 23;
/// Payloads in a block of requests.
const BLOCK: u64 = 100;
/// At most so many differences are printed.
const PRINTED: u64 = 20;

/// Objects of many names have at most so many bytes.
const NAMES: usize = 8_192;
/// Questions about places of each payload.
const PLACES: usize = 12;
/// What lent numbers hold before a call.
const BEFORE: u64 = 7;

/// A request and the answer that is expected.
struct Asked {
    call: Call,
    arguments: Arguments,
    bytes: Vec<u8>,
    expected: Given,
}

#[derive(Default)]
struct Requests {
    bytes: Vec<u8>,
    asked: Vec<Asked>,
}

/// FNV-1a of 64 bits, by a number at a time.
fn mixed(mix: u64, number: u64) -> u64 {
    (mix ^ number).wrapping_mul(0x100_0000_01B3)
}

/// What no numbers mix to.
const UNMIXED: u64 = 0xCBF2_9CE4_8422_2325;

/// An answer with so many lent numbers, the first of which were written.
fn given(code: u32, written: &[u64], count: usize) -> Given {
    let mut given = [0; 6];
    given[0] = code.into();
    given[1..=count].fill(BEFORE);
    given[1..=written.len()].copy_from_slice(written);
    given
}

impl Requests {
    fn ask(&mut self, random: &mut Random, call: Call, arguments: Arguments, bytes: &[u8], expected: Given) {
        push_request(&mut self.bytes, call as u8, random.below(2) == 1, arguments, bytes);
        self.asked.push(Asked { call, arguments, bytes: bytes.to_vec(), expected });
    }

    /// A reading call with as many numbers lent as it asks for or more, now and then fewer, and the check of its place.
    fn ask_reading(&mut self, random: &mut Random, reading: Reading, payload: &[u8]) {
        let needed = reading.numbers();
        let count = if random.below(4) == 0 { random.below(needed) } else { random.between(needed, 5) };
        let expected = match Reading::numbers_of(&reading.by_independent(payload)) {
            _ if count < needed => given(TOO_FEW, &[], count),
            Some((code, numbers)) => given(code, &numbers, count),
            None => return,
        };
        let mut arguments = Arguments { place: reading.place(), count, ..Arguments::default() };
        let mut bytes = payload.to_vec();
        let call = match reading {
            Reading::Top => Call::Top,
            Reading::Step(_, last) => {
                (arguments.some, arguments.last) = last.map_or((0, random.next()), |last| (1, last));
                Call::Step
            }
            Reading::View(_) => Call::View,
            Reading::Lookup(_, name) => {
                arguments.number = payload.len() as u64;
                bytes.extend_from_slice(name);
                Call::Lookup
            }
            Reading::Double(_) => Call::Double,
            Reading::Signed(_) => Call::Signed,
            Reading::Unsigned(_) => Call::Unsigned,
            Reading::Ticks(_) => Call::Ticks,
        };
        self.ask(random, call, arguments, &bytes, expected);
        if let Some(place) = reading.place() {
            let code = check(payload, place).map_or_else(|stop| stop.value(), |_| 0);
            let arguments = Arguments { place: Some(place), ..Arguments::default() };
            self.ask(random, Call::Check, arguments, payload, given(code, &[], 0));
        }
    }

    /// The writer, now and then with no number lent for its answer.
    fn ask_writer(&mut self, random: &mut Random, list: &[u8], output_length: usize, work_length: usize) {
        let count = if random.below(4) == 0 { 0 } else { random.between(1, 2) };
        let mut output = vec![BEFORE as u8; output_length];
        let mut work = vec![BEFORE as u32; work_length];
        let mut expected = match count {
            0 => {
                work.fill(0);
                given(TOO_FEW, &[], 0)
            }
            _ => match write(list, &mut output, &mut work) {
                Ok(length) => given(0, &[length as u64], count),
                Err(refusal) => given(refusal.number, &[refusal.place as u64], count),
            },
        };
        expected[4] = output.iter().fold(UNMIXED, |mix, byte| mixed(mix, (*byte).into()));
        expected[5] = work.iter().fold(UNMIXED, |mix, number| mixed(mix, (*number).into()));
        let arguments =
            Arguments { number: output_length as u64, last: work_length as u64, count, ..Arguments::default() };
        self.ask(random, Call::Write, arguments, list, expected);
    }

    /// The requests about one payload and about parts of it, two about patterns, and those about a write list.
    fn ask_all(&mut self, random: &mut Random) {
        let payload = payloads::payload(random);
        let other = random.next() as u32;
        let with = |number: u64| Arguments { number, ..Arguments::default() };
        for modes in (0..8).chain([other]) {
            self.ask_mask(random, modes, &payload);
        }
        for question in places::questions(random, &payload, PLACES) {
            if let Some((bytes, reading)) = question.reading() {
                self.ask_reading(random, reading, bytes);
            }
        }
        let start = random.below(payload.len() + 1);
        let end = random.between(start, payload.len().min(start + 300));
        let part = payload.get(start..end).unwrap_or(&[]);
        let count = if random.below(4) == 0 { random.below(3) } else { random.between(3, 5) };
        let (code, values) = number::varuint_in_numbers(part);
        let answer = if count < 3 { given(TOO_FEW, &[], count) } else { given(code, &values, count) };
        self.ask(random, Call::VarUInt, Arguments { count, ..Arguments::default() }, part, answer);
        self.ask(random, Call::IsText, with(0), part, given(text::is_text(part).into(), &[], 0));
        // The part and itself, or with a bit changed, or cut.
        let mut both = [part, part].concat();
        if let (0, Some(at)) = (random.below(2), both.len().checked_sub(1).map(|last| random.below(last + 1))) {
            both[at] ^= 1 << random.below(8);
        }
        let split = if random.below(4) == 0 { random.below(both.len() + 1) } else { part.len() };
        let (a, b) = both.split_at(split);
        let equal = a == b;
        self.ask(random, Call::AreEqual, with(split as u64), &both, given(equal.into(), &[], 0));
        let bits = random.double_bits();
        self.ask(random, Call::Float32Holds, with(bits), &[], given(float::float32_holds(bits).into(), &[], 0));
        let bits = random.float_bits();
        self.ask(random, Call::Widen, with(bits.into()), &[], [float::widen(bits), 0, 0, 0, 0, 0]);
        let list = lists::list(random);
        for question in lists::questions(random, &list) {
            if let Question::Write { list, output_length, work_length } = question {
                self.ask_writer(random, &list, output_length, work_length);
            }
        }
        self.ask_names(random);
    }

    /// The mask, without a table and with one, which holds zeros afterwards.
    fn ask_mask(&mut self, random: &mut Random, modes: u32, payload: &[u8]) {
        let answer = mask::mask(modes, payload);
        let arguments = Arguments { number: modes.into(), ..Arguments::default() };
        self.ask(random, Call::Validate, arguments, payload, given(answer, &[], 0));
        let last = *random.pick(&[0, 1, 3, 4, 5, 17, 64, payload.len() / 3, 32_768]) as u64;
        self.ask(random, Call::ValidateWith, Arguments { last, ..arguments }, payload, given(answer, &[], 0));
    }

    /// The masks and the writer on an object of many names.
    fn ask_names(&mut self, random: &mut Random) {
        let value = object(random);
        let (payload, list) = (value.payload(), value.list());
        if payload.len() <= NAMES {
            self.ask_mask(random, 1, &payload);
            self.ask_mask(random, 7, &payload);
            self.ask_writer(random, &list.bytes, list.bytes.len() + 4 * list.containers, list.containers);
        }
    }
}

fn main() -> ExitCode {
    let words: Vec<String> = std::env::args().skip(1).collect();
    let Some((Ok(count), command)) = words.split_first().map(|(first, rest)| (first.parse::<u64>(), rest)) else {
        eprintln!("usage: archive COUNT COMMAND..");
        return ExitCode::from(2);
    };
    let mut caller = match Caller::start(command) {
        Ok(caller) => caller,
        Err(error) => {
            eprintln!("{command:?}: {error}");
            return ExitCode::from(2);
        }
    };
    let (mut compared, mut different) = (0_u64, 0_u64);
    for first in (0..count).step_by(BLOCK as usize) {
        let mut requests = Requests::default();
        for index in first..count.min(first + BLOCK) {
            requests.ask_all(&mut Random::new(SEED, index));
        }
        let answers = match caller.answers(&requests.bytes) {
            Ok(answers) if answers.len() == requests.asked.len() => answers,
            _ => {
                let ended = caller.child.wait().map_or("?".to_string(), |status| status.to_string());
                eprintln!("the program ended ({ended}) on payloads {first} to {}", first + BLOCK - 1);
                return ExitCode::from(2);
            }
        };
        for (Asked { call, arguments, bytes, expected }, answer) in requests.asked.iter().zip(answers) {
            if answer[0] == ABSENT {
                continue;
            }
            compared += 1;
            if answer != *expected {
                different += 1;
                if different <= PRINTED {
                    println!("{call:?} {arguments:?} {}\t{expected:?}\tlibrary: {answer:?}", hexadecimal(bytes));
                }
            }
        }
    }
    println!("compared {compared}, differences {different}");
    ExitCode::from(if different != 0 {
        1
    } else if compared == 0 {
        2
    } else {
        0
    })
}
