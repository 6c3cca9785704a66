//! guard: runs the library's calls on payloads of every length to 300 that stand flush against the end, and then against
//! the start, of a readable page between two that cannot be touched, so that a byte read outside the payload ends the
//! program; the call on VarUInts on every first byte, cut everywhere; and the writer on lists of every such length, with the
//! output, the work numbers and the answer's number between such pages too. The answers are held to the independent
//! implementation's too. Last `guarded N calls, differences M`.

use std::ffi::{c_int, c_long, c_void};
use std::process::ExitCode;
use std::sync::atomic::{AtomicU64, Ordering};

use ajuqvane_tests::cases::{hexadecimal, Question};
use ajuqvane_tests::generate::{lists, payloads, places, Random};
use ajuqvane_tests::independent::{mask, number, places as independent_places, text};
use ajuqvane_tests::library;
use ajuqvane_tests::reading::{Reading, BEFORE};
use ajuqvane_tests::writing;

const SEED: u64 = 13;
/// The longest payload.
const LONGEST: usize = 300;
/// Payloads of each length.
const PAYLOADS: u64 = 60;
/// Questions about places of each payload.
const PLACES: usize = 24;
/// Lists of each length.
const LISTS: u64 = 60;

extern "C" {
    fn mmap(
        address: *mut c_void,
        length: usize,
        protection: c_int,
        flags: c_int,
        file: c_int,
        offset: i64,
    ) -> *mut c_void;
    fn mprotect(address: *mut c_void, length: usize, protection: c_int) -> c_int;
    fn sysconf(name: c_int) -> c_long;
    fn signal(number: c_int, handler: extern "C" fn(c_int)) -> usize;
    fn write(file: c_int, bytes: *const c_void, length: usize) -> isize;
    fn _exit(status: c_int) -> !;
}

const PROT_NONE: c_int = 0;
const PROT_READ: c_int = 1;
const PROT_WRITE: c_int = 2;
const MAP_PRIVATE: c_int = 2;
const MAP_ANONYMOUS: c_int = 32;
const SC_PAGESIZE: c_int = 30;
const SIGBUS: c_int = 7;
const SIGSEGV: c_int = 11;

/// The payload that the calls are run on: its length and round, for whoever looks for what went wrong.
static CURRENT: AtomicU64 = AtomicU64::new(0);

/// Says which payload a byte outside was touched with, and ends the program. It only writes from its stack.
extern "C" fn touched(_: c_int) {
    let current = CURRENT.load(Ordering::Relaxed);
    let mut line = *b"a byte outside was touched: payload 000000 of length 000000\n";
    put_digits(&mut line[36..42], current & 0xFFFF_FFFF);
    put_digits(&mut line[53..59], current >> 32);
    // Safety: the line is there until the program ends.
    unsafe {
        write(1, line.as_ptr().cast(), line.len());
        _exit(1)
    }
}

/// The last decimal digits of a number, as many as there is room for.
fn put_digits(room: &mut [u8], number: u64) {
    let mut rest = number;
    for digit in room.iter_mut().rev() {
        *digit = b'0' + (rest % 10) as u8;
        rest /= 10;
    }
}

/// A page between two that cannot be touched.
struct Guarded {
    start: *mut u8,
    length: usize,
}

/// Where in the page something stands.
#[derive(Clone, Copy)]
enum Flush {
    Start,
    End,
}

impl Guarded {
    fn new() -> Guarded {
        // Safety: an anonymous mapping of its own; nothing else has its memory.
        unsafe {
            let length = usize::try_from(sysconf(SC_PAGESIZE)).expect("a page has a size");
            let whole = mmap(std::ptr::null_mut(), 3 * length, PROT_NONE, MAP_PRIVATE | MAP_ANONYMOUS, -1, 0);
            assert!(whole as isize != -1, "no memory for the pages");
            let start = whole.cast::<u8>().add(length);
            let guarded = Guarded { start, length };
            guarded.protect(PROT_READ | PROT_WRITE);
            guarded
        }
    }

    fn protect(&self, protection: c_int) {
        // Safety: the page is of this mapping.
        let answer = unsafe { mprotect(self.start.cast(), self.length, protection) };
        assert_eq!(answer, 0, "the page can be protected");
    }

    /// So many elements of the page, flush against one of its ends.
    fn part<T>(&mut self, count: usize, flush: Flush) -> &mut [T] {
        let size = count * size_of::<T>();
        assert!(size <= self.length);
        let offset = match flush {
            Flush::Start => 0,
            Flush::End => self.length - size,
        };
        // Safety: the part lies in the page, whose start and size are multiples of every alignment used here; the page is
        // readable and writable but for the time of a call that lends it unchanged; any bytes are numbers.
        unsafe { std::slice::from_raw_parts_mut(self.start.add(offset).cast::<T>(), count) }
    }
}

#[derive(Default)]
struct Tally {
    calls: u64,
    differences: u64,
}

impl Tally {
    fn hold(&mut self, call: &str, same: bool, payload: &[u8]) {
        self.hold_or_say(same, || format!("{call} {}", hexadecimal(payload)));
    }

    fn hold_or_say(&mut self, same: bool, line: impl FnOnce() -> String) {
        self.calls += 1;
        if !same {
            self.differences += 1;
            println!("{}", line());
        }
    }
}

fn main() -> ExitCode {
    // Safety: the handler does nothing that a handler may not.
    unsafe {
        signal(SIGSEGV, touched);
        signal(SIGBUS, touched);
    }
    let mut tally = Tally::default();
    let mut page = Guarded::new();
    let mut other_page = Guarded::new();
    let mut answer_page = Guarded::new();
    for length in 0..=LONGEST {
        for round in 0..PAYLOADS {
            let payload = payload(length, round);
            CURRENT.store((length as u64) << 32 | round, Ordering::Relaxed);
            for flush in [Flush::End, Flush::Start] {
                page.part(length, flush).copy_from_slice(&payload);
                page.protect(PROT_READ);
                calls(&mut tally, page.part(length, flush), &mut other_page, &mut answer_page, flush);
                let mut random = Random::new(SEED + 1, (length as u64) << 32 | round);
                reading_calls(
                    &mut tally,
                    &mut random,
                    page.part(length, flush),
                    &mut other_page,
                    &mut answer_page,
                    flush,
                );
                page.protect(PROT_READ | PROT_WRITE);
            }
        }
    }
    // VarUInts of every first byte, cut everywhere, whole and with a byte behind them.
    for first in 0..=255 {
        for length in 0..=10 {
            CURRENT.store((length as u64) << 32 | u64::from(first), Ordering::Relaxed);
            let mut part = Random::new(SEED + 3, (length as u64) << 32 | u64::from(first)).bytes(length);
            if let Some(byte) = part.first_mut() {
                *byte = first;
            }
            for flush in [Flush::End, Flush::Start] {
                page.part(length, flush).copy_from_slice(&part);
                page.protect(PROT_READ);
                for lent in 0..=5 {
                    varuint_call(&mut tally, page.part(length, flush), lent, &mut answer_page, flush);
                }
                page.protect(PROT_READ | PROT_WRITE);
            }
        }
    }
    if library::HAS_WRITE {
        let mut pages = WriterPages { list: page, output: other_page, work: Guarded::new(), answer: answer_page };
        for length in 0..=LONGEST {
            for round in 0..LISTS {
                CURRENT.store((length as u64) << 32 | round, Ordering::Relaxed);
                let mut random = Random::new(SEED + 2, (length as u64) << 32 | round);
                let list = list(&mut random, length);
                for flush in [Flush::End, Flush::Start] {
                    write_calls(&mut tally, &mut random, &list, &mut pages, flush);
                }
            }
        }
    }
    println!("guarded {} calls, differences {}", tally.calls, tally.differences);
    ExitCode::from(if tally.differences != 0 {
        1
    } else if tally.calls == 0 {
        2
    } else {
        0
    })
}

/// A payload of a length: a leaf that fills it, a made one cut or lengthened to it, or a few telling bytes.
fn payload(length: usize, round: u64) -> Vec<u8> {
    let mut random = Random::new(SEED, (length as u64) << 32 | round);
    let mut bytes = match round % 6 {
        // A VarUInt, a size or a name that passes the end.
        0 => vec![*random.pick(&[0x02, 0x04, 0x06, 0x07, 0x08, 0x1E, 0x1F]), *random.pick(&[0x80, 0xC0, 0xFE, 0xFF])],
        // A leaf that fills the payload, or has a byte too many or too few.
        1 | 2 => {
            let mut bytes = vec![*random.pick(&[0x06, 0x07, 0x1E, 0x1F])];
            number::push_varuint(&mut bytes, (length + random.below(4)).saturating_sub(3) as u64);
            bytes
        }
        _ => payloads::payload(&mut random),
    };
    let fill = *random.pick(&[0x00, 0x01, 0x41, 0x61, 0x80, 0xC3, 0xF0, 0xFF]);
    bytes.resize(length, fill);
    bytes
}

fn calls(tally: &mut Tally, payload: &[u8], other_page: &mut Guarded, answer_page: &mut Guarded, flush: Flush) {
    for modes in 0..8 {
        if let Some(given) = library::validate(modes, payload) {
            tally.hold("validate", given == mask::mask(modes, payload), payload);
        }
    }
    if let Some(given) = library::is_text(payload) {
        tally.hold("is_text", given == u32::from(text::is_text(payload)), payload);
    }
    let other = other_page.part(payload.len(), flush);
    other.copy_from_slice(payload);
    if let Some(given) = library::are_equal(payload, other) {
        tally.hold("are_equal", given == 1, payload);
    }
    if let Some((last, before)) = other.split_last_mut() {
        *last ^= 1;
        if let Some(given) = library::are_equal(payload, before) {
            tally.hold("are_equal to a cut one", given == 0, payload);
        }
        if let Some(given) = library::are_equal(payload, other) {
            tally.hold("are_equal to another", given == 0, payload);
        }
    }
    varuint_call(tally, payload, 3, answer_page, flush);
}

/// The call on VarUInts, with so many numbers lent.
fn varuint_call(tally: &mut Tally, part: &[u8], lent: usize, answer_page: &mut Guarded, flush: Flush) {
    // No count of missing bytes.
    const BEFORE: u64 = 77;
    let answer = answer_page.part::<u64>(lent, flush);
    answer.fill(BEFORE);
    if let Some(given) = library::varuint(part, answer) {
        let (code, values) = if lent < 3 { (library::TOO_FEW, vec![]) } else { number::varuint_in_numbers(part) };
        let mut expected = vec![BEFORE; lent];
        expected[..values.len()].copy_from_slice(&values);
        tally.hold("varuint", given == code && *answer == expected, part);
    }
}

/// The reading calls, with the name that is looked up and the lent numbers between such pages too: as many numbers as the call
/// asks for, and every count below.
fn reading_calls(
    tally: &mut Tally,
    random: &mut Random,
    payload: &[u8],
    other_page: &mut Guarded,
    answer_page: &mut Guarded,
    flush: Flush,
) {
    if !library::HAS_PLACES {
        return;
    }
    for question in places::questions(random, payload, PLACES) {
        let Some((_, asked)) = question.reading() else { continue };
        let expected = asked.by_independent(payload);
        let name = match asked {
            Reading::Lookup(_, name) => name,
            _ => &[],
        };
        let name_part = other_page.part(name.len(), flush);
        name_part.copy_from_slice(name);
        let reading = match asked {
            Reading::Lookup(place, _) => Reading::Lookup(place, name_part),
            other => other,
        };
        for count in 0..=reading.numbers() {
            let answer = answer_page.part::<u64>(count, flush);
            answer.fill(BEFORE);
            let Some(code) = reading.call(payload, answer) else { continue };
            let untouched = answer.iter().all(|number| *number == BEFORE);
            let same = if count < reading.numbers() {
                code == library::TOO_FEW && untouched
            } else {
                reading.told(code, answer) == expected && (code == 0 || untouched)
            };
            tally.hold_or_say(same, || {
                format!("{question}\t{expected}\tlibrary, with {count} numbers lent: {code} {answer:?}")
            });
        }
        if let Some(place) = reading.place() {
            let expected = independent_places::check(payload, place).map_or_else(|stop| stop.value(), |_| 0);
            if let Some(given) = library::check(payload, place) {
                tally.hold_or_say(given == expected, || format!("check, as {question}\t{expected}\tlibrary: {given}"));
            }
        }
    }
}

/// A list of a length, made by itself and then cut, or filled: a tree's inside an array that has other items too and closes at
/// the end, so that it is sound where there is room for that; or one of any sort with bytes after it.
fn list(random: &mut Random, length: usize) -> Vec<u8> {
    let mut made = lists::list(random);
    while made.len() > 4 * LONGEST {
        made = lists::list(random);
    }
    match length.checked_sub(made.len() + 2) {
        Some(room) if random.below(2) == 0 => {
            let filler = *random.pick(&[0x01, 0x0C, 0x0D]);
            let mut list = vec![0x04];
            list.extend(made);
            list.resize(list.len() + room, filler);
            list.push(0x00);
            list
        }
        _ => {
            made.resize(length, *random.pick(&[0x00, 0x01, 0x02, 0x04, 0x61, 0xC3, 0xFF]));
            made
        }
    }
}

/// What the writer is lent, each between pages that cannot be touched.
struct WriterPages {
    list: Guarded,
    output: Guarded,
    work: Guarded,
    answer: Guarded,
}

/// The writer with lengths of output and work numbers around what it needs, and with no number lent for its answer, with one
/// and with two. The list stands in a page that can only be read.
fn write_calls(tally: &mut Tally, random: &mut Random, list: &[u8], pages: &mut WriterPages, flush: Flush) {
    pages.list.part(list.len(), flush).copy_from_slice(list);
    pages.list.protect(PROT_READ);
    let lent_list: &[u8] = pages.list.part(list.len(), flush);
    for question in lists::questions(random, list) {
        let Question::Write { output_length, work_length, .. } = question else { continue };
        if output_length > pages.output.length || work_length * size_of::<u32>() > pages.work.length {
            continue;
        }
        let expected = writing::by_independent(list, output_length, work_length);
        for count in 0..=2 {
            let output = pages.output.part::<u8>(output_length, flush);
            let work = pages.work.part::<u32>(work_length, flush);
            let answer = pages.answer.part::<u64>(count, flush);
            output.fill(writing::OUTPUT_BEFORE);
            work.fill(writing::WORK_BEFORE);
            answer.fill(writing::ANSWER_BEFORE);
            let Some(code) = library::write(lent_list, output, work, answer) else { continue };
            let same = match (answer.split_first(), answer.first().and_then(|first| writing::result_of(code, *first))) {
                (None, _) => {
                    code == library::TOO_FEW
                        && output.iter().all(|byte| *byte == writing::OUTPUT_BEFORE)
                        && work.iter().all(|number| *number == 0)
                }
                (Some((_, others)), Some(result)) => {
                    let split = output.split_at_checked(result.unwrap_or(0));
                    let encoding = split.filter(|(_, past)| past.iter().all(|byte| *byte == writing::OUTPUT_BEFORE));
                    writing::told(result, encoding.map(|(encoding, _)| encoding), Some(work)) == expected
                        && others.iter().all(|number| *number == writing::ANSWER_BEFORE)
                }
                (Some(_), None) => false,
            };
            tally.hold_or_say(same, || {
                format!(
                    "{question}\t{expected}\tlibrary, with {count} numbers lent: {code} {answer:?} {output:?} {work:?}"
                )
            });
        }
    }
    pages.list.protect(PROT_READ | PROT_WRITE);
}
