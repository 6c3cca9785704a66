//! stack [COMMAND..]: how many bytes of stack each call of the library takes, measured from outside on hostile inputs: what stands
//! below the caller's stack is painted, and after the call it is looked up how deep the paint is gone. A part of the stack that a
//! call leaves room for and does not touch, below all that it touches, is not seen. With COMMAND, what is measured is the
//! static library as C calls it, by the program that COMMAND runs (archive/caller.c). Prints for each call how often it
//! was called, the most bytes, on which input, and how many are allowed. The last line is `measured N calls, above M`: how many
//! calls took more than they are allowed; the exit status is 1 if M is not 0, and 2 if there is no call or the program ends.

use std::collections::BTreeMap;
use std::process::ExitCode;

use ajuqvane_tests::caller::{push_request, Arguments, Call, Caller, ABSENT, MEASURED};
use ajuqvane_tests::generate::hostile::{self, Input};
use ajuqvane_tests::generate::places::places;
use ajuqvane_tests::generate::Random;
use ajuqvane_tests::independent::places::Place;
use ajuqvane_tests::independent::LENGTH_LIMIT;
use ajuqvane_tests::library;

/// So many bytes are allowed of the validator and the writer, and of every other call.
const ALLOWED_LONG: usize = 196_608;
const ALLOWED: usize = 262_144;
/// So many bytes are painted.
const PAINTED: usize = 1 << 20;
/// The stack of the thread that measures.
const STACK: usize = 8 << 20;
const PAINT: u64 = 0x5AA5_C33C_69F0_0F96;
/// Places that the reading calls are measured on, of each payload.
const PLACES: usize = 10;
/// Work numbers, and the most numbers of a table.
const NUMBERS: usize = 32_768;
const SEED: u64 = 31;

fn main() -> ExitCode {
    let command: Vec<String> = std::env::args().skip(1).collect();
    let caller = match command.as_slice() {
        [] if library::HAS_ANY => None,
        [] => {
            eprintln!("the library has no call to measure");
            return ExitCode::from(2);
        }
        command => match Caller::start(command) {
            Ok(caller) => Some(caller),
            Err(error) => {
                eprintln!("{command:?}: {error}");
                return ExitCode::from(2);
            }
        },
    };
    let thread = std::thread::Builder::new().stack_size(STACK).spawn(|| measure_all(caller));
    let tally = match thread.expect("a thread can be started").join() {
        Ok(Ok(tally)) => tally,
        Ok(Err(error)) => {
            eprintln!("the program ended: {error}");
            return ExitCode::from(2);
        }
        Err(_) => return ExitCode::from(2),
    };
    println!("{:<14} {:>8} {:>14} {:>8}  on", "call", "calls", "bytes of stack", "allowed");
    for (call, most) in &tally.calls {
        println!("{call:<14} {:>8} {:>14} {:>8}  {}", most.calls, most.bytes, most.allowed, most.input);
    }
    let calls: u64 = tally.calls.values().map(|most| most.calls).sum();
    println!("measured {calls} calls, above {}", tally.above);
    ExitCode::from(if tally.above != 0 { 1 } else { u8::from(calls == 0) * 2 })
}

fn allowed(call: Call) -> usize {
    match call {
        Call::Validate | Call::ValidateWith | Call::Write => ALLOWED_LONG,
        _ => ALLOWED,
    }
}

/// What a call took at most.
#[derive(Default)]
struct Most {
    calls: u64,
    bytes: usize,
    input: String,
    allowed: usize,
}

#[derive(Default)]
struct Tally {
    calls: BTreeMap<String, Most>,
    above: u64,
}

/// The stack pointer of the function that this stands in: all that is below is free.
#[inline(always)]
fn stack_pointer() -> usize {
    let pointer: usize;
    // Safety: a register is read.
    unsafe {
        #[cfg(target_arch = "x86_64")]
        std::arch::asm!("mov {}, rsp", out(reg) pointer, options(nomem, nostack, preserves_flags));
        #[cfg(target_arch = "aarch64")]
        std::arch::asm!("mov {}, sp", out(reg) pointer, options(nomem, nostack, preserves_flags));
    }
    pointer
}

/// The words of the stack that are painted, from the lowest one up.
#[inline(always)]
fn words(pointer: usize) -> impl Iterator<Item = *mut u64> {
    (pointer - PAINTED..pointer).step_by(8).map(|address| address as *mut u64)
}

/// How many bytes below this function's frame a call touches. The closure's frame is counted with it.
#[inline(never)]
fn measure(call: &mut dyn FnMut()) -> usize {
    let pointer = stack_pointer();
    for word in words(pointer) {
        // Safety: the thread's stack reaches down far beyond it, and this function's frame is above it.
        unsafe { word.write_volatile(PAINT) };
    }
    call();
    // Safety: as above.
    let touched = words(pointer).find(|word| unsafe { word.read_volatile() } != PAINT);
    touched.map_or(0, |word| pointer - word as usize)
}

/// What is lent to the library's calls.
struct Lent {
    output: Vec<u8>,
    work: Vec<u32>,
    table: Vec<u64>,
    answer: [u64; 5],
}

/// Calls the library as archive/caller.c does.
fn run(call: Call, arguments: &Arguments, bytes: &[u8], lent: &mut Lent) -> Option<u64> {
    let Arguments { number, place, some, last, count } = *arguments;
    let place = place.unwrap_or(Place { kind: 0, start: 0, end: 0, depth: 0 });
    let answer = &mut lent.answer[..count];
    let code = match call {
        Call::Validate => library::validate(number as u32, bytes),
        Call::ValidateWith => library::validate_with(number as u32, bytes, &mut lent.table[..last as usize]),
        Call::VarUInt => library::varuint(bytes, answer),
        Call::IsText => library::is_text(bytes),
        Call::AreEqual => library::are_equal(&bytes[..number as usize], &bytes[number as usize..]),
        Call::Float32Holds => library::float32_holds(number),
        Call::Widen => return library::widen(number as u32),
        Call::Check => library::check(bytes, place),
        Call::Top => library::top(bytes, answer),
        Call::Step => library::step(bytes, place, some, last, answer),
        Call::View => library::view(bytes, place, answer),
        Call::Lookup => library::lookup(&bytes[..number as usize], place, &bytes[number as usize..], answer),
        Call::Double => library::double(bytes, place, answer),
        Call::Signed => library::signed(bytes, place, answer),
        Call::Unsigned => library::unsigned(bytes, place, answer),
        Call::Ticks => library::ticks(bytes, place, answer),
        Call::Write => {
            library::write(bytes, &mut lent.output[..number as usize], &mut lent.work[..last as usize], answer)
        }
    };
    code.map(u64::from)
}

/// Who measures: this program on its own stack, or the program that calls the library on its.
struct Measure {
    caller: Option<Caller>,
    lent: Lent,
    tally: Tally,
}

impl Measure {
    /// Measures a call; one that the library does not have is not counted.
    fn measure(&mut self, input: &str, call: Call, arguments: Arguments, bytes: &[u8]) -> std::io::Result<()> {
        let touched = match &mut self.caller {
            None => {
                let mut there = false;
                let lent = &mut self.lent;
                let touched =
                    measure(&mut || there = std::hint::black_box(run(call, &arguments, bytes, lent)).is_some());
                there.then_some(touched)
            }
            Some(caller) => {
                let mut block = Vec::new();
                push_request(&mut block, call as u8 + MEASURED, false, arguments, bytes);
                let answers = caller.answers(&block)?;
                answers.first().filter(|answer| answer[0] != ABSENT).map(|answer| answer[5] as usize)
            }
        };
        let Some(touched) = touched else { return Ok(()) };
        let most = self.tally.calls.entry(format!("{call:?}")).or_default();
        most.calls += 1;
        most.allowed = allowed(call);
        if touched > most.bytes {
            most.bytes = touched;
            most.input = input.to_string();
        }
        self.tally.above += u64::from(touched > most.allowed);
        Ok(())
    }
}

fn measure_all(caller: Option<Caller>) -> std::io::Result<Tally> {
    let lent = Lent { output: vec![0; LENGTH_LIMIT], work: vec![0; NUMBERS], table: vec![0; NUMBERS], answer: [0; 5] };
    let mut all = Measure { caller, lent, tally: Tally::default() };
    let mut random = Random::new(SEED, 0);
    let with =
        |number: u64, last: usize, count: usize| Arguments { number, last: last as u64, count, ..Arguments::default() };
    for Input { label, payload, list } in hostile::inputs() {
        let input = label.as_str();
        for modes in [7, 1] {
            all.measure(input, Call::Validate, with(modes, 0, 0), &payload)?;
            for numbers in [0, 4, 20_480, NUMBERS] {
                // A short table takes long for many names.
                if numbers > 1_000 || payload.len() < 10_000 {
                    all.measure(input, Call::ValidateWith, with(modes, numbers, 0), &payload)?;
                }
            }
        }
        all.measure(input, Call::Write, with(LENGTH_LIMIT as u64, NUMBERS, 1), &list)?;
        measure_reading(&mut all, &mut random, input, &payload)?;
        all.measure(input, Call::IsText, with(0, 0, 0), &payload)?;
        let twice = [payload.as_slice(), payload.as_slice()].concat();
        all.measure(input, Call::AreEqual, with(payload.len() as u64, 0, 0), &twice)?;
        all.measure(input, Call::AreEqual, with(random.below(payload.len() + 1) as u64, 0, 0), &payload)?;
        let at = random.below(payload.len() + 1);
        all.measure(input, Call::VarUInt, with(0, 0, 3), &payload[at..])?;
        let bits = random.double_bits();
        all.measure(input, Call::Float32Holds, with(bits, 0, 0), &[])?;
        all.measure(input, Call::Widen, with(bits, 0, 0), &[])?;
    }
    Ok(all.tally)
}

/// The reading calls on the top place, on the deepest and on some of the others.
fn measure_reading(all: &mut Measure, random: &mut Random, input: &str, payload: &[u8]) -> std::io::Result<()> {
    let numbers = Arguments { count: 5, ..Arguments::default() };
    all.measure(input, Call::Top, numbers, payload)?;
    let found = places(payload);
    let Some(deepest) = found.iter().max_by_key(|(place, ..)| place.depth).copied() else { return Ok(()) };
    let picked: Vec<_> = (0..PLACES).map(|_| *random.pick(&found)).collect();
    for (place, name_start, name_end) in [found[0], deepest].into_iter().chain(picked) {
        let at = |place: Place| Arguments { place: Some(place), ..numbers };
        for call in [Call::Check, Call::View, Call::Double, Call::Signed, Call::Unsigned, Call::Ticks] {
            let count = if matches!(call, Call::Check) { 0 } else { 5 };
            all.measure(input, call, Arguments { count, ..at(place) }, payload)?;
        }
        for (some, last) in [(0, 0), (1, place.start + 1)] {
            all.measure(input, Call::Step, Arguments { some, last, ..at(place) }, payload)?;
        }
        let there = &payload[name_start..name_end];
        for (place, name) in [(place, there), (place, b"is not there"), (found[0].0, there)] {
            let both = [payload, name].concat();
            all.measure(input, Call::Lookup, Arguments { number: payload.len() as u64, ..at(place) }, &both)?;
        }
    }
    Ok(())
}
