//! growth: how the time for objects full of names grows with their size. First the library, validate strict and write, on objects
//! of 16, 32 and 64 KiB; then the library on the worst 64 KiB that are known for it, beside a manifest of 64 KiB; then the search
//! for equal names as it is simulated in `simulation.rs`, on contents of 64 KiB, 1 MiB and 16 MiB, with a table for all names and
//! with one of 22,016 numbers, as the validator has it. The exit status is 1 if an answer is not the expected one.

#[path = "../inputs.rs"]
#[allow(dead_code)]
mod inputs;
mod objects;
mod simulation;

use std::hint::black_box;
use std::process::ExitCode;
use std::time::{Duration, Instant};

use ajuqvane_tests::independent::number::push_varuint;
use ajuqvane_tests::library;

use objects::{contents, hostile, Contents, Names};
use simulation::has_twins;

/// How many numbers the validator's own table has.
const TABLE: usize = 22_016;
const KIB: usize = 1_024;
/// How many fields a manifest has.
const MANIFEST_FIELDS: usize = 5_728;
/// A measurement repeats what it measures until it took so long, and takes the median.
const LONG: Duration = Duration::from_millis(60);

/// Nanoseconds that a run takes.
fn time<T>(mut run: impl FnMut() -> T) -> f64 {
    let mut samples = Vec::new();
    let start = Instant::now();
    while samples.is_empty() || start.elapsed() < LONG {
        let start = Instant::now();
        black_box(run());
        samples.push(start.elapsed().as_nanos() as f64);
    }
    samples.sort_by(f64::total_cmp);
    samples[samples.len() / 2]
}

/// A row that is printed as it is measured: its cells, and whether all answers were the expected ones.
struct Row {
    names: f64,
    bytes: f64,
    sound: bool,
}

impl Row {
    fn new(label: &str, bytes: usize, names: usize) -> Row {
        print!("{label:<34} {bytes:>9} {names:>8}");
        Row { names: names as f64, bytes: bytes as f64, sound: true }
    }

    /// A cell: nanoseconds for each name and for each byte, and milliseconds in all.
    fn cell(&mut self, sound: bool, nanoseconds: f64, more: &str) {
        let cell =
            format!("{:.1} {:.2} {:.3}{more}", nanoseconds / self.names, nanoseconds / self.bytes, nanoseconds / 1e6);
        print!(" | {cell:<26}");
        if !sound {
            print!(" (a wrong answer)");
        }
        self.sound &= sound;
    }

    fn end(self) -> bool {
        println!();
        self.sound
    }
}

fn title(what: &str, cells: &[&str]) {
    println!("\n{what}: nanoseconds for each name, for each byte, milliseconds");
    print!("{:<34} {:>9} {:>8}", "", "bytes", "names");
    for cell in cells {
        print!(" | {cell:<26}");
    }
    println!();
}

fn main() -> ExitCode {
    let sound = [of_library(), of_worst(), of_simulation()];
    ExitCode::from(u8::from(sound.contains(&false)))
}

/// The library on an object with as many names as make so many bytes. What has to be uniform is not, and nothing else is wrong.
fn of_library() -> bool {
    title("the library", &["validate strict", "write"]);
    let mut sound = true;
    let (mut output, mut work) = (vec![0; 64 * KIB], vec![0; 4]);
    for names in [Names::Letters(3), Names::Letters(8)] {
        for kib in [16, 32, 64] {
            let contents = contents(names, kib * KIB - 8);
            let mut payload = vec![0x02];
            push_varuint(&mut payload, contents.bytes.len() as u64);
            payload.extend(&contents.bytes);
            let mut list = vec![0x02];
            list.extend(&contents.frames);
            list.push(0x00);
            let mut row = Row::new(&names.to_string(), payload.len(), contents.names);
            if let Some(mask) = library::validate(7, &payload) {
                row.cell(mask == 1_024, time(|| library::validate(7, &payload)), "");
            }
            if let Some(code) = library::write(&list, &mut output, &mut work, &mut [0]) {
                row.cell(code == 0, time(|| library::write(&list, &mut output, &mut work, &mut [0])), "");
            }
            sound &= row.end();
        }
    }
    sound
}

fn of_simulation() -> bool {
    title("simulated", &["a table for all names", "a table of 22,016 numbers"]);
    let mut sound = true;
    for names in [Names::Letters(3), Names::Letters(8), Names::SameEnd, Names::SameMarks(6)] {
        for kib in [64, KIB, 16 * KIB] {
            let contents = contents(names, kib * KIB);
            if contents.bytes.len() < kib * KIB / 2 {
                // There are no more names of this form.
                continue;
            }
            let mut row = Row::new(&names.to_string(), contents.bytes.len(), contents.names);
            let part = &contents.bytes;
            for length in [contents.names, TABLE] {
                let mut table = vec![0; length];
                let (met, passes) = has_twins(part, 1, &mut table);
                let more = if passes == 0 { String::new() } else { format!(" in {passes}") };
                row.cell(!met, time(|| has_twins(part, 1, &mut table)), &more);
            }
            sound &= row.end();
        }
    }
    sound
}

/// A uniform object of nulls.
fn of_nulls(contents: &Contents) -> Vec<u8> {
    let mut payload = vec![0x03];
    push_varuint(&mut payload, 1 + contents.bytes.len() as u64);
    payload.push(0x81);
    payload.extend(&contents.bytes);
    payload
}

/// The worst objects of 64 KiB that are known; the last cell is how many times as long they take for each byte as a manifest.
fn of_worst() -> bool {
    let manifest = inputs::manifest();
    let Some(_) = library::validate(7, &manifest) else { return true };
    let usual = time(|| library::validate(7, &manifest)) / manifest.len() as f64;
    title("the library, the worst 64 KiB", &["validate strict"]);
    let mut row = Row::new("a manifest", manifest.len(), MANIFEST_FIELDS);
    row.cell(true, usual * manifest.len() as f64, "");
    let mut sound = row.end();
    for (label, contents) in hostile(64 * KIB - 8) {
        let payload = of_nulls(&contents);
        let mut row = Row::new(&label, payload.len(), contents.names);
        let mask = library::validate(7, &payload);
        let taken = time(|| library::validate(7, &payload));
        let times = format!(", {:.1} times", taken / payload.len() as f64 / usual);
        // At most an empty name, and names that are no text.
        row.cell(mask.is_some_and(|mask| mask & !(32 | 512) == 0), taken, &times);
        sound &= row.end();
    }
    sound
}
