//! The harness: a row is a call of the library, a straightforward Rust function and, where there is one, a careful one, on the
//! same input. They are run by turns in one process, and the row has the median time of each and the ratios to the library's.

use std::hint::black_box;
use std::time::{Duration, Instant};

/// Samples of each side of a row; where a call takes longer than `LONG`, and where it takes longer than `VERY_LONG`.
const SAMPLES: usize = 41;
const SAMPLES_OF_LONG: usize = 5;
const SAMPLES_OF_VERY_LONG: usize = 3;
const LONG: Duration = Duration::from_millis(50);
const VERY_LONG: Duration = Duration::from_secs(1);
/// A sample repeats its function until it takes about so long.
const SAMPLE_TIME: Duration = Duration::from_millis(2);

/// What is measured: a function from nothing to a number that depends on all that it did.
pub type Run = Box<dyn FnMut() -> u64>;

/// A row before it is measured.
pub struct Row {
    pub name: String,
    pub ours: Run,
    pub rust: Run,
    /// The careful Rust, if there is one.
    pub careful: Option<Run>,
    /// Whether all sides do the same, so that their numbers have to agree; a yardstick does something else.
    pub same: bool,
}

/// A row measured, in nanoseconds for one run.
pub struct Measured {
    pub name: String,
    pub ours: f64,
    pub rust: f64,
    pub careful: Option<f64>,
}

/// One side of a row.
struct Side {
    run: Run,
    answer: u64,
    /// How long its first call took.
    first: Duration,
    repeats: u32,
    samples: Vec<f64>,
}

impl Side {
    fn new(mut run: Run) -> Side {
        let start = Instant::now();
        let answer = black_box(run());
        let first = start.elapsed();
        let repeats = if first < LONG { repeats(&mut run) } else { 1 };
        Side { run, answer, first, repeats, samples: Vec::new() }
    }

    fn measure(&mut self) {
        let taken = sample(&mut self.run, self.repeats);
        self.samples.push(taken.as_nanos() as f64 / f64::from(self.repeats));
    }

    fn median(&mut self) -> f64 {
        self.samples.sort_by(f64::total_cmp);
        self.samples[self.samples.len() / 2]
    }
}

/// How often a function is to be repeated for a sample.
fn repeats(run: &mut Run) -> u32 {
    let mut repeats = 1;
    loop {
        let taken = sample(run, repeats);
        if taken >= SAMPLE_TIME / 4 {
            return (f64::from(repeats) * SAMPLE_TIME.as_secs_f64() / taken.as_secs_f64()).ceil().max(1.0) as u32;
        }
        repeats *= 4;
    }
}

fn sample(run: &mut Run, repeats: u32) -> Duration {
    let start = Instant::now();
    for _ in 0..repeats {
        black_box(run());
    }
    start.elapsed()
}

/// Measures a row, or says that its sides differ.
pub fn measure(row: Row) -> Result<Measured, String> {
    let (mut ours, mut rust) = (Side::new(row.ours), Side::new(row.rust));
    let mut careful = row.careful.map(Side::new);
    for side in [Some(&rust), careful.as_ref()].into_iter().flatten() {
        if row.same && ours.answer != side.answer {
            return Err(format!("{}: the library's answer is {}, Rust's {}", row.name, ours.answer, side.answer));
        }
    }
    let samples = match ours.first.max(rust.first) {
        first if first > VERY_LONG => SAMPLES_OF_VERY_LONG,
        first if first > LONG => SAMPLES_OF_LONG,
        _ => SAMPLES,
    };
    for _ in 0..samples {
        ours.measure();
        rust.measure();
        careful.iter_mut().for_each(Side::measure);
    }
    let careful = careful.as_mut().map(Side::median);
    Ok(Measured { name: row.name, ours: ours.median(), rust: rust.median(), careful })
}
