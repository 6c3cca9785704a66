//! The C program that calls the static library (archive/caller.c, which says how it is asked), and requests to it.

use std::io::{Read, Write};
use std::process::{Child, ChildStdin, ChildStdout, Command, Stdio};

use crate::independent::places::Place;

/// What a call that is not there answers.
pub const ABSENT: u64 = 0xABAB_ABAB_ABAB_ABAB;
/// What is added to a call's number where the last number of the answer is to be the stack that it takes.
pub const MEASURED: u8 = 128;

/// The calls by their numbers in a request.
#[derive(Clone, Copy, Debug)]
#[repr(u8)]
pub enum Call {
    Validate,
    VarUInt,
    IsText,
    AreEqual,
    Float32Holds,
    Widen,
    Check,
    Top,
    Step,
    View,
    Lookup,
    Double,
    Signed,
    Unsigned,
    Ticks,
    Write,
    ValidateWith,
}

/// The arguments of a call beside its bytes.
#[derive(Clone, Copy, Debug, Default)]
pub struct Arguments {
    /// What it means is the call's.
    pub number: u64,
    pub place: Option<Place>,
    pub some: u32,
    pub last: u64,
    /// How many numbers are lent.
    pub count: usize,
}

/// What is answered, and the lent numbers afterwards, then 0; of the writer in the last two what output and work numbers mix to.
pub type Given = [u64; 6];

/// One more request of a block, with the bytes against the end of their page or the start.
pub fn push_request(block: &mut Vec<u8>, call: u8, at_end: bool, arguments: Arguments, bytes: &[u8]) {
    let Arguments { number, place, some, last, count } = arguments;
    let Place { kind, start, end, depth } = place.unwrap_or(Place { kind: 0, start: 0, end: 0, depth: 0 });
    block.extend([call, at_end.into()]);
    for number in [number, kind.into(), start, end, depth.into(), some.into(), last, count as u64] {
        block.extend(number.to_le_bytes());
    }
    block.extend((bytes.len() as u32).to_le_bytes());
    block.extend(bytes);
}

/// The program that calls the library.
pub struct Caller {
    pub child: Child,
    input: ChildStdin,
    output: ChildStdout,
}

impl Caller {
    pub fn start(command: &[String]) -> std::io::Result<Caller> {
        let [program, arguments @ ..] = command else { return Err(std::io::ErrorKind::InvalidInput.into()) };
        let mut child = Command::new(program).args(arguments).stdin(Stdio::piped()).stdout(Stdio::piped()).spawn()?;
        let (input, output) = (child.stdin.take(), child.stdout.take());
        let (Some(input), Some(output)) = (input, output) else { return Err(std::io::ErrorKind::BrokenPipe.into()) };
        Ok(Caller { child, input, output })
    }

    /// The answers to a block of requests.
    pub fn answers(&mut self, requests: &[u8]) -> std::io::Result<Vec<Given>> {
        self.input.write_all(&(requests.len() as u32).to_le_bytes())?;
        self.input.write_all(requests)?;
        self.input.flush()?;
        let mut length = [0; 4];
        self.output.read_exact(&mut length)?;
        let mut bytes = vec![0; u32::from_le_bytes(length) as usize];
        self.output.read_exact(&mut bytes)?;
        let numbers =
            bytes.chunks_exact(8).map(|chunk| chunk.iter().rev().fold(0, |n, byte| n << 8 | u64::from(*byte)));
        let numbers: Vec<u64> = numbers.collect();
        Ok(numbers.chunks_exact(6).map(|six| std::array::from_fn(|at| six[at])).collect())
    }
}
