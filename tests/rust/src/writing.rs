//! What a writer answers, by the independent implementation and by the library, with all that it leaves in what it is lent held
//! to document 01 and docs/DECISIONS.md, 33.

use crate::cases::Answer;
use crate::independent::write::{write, Refusal};
use crate::library;

/// What lent output, work numbers and answers hold before a write, so that what a writer touches is seen.
pub const OUTPUT_BEFORE: u8 = 0xA5;
pub const WORK_BEFORE: u32 = 0xA5A5_A5A5;
pub const ANSWER_BEFORE: u64 = 0xA5A5_A5A5_A5A5_A5A5;
/// Elements on each side of what is lent.
const AROUND: usize = 3;
/// The most numbers that are lent for an answer.
const ANSWERS: usize = 3;

/// So many elements to lend, between others that may not be touched.
struct Room<T> {
    all: Vec<T>,
    before: T,
}

impl<T: Copy + PartialEq> Room<T> {
    fn new(before: T, length: usize) -> Room<T> {
        Room { all: vec![before; AROUND + length + AROUND], before }
    }

    fn lent(&mut self) -> &mut [T] {
        let end = self.all.len() - AROUND;
        &mut self.all[AROUND..end]
    }

    /// The lent elements up to a length, if that is not past them and all others are as they were.
    fn front(&self, length: usize) -> Option<&[T]> {
        let end = AROUND.checked_add(length)?;
        if end > self.all.len() - AROUND {
            return None;
        }
        let untouched = |part: &[T]| part.iter().all(|element| *element == self.before);
        (untouched(&self.all[..AROUND]) && untouched(&self.all[end..])).then(|| &self.all[AROUND..end])
    }
}

/// Has a writer write into an output and work numbers of so many elements. On success output past the encoding has to be
/// untouched; on a refusal all of it, and all work numbers zero; and always what stands on both sides of what is lent.
fn written(
    output_length: usize,
    work_length: usize,
    writer: impl FnOnce(&mut [u8], &mut [u32]) -> Result<usize, Refusal>,
) -> Answer {
    let mut output = Room::new(OUTPUT_BEFORE, output_length);
    let mut work = Room::new(WORK_BEFORE, work_length);
    let answer = writer(output.lent(), work.lent());
    told(answer, output.front(answer.unwrap_or(0)), work.front(work_length))
}

/// What a writer's answer, its encoding and the work numbers say; None for those if others than these were touched.
pub fn told(answer: Result<usize, Refusal>, encoding: Option<&[u8]>, work: Option<&[u32]>) -> Answer {
    let (Some(encoding), Some(work)) = (encoding, work) else {
        return Answer::Broken(format!("{answer:?}, and touched what is not the encoding's or not lent"));
    };
    match answer {
        Ok(_) => Answer::Written(encoding.to_vec(), work.to_vec()),
        Err(_) if work.iter().any(|number| *number != 0) => Answer::Broken("a refusal left a work number".to_string()),
        Err(refusal) => Answer::RefusedList(refusal),
    }
}

/// The independent implementation's answer.
pub fn by_independent(list: &[u8], output_length: usize, work_length: usize) -> Answer {
    written(output_length, work_length, |output, work| write(list, output, work))
}

/// What the library's number and the first number lent for its answer say.
pub fn result_of(code: u32, first: u64) -> Option<Result<usize, Refusal>> {
    let first = usize::try_from(first).ok()?;
    match code {
        0 => Some(Ok(first)),
        1..=11 => Some(Err(Refusal { number: code, place: first })),
        _ => None,
    }
}

/// The library's answer with one number lent for it or more. None if the library does not have the call.
pub fn by_library(list: &[u8], output_length: usize, work_length: usize) -> Option<Answer> {
    if !library::HAS_WRITE {
        return None;
    }
    let mut broken = None;
    let answer = written(output_length, work_length, |output, work| {
        let mut numbers = Room::new(ANSWER_BEFORE, 1 + (output_length + work_length) % ANSWERS);
        let code = library::write(list, output, work, numbers.lent()).unwrap_or(u32::MAX);
        match numbers.front(1).and_then(|numbers| result_of(code, numbers[0])) {
            Some(result) => result,
            None => {
                broken = Some(format!("answered {code}, afterwards with those around {:x?}", numbers.all));
                Ok(0)
            }
        }
    });
    Some(broken.map_or(answer, Answer::Broken))
}

/// The library's answer where no number is lent for it, which is to be 12, as a refusal: the output untouched and all work
/// numbers zero. Whether it is. None if the library does not have the call.
pub fn refuses_none_lent(list: &[u8], output_length: usize, work_length: usize) -> Option<bool> {
    let mut output = Room::new(OUTPUT_BEFORE, output_length);
    let mut work = Room::new(WORK_BEFORE, work_length);
    let code = library::write(list, output.lent(), work.lent(), &mut [])?;
    let zeroed = work.front(work_length).is_some_and(|work| work.iter().all(|number| *number == 0));
    Some(code == library::TOO_FEW && output.front(0).is_some() && zeroed)
}
