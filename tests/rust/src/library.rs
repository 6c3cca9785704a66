//! The calls of the static library behind safe wrappers. Each answers None if the library that was linked does not have
//! the call: `build.rs` looks at its symbols and says which calls are there, by a flag `has_NAME` for each.

use crate::cases::{Answer, Answers, Question};
use crate::independent::places::Place;
use crate::{program, writing};

/// A foreign function of the library, as a module of its name with `HAS`, and with the function where it is there.
macro_rules! foreign {
    ($flag:ident, $module:ident, $(#[$about:meta])* fn $name:ident($($argument:ident: $type:ty),*) -> $answer:ty) => {
        $(#[$about])*
        mod $module {
            #[cfg($flag)]
            extern "C" {
                fn $name($($argument: $type),*) -> $answer;
            }

            #[cfg($flag)]
            #[inline(always)]
            #[allow(clippy::too_many_arguments)]
            pub unsafe fn call($($argument: $type),*) -> Option<$answer> {
                // Safety: the caller's.
                Some(unsafe { $name($($argument),*) })
            }

            #[cfg(not($flag))]
            #[inline(always)]
            #[allow(clippy::too_many_arguments)]
            pub unsafe fn call($(_: $type),*) -> Option<$answer> {
                None
            }
        }
    };
}

foreign!(has_validate, foreign_validate,
    /// The mask.
    fn ajuqvane_validate(modes: u32, payload: *const u8, length: usize) -> u32);
foreign!(has_validate_with, foreign_validate_with,
    /// The mask, with a table of numbers lent, which are zeros afterwards.
    fn ajuqvane_validate_with(modes: u32, payload: *const u8, length: usize, table: *mut u64, numbers: usize) -> u32);
foreign!(has_varuint, foreign_varuint,
    /// 0: whole, with value, bytes taken and whether minimal; 1: cut, with how many bytes are missing; `TOO_FEW`: fewer than 3
    /// answer numbers lent.
    fn ajuqvane_varuint(part: *const u8, length: usize, answer: *mut u64, count: usize) -> u32);
foreign!(has_is_text, foreign_is_text,
    /// 1 or 0.
    fn ajuqvane_is_text(part: *const u8, length: usize) -> u32);
foreign!(has_are_equal, foreign_are_equal,
    /// 1 or 0.
    fn ajuqvane_are_equal(a: *const u8, a_length: usize, b: *const u8, b_length: usize) -> u32);
foreign!(has_float32_holds, foreign_float32_holds,
    /// 1 or 0.
    fn ajuqvane_float32_holds(bits: u64) -> u32);
foreign!(has_widen, foreign_widen,
    /// The bits of the widened Float32.
    fn ajuqvane_widen(bits: u32) -> u64);

// The reading calls: 0, with the answer at the front of the lent numbers; a fault's number; or one of the numbers below.
foreign!(has_check, foreign_check,
    /// The check of a place.
    fn ajuqvane_check(payload: *const u8, length: usize, kind: u8, start: usize, end: usize, depth: u32) -> u32);
foreign!(has_top, foreign_top,
    /// Kind, start, end and depth.
    fn ajuqvane_top(payload: *const u8, length: usize, answer: *mut u64, count: usize) -> u32);
foreign!(has_step, foreign_step,
    /// Kind, start, end and depth of the next field, and where its name begins.
    fn ajuqvane_step(
        payload: *const u8,
        length: usize,
        kind: u8,
        start: usize,
        end: usize,
        depth: u32,
        some: u32,
        last: usize,
        answer: *mut u64,
        count: usize
    ) -> u32);
foreign!(has_lookup, foreign_lookup,
    /// Kind, start, end and depth.
    fn ajuqvane_lookup(
        payload: *const u8,
        length: usize,
        kind: u8,
        start: usize,
        end: usize,
        depth: u32,
        name: *const u8,
        name_length: usize,
        answer: *mut u64,
        count: usize
    ) -> u32);

// The writer.
foreign!(has_write, foreign_write,
    /// 0: written, and the number lent is the encoding's length; 1 to 11: a refusal's number, and the number lent is its place;
    /// `TOO_FEW`: no number is lent.
    fn ajuqvane_write(
        list: *const u8,
        list_length: usize,
        out: *mut u8,
        out_length: usize,
        work: *mut u32,
        work_count: usize,
        answer: *mut u64,
        count: usize
    ) -> u32);

/// Which calls the library has.
pub const HAS_VALIDATE: bool = cfg!(has_validate);
pub const HAS_VALIDATE_WITH: bool = cfg!(has_validate_with);
pub const HAS_VARUINT: bool = cfg!(has_varuint);
pub const HAS_IS_TEXT: bool = cfg!(has_is_text);
pub const HAS_ARE_EQUAL: bool = cfg!(has_are_equal);
pub const HAS_FLOAT32_HOLDS: bool = cfg!(has_float32_holds);
pub const HAS_WIDEN: bool = cfg!(has_widen);
/// The check of a place, top, step, view, lookup and the values.
pub const HAS_PLACES: bool =
    cfg!(all(has_check, has_top, has_step, has_view, has_lookup, has_double, has_signed, has_unsigned, has_ticks));
/// The writer.
pub const HAS_WRITE: bool = cfg!(has_write);
/// Whether the library has any call.
pub const HAS_ANY: bool = HAS_VALIDATE
    || HAS_VARUINT
    || HAS_IS_TEXT
    || HAS_ARE_EQUAL
    || HAS_FLOAT32_HOLDS
    || HAS_WIDEN
    || HAS_PLACES
    || HAS_WRITE;

/// What the reading calls answer where they neither have an answer nor meet a fault.
pub const NO_MORE: u32 = 3;
pub const NOT_THERE: u32 = 5;
pub const WRONG_KIND: u32 = 6;
pub const OUT_OF_RANGE: u32 = 7;
/// What every call answers that is lent fewer numbers than it may answer.
pub const TOO_FEW: u32 = 12;

/// The mask.
#[inline(always)]
pub fn validate(modes: u32, payload: &[u8]) -> Option<u32> {
    // Safety: pointer and length are those of a slice.
    unsafe { foreign_validate::call(modes, payload.as_ptr(), payload.len()) }
}

/// The mask, with a table lent.
#[inline(always)]
pub fn validate_with(modes: u32, payload: &[u8], table: &mut [u64]) -> Option<u32> {
    // Safety: each pointer and length are those of a slice, and the one written to is lent mutably.
    unsafe { foreign_validate_with::call(modes, payload.as_ptr(), payload.len(), table.as_mut_ptr(), table.len()) }
}

/// The VarUInt at the front of a part: 0, and in the answer its value, the bytes taken, and 1 if it is minimal; 1, and how many
/// bytes are missing; or `TOO_FEW`.
#[inline(always)]
pub fn varuint(part: &[u8], answer: &mut [u64]) -> Option<u32> {
    // Safety: each pointer and length are those of a slice, and the one written to is lent mutably.
    unsafe { foreign_varuint::call(part.as_ptr(), part.len(), answer.as_mut_ptr(), answer.len()) }
}

/// The same as the answer of a case file. Numbers behind those of the answer may not be touched.
fn varuint_answer(part: &[u8]) -> Option<Answer> {
    const BEFORE: u64 = 0xAAAA_BBBB_CCCC_DDDD;
    let mut answer = [BEFORE; 5];
    let code = varuint(part, &mut answer)?;
    Some(match (code, answer) {
        (0, [value, length, minimal @ 0..=1, BEFORE, BEFORE]) => Answer::Whole { value, length, minimal: minimal == 1 },
        (1, [missing, BEFORE, BEFORE, BEFORE, BEFORE]) => Answer::Cut(missing),
        _ => Answer::Broken(format!("{code} {answer:?}")),
    })
}

/// Whether a part is UTF-8: 1 or 0.
#[inline(always)]
pub fn is_text(part: &[u8]) -> Option<u32> {
    // Safety: pointer and length are those of a slice.
    unsafe { foreign_is_text::call(part.as_ptr(), part.len()) }
}

/// Whether two parts are byte-equal: 1 or 0.
#[inline(always)]
pub fn are_equal(a: &[u8], b: &[u8]) -> Option<u32> {
    // Safety: each pointer and length are those of a slice.
    unsafe { foreign_are_equal::call(a.as_ptr(), a.len(), b.as_ptr(), b.len()) }
}

/// Whether Float32 holds these 64 bits exactly: 1 or 0.
#[inline(always)]
pub fn float32_holds(bits: u64) -> Option<u32> {
    // Safety: numbers only.
    unsafe { foreign_float32_holds::call(bits) }
}

/// The 64 bits that the Float32 of these bits widens to.
#[inline(always)]
pub fn widen(bits: u32) -> Option<u64> {
    // Safety: numbers only.
    unsafe { foreign_widen::call(bits) }
}

/// The check of a place: 0 or a fault's number.
#[inline(always)]
pub fn check(payload: &[u8], place: Place) -> Option<u32> {
    let Place { kind, start, end, depth } = place;
    // Safety: pointer and length are those of a slice; a place may be any numbers.
    unsafe { foreign_check::call(payload.as_ptr(), payload.len(), kind, start as usize, end as usize, depth) }
}

/// The top place: kind, start, end and depth.
#[inline(always)]
pub fn top(payload: &[u8], answer: &mut [u64]) -> Option<u32> {
    // Safety: each pointer and length are those of a slice, and the one written to is lent mutably.
    unsafe { foreign_top::call(payload.as_ptr(), payload.len(), answer.as_mut_ptr(), answer.len()) }
}

/// A step from the end of the last place, or from the contents' start if `some` is 0: the field's kind, start, end and
/// depth, and where its name begins.
#[inline(always)]
pub fn step(payload: &[u8], place: Place, some: u32, last: u64, answer: &mut [u64]) -> Option<u32> {
    let Place { kind, start, end, depth } = place;
    // Safety: each pointer and length are those of a slice, and the one written to is lent mutably; a place may be any
    // numbers.
    unsafe {
        foreign_step::call(
            payload.as_ptr(),
            payload.len(),
            kind,
            start as usize,
            end as usize,
            depth,
            some,
            last as usize,
            answer.as_mut_ptr(),
            answer.len(),
        )
    }
}

/// Lookup by name: kind, start, end and depth of the first field that has it.
#[inline(always)]
pub fn lookup(payload: &[u8], place: Place, name: &[u8], answer: &mut [u64]) -> Option<u32> {
    let Place { kind, start, end, depth } = place;
    // Safety: each pointer and length are those of a slice, and the one written to is lent mutably; a place may be any
    // numbers.
    unsafe {
        foreign_lookup::call(
            payload.as_ptr(),
            payload.len(),
            kind,
            start as usize,
            end as usize,
            depth,
            name.as_ptr(),
            name.len(),
            answer.as_mut_ptr(),
            answer.len(),
        )
    }
}

/// The writer: 0 and the encoding's length, or a refusal's number and its place.
#[inline(always)]
pub fn write(list: &[u8], output: &mut [u8], work: &mut [u32], answer: &mut [u64]) -> Option<u32> {
    // Safety: each pointer and length are those of a slice, and those written to are lent mutably.
    unsafe {
        foreign_write::call(
            list.as_ptr(),
            list.len(),
            output.as_mut_ptr(),
            output.len(),
            work.as_mut_ptr(),
            work.len(),
            answer.as_mut_ptr(),
            answer.len(),
        )
    }
}

/// A call that takes a payload, a place and lent numbers, and nothing else: its foreign function and its wrapper.
macro_rules! at_place {
    ($flag:ident, $module:ident, $foreign:ident, $(#[$about:meta])* fn $name:ident) => {
        foreign!($flag, $module, fn $foreign(
            payload: *const u8,
            length: usize,
            kind: u8,
            start: usize,
            end: usize,
            depth: u32,
            answer: *mut u64,
            count: usize
        ) -> u32);

        $(#[$about])*
        #[inline(always)]
        pub fn $name(payload: &[u8], place: Place, answer: &mut [u64]) -> Option<u32> {
            let Place { kind, start, end, depth } = place;
            // Safety: each pointer and length are those of a slice, and the one written to is lent mutably; a place may be
            // any numbers.
            unsafe {
                $module::call(
                    payload.as_ptr(),
                    payload.len(),
                    kind,
                    start as usize,
                    end as usize,
                    depth,
                    answer.as_mut_ptr(),
                    answer.len(),
                )
            }
        }
    };
}

at_place!(has_view, foreign_view, ajuqvane_view,
    /// A place's view: start and end.
    fn view);
at_place!(has_double, foreign_double, ajuqvane_double,
    /// A number as a double: its 64 bits.
    fn double);
at_place!(has_signed, foreign_signed, ajuqvane_signed,
    /// An integer as a signed number, in two's complement.
    fn signed);
at_place!(has_unsigned, foreign_unsigned, ajuqvane_unsigned,
    /// An integer as an unsigned number.
    fn unsigned);
at_place!(has_ticks, foreign_ticks, ajuqvane_ticks,
    /// The ticks of a date or a span of time, in two's complement.
    fn ticks);

/// The library as one who answers questions, and the program for its own. A kind of question gets its answer here once the
/// library has its call, or the program is built.
pub struct Library;

impl Answers for Library {
    fn answer(&self, question: &Question) -> Option<Answer> {
        match question {
            Question::Mask { modes, bytes } => validate(*modes, bytes).map(Answer::Mask),
            Question::VarUInt { bytes } => varuint_answer(bytes),
            Question::Write { list, output_length, work_length } => {
                writing::by_library(list, *output_length, *work_length)
            }
            Question::Program { input } => program::answer(input),
            _ => question.reading().and_then(|(bytes, reading)| reading.by_library(bytes)),
        }
    }
}
