//! The validator with a table lent: its mask is that without one, the table holds zeros afterwards whatever it held before, and
//! the numbers on both sides of it are as they were.

use crate::library;

/// What the numbers of a table and on both sides of it hold before a call.
const BEFORE: u64 = 0xA5A5_A5A5_A5A5_A5A5;
/// Numbers on each side of the table.
const AROUND: usize = 3;

/// Holds the library, with a table of so many numbers, to a mask. None if the library does not have the call; otherwise what is
/// wrong, if anything is.
pub fn holds(modes: u32, payload: &[u8], numbers: usize, expected: impl FnOnce() -> u32) -> Option<Result<(), String>> {
    if !library::HAS_VALIDATE_WITH {
        return None;
    }
    let mut table = vec![BEFORE; AROUND + numbers + AROUND];
    let given = library::validate_with(modes, payload, &mut table[AROUND..AROUND + numbers])?;
    let expected = expected();
    let zeros = table[AROUND..AROUND + numbers].iter().all(|number| *number == 0);
    let untouched = table[..AROUND].iter().chain(&table[AROUND + numbers..]).all(|number| *number == BEFORE);
    Some(if given != expected {
        Err(format!("{given}, not {expected}"))
    } else if !zeros {
        Err(format!("{given}, and the table is left with a number"))
    } else if !untouched {
        Err(format!("{given}, and others than the table were touched"))
    } else {
        Ok(())
    })
}
