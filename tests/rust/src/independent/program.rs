//! "The program reads the list from standard input as lines of lower-case hexadecimal, one frame a line, and lends 65,536
//! output bytes and 16,384 work numbers."

use super::write::{write, Refusal};
use super::LENGTH_LIMIT;

/// The work numbers that the program lends.
pub const WORK_NUMBERS: usize = 16_384;

/// What the program prints, without its line end.
pub fn print(input: &[u8]) -> String {
    let mut output = vec![0; LENGTH_LIMIT];
    let mut work = vec![0; WORK_NUMBERS];
    let answer = list_of(input).and_then(|list| write(&list, &mut output, &mut work));
    match answer {
        Ok(length) => output.iter().take(length).map(|byte| format!("{byte:02x}")).collect(),
        Err(Refusal { number, place }) => format!("refused {number} at {place}"),
    }
}

/// "Line feeds mean nothing. Another character or an odd digit count gives refusal 2 at the byte being formed, before all
/// else."
fn list_of(input: &[u8]) -> Result<Vec<u8>, Refusal> {
    let mut list = Vec::new();
    let mut half: Option<u8> = None;
    for character in input {
        let digit = match character {
            b'\n' => continue,
            b'0'..=b'9' => character - b'0',
            b'a'..=b'f' => character - b'a' + 10,
            _ => return Err(Refusal { number: 2, place: list.len() }),
        };
        half = match half {
            None => Some(digit),
            Some(high) => {
                list.push(high << 4 | digit);
                None
            }
        };
    }
    match half {
        None => Ok(list),
        Some(_) => Err(Refusal { number: 2, place: list.len() }),
    }
}
