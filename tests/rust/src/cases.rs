//! Questions and answers as docs/CASES.md has them: a question, a tab and its answer on each line.

use std::fmt::Write;

use crate::independent::places::{Place, Refused};
use crate::independent::write::Refusal;
use crate::independent::{mask, number, program};
use crate::reading::Reading;
use crate::writing;

/// A question, of one of the kinds that a case file may have.
#[derive(Clone, Debug, PartialEq, Eq)]
pub enum Question {
    Mask { modes: u32, bytes: Vec<u8> },
    VarUInt { bytes: Vec<u8> },
    Top { bytes: Vec<u8> },
    Step { bytes: Vec<u8>, place: Place, last: Option<u64> },
    View { bytes: Vec<u8>, place: Place },
    Lookup { bytes: Vec<u8>, place: Place, name: Vec<u8> },
    Double { bytes: Vec<u8>, place: Place },
    Signed { bytes: Vec<u8>, place: Place },
    Unsigned { bytes: Vec<u8>, place: Place },
    Ticks { bytes: Vec<u8>, place: Place },
    Write { list: Vec<u8>, output_length: usize, work_length: usize },
    Program { input: Vec<u8> },
}

/// An answer. Its text (`to_string`) is the one of a case file.
#[derive(Clone, Debug, PartialEq, Eq)]
pub enum Answer {
    Mask(u32),
    Place(Place),
    Field(Place, u64, u64),
    NoMore,
    View(u64, u64),
    Value(i128),
    /// A VarUInt, with the bytes that it takes.
    Whole {
        value: u64,
        length: u64,
        minimal: bool,
    },
    /// A VarUInt of which so many bytes are missing.
    Cut(u64),
    Written(Vec<u8>, Vec<u32>),
    Printed(String),
    Refused(Refused),
    RefusedList(Refusal),
    /// What no answer may be, as an output that was written past the encoding.
    Broken(String),
}

/// Who answers questions; None for a kind that it does not answer.
pub trait Answers {
    fn answer(&self, question: &Question) -> Option<Answer>;
}

/// The independent implementation. It answers every kind.
pub struct Independent;

impl Answers for Independent {
    fn answer(&self, question: &Question) -> Option<Answer> {
        if let Some((bytes, reading)) = question.reading() {
            return Some(reading.by_independent(bytes));
        }
        Some(match question {
            Question::Mask { modes, bytes } => Answer::Mask(mask::mask(*modes, bytes)),
            Question::VarUInt { bytes } => match number::read_varuint(bytes) {
                Ok(number::VarUInt { value, taken, minimal }) => Answer::Whole { value, length: taken as u64, minimal },
                Err(missing) => Answer::Cut(missing as u64),
            },
            Question::Write { list, output_length, work_length } => {
                writing::by_independent(list, *output_length, *work_length)
            }
            Question::Program { input } => Answer::Printed(program::print(input)),
            _ => return None,
        })
    }
}

/// The bytes as lower-case hexadecimal, `-` for none.
pub fn hexadecimal(bytes: &[u8]) -> String {
    if bytes.is_empty() {
        return "-".to_string();
    }
    let mut text = String::with_capacity(2 * bytes.len());
    for byte in bytes {
        let _ = write!(text, "{byte:02x}");
    }
    text
}

/// The bytes of a hexadecimal word, or what is wrong with it.
pub fn bytes_of(word: &str) -> Result<Vec<u8>, String> {
    if word == "-" {
        return Ok(Vec::new());
    }
    let wrong = || format!("not hexadecimal: {word}");
    if word.is_empty() || !word.len().is_multiple_of(2) {
        return Err(wrong());
    }
    let digit = |character: u8| match character {
        b'0'..=b'9' => Ok(character - b'0'),
        b'a'..=b'f' => Ok(character - b'a' + 10),
        _ => Err(wrong()),
    };
    word.as_bytes().chunks(2).map(|pair| Ok(digit(pair[0])? << 4 | digit(pair[1])?)).collect()
}

impl Question {
    /// The question of a case line, or what is wrong with it.
    pub fn parse(text: &str) -> Result<Question, String> {
        let words: Vec<&str> = text.split(' ').collect();
        fn number<T: std::str::FromStr>(word: &str) -> Result<T, String> {
            word.parse().map_err(|_| format!("no number: {word}"))
        }
        let place = |kind: &str, start: &str, end: &str, depth: &str| -> Result<Place, String> {
            Ok(Place { kind: number(kind)?, start: number(start)?, end: number(end)?, depth: number(depth)? })
        };
        match words.as_slice() {
            ["mask", modes, bytes] => Ok(Question::Mask { modes: number(modes)?, bytes: bytes_of(bytes)? }),
            ["varuint", bytes] => Ok(Question::VarUInt { bytes: bytes_of(bytes)? }),
            ["top", bytes] => Ok(Question::Top { bytes: bytes_of(bytes)? }),
            ["step", bytes, kind, start, end, depth, last] => Ok(Question::Step {
                bytes: bytes_of(bytes)?,
                place: place(kind, start, end, depth)?,
                last: if *last == "-" { None } else { Some(number(last)?) },
            }),
            ["lookup", bytes, kind, start, end, depth, name] => Ok(Question::Lookup {
                bytes: bytes_of(bytes)?,
                place: place(kind, start, end, depth)?,
                name: bytes_of(name)?,
            }),
            [asked @ ("view" | "double" | "i64" | "u64" | "ticks"), bytes, kind, start, end, depth] => {
                let bytes = bytes_of(bytes)?;
                let place = place(kind, start, end, depth)?;
                Ok(match *asked {
                    "view" => Question::View { bytes, place },
                    "double" => Question::Double { bytes, place },
                    "i64" => Question::Signed { bytes, place },
                    "u64" => Question::Unsigned { bytes, place },
                    _ => Question::Ticks { bytes, place },
                })
            }
            ["write", list, output_length, work_length] => Ok(Question::Write {
                list: bytes_of(list)?,
                output_length: number(output_length)?,
                work_length: number(work_length)?,
            }),
            ["program", input] => Ok(Question::Program { input: bytes_of(input)? }),
            _ => Err(format!("no question: {text}")),
        }
    }

    /// A question of the reading calls: the payload, and what is asked of it.
    pub fn reading(&self) -> Option<(&[u8], Reading<'_>)> {
        match self {
            Question::Mask { .. } | Question::VarUInt { .. } | Question::Write { .. } | Question::Program { .. } => {
                None
            }
            Question::Top { bytes } => Some((bytes, Reading::Top)),
            Question::Step { bytes, place, last } => Some((bytes, Reading::Step(*place, *last))),
            Question::View { bytes, place } => Some((bytes, Reading::View(*place))),
            Question::Lookup { bytes, place, name } => Some((bytes, Reading::Lookup(*place, name))),
            Question::Double { bytes, place } => Some((bytes, Reading::Double(*place))),
            Question::Signed { bytes, place } => Some((bytes, Reading::Signed(*place))),
            Question::Unsigned { bytes, place } => Some((bytes, Reading::Unsigned(*place))),
            Question::Ticks { bytes, place } => Some((bytes, Reading::Ticks(*place))),
        }
    }

    /// The word that a question of this kind starts with.
    pub fn kind(&self) -> &'static str {
        match self {
            Question::Mask { .. } => "mask",
            Question::VarUInt { .. } => "varuint",
            Question::Top { .. } => "top",
            Question::Step { .. } => "step",
            Question::View { .. } => "view",
            Question::Lookup { .. } => "lookup",
            Question::Double { .. } => "double",
            Question::Signed { .. } => "i64",
            Question::Unsigned { .. } => "u64",
            Question::Ticks { .. } => "ticks",
            Question::Write { .. } => "write",
            Question::Program { .. } => "program",
        }
    }
}

fn place_text(place: &Place) -> String {
    format!("{} {} {} {}", place.kind, place.start, place.end, place.depth)
}

impl std::fmt::Display for Question {
    fn fmt(&self, f: &mut std::fmt::Formatter<'_>) -> std::fmt::Result {
        let kind = self.kind();
        match self {
            Question::Mask { modes, bytes } => write!(f, "{kind} {modes} {}", hexadecimal(bytes)),
            Question::VarUInt { bytes } | Question::Top { bytes } => write!(f, "{kind} {}", hexadecimal(bytes)),
            Question::Step { bytes, place, last } => {
                let last = last.map_or("-".to_string(), |last| last.to_string());
                write!(f, "{kind} {} {} {last}", hexadecimal(bytes), place_text(place))
            }
            Question::Lookup { bytes, place, name } => {
                write!(f, "{kind} {} {} {}", hexadecimal(bytes), place_text(place), hexadecimal(name))
            }
            Question::View { bytes, place }
            | Question::Double { bytes, place }
            | Question::Signed { bytes, place }
            | Question::Unsigned { bytes, place }
            | Question::Ticks { bytes, place } => {
                write!(f, "{kind} {} {}", hexadecimal(bytes), place_text(place))
            }
            Question::Write { list, output_length, work_length } => {
                write!(f, "{kind} {} {output_length} {work_length}", hexadecimal(list))
            }
            Question::Program { input } => write!(f, "{kind} {}", hexadecimal(input)),
        }
    }
}

impl std::fmt::Display for Answer {
    fn fmt(&self, f: &mut std::fmt::Formatter<'_>) -> std::fmt::Result {
        match self {
            Answer::Mask(mask) => write!(f, "{mask}"),
            Answer::Place(place) => write!(f, "place {}", place_text(place)),
            Answer::Field(place, start, end) => write!(f, "field {} {start} {end}", place_text(place)),
            Answer::NoMore => f.write_str("no more"),
            Answer::View(start, end) => write!(f, "view {start} {end}"),
            Answer::Value(value) => write!(f, "value {value}"),
            Answer::Whole { value, length, minimal } => {
                write!(f, "whole {value} {length} {}", if *minimal { "minimal" } else { "long" })
            }
            Answer::Cut(missing) => write!(f, "cut {missing}"),
            Answer::Written(bytes, work) => {
                let numbers: Vec<String> = work.iter().map(u32::to_string).collect();
                let numbers = if numbers.is_empty() { "-".to_string() } else { numbers.join(",") };
                write!(f, "ok {} {numbers}", hexadecimal(bytes))
            }
            Answer::Printed(text) => f.write_str(text),
            Answer::Refused(Refused::Fault(fault)) => write!(f, "fault {fault}"),
            Answer::Refused(Refused::WrongKind) => f.write_str("wrong kind"),
            Answer::Refused(Refused::NotThere) => f.write_str("not there"),
            Answer::Refused(Refused::OutOfRange) => f.write_str("out of range"),
            Answer::RefusedList(Refusal { number, place }) => write!(f, "refused {number} {place}"),
            Answer::Broken(how) => write!(f, "broken: {how}"),
        }
    }
}
