//! What the reading calls are asked, apart from the payload, and what is answered: by the independent implementation, and by
//! the library, whose numbers are held to what a call may touch.

use crate::cases::{Answer, Question};
use crate::independent::places::{self, Place, Refused, Step};
use crate::independent::values;
use crate::library;

/// A question of the reading calls, apart from the payload.
#[derive(Clone, Copy, Debug)]
pub enum Reading<'a> {
    Top,
    Step(Place, Option<u64>),
    View(Place),
    Lookup(Place, &'a [u8]),
    Double(Place),
    Signed(Place),
    Unsigned(Place),
    Ticks(Place),
}

/// What lent numbers hold before a call, so that what it touches is seen.
pub const BEFORE: u64 = 0xA5A5_A5A5_A5A5_A5A5;
/// Numbers on each side of the lent ones.
const AROUND: usize = 2;
/// Numbers lent beyond those that a call may answer.
const BEYOND: usize = 3;
/// The most numbers that a call may answer, those beyond, and those around.
const ROOM: usize = AROUND + 5 + BEYOND + AROUND;

impl Reading<'_> {
    /// The place that is asked about.
    pub fn place(self) -> Option<Place> {
        match self {
            Reading::Top => None,
            Reading::Step(place, _)
            | Reading::View(place)
            | Reading::Lookup(place, _)
            | Reading::Double(place)
            | Reading::Signed(place)
            | Reading::Unsigned(place)
            | Reading::Ticks(place) => Some(place),
        }
    }

    /// The same as a question, which has the payload too.
    pub fn question(self, payload: &[u8]) -> Question {
        let bytes = payload.to_vec();
        match self {
            Reading::Top => Question::Top { bytes },
            Reading::Step(place, last) => Question::Step { bytes, place, last },
            Reading::View(place) => Question::View { bytes, place },
            Reading::Lookup(place, name) => Question::Lookup { bytes, place, name: name.to_vec() },
            Reading::Double(place) => Question::Double { bytes, place },
            Reading::Signed(place) => Question::Signed { bytes, place },
            Reading::Unsigned(place) => Question::Unsigned { bytes, place },
            Reading::Ticks(place) => Question::Ticks { bytes, place },
        }
    }

    /// The independent implementation's answer.
    pub fn by_independent(self, payload: &[u8]) -> Answer {
        fn value<T: Into<i128>>(answer: Result<T, Refused>) -> Answer {
            answer.map_or_else(Answer::Refused, |value| Answer::Value(value.into()))
        }
        match self {
            Reading::Top => places::top(payload).map_or_else(Answer::Refused, Answer::Place),
            Reading::Step(place, last) => match places::step(payload, place, last) {
                Ok(Step::Field(place, start, end)) => Answer::Field(place, start as u64, end as u64),
                Ok(Step::NoMore) => Answer::NoMore,
                Err(refused) => Answer::Refused(refused),
            },
            Reading::View(place) => places::view(payload, place)
                .map_or_else(Answer::Refused, |(start, end)| Answer::View(start as u64, end as u64)),
            Reading::Lookup(place, name) => {
                places::lookup(payload, place, name).map_or_else(Answer::Refused, Answer::Place)
            }
            Reading::Double(place) => value(values::double(payload, place)),
            Reading::Signed(place) => value(values::signed(payload, place)),
            Reading::Unsigned(place) => value(values::unsigned(payload, place)),
            Reading::Ticks(place) => value(values::ticks(payload, place)),
        }
    }

    /// How many numbers the library asks to be lent.
    pub fn numbers(self) -> usize {
        match self {
            Reading::Top | Reading::Lookup(..) => 4,
            Reading::Step(..) => 5,
            Reading::View(_) => 2,
            Reading::Double(_) | Reading::Signed(_) | Reading::Unsigned(_) | Reading::Ticks(_) => 1,
        }
    }

    /// The library's call as it is: the number it answers. None if the library does not have it.
    pub fn call(self, payload: &[u8], answer: &mut [u64]) -> Option<u32> {
        match self {
            Reading::Top => library::top(payload, answer),
            Reading::Step(place, None) => library::step(payload, place, 0, 0, answer),
            Reading::Step(place, Some(last)) => library::step(payload, place, 1, last, answer),
            Reading::View(place) => library::view(payload, place, answer),
            Reading::Lookup(place, name) => library::lookup(payload, place, name, answer),
            Reading::Double(place) => library::double(payload, place, answer),
            Reading::Signed(place) => library::signed(payload, place, answer),
            Reading::Unsigned(place) => library::unsigned(payload, place, answer),
            Reading::Ticks(place) => library::ticks(payload, place, answer),
        }
    }

    /// What the library's number, and the lent numbers where that is 0, say.
    pub fn told(self, code: u32, numbers: &[u64]) -> Answer {
        let place = |numbers: &[u64]| match *numbers {
            [kind, start, end, depth, ..] => match (u8::try_from(kind), u32::try_from(depth)) {
                (Ok(kind), Ok(depth)) => Some(Place { kind, start, end, depth }),
                _ => None,
            },
            _ => None,
        };
        let told = match (code, self, numbers) {
            (0, Reading::Top | Reading::Lookup(..), _) => place(numbers).map(Answer::Place),
            // "its place and name": a name ends where the payload starts.
            (0, Reading::Step(..), [.., name]) => place(numbers).map(|place| Answer::Field(place, *name, place.start)),
            (0, Reading::View(_), [start, end]) => Some(Answer::View(*start, *end)),
            (0, Reading::Double(_) | Reading::Unsigned(_), [value]) => Some(Answer::Value(i128::from(*value))),
            (0, Reading::Signed(_) | Reading::Ticks(_), [value]) => Some(Answer::Value(i128::from(*value as i64))),
            (1 | 2 | 4 | 8 | 2048, _, _) => Some(Answer::Refused(Refused::Fault(code))),
            (library::NO_MORE, _, _) => Some(Answer::NoMore),
            (library::NOT_THERE, _, _) => Some(Answer::Refused(Refused::NotThere)),
            (library::WRONG_KIND, _, _) => Some(Answer::Refused(Refused::WrongKind)),
            (library::OUT_OF_RANGE, _, _) => Some(Answer::Refused(Refused::OutOfRange)),
            _ => None,
        };
        told.unwrap_or_else(|| Answer::Broken(format!("answered {code} {numbers:?}")))
    }

    /// The library's number for an answer, and the numbers that go with it; None for an answer that the library does not give.
    pub fn numbers_of(answer: &Answer) -> Option<(u32, Vec<u64>)> {
        let place = |place: &Place| vec![place.kind.into(), place.start, place.end, place.depth.into()];
        Some(match answer {
            Answer::Place(at) => (0, place(at)),
            Answer::Field(at, name, _) => (0, [place(at), vec![*name]].concat()),
            Answer::View(start, end) => (0, vec![*start, *end]),
            // The low 64 bits: a signed number in two's complement.
            Answer::Value(value) => (0, vec![*value as u64]),
            Answer::NoMore => (library::NO_MORE, Vec::new()),
            Answer::Refused(Refused::Fault(fault)) => (*fault, Vec::new()),
            Answer::Refused(Refused::WrongKind) => (library::WRONG_KIND, Vec::new()),
            Answer::Refused(Refused::NotThere) => (library::NOT_THERE, Vec::new()),
            Answer::Refused(Refused::OutOfRange) => (library::OUT_OF_RANGE, Vec::new()),
            _ => return None,
        })
    }

    /// The library's answer. The call is made with every count of lent numbers below what it asks for, which has to be
    /// answered by "too few" with no number touched; with just as many; and with more. What it may not touch is held to stay as
    /// it was, on both sides of what is lent too. None if the library does not have the call.
    pub fn by_library(self, payload: &[u8]) -> Option<Answer> {
        let needed = self.numbers();
        let broken = |count: usize, code: u32, room: &[u64]| {
            Some(Answer::Broken(format!(
                "{count} numbers lent, answered {code}, afterwards with those around {room:x?}"
            )))
        };
        for count in 0..needed {
            let (code, room) = self.lend(payload, count)?;
            if code != library::TOO_FEW || room != [BEFORE; ROOM] {
                return broken(count, code, &room);
            }
        }
        let mut answer = None;
        for count in [needed, needed + BEYOND] {
            let (code, room) = self.lend(payload, count)?;
            let written = if code == 0 { needed } else { 0 };
            let (before, from) = room.split_at(AROUND);
            let (numbers, after) = from.split_at(written);
            let told = self.told(code, numbers);
            if before.iter().chain(after).any(|number| *number != BEFORE) || *answer.get_or_insert(told.clone()) != told
            {
                return broken(count, code, &room);
            }
            // "A refused view is empty; its answer is asked for apart": the check of the place.
            if let Reading::View(place) = self {
                let check = library::check(payload, place)?;
                if check != code {
                    return Some(Answer::Broken(format!("the view answered {code}, the check of its place {check}")));
                }
            }
        }
        answer
    }

    /// The library's number with so many numbers lent, and these afterwards with those around them.
    fn lend(self, payload: &[u8], count: usize) -> Option<(u32, [u64; ROOM])> {
        let mut room = [BEFORE; ROOM];
        let code = self.call(payload, &mut room[AROUND..AROUND + count])?;
        Some((code, room))
    }
}
