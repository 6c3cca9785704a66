//! A generator of inputs from a seed: trees within the limits and beyond, payloads tidy, untidy and damaged, places true
//! and forged, names that nearly match, write lists sound and damaged, objects of many names, and the questions that these give.

pub mod hostile;
pub mod lists;
pub mod objects;
pub mod payloads;
pub mod places;
pub mod random;
pub mod trees;

pub use random::Random;

use crate::cases::Question;

/// The questions about a payload's mask: modes 0 to 7 and one random number.
pub fn mask_questions(random: &mut Random, bytes: &[u8]) -> Vec<Question> {
    let other = random.next() as u32;
    (0..8).chain([other]).map(|modes| Question::Mask { modes, bytes: bytes.to_vec() }).collect()
}
