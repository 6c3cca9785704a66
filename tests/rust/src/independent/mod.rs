//! Document 01, "The build defined, with its exact rules", and what has landed of 02, in plain Rust. It was written from
//! the documents, from Compact Binary 1.0 and, where the documents leave room, from the readings that docs/DECISIONS.md
//! has; not from the library's definitions or code, so that a mistake there is not repeated here. A reading that is wrong
//! would be wrong in both. It is plain, not fast, and it never panics: every index is checked.

pub mod encode;
pub mod float;
pub mod kinds;
pub mod mask;
pub mod number;
pub mod payload;
pub mod places;
pub mod program;
pub mod text;
pub mod tree;
pub mod values;
pub mod write;

/// "the limits 32 and 65,536": the depth of a field.
pub const DEPTH_LIMIT: u32 = 32;
/// "the limits 32 and 65,536": the bytes of an input, a write list or an encoding.
pub const LENGTH_LIMIT: usize = 65_536;
