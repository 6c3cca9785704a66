//! The library held to document 01, and to what has landed of 02, from outside: an independent implementation of them in
//! plain Rust, the library's calls behind safe wrappers, the cases, and a generator of inputs. The programs in `bin/`
//! compare.

pub mod caller;
pub mod cases;
pub mod generate;
pub mod independent;
pub mod library;
pub mod program;
pub mod reading;
pub mod tables;
pub mod walk;
pub mod writing;
