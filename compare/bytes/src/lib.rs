//! The library's functions under the names and types that the Rust crate gives them, each made through the function on byte lists: every program
//! over the one runs over the other. Before each call comes the same one with a list that does not fit, which must answer 254 and change nothing.
//! Where a byte or an element of any list is not what is promised of it, the call says so and answers `BROKEN`, a number that nothing expects.
mod exported;
pub mod ffi;
mod lists;

pub const BROKEN: u64 = u64::MAX;
