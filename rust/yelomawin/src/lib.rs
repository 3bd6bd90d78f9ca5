//! A two-level preconditioner for matrices of free-standing parts.
//!
//! The calculation is a library in Rattle, proved equal to its definitions; this crate allocates the lists that it works in,
//! and names what it answers.
//!
//! ```
//! use yelomawin::{Aggregation, Basis, CoarsePolicy, Matrix, Options, Refusal, Setup};
//!
//! // diag(16, 4): two nodes that nothing links.
//! let (row_ptr, col_idx, values) = ([0, 1, 2], [0, 1], [16.0, 4.0]);
//! let a = Matrix { rows: 2, cols: 2, row_ptr: &row_ptr, col_idx: &col_idx, values: &values };
//! let options = Options {
//!     block_size: 1,
//!     group_size: 1,
//!     aggregation: Aggregation::Graph,
//!     basis: Basis::PiecewiseConstant,
//!     coarse_policy: CoarsePolicy::Auto,
//! };
//! let mut setup = Setup::build(&a, &options)?;
//! let mut correction = [0.0; 2];
//! setup.apply(&[16.0, 4.0], &mut correction)?;
//! assert_eq!(correction, [2.0, 2.0]);
//! // Another load on the second node leaves the first node's figure as it was.
//! setup.apply(&[16.0, 40.0], &mut correction)?;
//! assert_eq!(correction, [2.0, 20.0]);
//!
//! let refused = Setup::build(&a, &Options { block_size: 9, ..options }).unwrap_err();
//! assert_eq!(refused, Refusal::BlockSize);
//! assert_eq!(refused.to_string(), "the block size (unknowns a node) must be 1 to 8 (cause 10)");
//! # Ok::<(), Refusal>(())
//! ```
mod blocks;
pub mod ffi;
mod grouping;
mod lengths;
mod matrix;
mod parts;
mod record;
mod refusal;
mod setup;
mod solve;

pub use blocks::BlockJacobi;
pub use grouping::{Grouping, Joining, Rule, group, group_in, group_log, group_log_in};
pub use lengths::{Lengths, lengths};
pub use matrix::{Estimate, Matrix};
pub use parts::Parts;
pub use record::{Layout, RECORD, Record};
pub use refusal::Refusal;
pub use setup::{Aggregation, Basis, CoarsePolicy, Options, Setup, Workspace, coarse_dimension};
pub use solve::{Ended, Goal, Solved, solve, solve_telling};

/// The library's limits: larger numbers it refuses.
pub const MOST_ROWS: usize = 1 << 20;
pub const MOST_ENTRIES: usize = 1 << 24;
pub const MOST_BLOCK: usize = 8;
pub const MOST_COARSE: usize = 2048;

/// The square root to the nearest value, ties to even.
pub fn root(x: f64) -> f64 {
    // Sound: numbers only.
    unsafe { ffi::yelomawin_root(x) }
}

/// A list made exactly so long, without allocating where it has the room. What it holds does not matter to the library.
pub(crate) fn room<T: Clone + Default>(list: &mut Vec<T>, length: usize) -> &mut [T] {
    if list.capacity() < length {
        // The old list goes first; a new one of zeros costs nothing until it is used.
        *list = Vec::new();
        *list = vec![T::default(); length];
    } else {
        list.resize(length, T::default());
    }
    list
}
