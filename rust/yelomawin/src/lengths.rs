//! How long the lists of a setup must be.
use crate::{MOST_BLOCK, MOST_COARSE, MOST_ENTRIES, MOST_ROWS};

/// The lengths of the lists that `ffi::yelomawin_setup` is lent.
#[derive(Clone, Copy, Debug, PartialEq, Eq)]
pub struct Lengths {
    pub setup_ints: usize,
    pub setup_floats: usize,
    pub work_ints: usize,
    pub work_floats: usize,
}

/// The lengths with which a setup refuses neither by cause 13 nor, up to this coarse dimension, by 18. Dimension 0 is what 13 asks alone.
///
/// ```
/// let least = yelomawin::lengths(6, 20, 3, 0);
/// assert_eq!((least.setup_ints, least.setup_floats, least.work_ints, least.work_floats), (35, 44, 144, 88));
/// ```
pub fn lengths(rows: usize, entries: usize, block_size: usize, coarse_dimension: usize) -> Lengths {
    // Larger numbers are refused before any list is looked at: cut down, no product can overflow.
    let (n, e) = (rows.min(MOST_ROWS), entries.min(MOST_ENTRIES));
    let (b, c) = (block_size.min(MOST_BLOCK), coarse_dimension.min(MOST_COARSE));
    Lengths {
        setup_ints: n / b.max(1) + 2 * n + e + 1,
        setup_floats: n * b + n + e + c * c,
        work_ints: 8 * n + 4 * e + 16 + 4 * c,
        work_floats: 8 * n + 2 * e + c * c + 4 * c,
    }
}
