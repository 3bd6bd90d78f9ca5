//! Block Jacobi: the Cholesky factors of the diagonal blocks, and the solve with them.
use crate::refusal::{Refusal, answered};
use crate::{MOST_BLOCK, MOST_ROWS, Matrix, ffi, room};
use std::mem::take;

/// The factors of a matrix's diagonal blocks.
///
/// ```
/// use yelomawin::{BlockJacobi, Matrix};
///
/// let (row_ptr, col_idx, values) = ([0, 2, 4], [0, 1, 0, 1], [4.0, 2.0, 2.0, 5.0]);
/// let a = Matrix { rows: 2, cols: 2, row_ptr: &row_ptr, col_idx: &col_idx, values: &values };
/// let blocks = BlockJacobi::build(&a, 2)?;
/// assert_eq!(blocks.factors(), [2.0, 0.0, 1.0, 2.0]);
/// let mut correction = [0.0; 2];
/// blocks.apply(&[8.0, 10.0], &mut correction)?;
/// assert_eq!(correction, [1.25, 1.5]);
/// # Ok::<(), yelomawin::Refusal>(())
/// ```
#[derive(Clone, Debug)]
pub struct BlockJacobi {
    rows: usize,
    block_size: usize,
    factors: Vec<f64>,
}

impl BlockJacobi {
    /// Factors the diagonal blocks of a matrix; a smaller last block is allowed.
    pub fn build(a: &Matrix, block_size: usize) -> Result<BlockJacobi, Refusal> {
        BlockJacobi::build_in(a, block_size, &mut Vec::new())
    }

    /// The same in a list that is made as long as needed and, unless refused, taken over (`into_factors` hands it back).
    pub fn build_in(a: &Matrix, block_size: usize, factors: &mut Vec<f64>) -> Result<BlockJacobi, Refusal> {
        let lent = room(factors, a.rows.min(MOST_ROWS) * block_size.min(MOST_BLOCK));
        let mut answer = [0; 2];
        // Sound: every list is lent as a Rust slice with its length; those for writing are borrowed for this call alone.
        let number = unsafe {
            ffi::yelomawin_blocks(
                a.rows as u64, a.cols as u64,
                a.row_ptr.as_ptr(), a.row_ptr.len(), a.col_idx.as_ptr(), a.col_idx.len(), a.values.as_ptr(), a.values.len(),
                block_size as u64, lent.as_mut_ptr(), lent.len(), answer.as_mut_ptr(), answer.len(),
            )
        };
        answered(number, &answer)?;
        Ok(BlockJacobi { rows: a.rows, block_size, factors: take(factors) })
    }

    /// The correction of a residual: the solve with the blocks.
    pub fn apply(&self, residual: &[f64], correction: &mut [f64]) -> Result<(), Refusal> {
        let mut answer = [0; 2];
        // Sound: as in `build_in`.
        let number = unsafe {
            ffi::yelomawin_block_apply(
                self.rows as u64, self.block_size as u64, self.factors.as_ptr(), self.factors.len(),
                residual.as_ptr(), residual.len(), correction.as_mut_ptr(), correction.len(), answer.as_mut_ptr(), answer.len(),
            )
        };
        answered(number, &answer)
    }

    pub fn rows(&self) -> usize {
        self.rows
    }
    pub fn block_size(&self) -> usize {
        self.block_size
    }
    /// Row by row with zeros above the diagonal, block k at k times the block size squared, zeros after the last.
    pub fn factors(&self) -> &[f64] {
        &self.factors
    }
    pub fn into_factors(self) -> Vec<f64> {
        self.factors
    }
}
