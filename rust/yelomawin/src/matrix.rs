//! Matrices in compressed rows, and the calls that take one alone.
use crate::refusal::{Refusal, answered};
use crate::{MOST_ROWS, ffi, room};

/// A sparse matrix in compressed rows: row i has the entries `row_ptr[i]..row_ptr[i + 1]` of `col_idx` and `values`. Duplicates add.
#[derive(Clone, Copy, Debug)]
pub struct Matrix<'a> {
    pub rows: usize,
    pub cols: usize,
    pub row_ptr: &'a [u32],
    pub col_idx: &'a [u32],
    pub values: &'a [f64],
}

/// A spectral radius and the damping factor from it.
#[derive(Clone, Copy, Debug, PartialEq)]
pub struct Estimate {
    pub radius: f64,
    pub damping_factor: f64,
}

impl Matrix<'_> {
    /// Where the entries of a row stand; of a matrix that was validated.
    pub(crate) fn row(&self, i: usize) -> std::ops::Range<usize> {
        self.row_ptr[i] as usize..self.row_ptr[i + 1] as usize
    }

    /// Whether the lists make a matrix of finite values within the limits.
    pub fn validate(&self) -> Result<(), Refusal> {
        // Sound: every list is lent as a Rust slice, and the library reads no further than the length says.
        let number = unsafe {
            ffi::yelomawin_validate(
                self.rows as u64, self.cols as u64,
                self.row_ptr.as_ptr(), self.row_ptr.len(), self.col_idx.as_ptr(), self.col_idx.len(), self.values.as_ptr(), self.values.len(),
            )
        };
        answered(number, &[])
    }

    /// The diagonal, duplicates added.
    pub fn diagonal(&self) -> Result<Vec<f64>, Refusal> {
        let mut diagonal = Vec::new();
        self.diagonal_in(&mut diagonal)?;
        Ok(diagonal)
    }

    /// The diagonal, into a list that is made as long as needed.
    pub fn diagonal_in(&self, diagonal: &mut Vec<f64>) -> Result<(), Refusal> {
        let diagonal = room(diagonal, self.rows.min(MOST_ROWS));
        let mut answer = [0; 2];
        // Sound: as in `validate`; the lists lent for writing are borrowed for this call alone.
        let number = unsafe {
            ffi::yelomawin_diagonal(
                self.rows as u64, self.cols as u64,
                self.row_ptr.as_ptr(), self.row_ptr.len(), self.col_idx.as_ptr(), self.col_idx.len(), self.values.as_ptr(), self.values.len(),
                diagonal.as_mut_ptr(), diagonal.len(), answer.as_mut_ptr(), answer.len(),
            )
        };
        answered(number, &answer)
    }

    /// The spectral radius of the matrix divided by a diagonal, by ten rounds.
    pub fn estimate(&self, diagonal: &[f64]) -> Result<Estimate, Refusal> {
        self.estimate_in(diagonal, &mut Vec::new())
    }

    /// The same with a work list that is made as long as needed.
    pub fn estimate_in(&self, diagonal: &[f64], work: &mut Vec<f64>) -> Result<Estimate, Refusal> {
        let work = room(work, 3 * self.rows.min(MOST_ROWS));
        let mut answer = [0; 2];
        // Sound: as in `diagonal_in`.
        let number = unsafe {
            ffi::yelomawin_estimate(
                self.rows as u64, self.cols as u64,
                self.row_ptr.as_ptr(), self.row_ptr.len(), self.col_idx.as_ptr(), self.col_idx.len(), self.values.as_ptr(), self.values.len(),
                diagonal.as_ptr(), diagonal.len(), work.as_mut_ptr(), work.len(), answer.as_mut_ptr(), answer.len(),
            )
        };
        answered(number, &answer)?;
        Ok(Estimate { radius: f64::from_bits(answer[0]), damping_factor: f64::from_bits(answer[1]) })
    }
}
