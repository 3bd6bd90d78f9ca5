//! Cases for the comparison with the Rust: how they are drawn, what the Rust answers, what the library must answer by that, and how a case
//! and its answer are written down.
pub mod answers;
pub mod compare;
pub mod draw;
pub mod examples;
pub mod expected;
pub mod hard;
pub mod joining;
pub mod refusal;
pub mod run;
pub mod shrink;
pub mod spoiled;
pub mod text;

/// A sparse matrix in compressed rows, possibly a contradictory one.
#[derive(Clone, Debug)]
pub struct Csr {
    pub rows: usize,
    pub cols: usize,
    pub row_ptr: Vec<u32>,
    pub col_idx: Vec<u32>,
    pub values: Vec<f64>,
}

impl Csr {
    pub fn from_rows(cols: usize, rows: &[Vec<(u32, f64)>]) -> Csr {
        let (row_ptr, entries) = lent::flat(rows);
        Csr { rows: rows.len(), cols, row_ptr, col_idx: entries.iter().map(|e| e.0).collect(), values: entries.iter().map(|e| e.1).collect() }
    }
}

/// What setup is asked for besides the matrix; policies numbered as the source lists them.
#[derive(Clone, Copy, Debug)]
pub struct Options {
    pub block: usize,
    pub group: usize,
    pub aggregation: u8,
    pub basis: u8,
    pub policy: u8,
}

#[derive(Clone, Debug)]
pub enum Case {
    Root { bits: u64 },
    Validate { a: Csr },
    Diagonal { a: Csr },
    Blocks { a: Csr, block: usize, residual: Vec<f64> },
    Group { lists: Vec<Vec<u32>>, size: usize },
    Estimate { a: Csr, diagonal: Vec<f64> },
    TwoLevel { a: Csr, options: Options, residuals: Vec<Vec<f64>> },
}
