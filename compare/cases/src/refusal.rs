//! The source's errors as document 01's numbers.
use hybit_core::HybitError;

/// A cause of refusal: its number, and those of the values returned with it that the Rust tells.
#[derive(Clone, Debug, PartialEq, Eq)]
pub struct Refusal {
    pub number: u32,
    pub values: Vec<u64>,
}

fn number(n: u32) -> Refusal {
    Refusal { number: n, values: Vec::new() }
}

fn stage(k: u64) -> Refusal {
    Refusal { number: 22, values: vec![k] }
}

pub fn of(e: &HybitError) -> Refusal {
    match e {
        HybitError::MissingDiagonal { row } => Refusal { number: 19, values: vec![*row as u64] },
        HybitError::ZeroDiagonal { row } => Refusal { number: 20, values: vec![*row as u64] },
        HybitError::DimensionMismatch { expected, actual } => {
            Refusal { number: 25, values: vec![*expected as u64, *actual as u64] }
        }
        HybitError::InvalidMatrix(m) | HybitError::InvalidArgument(m) | HybitError::NumericalBreakdown(m) => match *m {
            "row_ptr length must equal nrows + 1" => number(2),
            "col_idx and values lengths differ" => number(3),
            "row_ptr[0] must be zero" => number(4),
            "row_ptr[nrows] must equal nnz" => number(5),
            "row_ptr must be monotonically nondecreasing" => number(6),
            "column index out of range" => number(7),
            "matrix contains NaN or infinity" => number(8),
            "diagonal requires a square matrix"
            | "block Jacobi requires a square matrix"
            | "two-level block Jacobi requires a square matrix" => number(9),
            "block Jacobi block_size must be > 0" | "dofs_per_node must be > 0" => number(10),
            "aggregate_nodes must be > 0" | "graph two-level target aggregate size must be > 0" => number(11),
            "matrix dimension must be divisible by dofs_per_node for aggregation" => number(12),
            "block Jacobi diagonal block is not symmetric" => number(14),
            "block Jacobi Cholesky encountered a non-positive pivot" => number(15),
            "graph two-level aggregation requires at least one node" => number(16),
            "Jacobi-smoothed coarse basis requires a positive diagonal" => number(21),
            "Jacobi smoothing spectral estimate has zero initial norm" => stage(1),
            "Jacobi smoothing spectral estimate broke down" => stage(2),
            "Jacobi smoothing spectral estimate is non-positive" => stage(3),
            "Jacobi smoothing produced an invalid damping factor" => stage(4),
            "aggregation coarse operator is zero or non-finite" => number(23),
            "aggregation coarse Cholesky encountered a non-positive pivot" => number(24),
            other => panic!("an error without a number: {other}"),
        },
        other => panic!("an error without a number: {other}"),
    }
}
