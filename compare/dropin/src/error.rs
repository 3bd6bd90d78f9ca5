//! Refusals as the source's errors.
use hybit_core::HybitError::{self, *};
use yelomawin::Refusal;

/// In the source's words where the source has the cause; a limit that the library adds is told in words of its own.
pub fn error(r: Refusal) -> HybitError {
    match r {
        Refusal::TooLarge => InvalidMatrix("the library takes at most 1,048,576 rows and 16,777,216 entries"),
        Refusal::RowListLength => InvalidMatrix("row_ptr length must equal nrows + 1"),
        Refusal::ColumnListLength => InvalidMatrix("col_idx and values lengths differ"),
        Refusal::FirstPointer => InvalidMatrix("row_ptr[0] must be zero"),
        Refusal::LastPointer => InvalidMatrix("row_ptr[nrows] must equal nnz"),
        Refusal::PointerFalls => InvalidMatrix("row_ptr must be monotonically nondecreasing"),
        Refusal::ColumnOutside => InvalidMatrix("column index out of range"),
        Refusal::ValueNotFinite => InvalidMatrix("matrix contains NaN or infinity"),
        Refusal::NotSquare => InvalidMatrix("two-level block Jacobi requires a square matrix"),
        Refusal::BlockSize => InvalidArgument("the library takes at most 8 unknowns a node"),
        Refusal::GroupSize => InvalidArgument("the library takes at most 1,048,576 nodes an aggregate"),
        Refusal::NotMultiple => InvalidArgument("matrix dimension must be divisible by dofs_per_node for aggregation"),
        Refusal::BlockNotSymmetric { .. } => InvalidMatrix("block Jacobi diagonal block is not symmetric"),
        Refusal::BlockPivot { .. } => NumericalBreakdown("block Jacobi Cholesky encountered a non-positive pivot"),
        Refusal::NoNode => InvalidArgument("graph two-level aggregation requires at least one node"),
        Refusal::CoarseTooLarge { .. } => InvalidArgument("the library takes a coarse dimension of at most 2,048"),
        Refusal::MissingDiagonal { row } => MissingDiagonal { row: row as usize },
        Refusal::ZeroDiagonal { row } => ZeroDiagonal { row: row as usize },
        Refusal::NegativeDiagonal { .. } => InvalidMatrix("Jacobi-smoothed coarse basis requires a positive diagonal"),
        Refusal::EstimateFailed { stage: 1 } => NumericalBreakdown("Jacobi smoothing spectral estimate has zero initial norm"),
        Refusal::EstimateFailed { stage: 2 } => NumericalBreakdown("Jacobi smoothing spectral estimate broke down"),
        Refusal::EstimateFailed { stage: 3 } => NumericalBreakdown("Jacobi smoothing spectral estimate is non-positive"),
        Refusal::EstimateFailed { .. } => NumericalBreakdown("Jacobi smoothing produced an invalid damping factor"),
        Refusal::CoarseScale => NumericalBreakdown("aggregation coarse operator is zero or non-finite"),
        Refusal::CoarsePivot { .. } => NumericalBreakdown("aggregation coarse Cholesky encountered a non-positive pivot"),
        Refusal::WrongLength { expected, actual } => DimensionMismatch { expected: expected as usize, actual: actual as usize },
        // Lists too short, a misfit, neighbour lists, no policy: the calls of this crate lend what fits.
        _ => InvalidArgument("refused by the library"),
    }
}
