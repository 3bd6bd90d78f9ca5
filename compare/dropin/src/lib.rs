//! The library behind the source's trait: a solver writes `use dropin::…` for `use hybit_precond::…` and changes nothing else.
//! Names, arguments, numbers and errors are the source's. What document 01 leaves out is left out here too: byte counts are not told,
//! and Parallel, Compact and F32 are refused.
mod block_jacobi;
mod error;
mod two_level;

pub use block_jacobi::BlockJacobiPreconditioner;
pub use hybit_precond::{
    EXPLICIT_INVERSE_AUTO_MIN_COARSE_DIMENSION, TwoLevelAggregation, TwoLevelBasis, TwoLevelCoarseApplyPolicy,
    TwoLevelTransferApplyPolicy, TwoLevelTransferOptions, TwoLevelTransferStoragePolicy, TwoLevelTransferValueStoragePolicy,
};
pub use two_level::TwoLevelBlockJacobiPreconditioner;

fn lent(m: &hybit_matrix::Csr32Matrix) -> yelomawin::Matrix<'_> {
    yelomawin::Matrix { rows: m.nrows(), cols: m.ncols(), row_ptr: m.row_ptr(), col_idx: m.col_idx(), values: m.values() }
}
