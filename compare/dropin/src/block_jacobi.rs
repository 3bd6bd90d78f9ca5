//! Block Jacobi under the source's name.
use crate::error::error;
use crate::lent;
use hybit_core::{HybitError, Preconditioner};
use hybit_matrix::Csr32Matrix;
use yelomawin::{BlockJacobi, Refusal};

#[derive(Clone, Debug)]
pub struct BlockJacobiPreconditioner(BlockJacobi);

impl BlockJacobiPreconditioner {
    pub fn from_csr32(matrix: &Csr32Matrix, block_size: usize) -> Result<Self, HybitError> {
        let built = BlockJacobi::build(&lent(matrix), block_size);
        built.map(BlockJacobiPreconditioner).map_err(|r| match r {
            Refusal::NotSquare => HybitError::InvalidMatrix("block Jacobi requires a square matrix"),
            Refusal::BlockSize if block_size == 0 => HybitError::InvalidArgument("block Jacobi block_size must be > 0"),
            r => error(r),
        })
    }

    pub fn block_size(&self) -> usize {
        self.0.block_size()
    }
    pub fn block_count(&self) -> usize {
        self.0.rows().div_ceil(self.0.block_size())
    }
}

impl Preconditioner for BlockJacobiPreconditioner {
    fn len(&self) -> usize {
        self.0.rows()
    }
    fn apply(&self, r: &[f64], z: &mut [f64]) -> Result<(), HybitError> {
        self.0.apply(r, z).map_err(error)
    }
}
