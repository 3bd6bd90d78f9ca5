//! The two-level preconditioner under the source's name: its constructors, and what it tells of itself.
use crate::error::error;
use crate::lent;
use hybit_core::{HybitError, Preconditioner};
use hybit_matrix::Csr32Matrix;
use hybit_precond::*;
use std::cell::RefCell;
use yelomawin::{Aggregation, Basis, CoarsePolicy, Options, Refusal, Setup};

#[derive(Clone, Debug)]
pub struct TwoLevelBlockJacobiPreconditioner {
    setup: Setup,
    aggregation: TwoLevelAggregation,
    basis: TwoLevelBasis,
    scratch: RefCell<Vec<f64>>,
}

impl TwoLevelBlockJacobiPreconditioner {
    pub fn from_csr32(matrix: &Csr32Matrix, dofs_per_node: usize, aggregate_nodes: usize) -> Result<Self, HybitError> {
        Self::from_csr32_with_policy(matrix, dofs_per_node, aggregate_nodes, TwoLevelCoarseApplyPolicy::FactorSolve)
    }

    pub fn from_csr32_with_policy(
        matrix: &Csr32Matrix, dofs_per_node: usize, aggregate_nodes: usize, coarse_apply_policy: TwoLevelCoarseApplyPolicy,
    ) -> Result<Self, HybitError> {
        let aggregation = TwoLevelAggregation::Contiguous;
        Self::from_csr32_with_aggregation_and_policy(matrix, dofs_per_node, aggregate_nodes, aggregation, coarse_apply_policy)
    }

    pub fn from_csr32_graph_with_policy(
        matrix: &Csr32Matrix, dofs_per_node: usize, target_aggregate_nodes: usize, coarse_apply_policy: TwoLevelCoarseApplyPolicy,
    ) -> Result<Self, HybitError> {
        let aggregation = TwoLevelAggregation::Graph;
        Self::from_csr32_with_aggregation_and_policy(matrix, dofs_per_node, target_aggregate_nodes, aggregation, coarse_apply_policy)
    }

    pub fn from_csr32_with_aggregation_and_policy(
        matrix: &Csr32Matrix, dofs_per_node: usize, aggregate_nodes: usize,
        aggregation: TwoLevelAggregation, coarse_apply_policy: TwoLevelCoarseApplyPolicy,
    ) -> Result<Self, HybitError> {
        let basis = TwoLevelBasis::PiecewiseConstant;
        Self::from_csr32_with_aggregation_basis_and_policy(matrix, dofs_per_node, aggregate_nodes, aggregation, basis, coarse_apply_policy)
    }

    pub fn from_csr32_with_aggregation_basis_and_policy(
        matrix: &Csr32Matrix, dofs_per_node: usize, aggregate_nodes: usize,
        aggregation: TwoLevelAggregation, basis: TwoLevelBasis, coarse_apply_policy: TwoLevelCoarseApplyPolicy,
    ) -> Result<Self, HybitError> {
        Self::from_csr32_with_aggregation_basis_and_transfer_options(
            matrix, dofs_per_node, aggregate_nodes, aggregation, basis, coarse_apply_policy, TwoLevelTransferOptions::default(),
        )
    }

    pub fn from_csr32_with_aggregation_basis_and_policies(
        matrix: &Csr32Matrix, dofs_per_node: usize, aggregate_nodes: usize,
        aggregation: TwoLevelAggregation, basis: TwoLevelBasis, coarse_apply_policy: TwoLevelCoarseApplyPolicy,
        transfer_apply_policy: TwoLevelTransferApplyPolicy,
    ) -> Result<Self, HybitError> {
        let transfer_options = TwoLevelTransferOptions { apply_policy: transfer_apply_policy, ..Default::default() };
        Self::from_csr32_with_aggregation_basis_and_transfer_options(
            matrix, dofs_per_node, aggregate_nodes, aggregation, basis, coarse_apply_policy, transfer_options,
        )
    }

    pub fn from_csr32_with_aggregation_basis_and_transfer_options(
        matrix: &Csr32Matrix, dofs_per_node: usize, aggregate_nodes: usize,
        aggregation: TwoLevelAggregation, basis: TwoLevelBasis, coarse_apply_policy: TwoLevelCoarseApplyPolicy,
        transfer_options: TwoLevelTransferOptions,
    ) -> Result<Self, HybitError> {
        // By default Serial, Wide and F64.
        if transfer_options != TwoLevelTransferOptions::default() {
            return Err(HybitError::InvalidArgument("the library has no transfer policy but Serial, Wide and F64"));
        }
        let options = Options {
            block_size: dofs_per_node,
            group_size: aggregate_nodes,
            aggregation: match aggregation {
                TwoLevelAggregation::Contiguous => Aggregation::Contiguous,
                TwoLevelAggregation::Graph => Aggregation::Graph,
                TwoLevelAggregation::StrongGraph => Aggregation::StrongGraph,
            },
            basis: match basis {
                TwoLevelBasis::PiecewiseConstant => Basis::PiecewiseConstant,
                TwoLevelBasis::JacobiSmoothed => Basis::JacobiSmoothed,
            },
            coarse_policy: match coarse_apply_policy {
                TwoLevelCoarseApplyPolicy::Auto => CoarsePolicy::Auto,
                TwoLevelCoarseApplyPolicy::FactorSolve => CoarsePolicy::FactorSolve,
                TwoLevelCoarseApplyPolicy::ExplicitInverse => CoarsePolicy::ExplicitInverse,
            },
        };
        let setup = Setup::build(&lent(matrix), &options).map_err(|r| match r {
            Refusal::BlockSize if dofs_per_node == 0 => HybitError::InvalidArgument("dofs_per_node must be > 0"),
            Refusal::GroupSize if aggregate_nodes == 0 => HybitError::InvalidArgument("aggregate_nodes must be > 0"),
            r => error(r),
        })?;
        Ok(TwoLevelBlockJacobiPreconditioner { setup, aggregation, basis, scratch: RefCell::default() })
    }

    pub fn dofs_per_node(&self) -> usize {
        self.setup.block_size()
    }
    pub fn aggregate_nodes(&self) -> usize {
        self.setup.group_size()
    }
    pub fn aggregate_count(&self) -> usize {
        self.setup.groups()
    }
    pub fn min_aggregate_nodes(&self) -> usize {
        self.members().into_iter().min().unwrap_or(0)
    }
    pub fn max_aggregate_nodes(&self) -> usize {
        self.members().into_iter().max().unwrap_or(0)
    }
    pub fn aggregation(&self) -> TwoLevelAggregation {
        self.aggregation
    }
    pub fn basis(&self) -> TwoLevelBasis {
        self.basis
    }
    pub fn transfer_apply_policy(&self) -> TwoLevelTransferApplyPolicy {
        TwoLevelTransferApplyPolicy::Serial
    }
    pub fn transfer_storage_policy(&self) -> TwoLevelTransferStoragePolicy {
        TwoLevelTransferStoragePolicy::Wide
    }
    pub fn transfer_value_storage_policy(&self) -> TwoLevelTransferValueStoragePolicy {
        TwoLevelTransferValueStoragePolicy::F64
    }
    pub fn smoothing_omega(&self) -> f64 {
        self.setup.damping_factor()
    }
    pub fn transfer_nnz(&self) -> usize {
        self.setup.transfers()
    }
    pub fn coarse_dimension(&self) -> usize {
        self.setup.coarse_dimension()
    }
    pub fn coarse_apply_policy(&self) -> TwoLevelCoarseApplyPolicy {
        if self.setup.inverts() { TwoLevelCoarseApplyPolicy::ExplicitInverse } else { TwoLevelCoarseApplyPolicy::FactorSolve }
    }

    /// The nodes of each aggregate.
    fn members(&self) -> Vec<usize> {
        let mut members = vec![0; self.setup.groups()];
        self.setup.group_of_node().iter().for_each(|&g| members[g as usize] += 1);
        members
    }
}

impl Preconditioner for TwoLevelBlockJacobiPreconditioner {
    fn len(&self) -> usize {
        self.setup.rows()
    }
    fn apply(&self, r: &[f64], z: &mut [f64]) -> Result<(), HybitError> {
        self.setup.apply_in(r, z, &mut self.scratch.borrow_mut()).map_err(error)
    }
}
