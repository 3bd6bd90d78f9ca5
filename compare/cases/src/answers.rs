//! What the Rust answers to a case.
use crate::refusal::{self, Refusal};
use crate::{Case, Csr, Options};
use hybit_core::{HybitError, Preconditioner};
use hybit_matrix::Csr32Matrix;
use hybit_precond::probe::{self, Kept};
use hybit_precond::*;

pub enum Answer {
    Refused(Refusal),
    Accepted,
    Floats(Vec<f64>),
    /// The factors, and the correction of the residual.
    Blocks(Vec<f64>, Vec<f64>),
    Groups(usize, Vec<u32>),
    Estimate { rho: f64, damping: f64 },
    TwoLevel(Box<Kept>, Vec<Vec<f64>>),
}

pub fn matrix(a: &Csr) -> Result<Csr32Matrix, HybitError> {
    Csr32Matrix::new(a.rows, a.cols, a.row_ptr.clone(), a.col_idx.clone(), a.values.clone())
}

pub fn aggregation(n: u8) -> TwoLevelAggregation {
    [TwoLevelAggregation::Contiguous, TwoLevelAggregation::Graph, TwoLevelAggregation::StrongGraph][n as usize]
}

pub fn basis(n: u8) -> TwoLevelBasis {
    [TwoLevelBasis::PiecewiseConstant, TwoLevelBasis::JacobiSmoothed][n as usize]
}

pub fn policy(n: u8) -> TwoLevelCoarseApplyPolicy {
    [
        TwoLevelCoarseApplyPolicy::Auto,
        TwoLevelCoarseApplyPolicy::FactorSolve,
        TwoLevelCoarseApplyPolicy::ExplicitInverse,
    ][n as usize]
}

/// Setup of a matrix that is built, and so validated, already.
pub fn setup(m: &Csr32Matrix, o: &Options) -> Result<TwoLevelBlockJacobiPreconditioner, HybitError> {
    TwoLevelBlockJacobiPreconditioner::from_csr32_with_aggregation_basis_and_transfer_options(
        m,
        o.block,
        o.group,
        aggregation(o.aggregation),
        basis(o.basis),
        policy(o.policy),
        TwoLevelTransferOptions {
            apply_policy: TwoLevelTransferApplyPolicy::Serial,
            storage_policy: TwoLevelTransferStoragePolicy::Wide,
            value_storage_policy: TwoLevelTransferValueStoragePolicy::F64,
        },
    )
}

fn answered(case: &Case) -> Result<Answer, HybitError> {
    Ok(match case {
        Case::Root { bits } => Answer::Floats(vec![f64::from_bits(*bits).sqrt()]),
        Case::Validate { a } => {
            matrix(a)?;
            Answer::Accepted
        }
        Case::Diagonal { a } => Answer::Floats(matrix(a)?.diagonal()?),
        Case::Blocks { a, block, residual } => {
            let p = BlockJacobiPreconditioner::from_csr32(&matrix(a)?, *block)?;
            let mut z = vec![0.0; residual.len()];
            p.apply(residual, &mut z)?;
            Answer::Blocks(probe::block_factors(&p), z)
        }
        Case::Group { lists, size } => {
            let lists: Vec<Vec<usize>> = lists.iter().map(|l| l.iter().map(|&w| w as usize).collect()).collect();
            let (ids, count) = probe::groups(&lists, *size)?;
            Answer::Groups(count, ids.iter().map(|&g| g as u32).collect())
        }
        Case::Estimate { a, diagonal } => {
            let rho = probe::estimate(&matrix(a)?, diagonal)?;
            let damping = 4.0 / (3.0 * rho);
            if !damping.is_finite() || damping <= 0.0 {
                return Err(HybitError::NumericalBreakdown("Jacobi smoothing produced an invalid damping factor"));
            }
            Answer::Estimate { rho, damping }
        }
        Case::TwoLevel { a, options, residuals } => {
            let m = matrix(a)?;
            let p = setup(&m, options)?;
            let mut corrected = Vec::new();
            for r in residuals {
                let mut z = vec![0.0; r.len()];
                p.apply(r, &mut z)?;
                corrected.push(z);
            }
            Answer::TwoLevel(Box::new(probe::kept(&p, &m)), corrected)
        }
    })
}

pub fn answer(case: &Case) -> Answer {
    answered(case).unwrap_or_else(|e| Answer::Refused(refusal::of(&e)))
}
