//! What document 01 calls groups, factors and transfer, read out of the source's private functions and fields.
use super::*;

pub type Lists = Vec<Vec<usize>>;

pub fn graph(matrix: &Csr32Matrix, nodes: usize, size: usize) -> Result<Lists, HybitError> {
    build_block_node_adjacency(matrix, nodes, size)
}

pub fn strong_graph(matrix: &Csr32Matrix, nodes: usize, size: usize) -> Result<Lists, HybitError> {
    build_strong_block_node_adjacency(matrix, nodes, size)
}

pub fn groups(lists: &[Vec<usize>], size: usize) -> Result<(Vec<usize>, usize), HybitError> {
    build_piecewise_constant_graph_aggregates(lists, size)
}

pub fn estimate(matrix: &Csr32Matrix, diagonal: &[f64]) -> Result<f64, HybitError> {
    estimate_jacobi_spectral_radius(matrix, diagonal)
}

pub fn block_factors(blocks: &BlockJacobiPreconditioner) -> Vec<f64> {
    blocks.blocks.iter().flat_map(|b| b.lower.iter().copied()).collect()
}

/// The transfer of a smoothed basis: pointers, columns, weights, damping factor.
pub struct Transfer {
    pub row_ptr: Vec<usize>,
    pub col_idx: Vec<u32>,
    pub values: Vec<f64>,
    pub damping: f64,
}

pub fn transfer(
    matrix: &Csr32Matrix,
    size: usize,
    group: usize,
    ids: &[usize],
    coarse: usize,
) -> Result<Transfer, HybitError> {
    let t = build_jacobi_smoothed_transfer(matrix, size, group, ids, coarse)?;
    Ok(Transfer { row_ptr: t.row_ptr, col_idx: t.col_idx, values: t.values, damping: t.omega })
}

pub fn galerkin(matrix: &Csr32Matrix, t: &Transfer, coarse: usize) -> Result<Vec<f64>, HybitError> {
    build_galerkin_coarse_from_transfer(matrix, &t.row_ptr, &t.col_idx, &t.values, coarse)
}

/// A coarse matrix averaged with its transpose.
pub fn average(coarse: &mut [f64], c: usize) {
    for i in 0..c {
        for j in 0..i {
            let mean = 0.5 * (coarse[i * c + j] + coarse[j * c + i]);
            coarse[i * c + j] = mean;
            coarse[j * c + i] = mean;
        }
    }
}

/// The averaged coarse matrix of a setup, formed anew: the source keeps only its factor or inverse.
pub fn coarse(p: &TwoLevelBlockJacobiPreconditioner, matrix: &Csr32Matrix) -> Vec<f64> {
    let c = p.coarse_dimension;
    let mut coarse = match (&p.transfer_indices, &p.transfer_values) {
        (SmoothedTransferIndices::Empty, _) => {
            let column = |i: usize| piecewise_coarse_index(i, p.dofs_per_node, p.aggregate_nodes, &p.aggregate_of_node);
            let mut coarse = vec![0.0; c * c];
            for row in 0..p.n {
                for q in matrix.row_ptr()[row] as usize..matrix.row_ptr()[row + 1] as usize {
                    coarse[column(row) * c + column(matrix.col_idx()[q] as usize)] += matrix.values()[q];
                }
            }
            coarse
        }
        (SmoothedTransferIndices::Wide { row_ptr, col_idx }, SmoothedTransferValues::F64(values)) => {
            build_galerkin_coarse_from_transfer(matrix, row_ptr, col_idx, values, c).expect("the transfer of an accepted setup")
        }
        _ => unreachable!("setups are asked for with wide indices and 64 bits"),
    };
    average(&mut coarse, c);
    coarse
}

/// What a setup keeps, in the layout of document 01's setup lists.
pub struct Kept {
    pub groups: usize,
    pub coarse: usize,
    pub ids: Vec<u32>,
    pub transfer_ptr: Vec<u32>,
    pub transfer_idx: Vec<u32>,
    pub factors: Vec<f64>,
    pub weights: Vec<f64>,
    pub coarse_part: Vec<f64>,
    pub damping: f64,
    /// The coarse matrix's largest magnitude, NaN passed over.
    pub scale: f64,
    /// Of its numbers, both halves and the diagonal, those that are not zero.
    pub nonzeros: usize,
    pub inverse: bool,
}

impl Kept {
    /// 01's setup integers and setup floats, as far as they are used.
    pub fn lists(&self) -> (Vec<u32>, Vec<f64>) {
        ([&self.ids[..], &self.transfer_ptr, &self.transfer_idx].concat(), [&self.factors[..], &self.weights, &self.coarse_part].concat())
    }
}

pub fn kept(p: &TwoLevelBlockJacobiPreconditioner, matrix: &Csr32Matrix) -> Kept {
    let nodes = p.n / p.dofs_per_node;
    let ids = if p.aggregate_of_node.is_empty() {
        (0..nodes).map(|v| (v / p.aggregate_nodes) as u32).collect()
    } else {
        p.aggregate_of_node.iter().map(|&g| g as u32).collect()
    };
    let (transfer_ptr, transfer_idx) = match &p.transfer_indices {
        SmoothedTransferIndices::Empty => (Vec::new(), Vec::new()),
        SmoothedTransferIndices::Wide { row_ptr, col_idx } => {
            (row_ptr.iter().map(|&x| x as u32).collect(), col_idx.clone())
        }
        SmoothedTransferIndices::Compact { row_ptr, col_idx } => {
            (row_ptr.clone(), col_idx.iter().map(|&x| x as u32).collect())
        }
    };
    let weights = match &p.transfer_values {
        SmoothedTransferValues::F64(v) => v.clone(),
        SmoothedTransferValues::F32(v) => v.iter().map(|&x| x as f64).collect(),
        _ => Vec::new(),
    };
    let matrix = coarse(p, matrix);
    let inverse = p.coarse_apply_policy == TwoLevelCoarseApplyPolicy::ExplicitInverse;
    Kept {
        groups: p.aggregate_count,
        coarse: p.coarse_dimension,
        ids,
        transfer_ptr,
        transfer_idx,
        factors: block_factors(&p.base),
        weights,
        coarse_part: if inverse { p.coarse_inverse.clone() } else { p.coarse_lower_packed.clone() },
        damping: p.smoothing_omega,
        scale: matrix.iter().fold(0.0, |s, v| s.max(v.abs())),
        nonzeros: matrix.iter().filter(|&&v| v != 0.0).count(),
        inverse,
    }
}
