//! The setup record by names, and where the parts of a setup stand in its two lists.
use crate::{Aggregation, Basis, CoarsePolicy};
use std::ops::Range;

/// How many numbers the record has where it crosses the boundary.
pub const RECORD: usize = 15;

/// What a setup says of itself.
#[derive(Clone, Copy, Debug, PartialEq)]
pub struct Record {
    pub rows: usize,
    pub entries: usize,
    /// Unknowns a node.
    pub block_size: usize,
    pub group_size: usize,
    pub nodes: usize,
    pub groups: usize,
    pub coarse_dimension: usize,
    /// How many weights a smoothed transfer has, else 0.
    pub transfers: usize,
    pub aggregation: Aggregation,
    pub basis: Basis,
    /// As resolved: never `Auto`.
    pub coarse_policy: CoarsePolicy,
    pub damping_factor: f64,
    pub coarse_scale: f64,
    /// The operator complexity as two counts: the matrix entries and the coarse entries that are not zero together, and the matrix entries alone.
    pub complexity: u64,
    pub baseline: u64,
}

/// Where the parts of a setup stand: the first three in its integers, the others in its floats.
#[derive(Clone, Debug, PartialEq, Eq)]
pub struct Layout {
    /// The group of each node.
    pub ids: Range<usize>,
    /// Of a smoothed transfer, else empty.
    pub pointers: Range<usize>,
    pub columns: Range<usize>,
    /// The block factors, block k at k times the block size squared.
    pub factors: Range<usize>,
    /// Of a smoothed transfer, else empty.
    pub weights: Range<usize>,
    /// The packed coarse factor, or the inverse row by row.
    pub coarse: Range<usize>,
}

impl Record {
    /// From its numbers, in the order of the header's `YELOMAWIN_ROWS` and so on; none where a policy's number is none.
    pub fn of(numbers: &[u64; RECORD]) -> Option<Record> {
        let [rows, entries, block_size, group_size, nodes, groups, coarse, transfers, aggregation, basis, policy, damping, scale, complexity, baseline] =
            *numbers;
        Some(Record {
            rows: rows as usize,
            entries: entries as usize,
            block_size: block_size as usize,
            group_size: group_size as usize,
            nodes: nodes as usize,
            groups: groups as usize,
            coarse_dimension: coarse as usize,
            transfers: transfers as usize,
            aggregation: *[Aggregation::Contiguous, Aggregation::Graph, Aggregation::StrongGraph].get(aggregation as usize)?,
            basis: *[Basis::PiecewiseConstant, Basis::JacobiSmoothed].get(basis as usize)?,
            coarse_policy: *[CoarsePolicy::Auto, CoarsePolicy::FactorSolve, CoarsePolicy::ExplicitInverse].get(policy as usize)?,
            damping_factor: f64::from_bits(damping),
            coarse_scale: f64::from_bits(scale),
            complexity,
            baseline,
        })
    }

    /// Its numbers, floats by their bits.
    pub fn numbers(&self) -> [u64; RECORD] {
        [
            self.rows as u64, self.entries as u64, self.block_size as u64, self.group_size as u64, self.nodes as u64, self.groups as u64,
            self.coarse_dimension as u64, self.transfers as u64, self.aggregation as u64, self.basis as u64, self.coarse_policy as u64,
            self.damping_factor.to_bits(), self.coarse_scale.to_bits(), self.complexity, self.baseline,
        ]
    }

    /// Where the parts stand in the lists of such a setup.
    pub fn layout(&self) -> Layout {
        let end = |range: &Range<usize>, length| range.end..range.end + length;
        let smoothed = self.basis == Basis::JacobiSmoothed;
        let c = self.coarse_dimension;
        let ids = 0..self.nodes;
        let pointers = end(&ids, if smoothed { self.rows + 1 } else { 0 });
        let columns = end(&pointers, self.transfers);
        let factors = 0..self.rows * self.block_size;
        let weights = end(&factors, self.transfers);
        let coarse = end(&weights, if self.coarse_policy == CoarsePolicy::ExplicitInverse { c * c } else { c * (c + 1) / 2 });
        Layout { ids, pointers, columns, factors, weights, coarse }
    }
}
