//! The two-level preconditioner: setup and apply.
use crate::refusal::{Refusal, answered};
use crate::record::RECORD;
use crate::{Layout, MOST_BLOCK, MOST_ROWS, Matrix, Record, ffi, lengths, room};
use std::mem::take;

/// How nodes are grouped.
#[derive(Clone, Copy, Debug, PartialEq, Eq)]
pub enum Aggregation {
    /// As they are numbered; a group may span two parts that nothing links.
    Contiguous = 0,
    /// Along the matrix's entries.
    Graph = 1,
    /// Along the matrix's entries, strongest first.
    StrongGraph = 2,
}

/// The coarse basis.
#[derive(Clone, Copy, Debug, PartialEq, Eq)]
pub enum Basis {
    PiecewiseConstant = 0,
    JacobiSmoothed = 1,
}

/// How an apply solves the coarse system.
#[derive(Clone, Copy, Debug, PartialEq, Eq)]
pub enum CoarsePolicy {
    /// ExplicitInverse from dimension 1,024 on, else FactorSolve.
    Auto = 0,
    FactorSolve = 1,
    ExplicitInverse = 2,
}

/// What a setup is asked for besides the matrix.
#[derive(Clone, Copy, Debug, PartialEq, Eq)]
pub struct Options {
    /// Unknowns a node, 1 to 8.
    pub block_size: usize,
    /// Nodes that a group is to have, 1 to 1,048,576.
    pub group_size: usize,
    pub aggregation: Aggregation,
    pub basis: Basis,
    pub coarse_policy: CoarsePolicy,
}

/// Lists that setups work in, kept from one setup to the next. A setup that is no longer needed gives its lists back (`recycle`):
/// then further setups of the size allocate nothing.
///
/// ```
/// # use yelomawin::*;
/// # let (row_ptr, col_idx, values) = ([0, 1, 2], [0, 1], [16.0, 4.0]);
/// # let a = Matrix { rows: 2, cols: 2, row_ptr: &row_ptr, col_idx: &col_idx, values: &values };
/// # let (aggregation, basis, coarse_policy) = (Aggregation::Graph, Basis::PiecewiseConstant, CoarsePolicy::Auto);
/// # let options = Options { block_size: 1, group_size: 1, aggregation, basis, coarse_policy };
/// let mut workspace = Workspace::default();
/// for _ in 0..3 {
///     let setup = Setup::build_in(&a, &options, &mut workspace)?;
///     assert_eq!(setup.groups(), 2);
///     workspace.recycle(setup);
/// }
/// # Ok::<(), Refusal>(())
/// ```
#[derive(Clone, Debug, Default)]
pub struct Workspace {
    ints: Vec<u32>,
    floats: Vec<f64>,
    setup_ints: Vec<u32>,
    setup_floats: Vec<f64>,
    scratch: Vec<f64>,
    /// The coarse dimension of the last setup: the next one's guess.
    coarse: Option<usize>,
}

impl Workspace {
    /// Takes back a setup's lists for the next setup.
    pub fn recycle(&mut self, setup: Setup) {
        self.setup_ints = setup.ints;
        self.setup_floats = setup.floats;
        self.scratch = setup.work;
    }
}

/// A built setup: its record, and the two lists that an apply reads.
#[derive(Clone, Debug)]
pub struct Setup {
    record: Record,
    /// As the library handed it out, and an apply takes it.
    numbers: [u64; RECORD],
    ints: Vec<u32>,
    floats: Vec<f64>,
    work: Vec<f64>,
}

impl Setup {
    /// Builds the preconditioner of a matrix.
    pub fn build(a: &Matrix, o: &Options) -> Result<Setup, Refusal> {
        let mut setup = Setup::build_in(a, o, &mut Workspace::default())?;
        setup.ints.shrink_to_fit();
        setup.floats.shrink_to_fit();
        Ok(setup)
    }

    /// The same in lists that are used again.
    pub fn build_in(a: &Matrix, o: &Options, w: &mut Workspace) -> Result<Setup, Refusal> {
        let guess = w.coarse.unwrap_or_else(|| likely_coarse(a, o));
        let built = match build_with(a, o, w, guess) {
            // The coarse dimension is known only after the grouping; the refusal tells it.
            Err(Refusal::CoarseListTooShort { dimension }) => build_with(a, o, w, dimension as usize),
            answer => answer,
        };
        let numbers = built?;
        let record = Record::of(&numbers).expect("the library hands out numbers of policies");
        let mut setup =
            Setup { record, numbers, ints: take(&mut w.setup_ints), floats: take(&mut w.setup_floats), work: take(&mut w.scratch) };
        let (layout, coarse) = (setup.layout(), setup.coarse_dimension());
        setup.ints.truncate(layout.columns.end);
        setup.floats.truncate(layout.coarse.end);
        room(&mut setup.work, 2 * coarse);
        w.coarse = Some(coarse);
        Ok(setup)
    }

    /// The correction of a residual.
    pub fn apply(&mut self, residual: &[f64], correction: &mut [f64]) -> Result<(), Refusal> {
        let mut work = take(&mut self.work);
        let answer = self.apply_in(residual, correction, &mut work);
        self.work = work;
        answer
    }

    /// The same on a shared setup, with a work list that is made as long as needed.
    pub fn apply_in(&self, residual: &[f64], correction: &mut [f64], work: &mut Vec<f64>) -> Result<(), Refusal> {
        let work = room(work, 2 * self.coarse_dimension());
        let mut answer = [0; 2];
        // Sound: every list is lent as a Rust slice with its length; those for writing are borrowed for this call alone.
        let number = unsafe {
            ffi::yelomawin_apply(
                self.numbers.as_ptr(), self.numbers.len(), self.ints.as_ptr(), self.ints.len(), self.floats.as_ptr(), self.floats.len(),
                residual.as_ptr(), residual.len(), correction.as_mut_ptr(), correction.len(),
                work.as_mut_ptr(), work.len(), answer.as_mut_ptr(), answer.len(),
            )
        };
        answered(number, &answer)
    }

    /// Everything that the setup says of itself, by names.
    pub fn record(&self) -> &Record {
        &self.record
    }
    /// Where its parts stand in `lists`.
    pub fn layout(&self) -> Layout {
        self.record.layout()
    }
    pub fn rows(&self) -> usize {
        self.record.rows
    }
    pub fn entries(&self) -> usize {
        self.record.entries
    }
    pub fn block_size(&self) -> usize {
        self.record.block_size
    }
    pub fn group_size(&self) -> usize {
        self.record.group_size
    }
    pub fn nodes(&self) -> usize {
        self.record.nodes
    }
    pub fn groups(&self) -> usize {
        self.record.groups
    }
    pub fn coarse_dimension(&self) -> usize {
        self.record.coarse_dimension
    }
    /// How many weights a smoothed transfer has, else 0.
    pub fn transfers(&self) -> usize {
        self.record.transfers
    }
    /// Whether an apply multiplies with the coarse inverse; else it solves with the factor.
    pub fn inverts(&self) -> bool {
        self.record.coarse_policy == CoarsePolicy::ExplicitInverse
    }
    pub fn smoothed(&self) -> bool {
        self.record.basis == Basis::JacobiSmoothed
    }
    pub fn damping_factor(&self) -> f64 {
        self.record.damping_factor
    }
    pub fn coarse_scale(&self) -> f64 {
        self.record.coarse_scale
    }
    /// The operator complexity as two counts: the matrix entries and the coarse entries that are not zero together, and the matrix entries alone.
    /// The first over the second is what PyAMG calls `operator_complexity`.
    pub fn complexity(&self) -> (u64, u64) {
        (self.record.complexity, self.record.baseline)
    }
    /// The group of each node.
    pub fn group_of_node(&self) -> &[u32] {
        &self.ints[self.layout().ids]
    }
    /// The record's numbers as they cross the boundary, floats by their bits.
    pub fn record_numbers(&self) -> &[u64; RECORD] {
        &self.numbers
    }
    /// The used integers (groups; transfer pointers and columns) and floats (block factors; transfer weights; coarse factor or inverse).
    pub fn lists(&self) -> (&[u32], &[f64]) {
        (&self.ints, &self.floats)
    }
}

/// Exact under Contiguous; under the others a group may stay smaller than it is to be, and twice as many are allowed for.
fn likely_coarse(a: &Matrix, o: &Options) -> usize {
    let b = o.block_size.clamp(1, MOST_BLOCK);
    let least = (a.rows.min(MOST_ROWS) / b).div_ceil(o.group_size.max(1)) * b;
    if o.aggregation == Aggregation::Contiguous { least } else { 2 * least }
}

/// The coarse dimension that a setup would have, without the work of the coarse part; also where it is above the limit.
///
/// ```
/// # use yelomawin::*;
/// # let (row_ptr, col_idx, values) = ([0, 1, 2], [0, 1], [16.0, 4.0]);
/// # let a = Matrix { rows: 2, cols: 2, row_ptr: &row_ptr, col_idx: &col_idx, values: &values };
/// # let (aggregation, basis, coarse_policy) = (Aggregation::Graph, Basis::PiecewiseConstant, CoarsePolicy::Auto);
/// let options = Options { block_size: 1, group_size: 1, aggregation, basis, coarse_policy };
/// assert_eq!(coarse_dimension(&a, &options, &mut Workspace::default()), Ok(2));
/// ```
pub fn coarse_dimension(a: &Matrix, o: &Options, w: &mut Workspace) -> Result<usize, Refusal> {
    // With no room for a coarse part the library refuses as soon as it knows the dimension.
    match build_with(a, o, w, 0) {
        Err(Refusal::CoarseTooLarge { dimension } | Refusal::CoarseListTooShort { dimension }) => Ok(dimension as usize),
        answer => answer.map(|_| 0),
    }
}

/// One call of the library, with lists of the lengths that it asks for and room for a coarse dimension.
fn build_with(a: &Matrix, o: &Options, w: &mut Workspace, coarse: usize) -> Result<[u64; RECORD], Refusal> {
    let l = lengths(a.rows, a.values.len(), o.block_size, coarse);
    let setup_ints = room(&mut w.setup_ints, l.setup_ints);
    let setup_floats = room(&mut w.setup_floats, l.setup_floats);
    let work_ints = room(&mut w.ints, l.work_ints);
    let work_floats = room(&mut w.floats, l.work_floats);
    let mut record = [0; RECORD];
    // Sound: every list is lent as a Rust slice with its length; those for writing are borrowed for this call alone.
    let number = unsafe {
        ffi::yelomawin_setup(
            a.rows as u64, a.cols as u64,
            a.row_ptr.as_ptr(), a.row_ptr.len(), a.col_idx.as_ptr(), a.col_idx.len(), a.values.as_ptr(), a.values.len(),
            o.block_size as u64, o.group_size as u64, o.aggregation as u64, o.basis as u64, o.coarse_policy as u64,
            setup_ints.as_mut_ptr(), setup_ints.len(), setup_floats.as_mut_ptr(), setup_floats.len(),
            work_ints.as_mut_ptr(), work_ints.len(), work_floats.as_mut_ptr(), work_floats.len(),
            record.as_mut_ptr(), record.len(),
        )
    };
    answered(number, &record)?;
    Ok(record)
}
