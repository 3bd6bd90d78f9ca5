//! A refusal of the library in the terms of the file and the command line.
use crate::csr::Csr;
use crate::job::Job;
use crate::progress::Progress;
use crate::report::counted;
use yelomawin::{Aggregation, Basis, CoarsePolicy, MOST_BLOCK, MOST_COARSE, Matrix, Options, Parts, Refusal, Setup, Workspace, coarse_dimension};

/// Of a block size or a number of rows that does not suit: what a setup would refuse, and what must hold before the rows can be found.
pub fn blocks(block_size: usize, rows: usize) -> Result<(), Refusal> {
    match block_size {
        1..=MOST_BLOCK if rows.is_multiple_of(block_size) => Ok(()),
        1..=MOST_BLOCK => Err(Refusal::NotMultiple),
        _ => Err(Refusal::BlockSize),
    }
}

/// What can be said without the matrix. The library counts matrix rows from 0, the file from 1.
pub fn explained(name: &str, r: Refusal, job: &Job) -> String {
    let b = job.options.block_size as u64;
    let place = |row: u64| format!("; matrix row {} of the file is unknown {} of node {}", row + 1, row % b, row / b);
    let (r, more) = match r {
        Refusal::BlockNotSymmetric { row } => (Refusal::BlockNotSymmetric { row: row + 1 }, place(row)),
        Refusal::BlockPivot { row } => (Refusal::BlockPivot { row: row + 1 }, place(row)),
        Refusal::BlockSize | Refusal::NotMultiple => (r, "; --block sets the unknowns a node".into()),
        Refusal::GroupSize => (r, "; --group sets the nodes a group".into()),
        _ => (r, String::new()),
    };
    format!("{name}: refused: {r}{more}")
}

/// Why a setup was refused, with what the matrix tells about it.
pub fn setup(name: &str, r: Refusal, job: &Job, a: &Csr, parts: &Parts, progress: &Progress) -> String {
    let more = match r {
        Refusal::CoarseTooLarge { .. } => enough(job, a, parts, progress),
        Refusal::CoarsePivot { row } => loose(job, a, parts, row as usize),
        _ => String::new(),
    };
    explained(name, r, job) + &more
}

/// Cause 17: the group size that is enough.
fn enough(job: &Job, a: &Csr, parts: &Parts, progress: &Progress) -> String {
    let o = &job.options;
    let (b, nodes) = (o.block_size, a.rows / o.block_size);
    if o.aggregation != Aggregation::Contiguous && parts.count() * b > MOST_COARSE {
        let fit = MOST_COARSE / b;
        return format!("; {} stand free, and with {} a node at most {fit} fit one file: split it", counted(parts.count(), "row"), counted(b, "unknown"));
    }
    progress.stage("looking for a group size that is enough");
    let mut w = Workspace::default();
    let mut dimension = |group_size: usize| coarse_dimension(&a.matrix(), &Options { group_size, ..*o }, &mut w).unwrap_or(usize::MAX);
    // Twice as large until it is enough, then the middle between one that is and one that is not.
    let (mut less, mut more) = (o.group_size, o.group_size);
    while dimension(more) > MOST_COARSE && more < nodes {
        (less, more) = (more, (2 * more).min(nodes));
    }
    while more - less > 1 {
        let middle = less + (more - less) / 2;
        *(if dimension(middle) > MOST_COARSE { &mut less } else { &mut more }) = middle;
    }
    progress.stage("");
    match dimension(more) {
        d if d <= MOST_COARSE => format!("; --group {more} is enough (coarse dimension {d}), --group {less} is not ({})", dimension(less)),
        _ => "; --group sets the nodes a group".into(),
    }
}

/// Cause 24: the free-standing row that a row of the coarse matrix belongs to, and whether it can move freely.
fn loose(job: &Job, a: &Csr, parts: &Parts, coarse_row: usize) -> String {
    let b = job.options.block_size;
    let Some(ids) = groups(&a.matrix(), &job.options) else { return String::new() };
    let (group, unknown) = (coarse_row / b, coarse_row % b);
    let mut standing: Vec<usize> = (0..ids.len()).filter(|&v| ids[v] as usize == group).map(|v| parts.of_unknown(v * b)).collect();
    standing.dedup();
    for &s in &standing {
        let free: Vec<String> = (0..b).filter(|&k| moves_freely(a, parts.unknowns(s), b, k)).map(|k| k.to_string()).collect();
        if !free.is_empty() {
            return format!("; row {s} can move freely: it is not held (no load is needed to move all its nodes alike along {} {})", if free.len() == 1 { "unknown" } else { "unknowns" }, free.join(", "));
        }
    }
    let rows: Vec<String> = standing.iter().map(|s| format!("row {s}")).collect();
    format!("; this is unknown {unknown} of group {group}, in {}: is it held, and everything in it?", rows.join(" and "))
}

/// The groups of a setup whose coarse matrix was refused. With its diagonal blocks times 1,024, which divides every strength by that,
/// exactly, and so changes no group, the matrix is as good as always positive definite.
fn groups(a: &Matrix, o: &Options) -> Option<Vec<u32>> {
    let mut values = a.values.to_vec();
    for i in 0..a.rows {
        for p in a.row_ptr[i] as usize..a.row_ptr[i + 1] as usize {
            if a.col_idx[p] as usize / o.block_size == i / o.block_size {
                values[p] *= 1024.0;
            }
        }
    }
    let o = Options { basis: Basis::PiecewiseConstant, coarse_policy: CoarsePolicy::FactorSolve, ..*o };
    Some(Setup::build(&Matrix { values: &values, ..*a }, &o).ok()?.group_of_node().to_vec())
}

/// Whether moving every node of a part by one along an unknown asks for no force, up to rounding.
fn moves_freely(a: &Csr, part: &[usize], block: usize, unknown: usize) -> bool {
    let force = |i: usize| {
        let along = a.row(i).filter(|&p| a.col_idx[p] as usize % block == unknown).map(|p| a.values[p]);
        along.fold((0.0, 0.0), |(sum, size): (f64, f64), x| (sum + x, size + x.abs()))
    };
    part.iter().all(|&i| matches!(force(i), (sum, size) if sum.abs() <= 1e-9 * size))
}
