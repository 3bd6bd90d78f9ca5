//! Each call on both sides: the same input, times of the same run, and the results compared bit for bit.
use crate::input::{self, BLOCK};
use crate::limits::{self, Work};
use crate::table::{Row, counted};
use cases::{Csr, Options, answers, expected, joining};
use hybit_core::Preconditioner;
use hybit_matrix::Csr32Matrix;
use hybit_precond::{BlockJacobiPreconditioner, probe};
use std::hint::black_box;
use std::time::Instant;
use yelomawin::{Aggregation, Basis, BlockJacobi, CoarsePolicy, Matrix, Setup, Workspace};

/// Runs both in turn, up to 25 times and for about two seconds, once if once takes longer: the shortest times in milliseconds, and the
/// last results. What an earlier run left is dropped outside the time.
pub fn both<A, B>(rust: impl FnMut() -> A, ours: impl FnMut() -> B) -> (f64, A, f64, B) {
    let ([r, o, _], (a, b, ())) = three(rust, ours, || ());
    (r, a, o, b)
}

/// The same with a third.
fn three<A, B, C>(mut rust: impl FnMut() -> A, mut ours: impl FnMut() -> B, mut more: impl FnMut() -> C) -> ([f64; 3], (A, B, C)) {
    fn timed<T>(least: &mut f64, call: &mut impl FnMut() -> T) -> T {
        let start = Instant::now();
        let result = black_box(call());
        *least = least.min(start.elapsed().as_secs_f64() * 1e3);
        result
    }
    let begin = Instant::now();
    let mut least = [f64::INFINITY; 3];
    for k in 0.. {
        let results = (timed(&mut least[0], &mut rust), timed(&mut least[1], &mut ours), timed(&mut least[2], &mut more));
        if k == 24 || begin.elapsed().as_secs_f64() > 2.0 {
            return (least, results);
        }
    }
    unreachable!()
}

pub fn same(a: &[f64], b: &[f64]) -> bool {
    a.len() == b.len() && a.iter().zip(b).all(|(x, y)| x.to_bits() == y.to_bits() || x.is_nan() && y.is_nan())
}

pub fn narrow(list: &[usize]) -> Vec<u32> {
    list.iter().map(|&x| x as u32).collect()
}

/// The Rust's own lists: both sides read the same memory.
pub fn lent(m: &Csr32Matrix) -> Matrix<'_> {
    Matrix { rows: m.nrows(), cols: m.ncols(), row_ptr: m.row_ptr(), col_idx: m.col_idx(), values: m.values() }
}

fn residual(rows: usize) -> Vec<f64> {
    (0..rows).map(|i| (i % 17) as f64 - 8.0).collect()
}

// ---- grouping

/// Without a log, and with one, beside the Rust, which keeps none: its log is compared with that of the plain program.
pub fn grouping(name: &'static str, lists: Vec<Vec<usize>>, size: usize) -> Vec<Row> {
    let (offsets, neighbours) = ::lent::flat(&lists);
    let neighbours = narrow(&neighbours);
    let (mut ids, mut work) = (Vec::new(), Vec::new());
    let (mut logged_ids, mut log, mut logged_work) = (Vec::new(), Vec::new(), Vec::new());
    let ([rust, ours, logged], ((expected, count), found, (logged_count, joinings))) = three(
        || probe::groups(&lists, size).unwrap(),
        || yelomawin::group_in(size, &offsets, &neighbours, &mut ids, &mut work).unwrap(),
        || yelomawin::group_log_in(size, &offsets, &neighbours, &mut logged_ids, &mut log, &mut logged_work).unwrap(),
    );
    let expected = narrow(&expected);
    assert_eq!(found, count, "grouping, {name}: counts differ");
    assert!(expected == ids, "grouping, {name}: ids differ");
    let plain = joining::joined(&lists.iter().map(|l| narrow(l)).collect::<Vec<_>>(), size);
    assert_eq!((logged_count, joinings), (count, plain.log.len()), "grouping with a log, {name}: counts differ");
    let rest = log.strip_prefix(plain.log.as_flattened());
    assert!(expected == logged_ids && rest.is_some_and(|r| r.iter().all(|&x| x == 0)), "grouping with a log, {name}: ids or logs differ");
    let nodes = format!("{} nodes, {} neighbours", counted(lists.len()), counted(neighbours.len()));
    // Offsets, neighbours, ids, and the work list of 8 and 4 numbers each, which is left zero.
    let work = limits::ints(10 * lists.len() + 5 * neighbours.len() + 16);
    vec![
        Row::new(format!("grouping, {name}, size {size}"), nodes.clone(), lists.len(), rust, None, ours).limited(work),
        Row::new(format!("grouping with a log, {name}, size {size}"), format!("{nodes}, {} joinings", counted(joinings)), lists.len(), rust, None, logged)
            .limited(work.and(limits::ints(3 * lists.len()))),
    ]
}

// ---- calls on a matrix

/// Validate, diagonal, block factors, block apply, estimate.
pub fn stages(a: &Csr, block: usize) -> Vec<Row> {
    let m = answers::matrix(a).unwrap();
    let size = format!("{} rows, {} entries", counted(a.rows), counted(a.values.len()));
    let mut out = Vec::new();
    let (checks, _, ours, _) = both(|| m.validate().unwrap(), || lent(&m).validate().unwrap());
    let (n, e) = (a.rows, a.values.len());
    let matrix = limits::matrix(n, e);
    let mut row = |what: &str, rust: f64, checked: bool, ours: f64, work: Work| {
        out.push(Row::new(what.into(), size.clone(), n, rust, checked.then_some(rust + checks), ours).limited(work));
    };
    row("validate", checks, false, ours, matrix);
    let mut diagonal = Vec::new();
    let (rust, d, ours, _) = both(|| m.diagonal().unwrap(), || lent(&m).diagonal_in(&mut diagonal).unwrap());
    assert!(same(&d, &diagonal), "diagonals differ");
    row("diagonal", rust, true, ours, matrix.and(limits::floats(n)));
    let mut kept = Vec::new();
    let build = || {
        let b = BlockJacobi::build_in(&lent(&m), block, &mut kept).unwrap();
        kept = b.into_factors();
    };
    let (rust, p, ours, _) = both(|| BlockJacobiPreconditioner::from_csr32(&m, block).unwrap(), build);
    assert!(same(&probe::block_factors(&p), &kept), "block factors differ");
    row("block factors", rust, true, ours, matrix.and(limits::floats(n * block)));
    let b = BlockJacobi::build_in(&lent(&m), block, &mut kept).unwrap();
    let r = residual(a.rows);
    let (mut z, mut y) = (vec![0.0; a.rows], vec![0.0; a.rows]);
    let (rust, _, ours, _) = both(|| p.apply(&r, &mut z).unwrap(), || b.apply(&r, &mut y).unwrap());
    assert!(same(&z, &y), "block applies differ");
    row("block apply", rust, false, ours, limits::floats(n * block + 2 * n));
    let mut work = Vec::new();
    let (rust, rho, ours, found) = both(|| probe::estimate(&m, &d).unwrap(), || lent(&m).estimate_in(&d, &mut work).unwrap());
    assert!(same(&[rho, 4.0 / (3.0 * rho)], &[found.radius, found.damping_factor]), "estimates differ");
    row("estimate", rust, true, ours, limits::estimate(n, e));
    out
}

// ---- setup and apply

/// The options of both sides for a frame: graph, with a basis and a coarse policy by their numbers.
pub fn options(group: usize, basis: u8, policy: u8) -> (Options, yelomawin::Options) {
    both_options(Options { block: BLOCK, group, aggregation: 1, basis, policy })
}

fn both_options(o: Options) -> (Options, yelomawin::Options) {
    let ours = yelomawin::Options {
        block_size: o.block,
        group_size: o.group,
        aggregation: if o.aggregation == 1 { Aggregation::Graph } else { Aggregation::StrongGraph },
        basis: if o.basis == 0 { Basis::PiecewiseConstant } else { Basis::JacobiSmoothed },
        coarse_policy: if o.policy == 1 { CoarsePolicy::FactorSolve } else { CoarsePolicy::ExplicitInverse },
    };
    (o, ours)
}

/// Setup and apply of a frame in both bases and both coarse policies, with a coarse dimension near the one asked for.
pub fn setups(a: &Csr, coarse: usize) -> Vec<Row> {
    let group = input::group_size(a.rows, BLOCK, coarse);
    let rows = two_level(a, Options { block: BLOCK, group, aggregation: 1, basis: 0, policy: 0 }, &[1, 2]);
    rows.into_iter().map(|r| Row { coarse: Some(coarse), ..r }).collect()
}

/// Setup and apply with the factor on matrices of other shapes: every width of block that the loops tell apart, few rows with a coarse dimension near its limit, a dense row, StrongGraph.
pub fn shapes() -> Vec<Row> {
    let framed = |rows: usize, block: usize, coarse: usize| {
        let a = input::frame_of(rows, block);
        let group = input::group_size(a.rows, block, coarse);
        (a, Options { block, group, aggregation: 1, basis: 0, policy: 0 })
    };
    let mut out = Vec::new();
    let mut measure = |name: &str, (a, o): (Csr, Options)| {
        out.extend(two_level(&a, o, &[1]).into_iter().map(|r| Row { what: format!("{}: {name}", r.what), ..r }));
    };
    for block in [1, 2, 3, 8] {
        measure(&format!("block size {block}"), framed(300_000, block, 600));
    }
    measure("few rows", framed(30_000, 6, 1_872));
    measure("a grid", framed(1 << 20, 1, 256));
    let (a, o) = framed(300_000, 6, 600);
    measure("StrongGraph", (a, Options { aggregation: 2, ..o }));
    measure("a dense row", (input::arrow(200_000), Options { block: 1, group: 1_000, aggregation: 1, basis: 0, policy: 0 }));
    out
}

/// Setup and apply in both bases and the coarse policies given.
fn two_level(a: &Csr, o: Options, policies: &[u8]) -> Vec<Row> {
    let m = answers::matrix(a).unwrap();
    let (checks, _, _, _) = both(|| m.validate().unwrap(), || ());
    let r = residual(a.rows);
    let (mut z, mut y) = (vec![0.0; a.rows], vec![0.0; a.rows]);
    let mut w = Workspace::default();
    // The lists are there before the first measured setup, as in every later one.
    let first = Setup::build_in(&lent(&m), &both_options(Options { basis: 1, policy: 1, ..o }).1, &mut w).unwrap();
    w.recycle(first);
    let mut out = Vec::new();
    for (basis, name) in [(0, "constant"), (1, "smoothed")] {
        for &policy in policies {
            let how = if policy == 1 { "factor" } else { "inverse" };
            let (theirs, mine) = both_options(Options { basis, policy, ..o });
            let mut held: Option<Setup> = None;
            let build = || {
                if let Some(s) = held.take() {
                    w.recycle(s);
                }
                held = Some(Setup::build_in(&lent(&m), &mine, &mut w).unwrap());
            };
            let (rust, p, ours, _) = both(|| answers::setup(&m, &theirs).unwrap(), build);
            let mut s = held.unwrap();
            let k = probe::kept(&p, &m);
            let (ints, floats) = k.lists();
            assert!(ints == s.lists().0 && same(&floats, s.lists().1), "setups differ");
            assert_eq!(&expected::record(a, &theirs, &k), s.record_numbers(), "records differ");
            let size = format!("{} rows, coarse {}", counted(a.rows), counted(k.coarse));
            let (n, e, t, c) = (a.rows, a.values.len(), k.weights.len(), k.coarse);
            let need = yelomawin::lengths(n, e, o.block, c);
            // All four lists are written, with zeros behind what is used; the matrix is read once for the blocks, lists and coarse matrix together.
            let lists = limits::ints(need.setup_ints + need.work_ints).and(limits::floats(need.setup_floats + need.work_floats)).and(limits::matrix(n, e));
            let smoothing = if basis == 0 { Work::default() } else { limits::estimate(n, e).and(limits::floats(t)).and(limits::ints(n + 1 + t)) };
            let coarse = if policy == 1 { limits::factor(c) } else { limits::factor(c).and(limits::inverse(c)) };
            out.push(Row::new(format!("setup, {name}, {how}"), size.clone(), n, rust, Some(rust + checks), ours).limited(lists.and(smoothing).and(coarse)));
            let (rust, _, ours, _) = both(|| p.apply(&r, &mut z).unwrap(), || s.apply(&r, &mut y).unwrap());
            assert!(same(&z, &y), "applies differ");
            // Block factors, residual and correction; restriction and prolongation by the ids or by the weights; the check of the ids or of the columns.
            let transfer = if basis == 0 { limits::ints(2 * n / o.block) } else { limits::ints(2 * (n + 1 + t)).and(limits::floats(2 * t)) };
            let work = limits::floats(n * o.block + 4 * n).and(transfer).and(limits::coarse_solve(c, policy == 2));
            out.push(Row::new(format!("apply, {name}, {how}"), size, n, rust, None, ours).limited(work));
            w.recycle(s);
        }
    }
    out
}
