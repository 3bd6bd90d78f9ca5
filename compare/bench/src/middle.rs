//! The middle of setup, stage by stage: neighbour lists, transfer, coarse matrix, factor, inverse. The Rust has the constant coarse matrix, the
//! averaging and the factor inside its setup: their time there is the setup's less that of the stages before it.
use crate::calls::{both, lent, narrow, options, same};
use crate::input::{self, BLOCK};
use crate::limits::{self, Work};
use crate::table::{Row, counted};
use cases::{Csr, answers};
use hybit_precond::{BlockJacobiPreconditioner, probe};

// Links libsetup_stages.a, which `scripts/staticlib setup_stages` writes: each answers 0 or the number of its cause.
#[link(name = "setup_stages", kind = "static")]
unsafe extern "C" {
    fn yelomawin_bench_neighbours(
        rows: u64, cols: u64,
        row_ptr: *const u32, row_ptr_len: usize, col_idx: *const u32, col_idx_len: usize, values: *const f64, values_len: usize,
        block_size: u64, strong: u64, base: u64, ints: *mut u32, ints_len: usize, floats: *mut f64, floats_len: usize,
    ) -> u64;
    fn yelomawin_bench_transfer(
        rows: u64, cols: u64,
        row_ptr: *const u32, row_ptr_len: usize, col_idx: *const u32, col_idx_len: usize, values: *const f64, values_len: usize,
        block_size: u64, ids: *const u32, ids_len: usize, groups: u64, diagonal: *const f64, diagonal_len: usize, damping: f64,
        ints: *mut u32, ints_len: usize, floats: *mut f64, floats_len: usize,
    ) -> u64;
    fn yelomawin_bench_constant_coarse(
        rows: u64, cols: u64,
        row_ptr: *const u32, row_ptr_len: usize, col_idx: *const u32, col_idx_len: usize, values: *const f64, values_len: usize,
        block_size: u64, ids: *const u32, ids_len: usize, groups: u64, coarse: *mut f64, coarse_len: usize,
    ) -> u64;
    fn yelomawin_bench_galerkin_coarse(
        rows: u64, cols: u64,
        row_ptr: *const u32, row_ptr_len: usize, col_idx: *const u32, col_idx_len: usize, values: *const f64, values_len: usize,
        c: u64, transfer_ptr: *const u32, transfer_ptr_len: usize, transfer_idx: *const u32, transfer_idx_len: usize,
        weights: *const f64, weights_len: usize, ints: *mut u32, ints_len: usize, floats: *mut f64, floats_len: usize,
    ) -> u64;
    fn yelomawin_bench_coarse_factor(c: u64, m: *const f64, m_len: usize, lower: *mut f64, lower_len: usize) -> u64;
    fn yelomawin_bench_coarse_inverse(c: u64, lower: *const f64, lower_len: usize, inverse: *mut f64, inverse_len: usize) -> u64;
}

macro_rules! lists {
    ($f:ident, $a:expr, $($more:expr),*) => {
        // Sound: every list is a slice that is borrowed for this call alone.
        unsafe {
            $f(
                $a.rows as u64, $a.cols as u64,
                $a.row_ptr.as_ptr(), $a.row_ptr.len(), $a.col_idx.as_ptr(), $a.col_idx.len(), $a.values.as_ptr(), $a.values.len(),
                $($more),*
            )
        }
    };
}

/// The neighbour lists, and the time that the Rust takes for Graph's.
pub fn neighbours(a: &Csr) -> (Vec<Row>, f64) {
    let m = answers::matrix(a).unwrap();
    let a = lent(&m);
    let (n, e, nodes) = (a.rows, a.values.len(), a.rows / BLOCK);
    let (checks, _, _, _) = both(|| m.validate().unwrap(), || ());
    // Where setup has the lists inside its work list.
    let base = 6 * nodes + e + 16;
    let mut ints = vec![0u32; base + nodes + 1 + e];
    let mut floats = vec![0.0; 3 * nodes];
    let mut out = Vec::new();
    for (strong, name) in [(0u64, "Graph"), (1, "StrongGraph")] {
        let (rust, found, ours, answer) = both(
            || if strong == 0 { probe::graph(&m, nodes, BLOCK).unwrap() } else { probe::strong_graph(&m, nodes, BLOCK).unwrap() },
            || lists!(yelomawin_bench_neighbours, a, BLOCK as u64, strong, base as u64, ints.as_mut_ptr(), ints.len(), floats.as_mut_ptr(), floats.len()),
        );
        assert_eq!(answer, 0);
        let (offsets, listed) = ::lent::flat(&found);
        let listed = [offsets, narrow(&listed)].concat();
        assert!(ints[base..][..listed.len()] == listed, "neighbour lists differ");
        let size = format!("{} rows, {} entries", counted(n), counted(e));
        // The columns, and for StrongGraph the values; the lists and the stamps.
        let read = if strong == 0 { limits::ints(n + e) } else { limits::matrix(n, e).and(limits::floats(3 * nodes)) };
        let row = Row::new(format!("neighbour lists, {name}"), size, n, rust, Some(rust + checks), ours);
        out.push(row.limited(read.and(limits::ints(listed.len() + nodes))));
    }
    let graph = out[0].rust;
    (out, graph)
}

/// The stages after them; `graph` is the time that the Rust takes for Graph's lists.
pub fn stages(a: &Csr, coarse: usize, graph: f64) -> Vec<Row> {
    let m = answers::matrix(a).unwrap();
    let a = lent(&m);
    let (n, e) = (a.rows, a.values.len());
    let nodes = n / BLOCK;
    let group = input::group_size(n, BLOCK, coarse);
    let (checks, _, _, _) = both(|| m.validate().unwrap(), || ());
    let mut out = Vec::new();
    let lists = probe::graph(&m, nodes, BLOCK).unwrap();
    let (grouping, (wide, groups), _, _) = both(|| probe::groups(&lists, group).unwrap(), || ());
    let ids = narrow(&wide);
    let c = groups * BLOCK;
    let size = format!("{} rows, coarse {}", counted(n), counted(c));
    let mut row = |what: &str, rust: f64, checked: Option<f64>, ours: f64, work: Work| {
        out.push(Row { coarse: Some(coarse), ..Row::new(what.into(), size.clone(), n, rust, checked, ours).limited(work) });
    };
    let matrix = limits::matrix(n, e);

    // Setup lists the coarse column of each row once and hands it on as ids of blocks of one; that is in our time of both stages.
    let mut listed = vec![0u32; n];
    fn list(listed: &mut [u32], ids: &[u32]) {
        for (unknowns, &id) in listed.chunks_exact_mut(BLOCK).zip(ids) {
            unknowns.iter_mut().enumerate().for_each(|(k, x)| *x = id * BLOCK as u32 + k as u32);
        }
    }

    // The transfer; the Rust makes diagonal and estimate in the same function.
    let mut ints = vec![0u32; 8 * n + 4 * e + 16 + 4 * c];
    let mut floats = vec![0.0; 8 * n + 2 * e + c * c + 4 * c];
    let (mut diagonal, mut work) = (Vec::new(), Vec::new());
    let (rust, t, ours, answer) = both(
        || probe::transfer(&m, BLOCK, group, &wide, c).unwrap(),
        || {
            a.diagonal_in(&mut diagonal).unwrap();
            let damping = a.estimate_in(&diagonal, &mut work).unwrap().damping_factor;
            let (k, l) = (2 * n + e + 1 + 2 * c, n + e + c);
            list(&mut listed, &ids);
            lists!(
                yelomawin_bench_transfer, a, 1, listed.as_ptr(), n, c as u64, diagonal.as_ptr(), n, damping,
                ints.as_mut_ptr(), k, floats.as_mut_ptr(), l
            )
        },
    );
    assert_eq!(answer, 0);
    let count = t.values.len();
    let (pointers, columns, weights) = (ints[..n + 1].to_vec(), ints[n + 1..][..count].to_vec(), floats[..count].to_vec());
    assert!(pointers == narrow(&t.row_ptr) && columns == t.col_idx && same(&weights, &t.values), "transfers differ");
    let transfer = limits::ints(n + 1 + count).and(limits::floats(count));
    row("diagonal, estimate and transfer", rust, Some(rust + checks), ours, matrix.and(matrix).and(limits::estimate(n, e)).and(transfer));

    // The coarse matrix of the smoothed basis, averaged: the Rust does that in its setup, by the same loop as here.
    let (rust, g, ours, answer) = both(
        || {
            let mut g = probe::galerkin(&m, &t, c).unwrap();
            probe::average(&mut g, c);
            g
        },
        || {
            lists!(
                yelomawin_bench_galerkin_coarse, a, c as u64, pointers.as_ptr(), n + 1, columns.as_ptr(), count, weights.as_ptr(), count,
                ints.as_mut_ptr(), 4 * c, floats.as_mut_ptr(), c * c + 4 * c
            )
        },
    );
    assert_eq!(answer, 0);
    assert!(same(&g, &floats[..c * c]), "coarse matrices differ");
    row("coarse matrix, smoothed", rust, Some(rust + checks), ours, matrix.and(transfer).and(limits::floats(c * c)));

    // The constant one with its factor, then the inverse.
    let (blocks, _, _, _) = both(|| BlockJacobiPreconditioner::from_csr32(&m, BLOCK).unwrap(), || ());
    let mut lower = vec![0.0; c * (c + 1) / 2];
    let (rust, p, ours, answer) = both(
        || answers::setup(&m, &options(group, 0, 1).0).unwrap(),
        || {
            list(&mut listed, &ids);
            let k = lists!(yelomawin_bench_constant_coarse, a, 1, listed.as_ptr(), n, c as u64, floats.as_mut_ptr(), c * c);
            // Sound: as above.
            k + unsafe { yelomawin_bench_coarse_factor(c as u64, floats.as_ptr(), c * c, lower.as_mut_ptr(), lower.len()) }
        },
    );
    assert_eq!(answer, 0);
    assert!(same(&probe::coarse(&p, &m), &floats[..c * c]), "coarse matrices differ");
    assert!(same(&probe::kept(&p, &m).coarse_part, &lower), "factors differ");
    let before = blocks + graph + grouping;
    row("coarse matrix, constant, and its factor", rust - before, Some(rust - before + checks), ours, matrix.and(limits::ints(nodes)).and(limits::factor(c)));
    let mut inverse = vec![0.0; c * c];
    let (whole, p, ours, answer) = both(
        || answers::setup(&m, &options(group, 0, 2).0).unwrap(),
        // Sound: as above.
        || unsafe { yelomawin_bench_coarse_inverse(c as u64, lower.as_ptr(), lower.len(), inverse.as_mut_ptr(), c * c) },
    );
    assert_eq!(answer, 0);
    assert!(same(&probe::kept(&p, &m).coarse_part, &inverse), "inverses differ");
    row("inverse", whole - rust, None, ours, limits::inverse(c));
    out
}
