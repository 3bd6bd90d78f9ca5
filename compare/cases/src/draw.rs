//! Random cases. A case depends on its seed alone.
use crate::{Case, Csr, Options};
pub use random::Random;

/// A number of one of several kinds: small whole ones, fractions, powers of two, extremes, signed zeros.
fn number(g: &mut Random, kind: usize) -> f64 {
    let sign = if g.one_in(2) { -1.0 } else { 1.0 };
    match kind {
        0 => sign * (g.below(9) as f64),
        1 => sign * g.unit(),
        2 => sign * 2f64.powi(g.below(9) as i32 - 4),
        3 => sign * g.unit() * 10f64.powi(g.below(13) as i32 - 6),
        _ => match g.below(8) {
            0 => sign * 0.0,
            1 => sign * 5e-324,
            2 => sign * 1e-310,
            3 => sign * 1e150,
            4 => sign * 1e-150,
            _ => sign * g.unit(),
        },
    }
}

/// The rows of a matrix of several free-standing parts with blocks of `size` unknowns a node.
fn rows(g: &mut Random, nodes: usize, size: usize) -> Vec<Vec<(u32, f64)>> {
    let n = nodes * size;
    let kind = g.pick(&[0, 0, 1, 1, 1, 2, 3, 4]);
    let dominance = g.pick(&[0.5, 1.0, 1.0, 2.0, 4.0, 16.0]);
    let parts = 1 + g.below(3);
    let part: Vec<usize> = (0..nodes).map(|_| g.below(parts)).collect();
    let mut dense = vec![None; n * n];
    let mut put = |i: usize, j: usize, v: f64| dense[i * n + j] = Some(v);
    let density = 1 + g.below(4);
    let one_way = g.one_in(6);
    for u in 0..nodes {
        for v in 0..u {
            let near = (v + 1..u).all(|w| part[w] != part[u]);
            if part[u] != part[v] || !(near || g.one_in(3)) {
                continue;
            }
            for i in 0..size {
                for j in 0..size {
                    if g.below(4) < density {
                        let x = number(g, kind);
                        put(u * size + i, v * size + j, x);
                        if !(one_way && g.one_in(2)) {
                            put(v * size + j, u * size + i, x);
                        }
                    }
                }
            }
        }
        for i in 0..size {
            for j in 0..i {
                if g.below(4) < density {
                    let x = number(g, kind) * 0.25;
                    put(u * size + i, u * size + j, x);
                    put(u * size + j, u * size + i, x);
                }
            }
        }
    }
    let reach: Vec<f64> = (0..n).map(|i| (0..n).filter_map(|j| dense[i * n + j]).map(f64::abs).sum()).collect();
    for i in 0..n {
        let d = reach[i] * dominance + if g.one_in(8) { 0.0 } else { 1.0 + g.below(3) as f64 };
        dense[i * n + i] = Some(d);
    }
    let mut out: Vec<Vec<(u32, f64)>> = (0..n)
        .map(|i| (0..n).filter_map(|j| dense[i * n + j].map(|v| (j as u32, v))).collect())
        .collect();
    decorate(g, &mut out, &part, size);
    out
}

/// Duplicates, stored zeros inside a part, shuffled rows, scaled parts.
fn decorate(g: &mut Random, rows: &mut [Vec<(u32, f64)>], part: &[usize], size: usize) {
    let scales: Vec<f64> = (0..4)
        .map(|_| match g.below(12) {
            0 => 2f64.powi(g.below(600) as i32 - 300),
            1 => 1.7e308,
            2 => 1e-300,
            _ => 1.0,
        })
        .collect();
    let scaled = g.one_in(4);
    let (twice, zeros, mixed) = (g.one_in(4), g.one_in(4), g.one_in(3));
    for (i, row) in rows.iter_mut().enumerate() {
        if scaled {
            for e in row.iter_mut() {
                let x = e.1 * scales[part[i / size] % 4];
                e.1 = if x.is_finite() { x } else { e.1 };
            }
        }
        if twice {
            for k in 0..row.len() {
                if g.one_in(3) {
                    let (c, v) = row[k];
                    let w = g.pick(&[v * 0.5, v, 1.0, 0.0]);
                    row[k].1 = v - w;
                    row.push((c, w));
                }
            }
        }
        if zeros {
            let near: Vec<usize> = (0..part.len()).filter(|&v| part[v] == part[i / size]).collect();
            let v = near[g.below(near.len())];
            row.push(((v * size + g.below(size)) as u32, if g.one_in(2) { 0.0 } else { -0.0 }));
        }
        if mixed {
            for k in (1..row.len()).rev() {
                row.swap(k, g.below(k + 1));
            }
        }
    }
}

/// A slip that document 01 refuses, or one that only looks like one.
fn damage(g: &mut Random, a: &mut Csr) {
    let e = a.values.len();
    match g.below(12) {
        0 => a.row_ptr.push(e as u32),
        1 => drop(a.row_ptr.pop()),
        2 => a.col_idx.push(0),
        3 if !a.row_ptr.is_empty() => a.row_ptr[0] = 1,
        4 if !a.row_ptr.is_empty() => *a.row_ptr.last_mut().unwrap() += 1,
        5 if a.row_ptr.len() > 2 => a.row_ptr[1] = a.row_ptr[2] + 1,
        6 if !a.col_idx.is_empty() => {
            let k = g.below(a.col_idx.len());
            a.col_idx[k] = a.cols as u32;
        }
        7 if e > 0 => a.values[g.below(e)] = g.pick(&[f64::NAN, f64::INFINITY, f64::NEG_INFINITY]),
        8 => a.cols += 1,
        9 if e > 0 => a.values[g.below(e)] *= -1.0,
        10 if e > 0 => a.values[g.below(e)] = 1.7e308,
        11 if e > 0 => a.values[g.below(e)] = 0.0,
        _ => (),
    }
}

fn drawn(g: &mut Random, most: usize) -> (Csr, usize) {
    let size = g.pick(&[1, 1, 1, 2, 2, 3, 3, 4, 5, 6, 7, 8]);
    let nodes = if g.one_in(40) { 0 } else { 1 + g.below((most / size).max(1)) };
    let r = rows(g, nodes, size);
    let mut a = Csr::from_rows(r.len(), &r);
    if g.one_in(8) {
        damage(g, &mut a);
    }
    (a, size)
}

pub fn vector(g: &mut Random, n: usize) -> Vec<f64> {
    let kind = g.below(6);
    (0..n)
        .map(|_| match kind {
            5 => g.pick(&[0.0, -0.0, -5e-324, 5e-324, 1.0]),
            k => number(g, k),
        })
        .collect()
}

pub fn two_level(seed: u64, most: usize) -> Case {
    let g = &mut Random(seed);
    let (a, size) = drawn(g, most);
    let options = Options {
        block: if g.one_in(40) { g.below(9) } else { size },
        group: if g.one_in(60) { 0 } else { 1 + g.below(12) },
        aggregation: g.below(3) as u8,
        basis: g.below(2) as u8,
        policy: g.below(3) as u8,
    };
    let residuals = (0..2).map(|_| vector(g, a.rows)).collect();
    Case::TwoLevel { a, options, residuals }
}

pub fn blocks(seed: u64, most: usize) -> Case {
    let g = &mut Random(seed);
    let (a, size) = drawn(g, most);
    let block = if g.one_in(4) { g.below(9) } else { size };
    let residual = vector(g, a.rows);
    Case::Blocks { a, block, residual }
}

pub fn diagonal(seed: u64, most: usize) -> Case {
    let g = &mut Random(seed);
    let mut a = drawn(g, most).0;
    if g.one_in(4) && !a.col_idx.is_empty() {
        let k = g.below(a.col_idx.len());
        a.col_idx[k] = g.below(a.cols.max(1)) as u32;
    }
    Case::Diagonal { a }
}

pub fn validate(seed: u64, most: usize) -> Case {
    let g = &mut Random(seed);
    let mut a = drawn(g, most).0;
    for _ in 0..g.below(3) {
        damage(g, &mut a);
    }
    Case::Validate { a }
}

/// Square matrices only: the Rust's estimate does not ask, document 01's does.
pub fn estimate(seed: u64, most: usize) -> Case {
    let g = &mut Random(seed);
    let mut a = drawn(g, most).0;
    a.cols = a.rows;
    let mut diagonal: Vec<f64> = (0..a.rows).map(|_| number(g, 3).abs() + 0.5).collect();
    if g.one_in(6) && !diagonal.is_empty() {
        let k = g.below(diagonal.len());
        diagonal[k] = g.pick(&[0.0, -0.0, -1.0, f64::NAN, f64::INFINITY, 1e-310]);
    }
    if g.one_in(20) {
        diagonal.push(1.0);
    }
    Case::Estimate { a, diagonal }
}

/// Lists with repeats and self-listings, one way and both ways.
pub fn group(seed: u64, most: usize) -> Case {
    let g = &mut Random(seed);
    let nodes = if g.one_in(60) { 0 } else { 1 + g.below(most) };
    let mean = g.below(4);
    let span = 1 + g.below(nodes.max(1));
    let mut lists = vec![Vec::new(); nodes];
    for v in 0..nodes {
        for _ in 0..g.below(2 * mean + 1) {
            let w = if g.one_in(3) { g.below(nodes) } else { (v + g.below(span)) % nodes };
            lists[v].push(w as u32);
            if g.one_in(2) {
                lists[w].push(v as u32);
            }
        }
    }
    Case::Group { lists, size: if g.one_in(50) { 0 } else { 1 + g.below(24) } }
}

/// Graphs whose groups join much: lists run one way, so that growth leaves many small groups, name some nodes twice, and themselves.
pub fn joining(seed: u64, most: usize) -> Case {
    let g = &mut Random(seed);
    let nodes = 1 + g.below(most);
    let (kind, few) = (g.below(5), 2 + g.below(5));
    let mut lists: Vec<Vec<u32>> = vec![Vec::new(); nodes];
    for v in 0..nodes {
        let count = match kind {
            // Anywhere; around a few nodes.
            0 | 1 => g.below(4),
            // Nodes below, by every other node; by one in a few, the rest seldom.
            2 => if g.one_in(2) { 1 + g.below(4) } else { 0 },
            3 => if v % few == few - 1 { 1 + g.below(4) } else { g.one_in(4) as usize },
            // Paths of a few nodes, of which each may name any other.
            _ => {
                if v % few > 0 {
                    lists[v].push(v as u32 - 1);
                    lists[v - 1].push(v as u32);
                }
                g.below(2)
            }
        };
        for _ in 0..count {
            let w = match kind {
                0 | 4 => g.below(nodes),
                1 => if g.one_in(4) { g.below(nodes) } else { g.below(few.min(nodes)) },
                _ => g.below(v + 1),
            };
            let times = if g.one_in(5) { 2 } else { 1 };
            lists[v].extend(std::iter::repeat_n(w as u32, times));
        }
    }
    Case::Group { lists, size: if g.one_in(200) { g.below(2) } else { 2 + g.below(4 * nodes.max(8)) } }
}

pub fn root(seed: u64) -> Case {
    let g = &mut Random(seed);
    let bits = match g.below(4) {
        0 => g.next(),
        1 => ((g.below(2048) as u64) << 52) | (g.next() >> (12 + g.below(52))),
        2 => {
            let r = (g.next() >> 38) as f64;
            (r * r).to_bits().wrapping_add(g.below(5) as u64).wrapping_sub(2)
        }
        _ => g.next() >> (12 + g.below(52)),
    };
    Case::Root { bits }
}

/// Of every kind in turn.
pub fn any(seed: u64, most: usize) -> Case {
    match seed % 8 {
        0 => validate(seed, most),
        1 => diagonal(seed, most),
        2 => blocks(seed, most),
        3 => group(seed, most),
        4 => estimate(seed, most),
        5 => root(seed),
        _ => two_level(seed, most),
    }
}
