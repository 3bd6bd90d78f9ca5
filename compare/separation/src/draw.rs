//! Random matrices of several free-standing parts, their node numbers interleaved, and residuals that agree on some of the parts.
use cases::draw::Random;
use cases::{Case, Csr, Options};

/// A link between two nodes: whole numbers, fractions or powers of two.
fn number(g: &mut Random, kind: usize) -> f64 {
    match kind {
        0 => g.below(9) as f64 - 4.0,
        1 => g.signed(),
        _ => g.signed().signum() * 2f64.powi(g.below(9) as i32 - 4),
    }
}

/// The entries of each row: links inside parts only, some one-way, some zero; a diagonal that outweighs its row and column.
fn entries(g: &mut Random, part: &[usize], block: usize) -> Vec<Vec<(u32, f64)>> {
    let n = part.len() * block;
    let mut rows: Vec<Vec<(u32, f64)>> = vec![Vec::new(); n];
    let mut weight = vec![0.0; n];
    let (kind, dense) = (g.below(3), 1 + g.below(3));
    for i in 0..n {
        for j in 0..i {
            let (u, v) = (i / block, j / block);
            let near = (v + 1..u).all(|w| part[w] != part[u]);
            if part[u] != part[v] || !(u == v || near || g.one_in(4)) || g.below(3) >= dense {
                continue;
            }
            let x = if g.one_in(12) { 0.0 } else { number(g, kind) };
            // A block must be symmetric, the rest need not be.
            let y = if u == v || !g.one_in(8) { x } else { number(g, kind) };
            rows[i].push((j as u32, x));
            if u == v || !g.one_in(8) {
                rows[j].push((i as u32, y));
            }
            weight[i] += x.abs().max(y.abs());
            weight[j] += x.abs().max(y.abs());
        }
    }
    // Each part in units of its own.
    let units: Vec<f64> = (0..8).map(|_| if g.one_in(3) { 2f64.powi(g.below(41) as i32 - 20) } else { 1.0 }).collect();
    for (i, row) in rows.iter_mut().enumerate() {
        row.push((i as u32, weight[i] + 0.25 + g.below(4) as f64));
        if g.one_in(4) {
            let k = g.below(row.len());
            let (c, x) = row[k];
            row[k].1 = x * 0.5;
            row.push((c, x * 0.5));
        }
        for e in row.iter_mut() {
            e.1 *= units[part[i / block]];
        }
        for k in (1..row.len()).rev() {
            row.swap(k, g.below(k + 1));
        }
    }
    rows
}

/// One residual, and one that agrees with it up to the sign of zeros where the part is kept.
fn residuals(g: &mut Random, n: usize, keeps: impl Fn(usize) -> bool) -> [Vec<f64>; 2] {
    let kind = g.below(4);
    let draw = |g: &mut Random| match kind {
        0 => g.below(7) as f64 - 3.0,
        1 => g.signed() * 10f64.powi(g.below(13) as i32 - 6),
        2 => if g.one_in(2) { 0.0 } else { g.signed() },
        _ => [-0.0, 5e-324, -5e-324, 1e-310, 1.0][g.below(5)],
    };
    let first: Vec<f64> = (0..n).map(|_| draw(g)).collect();
    let second = (0..n)
        .map(|i| match (keeps(i), first[i] == 0.0) {
            (true, true) => if g.one_in(2) { 0.0 } else { -0.0 },
            (true, false) => first[i],
            // A new load, now and then a heavy one.
            (false, _) => if g.one_in(4) { g.signed() * 1e200 } else { draw(g) },
        })
        .collect();
    [first, second]
}

pub fn case(seed: u64, most: usize) -> Case {
    let g = &mut Random(seed);
    let block = 1 + g.below(3);
    let parts = 2 + g.below(4);
    let nodes = parts + g.below(most.saturating_sub(parts).max(1));
    let mut part: Vec<usize> = (0..nodes).map(|v| if v < parts { v } else { g.below(parts) }).collect();
    for k in (1..nodes).rev() {
        part.swap(k, g.below(k + 1));
    }
    let mut kept: Vec<bool> = (0..parts).map(|_| g.one_in(2)).collect();
    let one = g.below(parts);
    kept[one] = true;
    kept[(one + 1) % parts] = false;
    let rows = entries(g, &part, block);
    let residuals = residuals(g, nodes * block, |i| kept[part[i / block]]).into();
    let options = Options {
        block,
        group: 1 + g.below(8),
        aggregation: 1 + g.below(2) as u8,
        basis: g.below(2) as u8,
        policy: 1 + g.below(2) as u8,
    };
    Case::TwoLevel { a: Csr::from_rows(rows.len(), &rows), options, residuals }
}
