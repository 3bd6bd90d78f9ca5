//! Cases that random numbers miss and that catch real slips, each with everything around it drawn. A case depends on its seed alone.
use crate::draw::{Random, vector};
use crate::{Case, Csr, Options, answers};
use hybit_precond::probe;

type Rows = Vec<Vec<(u32, f64)>>;

const KINDS: [&str; 11] = [
    "weight that is NaN",
    "coarse matrix of NaN alone",
    "block pivot at the tolerance",
    "coarse pivot at the tolerance",
    "difference at the tolerance",
    "diagonal sums that cancel by order",
    "empty transfer row",
    "residual of -0 and the smallest subnormal",
    "diagonal entry of 1.7e308",
    "three rounds of joining",
    "coarse pair that cancels",
];

/// What a seed plants.
pub fn planted(seed: u64) -> &'static str {
    KINDS[(seed % KINDS.len() as u64) as usize]
}

pub fn hard(seed: u64) -> Case {
    let g = &mut Random(seed.wrapping_mul(0x2545_F491_4F6C_DD1D));
    match seed % KINDS.len() as u64 {
        0 => nan_weight(g),
        1 => only_nan(g),
        2 => block_pivot(g),
        3 => coarse_pivot(g),
        4 => difference(g),
        5 => cancelling(g),
        6 => empty_row(g),
        7 => tiny_residual(g),
        8 => largest_diagonal(g),
        9 => three_rounds(g),
        _ => cancelled_pair(g),
    }
}

/// A number a few steps above or below another.
fn beside(x: f64, steps: i64) -> f64 {
    f64::from_bits(x.to_bits().wrapping_add_signed(steps))
}

fn options(g: &mut Random, block: usize, basis: usize) -> Options {
    Options { block, group: 1 + g.below(4), aggregation: g.below(3) as u8, basis: basis as u8, policy: g.below(3) as u8 }
}

fn two_level(g: &mut Random, rows: Rows, options: Options) -> Case {
    let residuals = (0..2).map(|_| vector(g, rows.len())).collect();
    Case::TwoLevel { a: Csr::from_rows(rows.len(), &rows), options, residuals }
}

/// Chains of nodes, symmetric, each row above what it reaches.
fn chains(g: &mut Random, nodes: usize, size: usize) -> Rows {
    let n = nodes * size;
    let mut rows: Rows = vec![Vec::new(); n];
    for i in size..n {
        if !g.one_in(4) {
            let (j, x) = (i - size, g.unit() - 0.5);
            rows[i].push((j as u32, x));
            rows[j].push((i as u32, x));
        }
    }
    for (i, row) in rows.iter_mut().enumerate() {
        let reach: f64 = row.iter().map(|e| e.1.abs()).sum();
        row.push((i as u32, reach + 0.5 + g.unit()));
        row.sort_by_key(|e| e.0);
    }
    rows
}

/// A row of small diagonal with a large entry and its opposite in one column: the estimate is finite, a weight is inf - inf.
fn nan_weight(g: &mut Random) -> Case {
    let nodes = 2 + g.below(6);
    let mut rows = chains(g, nodes, 1);
    let i = g.below(rows.len());
    let j = (i + 1 + g.below(rows.len() - 1)) % rows.len();
    for e in rows[j].iter_mut().filter(|e| e.0 == j as u32) {
        e.1 = 4.0 + g.unit();
    }
    rows[i] = vec![(i as u32, 0.1 + 0.1 * g.unit()), (j as u32, 1.7e308), (j as u32, -1.7e308)];
    let o = options(g, 1, 1);
    two_level(g, rows, o)
}

/// All nodes in one group, so that the coarse matrix is the one number NaN.
fn only_nan(g: &mut Random) -> Case {
    let Case::TwoLevel { a, mut options, residuals } = nan_weight(g) else { unreachable!() };
    options.group = a.rows;
    options.aggregation = 0;
    Case::TwoLevel { a, options, residuals }
}

fn block_pivot(g: &mut Random) -> Case {
    let size = 1 + g.below(4);
    let mut rows: Rows = vec![Vec::new(); size * (1 + g.below(4))];
    let scale = g.pick(&[1.0, 0.25, 3.7, 1e9]);
    for (i, row) in rows.iter_mut().enumerate() {
        row.push((i as u32, if i % size == 0 && size > 1 { scale } else { 1.0 }));
    }
    let i = g.below(rows.len());
    // In a block of one number the number is the scale itself.
    let tolerance = 1e-14 * if size == 1 || i % size == 0 { 1.0 } else { f64::max(scale, 1.0) };
    rows[i][0].1 = beside(tolerance, g.below(5) as i64 - 2);
    let residual = vector(g, rows.len());
    Case::Blocks { a: Csr::from_rows(rows.len(), &rows), block: size, residual }
}

/// Two nodes of one group whose four entries add up, without rounding, to the tolerance or to a number beside it.
fn coarse_pivot(g: &mut Random) -> Case {
    let u = 1e-14;
    let first = u * (1.01 + 0.29 * g.unit());
    let link = u * (0.75 + 0.2 * g.unit());
    let second = beside(2.0 * link - (first - u), g.below(5) as i64 - 2);
    let mut rows: Rows = vec![vec![(0, first), (1, -link)], vec![(0, -link), (1, second)]];
    for k in 0..2 * g.below(3) {
        rows.push(vec![(2 + k as u32, 0.25 + 0.25 * g.unit())]);
    }
    let o = Options { block: 1, group: 2, aggregation: g.below(3) as u8, basis: 0, policy: g.below(3) as u8 };
    two_level(g, rows, o)
}

fn difference(g: &mut Random) -> Case {
    let size = 2 + g.below(3);
    let scale = g.pick(&[1.0, 0.25, 3.7, 1e9]);
    let mut rows: Rows = (0..size * (1 + g.below(3))).map(|i| vec![(i as u32, scale)]).collect();
    let node = g.below(rows.len() / size) * size;
    let (i, j) = (g.below(size), g.below(size));
    let x = beside(1e-11 * f64::max(scale, 1.0), g.below(5) as i64 - 2);
    if i != j {
        rows[node + i].push(((node + j) as u32, if g.one_in(2) { x } else { -x }));
    }
    let residual = vector(g, rows.len());
    Case::Blocks { a: Csr::from_rows(rows.len(), &rows), block: size, residual }
}

/// Large diagonal entries and their opposites, in any order around the true ones.
fn cancelling(g: &mut Random) -> Case {
    let size = 1 + g.below(3);
    let nodes = 1 + g.below(5);
    let mut rows = chains(g, nodes, size);
    for i in 0..rows.len() {
        if g.one_in(2) {
            let big = g.pick(&[1e16, 9007199254740993.0, 1e8, 3e15]);
            rows[i].extend([(i as u32, big), (i as u32, -big), (i as u32, g.unit())]);
            for k in (1..rows[i].len()).rev() {
                let l = g.below(k + 1);
                rows[i].swap(k, l);
            }
        }
    }
    let basis = g.below(2);
    let o = options(g, size, basis);
    two_level(g, rows, o)
}

/// A row whose only weight comes out as zero: the entry that makes it so is searched for.
fn empty_row(g: &mut Random) -> Case {
    let nodes = 2 + g.below(5);
    let mut rows = chains(g, nodes, 1);
    rows[0] = vec![(0, 1.0), (1, 0.0)];
    rows[1].retain(|e| e.0 != 0);
    let both = g.one_in(2);
    if both {
        rows[1].insert(0, (0, 0.0));
    }
    let mut weight = |v: f64| {
        rows[0][1].1 = v;
        if both {
            rows[1][0].1 = v;
        }
        let m = answers::matrix(&Csr::from_rows(rows.len(), &rows)).unwrap();
        let damping = 4.0 / (3.0 * probe::estimate(&m, &m.diagonal().unwrap()).unwrap_or(1.0));
        (1.0 - damping - damping * v, (1.0 - damping) / damping)
    };
    let mut v = -0.25;
    for _ in 0..60 {
        v = weight(v).1;
    }
    let v = (-60..=60).map(|k| beside(v, k)).find(|&x| weight(x).0 == 0.0).unwrap_or(v);
    weight(v);
    let mut o = options(g, 1, 1);
    o.group = 2 + g.below(3);
    two_level(g, rows, o)
}

fn tiny_residual(g: &mut Random) -> Case {
    let size = 1 + g.below(3);
    let nodes = 1 + g.below(6);
    let rows = chains(g, nodes, size);
    let basis = g.below(2);
    let o = options(g, size, basis);
    let Case::TwoLevel { a, options, mut residuals } = two_level(g, rows, o) else { unreachable!() };
    for r in &mut residuals {
        r.iter_mut().for_each(|x| *x = g.pick(&[-0.0, 0.0, 5e-324, -5e-324]));
    }
    Case::TwoLevel { a, options, residuals }
}

fn largest_diagonal(g: &mut Random) -> Case {
    let nodes = 1 + g.below(6);
    let mut rows = chains(g, nodes, 1);
    let i = g.below(rows.len());
    rows[i].iter_mut().filter(|e| e.0 == i as u32).for_each(|e| e.1 = 1.7e308);
    let basis = g.below(2);
    let o = options(g, 1, basis);
    two_level(g, rows, o)
}

/// Copies of a graph whose groups join in three rounds, among others.
fn three_rounds(g: &mut Random) -> Case {
    let pattern: [&[u32]; 6] = [&[0], &[2], &[], &[0], &[], &[4, 3, 1]];
    let mut lists: Vec<Vec<u32>> = Vec::new();
    for _ in 0..1 + g.below(3) {
        let first = lists.len() as u32;
        lists.extend(pattern.iter().map(|l| l.iter().map(|w| first + w).collect()));
        for v in 0..g.below(4) as u32 {
            lists.push(vec![first + g.below(6) as u32; g.below(3) + (v == 0) as usize]);
        }
    }
    Case::Group { lists, size: 16 + g.below(32) }
}

/// Chains of which some links are opposite both ways: such a pair of the coarse matrix is zero once it is averaged.
fn cancelled_pair(g: &mut Random) -> Case {
    let (nodes, size, basis) = (2 + g.below(8), 1 + g.below(3), g.below(2));
    let mut rows = chains(g, nodes, size);
    for i in 0..rows.len() {
        let turned = !g.one_in(3);
        rows[i].iter_mut().filter(|e| turned && (e.0 as usize) < i).for_each(|e| e.1 = -e.1);
    }
    let o = options(g, size, basis);
    two_level(g, rows, o)
}

/// A coarse dimension at which Auto begins to invert.
pub fn wide(seed: u64) -> Case {
    let g = &mut Random(seed);
    let nodes = 1022 + seed as usize % 4;
    let rows = chains(g, nodes, 1);
    let options = Options { block: 1, group: 1, aggregation: g.below(3) as u8, basis: g.below(2) as u8, policy: 0 };
    two_level(g, rows, options)
}

#[cfg(test)]
mod tests {
    use super::*;
    use crate::answers::{Answer, answer};

    /// Each kind does what its name says, on both sides of its line.
    #[test]
    fn kinds_are_met() {
        let count = |kind: u64, is: &dyn Fn(&Case, &Answer) -> bool| {
            (0..400).map(|k| hard(k * KINDS.len() as u64 + kind)).filter(|c| is(c, &answer(c))).count()
        };
        let refused = |number: u32| move |_: &Case, a: &Answer| matches!(a, Answer::Refused(r) if r.number == number);
        let accepted = |_: &Case, a: &Answer| !matches!(a, Answer::Refused(_));
        let nan = |c: &Case, _: &Answer| {
            let Case::TwoLevel { a, options: o, .. } = c else { return false };
            let m = answers::matrix(a).unwrap();
            let ids: Vec<usize> = (0..a.rows).map(|v| v / o.group).collect();
            probe::transfer(&m, 1, o.group, &ids, ids[a.rows - 1] + 1).is_ok_and(|t| t.values.iter().any(|w| w.is_nan()))
        };
        assert!(count(0, &nan) > 300 && count(0, &refused(24)) > 300, "{}", count(0, &nan));
        assert!(count(1, &refused(23)) > 300);
        assert!(count(2, &refused(15)) > 100 && count(2, &accepted) > 100);
        assert!(count(3, &refused(24)) > 100 && count(3, &accepted) > 100);
        assert!(count(4, &refused(14)) > 50 && count(4, &accepted) > 100);
        assert!(count(5, &accepted) > 50 && count(5, &refused(15)) > 20, "{} {}", count(5, &accepted), count(5, &refused(15)));
        let empty = |_: &Case, a: &Answer| matches!(a, Answer::TwoLevel(k, _) if k.transfer_ptr[0] == k.transfer_ptr[1]);
        assert!(count(6, &empty) > 100, "{}", count(6, &empty));
        assert!(count(7, &accepted) > 300);
        assert!(count(8, &accepted) > 50);
        let one = |_: &Case, a: &Answer| matches!(a, Answer::Groups(_, ids) if ids[..6].iter().all(|&g| g == 0));
        assert!(count(9, &one) > 100, "{}", count(9, &one));
        let cancelled = |c: &Case, a: &Answer| {
            let (Case::TwoLevel { a: m, .. }, Answer::TwoLevel(k, _)) = (c, a) else { return false };
            m.values.len() > m.rows && k.nonzeros < k.coarse + (m.values.len() - m.rows) && k.transfer_ptr.is_empty() && k.coarse == m.rows
        };
        assert!(count(10, &accepted) > 300 && count(10, &cancelled) > 20, "{} {}", count(10, &accepted), count(10, &cancelled));
    }
}
