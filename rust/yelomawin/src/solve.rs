//! Conjugate gradients with a step length for each part that nothing links, so that nothing but the preconditioner joins them.
//! This solver is not proved; what is proved is each apply of the preconditioner that it calls.
use crate::{Matrix, Parts, Refusal};

/// When a part counts as solved, and how long is tried.
#[derive(Clone, Copy, Debug, PartialEq)]
pub struct Goal {
    /// How far the largest residual of a part must fall, as a share of its largest load.
    pub tolerance: f64,
    /// Iterations at most.
    pub most: usize,
}

/// How a part ended.
#[derive(Clone, Copy, Debug, PartialEq, Eq)]
pub enum Ended {
    /// The true residual, formed anew, is within the tolerance.
    Reached,
    /// The iterations are over.
    Open,
    /// The residual that is carried along fell, and the true one no longer does: rounding allows no smaller one.
    Stalled,
    /// A direction along which the matrix, or the preconditioner, is not positive.
    NotPositive,
    /// A number that is not finite.
    Overflow,
}

/// What a solution has for each part, beside the figures themselves.
#[derive(Clone, Debug, PartialEq)]
pub struct Solved {
    pub x: Vec<f64>,
    /// Of each part: the iterations that it took, and how it ended.
    pub iterations: Vec<usize>,
    pub ended: Vec<Ended>,
    /// Of each part: the largest magnitude in load − A·x, formed anew from `x`, over its largest load (0 where there is no load).
    pub residual: Vec<f64>,
}

impl Solved {
    pub fn reached(&self) -> bool {
        self.ended.iter().all(|&e| e == Ended::Reached)
    }
}

/// Solves A·x = load, each part by itself. `preconditioner` corrects a residual (`setup.apply`, `blocks.apply`).
///
/// A load on one part moves no figure of another, provided that the preconditioner keeps the parts apart: a setup under Graph or
/// StrongGraph is proved to. With one step length for all, as other solvers take it (here `Parts::whole`), every figure may move.
///
/// ```
/// use yelomawin::*;
///
/// // Two parts: unknowns 0 and 1, and unknown 2.
/// let (row_ptr, col_idx, values) = ([0, 2, 4, 5], [0, 1, 0, 1, 2], [4.0, -1.0, -1.0, 4.0, 2.0]);
/// let a = Matrix { rows: 3, cols: 3, row_ptr: &row_ptr, col_idx: &col_idx, values: &values };
/// let parts = Parts::of(&a, 1)?;
/// let blocks = BlockJacobi::build(&a, 1)?;
/// let goal = Goal { tolerance: 1e-12, most: 100 };
/// let before = solve(&a, &parts, |r, z| blocks.apply(r, z), &[3.0, 3.0, 8.0], &goal)?;
/// let after = solve(&a, &parts, |r, z| blocks.apply(r, z), &[3.0, 3.0, 9.0], &goal)?;
/// assert!(before.reached() && after.reached());
/// assert_eq!((&before.x[..], &after.x[..2], after.x[2]), (&[1.0, 1.0, 4.0][..], &before.x[..2], 4.5));
/// # Ok::<(), Refusal>(())
/// ```
pub fn solve(
    a: &Matrix, parts: &Parts, preconditioner: impl FnMut(&[f64], &mut [f64]) -> Result<(), Refusal>, load: &[f64], goal: &Goal,
) -> Result<Solved, Refusal> {
    solve_telling(a, parts, preconditioner, load, goal, |_, _| ())
}

/// The same, telling before each iteration its number and how many parts are not solved yet.
pub fn solve_telling(
    a: &Matrix, parts: &Parts, mut preconditioner: impl FnMut(&[f64], &mut [f64]) -> Result<(), Refusal>, load: &[f64], goal: &Goal,
    mut tell: impl FnMut(usize, usize),
) -> Result<Solved, Refusal> {
    let n = a.rows;
    a.validate()?;
    if a.rows != a.cols {
        return Err(Refusal::NotSquare);
    }
    for actual in [load.len(), parts.rows()] {
        if actual != n {
            return Err(Refusal::WrongLength { expected: n as u64, actual: actual as u64 });
        }
    }
    if !load.iter().all(|l| l.is_finite()) {
        return Err(Refusal::ValueNotFinite);
    }
    let all = || (0..parts.count()).map(|s| parts.unknowns(s));
    // A part is solved for its loads over a power of two, which changes no digit: products of tiny loads vanish, of huge ones overflow.
    let scale: Vec<f64> = all().map(|part| power_of_two(largest(part, load))).collect();
    let b: Vec<f64> = (0..n).map(|i| load[i] / scale[parts.of_unknown(i)]).collect();
    let top: Vec<f64> = all().map(|part| largest(part, &b)).collect();
    let mut x = vec![0.0; n];
    let mut r = b.clone();
    let mut z = vec![0.0; n];
    let mut q = vec![0.0; n];
    let mut ended: Vec<Ended> = top.iter().map(|&t| if t == 0.0 { Ended::Reached } else { Ended::Open }).collect();
    let mut iterations = vec![0; parts.count()];
    // The true residual of a part when it was last formed anew, and whether the next direction begins afresh from it.
    let mut anew = vec![f64::INFINITY; parts.count()];
    let mut afresh = vec![false; parts.count()];
    preconditioner(&r, &mut z)?;
    let mut p = z.clone();
    let mut rz = dots(parts, &r, &z);
    for k in 1..=goal.most {
        let open = ended.iter().filter(|&&e| e == Ended::Open).count();
        if open == 0 {
            break;
        }
        tell(k, open);
        for s in (0..parts.count()).filter(|&s| ended[s] == Ended::Open) {
            parts.unknowns(s).iter().for_each(|&i| q[i] = row_times(a, i, &p));
        }
        let pq = dots(parts, &p, &q);
        // A part that is solved keeps its figures.
        for s in 0..parts.count() {
            if ended[s] != Ended::Open {
                continue;
            }
            let part = parts.unknowns(s);
            iterations[s] = k;
            afresh[s] = false;
            if !pq[s].is_finite() || !rz[s].is_finite() {
                ended[s] = Ended::Overflow;
            } else if pq[s] <= 0.0 || rz[s] <= 0.0 {
                ended[s] = Ended::NotPositive;
            } else {
                let step = rz[s] / pq[s];
                for &i in part {
                    x[i] += step * p[i];
                    r[i] -= step * q[i];
                }
                let limit = goal.tolerance * top[s];
                if part.iter().all(|&i| r[i].abs() <= limit) {
                    // The residual that is carried along has drifted from the true one, which decides.
                    part.iter().for_each(|&i| r[i] = b[i] - row_times(a, i, &x));
                    let now = largest(part, &r);
                    if now <= limit {
                        ended[s] = Ended::Reached;
                    } else if !(now < 0.5 * anew[s]) {
                        ended[s] = Ended::Stalled;
                    }
                    (anew[s], afresh[s]) = (now, true);
                } else if !part.iter().all(|&i| r[i].is_finite()) {
                    ended[s] = Ended::Overflow;
                }
            }
            // What is not finite in one part must not come to the others through the preconditioner.
            if matches!(ended[s], Ended::NotPositive | Ended::Overflow) {
                part.iter().for_each(|&i| r[i] = 0.0);
            }
        }
        preconditioner(&r, &mut z)?;
        let next = dots(parts, &r, &z);
        for s in (0..parts.count()).filter(|&s| ended[s] == Ended::Open) {
            let turn = if afresh[s] { 0.0 } else { next[s] / rz[s] };
            for &i in parts.unknowns(s) {
                p[i] = z[i] + turn * p[i];
            }
        }
        rz = next;
    }
    let mut residual = vec![0.0; parts.count()];
    for s in (0..parts.count()).filter(|&s| top[s] > 0.0) {
        let part = parts.unknowns(s);
        let left = |i: usize| (b[i] - row_times(a, i, &x)).abs();
        // `max` would pass over a NaN.
        residual[s] = part.iter().map(|&i| left(i)).fold(0.0, |m: f64, l| if l > m || l.is_nan() { l } else { m }) / top[s];
    }
    for s in 0..parts.count() {
        let part = parts.unknowns(s);
        part.iter().for_each(|&i| x[i] *= scale[s]);
        if !part.iter().all(|&i| x[i].is_finite()) {
            ended[s] = Ended::Overflow;
        }
    }
    Ok(Solved { x, iterations, ended, residual })
}

fn row_times(a: &Matrix, i: usize, x: &[f64]) -> f64 {
    let mut y = 0.0;
    for p in a.row(i) {
        y += a.values[p] * x[a.col_idx[p] as usize];
    }
    y
}

/// A scalar product for each part.
fn dots(parts: &Parts, x: &[f64], y: &[f64]) -> Vec<f64> {
    (0..parts.count()).map(|s| parts.unknowns(s).iter().map(|&i| x[i] * y[i]).sum()).collect()
}

fn largest(part: &[usize], x: &[f64]) -> f64 {
    part.iter().map(|&i| x[i].abs()).fold(0.0, f64::max)
}

/// The power of two at or below a positive number; the smallest normal one below that.
fn power_of_two(x: f64) -> f64 {
    f64::from_bits(x.to_bits() & f64::INFINITY.to_bits()).max(f64::MIN_POSITIVE)
}
