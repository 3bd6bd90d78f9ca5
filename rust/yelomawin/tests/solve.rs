//! The solver with a step length a part: what it solves, how it ends where it cannot, and that a load on one part moves no other.
use yelomawin::*;

/// A square matrix from its entries.
struct Square {
    rows: usize,
    row_ptr: Vec<u32>,
    col_idx: Vec<u32>,
    values: Vec<f64>,
}

impl Square {
    fn new(rows: usize, mut entries: Vec<(u32, u32, f64)>) -> Square {
        entries.sort_by_key(|e| (e.0, e.1));
        let row_ptr = (0..=rows as u32).map(|i| entries.partition_point(|e| e.0 < i) as u32).collect();
        Square { rows, row_ptr, col_idx: entries.iter().map(|e| e.1).collect(), values: entries.iter().map(|e| e.2).collect() }
    }

    fn matrix(&self) -> Matrix<'_> {
        Matrix { rows: self.rows, cols: self.rows, row_ptr: &self.row_ptr, col_idx: &self.col_idx, values: &self.values }
    }
}

/// Chains of springs of these lengths, the first node of each held, node i with the stiffness that `k` gives.
fn chains_of(lengths: &[u32], k: impl Fn(u32) -> f64) -> Square {
    let (mut entries, mut first) = (Vec::new(), 0);
    for &length in lengths {
        for i in first..first + length {
            entries.push((i, i, k(i)));
            if i + 1 < first + length {
                entries.extend([(i, i, k(i + 1)), (i, i + 1, -k(i + 1)), (i + 1, i, -k(i + 1))]);
            }
        }
        first += length;
    }
    Square::new(first as usize, entries)
}

/// Nodes 0 to 5 and 6 to 9, springs of stiffness 1.
fn chains() -> Square {
    chains_of(&[6, 4], |_| 1.0)
}

fn setup_of(a: &Square) -> Setup {
    let (aggregation, basis, coarse_policy) = (Aggregation::Graph, Basis::PiecewiseConstant, CoarsePolicy::Auto);
    Setup::build(&a.matrix(), &Options { block_size: 1, group_size: 4, aggregation, basis, coarse_policy }).unwrap()
}

fn solved(a: &Square, load: &[f64], tolerance: f64, most: usize) -> Solved {
    let mut setup = setup_of(a);
    let parts = Parts::of(&a.matrix(), 1).unwrap();
    solve(&a.matrix(), &parts, |r, z| setup.apply(r, z), load, &Goal { tolerance, most }).unwrap()
}

/// The largest residual of a part over its largest load, formed here.
fn true_residual(a: &Square, part: &[usize], x: &[f64], load: &[f64]) -> f64 {
    let left = |i: usize| load[i] - (a.row_ptr[i]..a.row_ptr[i + 1]).map(|p| a.values[p as usize] * x[a.col_idx[p as usize] as usize]).sum::<f64>();
    part.iter().map(|&i| left(i).abs()).fold(0.0, f64::max) / part.iter().map(|&i| load[i].abs()).fold(0.0, f64::max)
}

#[test]
fn each_part_is_solved() {
    let s = solved(&chains(), &[1.0; 10], 1e-12, 100);
    assert!(s.reached() && s.iterations.iter().all(|&k| (1..=10).contains(&k)), "{:?} {:?}", s.ended, s.iterations);
    assert!(s.residual.iter().all(|&r| r <= 1e-12), "{:?}", s.residual);
    for (x, exact) in s.x.iter().zip([6.0, 11.0, 15.0, 18.0, 20.0, 21.0, 4.0, 7.0, 9.0, 10.0]) {
        assert!((x - exact).abs() < 1e-10, "{x} {exact}");
    }
}

#[test]
fn only_a_part_without_loads_is_solved_at_once() {
    let mut load = [0.0; 10];
    load[8] = 1.0;
    let s = solved(&chains(), &load, 1e-12, 100);
    assert!(s.reached() && s.iterations[0] == 0 && s.residual[0] == 0.0 && s.iterations[1] > 0, "{:?}", s.iterations);
    assert!(s.x[..6].iter().all(|&x| x == 0.0) && (s.x[9] - 3.0).abs() < 1e-10, "{:?}", s.x);
}

/// Springs whose stiffness spans four orders: the residual that conjugate gradients carry along drifts from the true one.
fn stiff() -> Square {
    chains_of(&[60, 40], |i| 10f64.powi((i as i32 * 7) % 5))
}

#[test]
fn a_part_counts_as_solved_by_its_true_residual() {
    let (a, load) = (stiff(), [1.0; 100]);
    let parts = Parts::of(&a.matrix(), 1).unwrap();
    let mut stalled = 0;
    for tolerance in [1e-3, 1e-6, 1e-9, 1e-12, 1e-16] {
        let s = solved(&a, &load, tolerance, 20_000);
        for k in 0..2 {
            let left = true_residual(&a, parts.unknowns(k), &s.x, &load);
            assert_eq!(s.ended[k] == Ended::Reached, left <= tolerance, "{tolerance}: {left:e}, {:?}", s.ended);
            assert!((s.residual[k] - left).abs() <= 1e-3 * left, "{tolerance}: {left:e} {:e}", s.residual[k]);
            stalled += usize::from(s.ended[k] == Ended::Stalled);
        }
        assert!(tolerance < 1e-6 || s.reached(), "{tolerance}: {:?}", s.residual);
    }
    assert!(stalled > 0, "a tolerance of 1e-16 cannot be reached, and this is told before the iterations are over");
}

#[test]
fn a_load_on_one_part_moves_no_other_unless_the_step_is_one_for_all() {
    let a = stiff();
    let mut more = [1.0; 100];
    more[..60].fill(6.0);
    let moved = |parts: &Parts| {
        let mut setup = setup_of(&a);
        let mut x = |load: &[f64]| solve(&a.matrix(), parts, |r, z| setup.apply(r, z), load, &Goal { tolerance: 1e-6, most: 20_000 }).unwrap().x;
        let (before, after) = (x(&[1.0; 100]), x(&more));
        (0..40).filter(|i| before[60 + i] != after[60 + i]).count()
    };
    assert_eq!(moved(&Parts::of(&a.matrix(), 1).unwrap()), 0);
    assert!(moved(&Parts::whole(100)) > 30);
}

#[test]
fn tiny_and_huge_loads_give_the_same_digits() {
    let plain = solved(&chains(), &[1.5; 10], 1e-12, 100);
    for power in [-1000, -600, -500, 500, 600, 1000] {
        let scale = 2f64.powi(power);
        let mut load = [1.5; 10];
        load[..6].iter_mut().for_each(|l| *l *= scale);
        let s = solved(&chains(), &load, 1e-12, 100);
        assert_eq!((&s.ended, &s.iterations, &s.residual), (&plain.ended, &plain.iterations, &plain.residual), "{power}");
        assert!((0..10).all(|i| s.x[i] == plain.x[i] * if i < 6 { scale } else { 1.0 }), "{power}: {:?}", s.x);
    }
    // Loads without a full significand.
    let s = solved(&chains(), &[f64::from_bits(3); 10], 1e-12, 100);
    assert!(s.reached() && s.x[9] == f64::from_bits(30), "{:?}", s.x);
}

#[test]
fn too_few_iterations() {
    let s = solved(&chains(), &[1.0; 10], 1e-12, 1);
    assert_eq!((s.ended, s.iterations), (vec![Ended::Open; 2], vec![1, 1]));
    assert!(s.residual.iter().all(|&r| r > 1e-3), "{:?}", s.residual);
}

#[test]
fn figures_that_overflow() {
    let mut load = [1.0; 10];
    load[..6].fill(1e308);
    let s = solved(&chains(), &load, 1e-12, 100);
    assert_eq!(s.ended, [Ended::Overflow, Ended::Reached]);
    assert!((s.x[9] - 10.0).abs() < 1e-10, "{:?}", s.x);
}

#[test]
fn numbers_on_the_way_that_overflow() {
    // The setup is that of the chains; the matrix is not, and its products with a direction are infinite.
    let mut a = chains();
    let mut setup = setup_of(&a);
    let parts = Parts::of(&a.matrix(), 1).unwrap();
    a.values[..a.row_ptr[1] as usize].fill(f64::MAX);
    let s = solve(&a.matrix(), &parts, |r, z| setup.apply(r, z), &[1.0; 10], &Goal { tolerance: 1e-12, most: 100 }).unwrap();
    assert_eq!(s.ended, [Ended::Overflow, Ended::Reached]);
    assert!((s.x[9] - 10.0).abs() < 1e-10, "{:?}", s.x);
}

#[test]
fn a_matrix_that_is_not_positive_definite() {
    // Nodes 0 to 3, each linked to the next with 3: an eigenvalue is 4 - 6 cos 36° < 0, though blocks and coarse matrix are positive.
    let mut entries = vec![(4, 4, 1.0)];
    for i in 0..4u32 {
        entries.push((i, i, 4.0));
        if i < 3 {
            entries.extend([(i, i + 1, 3.0), (i + 1, i, 3.0)]);
        }
    }
    let s = solved(&Square::new(5, entries), &[1.0, -2.0, 1.5, -1.0, 1.0], 1e-12, 100);
    assert_eq!(s.ended, [Ended::NotPositive, Ended::Reached]);
    assert_eq!(s.x[4], 1.0);
}

#[test]
fn what_cannot_be_taken_is_refused() {
    let a = chains();
    let parts = Parts::of(&a.matrix(), 1).unwrap();
    let goal = Goal { tolerance: 1e-6, most: 10 };
    let refused = |a: &Matrix, parts: &Parts, load: &[f64]| solve(a, parts, |_, _| unreachable!(), load, &goal).unwrap_err();
    assert_eq!(refused(&a.matrix(), &parts, &[1.0; 9]), Refusal::WrongLength { expected: 10, actual: 9 });
    assert_eq!(refused(&a.matrix(), &Parts::whole(11), &[1.0; 10]), Refusal::WrongLength { expected: 10, actual: 11 });
    assert_eq!(refused(&a.matrix(), &parts, &[f64::NAN; 10]), Refusal::ValueNotFinite);
    assert_eq!(refused(&Matrix { col_idx: &a.col_idx[1..], ..a.matrix() }, &parts, &[1.0; 10]), Refusal::ColumnListLength);
    assert_eq!(refused(&Matrix { cols: 11, ..a.matrix() }, &parts, &[1.0; 10]), Refusal::NotSquare);
    // What the preconditioner refuses is handed on.
    let answer = solve(&a.matrix(), &parts, |_, _| Err(Refusal::SetupMisfit), &[1.0; 10], &goal);
    assert_eq!(answer.unwrap_err(), Refusal::SetupMisfit);
}
