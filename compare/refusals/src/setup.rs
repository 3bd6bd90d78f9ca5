//! Setup: 1 to 18, then 22 to 24. 19, 20 and 21 no setup answers: a block with such a row is refused by 14 or 15 before them.
use crate::blocks::skewed;
use crate::faults::{Case, Entry, Fault};
use crate::lists::{Kind, Lent, Random, Room, Seen, bits, within};
use crate::matrix::{Csr, ENTRIES, OnMatrix, ROWS, on_matrix, square};
use yelomawin::ffi;

pub const CONTIGUOUS: u64 = 0;
pub const GRAPH: u64 = 1;
pub const STRONG: u64 = 2;
pub const CONSTANT: u64 = 0;
pub const SMOOTHED: u64 = 1;
pub const AUTO: u64 = 0;
pub const FACTOR: u64 = 1;
pub const INVERSE: u64 = 2;

#[derive(Clone)]
pub struct Setup {
    pub a: Csr,
    pub block: u64,
    pub group: u64,
    pub aggregation: u64,
    pub basis: u64,
    pub policy: u64,
    /// Setup integers, setup floats, work integers, work floats.
    pub rooms: [Room; 4],
    /// The coarse dimension that the lists are made for.
    pub coarse: u64,
    /// The cause that the matrix as a whole was chosen for.
    pub chosen: u64,
}

on_matrix!(Setup);

impl Setup {
    /// What 13 asks of the four lists, and what 18 adds.
    fn needs(&self) -> ([u64; 4], [u64; 4]) {
        let (n, e, b) = (within(self.a.rows, ROWS), within(self.a.values.len() as u64, ENTRIES as u64), within(self.block, 9));
        let c = self.coarse;
        let nodes = n.checked_div(b).unwrap_or(0);
        ([nodes + 2 * n + e + 1, n * b + n + e, 8 * n + 4 * e + 16, 8 * n + 2 * e], [0, c * c, 4 * c, c * c + 4 * c])
    }
}

impl Entry for Setup {
    const NAME: &'static str = "setup";
    fn call(&self, g: &mut Random) -> Seen {
        let (a, before) = (&self.a, self.a.before());
        let (entry, coarse) = self.needs();
        let length: Vec<usize> = (0..4).map(|k| self.rooms[k].length(g, entry[k], coarse[k])).collect();
        let (mut ints, mut floats): (Lent<u32>, Lent<f64>) = (Lent::new(g, length[0]), Lent::new(g, length[1]));
        let (mut work_ints, mut work_floats): (Lent<u32>, Lent<f64>) = (Lent::new(g, length[2]), Lent::new(g, length[3]));
        let room = g.pick(&[0, 1, 2, 14, 15, 16, 20]);
        let mut record: Lent<u64> = Lent::new(g, room);
        let number = unsafe {
            ffi::yelomawin_setup(
                a.rows, a.cols, a.row_ptr.as_ptr(), a.row_ptr.len(), a.col_idx.as_ptr(), a.col_idx.len(), a.values.as_ptr(), a.values.len(),
                self.block, self.group, self.aggregation, self.basis, self.policy,
                ints.ptr(), ints.len(), floats.ptr(), floats.len(),
                work_ints.ptr(), work_ints.len(), work_floats.ptr(), work_floats.len(),
                record.ptr(), record.len(),
            )
        };
        let mut seen = Seen::new(number);
        a.after(&mut seen, before);
        seen.lent("setup_ints", Kind::Result, &ints);
        seen.lent("setup_floats", Kind::Result, &floats);
        seen.lent("work_ints", Kind::Work, &work_ints);
        seen.lent("work_floats", Kind::Work, &work_floats);
        seen.lent("record", Kind::Answer, &record);
        seen
    }
}

/// Two rows apart by a factor of 2^57, whose own parts in x·Ax cancel, and two whose share is 2^-1052 by then: rho is that small.
fn nearly_skew() -> Csr {
    let t = 2f64.powi(57);
    Csr::full([[1.0, t, 0.0, 0.0], [-t, 1.0, 0.0, 0.0], [0.0, 0.0, 1.0, 16.0], [0.0, 0.0, 16.0, 1.0]])
}

/// One group of three rows: two weights are infinite, of different sign, and their products add to NaN, the only coarse entry.
fn only_nan() -> Csr {
    Csr::full([[1e-13, 1e296, 1.0], [0.0, 1e300, 0.0], [0.0, -1e296, 1e-13]])
}

/// 1 on the diagonal, -10 elsewhere: the largest eigenvalue by magnitude is -19.
fn negative() -> Csr {
    Csr::full([[1.0, -10.0, -10.0], [-10.0, 1.0, -10.0], [-10.0, -10.0, 1.0]])
}

impl Setup {
    /// [4 2; 2 5] in one group of two nodes.
    pub fn base() -> Setup {
        Setup::on(Csr::plain(), 1, 2, CONTIGUOUS, CONSTANT, 1)
    }
    fn on(a: Csr, block: u64, group: u64, aggregation: u64, basis: u64, coarse: u64) -> Setup {
        Setup { a, block, group, aggregation, basis, policy: AUTO, rooms: [Room::More; 4], coarse, chosen: 0 }
    }
    /// Another matrix and options, with the rooms as they were.
    fn choose(&mut self, chosen: u64, other: Setup) {
        *self = Setup { rooms: self.rooms, chosen, ..other };
    }
    pub fn faults() -> Vec<Vec<Fault<Setup>>> {
        let block = |i: &Setup| i.block == 0 || i.block > 8;
        let group = |i: &Setup| i.group == 0 || i.group > ROWS;
        let short = |i: &Setup| i.rooms.iter().zip(i.needs().0).any(|(r, need)| *r == Room::Short && need > 0);
        let coarse = |i: &Setup| i.coarse > 0 && i.rooms.contains(&Room::CoarseShort);
        let dimension = |i: &Setup| vec![i.coarse];
        let on = Setup::on;
        let mut places = square();
        places.push(vec![
            Fault::new(10, "block size 0", |i: &mut Setup| i.block = 0, block),
            Fault::new(10, "block size 9", |i: &mut Setup| i.block = 9, block),
            Fault::new(10, "block size far above 8", |i: &mut Setup| i.block = (1 << 32) + 1, block),
        ]);
        places.push(vec![
            Fault::new(11, "group size 0", |i: &mut Setup| i.group = 0, group),
            Fault::new(11, "group size above the limit", |i: &mut Setup| i.group = ROWS + 1, group),
            Fault::new(11, "group size far above the limit", |i: &mut Setup| i.group = (1 << 32) + 1, group),
        ]);
        places.push(vec![Fault::new(12, "block size 7 on two rows", |i: &mut Setup| i.block = 7, |i| i.block > 0 && i.a.rows % i.block != 0)]);
        places.push(vec![
            Fault::new(13, "setup integers one too short", |i: &mut Setup| i.rooms[0] = Room::Short, short),
            Fault::new(13, "setup floats one too short", |i: &mut Setup| i.rooms[1] = Room::Short, short),
            Fault::new(13, "work integers one too short", |i: &mut Setup| i.rooms[2] = Room::Short, short),
            Fault::new(13, "work floats one too short", |i: &mut Setup| i.rooms[3] = Room::Short, short),
        ]);
        let skew = |i: &Setup| skewed(&i.a, i.block);
        let put_skew = |i: &mut Setup| {
            if i.chosen == 0 {
                i.block = 2;
                i.a.values.to_mut()[3] = 1.0;
            }
        };
        let put_zero = |i: &mut Setup| {
            if i.chosen == 0 {
                i.a.values.to_mut()[1] = 0.0;
            }
        };
        places.push(vec![Fault::new(14, "(0, 1) is 2, (1, 0) is 1", put_skew, move |i| skew(i).is_some()).with(move |i| skew(i).into_iter().collect())]);
        places.push(vec![Fault::new(15, "diagonal sum 0 in row 0", put_zero, |i| i.a.at(0, 0) == Some(0.0)).with(|_| vec![0])]);
        places.push(vec![
            chosen(16, "no row, Graph", on(Csr::of(&[]), 1, 2, GRAPH, CONSTANT, 0), &[]),
            chosen(16, "no row, StrongGraph", on(Csr::of(&[]), 1, 2, STRONG, SMOOTHED, 0), &[]),
        ]);
        places.push(vec![
            chosen(17, "2,049 groups, lists without the coarse part", on(Csr::diagonal(2049, 1.0), 1, 1, CONTIGUOUS, CONSTANT, 0), &[2049]),
            chosen(17, "2,049 groups", on(Csr::diagonal(2049, 1.0), 1, 1, GRAPH, CONSTANT, 2049), &[2049]).large(),
        ]);
        places.push(vec![
            Fault::new(18, "setup floats one too short", |i: &mut Setup| i.rooms[1] = Room::CoarseShort, coarse).with(dimension),
            Fault::new(18, "work integers one too short", |i: &mut Setup| i.rooms[2] = Room::CoarseShort, coarse).with(dimension),
            Fault::new(18, "work floats one too short", |i: &mut Setup| i.rooms[3] = Room::CoarseShort, coarse).with(dimension),
        ]);
        // Every stage of 22 is reached.
        places.push(vec![
            chosen(22, "no row, smoothed", on(Csr::of(&[]), 1, 2, CONTIGUOUS, SMOOTHED, 0), &[1]),
            chosen(22, "1e200 off the diagonal", on(pair(1e200), 1, 2, GRAPH, SMOOTHED, 1), &[2]),
            chosen(22, "rho is -19", on(negative(), 1, 3, GRAPH, SMOOTHED, 1), &[3]),
            chosen(22, "the damping factor is infinite", on(nearly_skew(), 1, 2, GRAPH, SMOOTHED, 2), &[4]),
        ]);
        places.push(vec![
            chosen(23, "no row", on(Csr::of(&[]), 1, 2, CONTIGUOUS, CONSTANT, 0), &[]),
            chosen(23, "a coarse matrix of zeros", on(pair(-1.0), 1, 2, GRAPH, CONSTANT, 1), &[]),
            chosen(23, "a coarse matrix of NaN", on(only_nan(), 1, 3, CONTIGUOUS, SMOOTHED, 1), &[]),
            chosen(23, "an infinite coarse entry", on(pair(1.7e308), 1, 2, STRONG, CONSTANT, 1), &[]),
        ]);
        places.push(vec![
            chosen(24, "a negative coarse entry", on(pair(-2.0), 1, 2, CONTIGUOUS, CONSTANT, 1), &[0]),
            chosen(24, "the second coarse pivot is -3", on(pair(2.0), 1, 1, GRAPH, CONSTANT, 2), &[1]),
        ]);
        places
    }
}

/// A fault that is another matrix with its options.
fn chosen(cause: u64, what: &'static str, other: Setup, values: &'static [u64]) -> Fault<Setup> {
    Fault::new(cause, what, move |i: &mut Setup| i.choose(cause, other.clone()), move |i| i.chosen == cause).with(|_| values.to_vec())
}

/// [1 x; x 1].
fn pair(x: f64) -> Csr {
    Csr::full([[1.0, x], [x, 1.0]])
}

/// The record as numbers: sizes, policies, damping factor and scale by their bits, both counts, the first with what is not zero in the coarse matrix.
#[allow(clippy::too_many_arguments)]
fn record(i: &Setup, nodes: u64, groups: u64, coarse: u64, transfers: u64, policy: u64, damping: f64, scale: f64, nonzeros: u64) -> Vec<u64> {
    let e = i.a.values.len() as u64;
    vec![
        i.a.rows, e, i.block, i.group, nodes, groups, coarse, transfers, i.aggregation, i.basis, policy,
        damping.to_bits(), scale.to_bits(), e + nonzeros, e,
    ]
}

/// Accepted setups with every number by hand.
fn accepted() -> Vec<Case<Setup>> {
    let of = |what: &str, i: Setup, r: Vec<u64>, ints: &[u64], floats: &[f64]| Case::accepted(what, i, &r, vec![ints.to_vec(), bits(floats)]);
    let mixed = Csr::full([[16.0, -14.0], [-14.0, 16.0]]);
    let plain = Setup::on(mixed.clone(), 1, 2, CONTIGUOUS, CONSTANT, 1);
    let inverse = Setup { policy: INVERSE, ..plain.clone() };
    let apart = Setup { policy: FACTOR, ..Setup::on(Csr::full([[16.0, 0.0], [0.0, 4.0]]), 1, 1, GRAPH, CONSTANT, 2) };
    let skew = Setup { policy: FACTOR, ..Setup::on(Csr::full([[4.0, 1.0], [-1.0, 4.0]]), 1, 1, GRAPH, CONSTANT, 2) };
    let widest = Setup { group: ROWS, ..plain.clone() };
    let block = Setup::on(Csr::plain(), 2, 1, STRONG, CONSTANT, 2);
    let smoothed = Setup::on(Csr::full([[4.0]]), 1, 1, GRAPH, SMOOTHED, 1);
    let damping: f64 = 4.0 / 3.0;
    let weight: f64 = 1.0 - (damping * 4.0) * 0.25;
    let coarse = weight * (4.0 * weight);
    vec![
        of("lists longer", plain.clone(), record(&plain, 2, 1, 1, 0, FACTOR, 0.0, 4.0, 1), &[0, 0], &[4.0, 4.0, 2.0]),
        of("inverse", inverse.clone(), record(&inverse, 2, 1, 1, 0, INVERSE, 0.0, 4.0, 1), &[0, 0], &[4.0, 4.0, 0.25]),
        of("diag(16, 4)", apart.clone(), record(&apart, 2, 2, 2, 0, FACTOR, 0.0, 16.0, 2), &[0, 1], &[4.0, 2.0, 4.0, 0.0, 2.0]),
        of("[4 1; -1 4]", skew.clone(), record(&skew, 2, 2, 2, 0, FACTOR, 0.0, 4.0, 2), &[0, 1], &[2.0, 2.0, 2.0, 0.0, 2.0]),
        of("group size at the limit", widest.clone(), record(&widest, 2, 1, 1, 0, FACTOR, 0.0, 4.0, 1), &[0, 0], &[4.0, 4.0, 2.0]),
        of("one node of two rows", block.clone(), record(&block, 1, 1, 2, 0, FACTOR, 0.0, 5.0, 4), &[0], &[2.0, 0.0, 1.0, 2.0, 2.0, 1.0, 2.0]),
        of("[4] smoothed", smoothed.clone(), record(&smoothed, 1, 1, 1, 1, FACTOR, damping, coarse, 1), &[0, 0, 1, 0], &[2.0, weight, coarse.sqrt()]),
    ]
}

/// Auto below and at its bound: 4 on the diagonal, every node a group of its own.
fn bound() -> Vec<Case<Setup>> {
    let of = |n: u64| Setup::on(Csr::diagonal(n as usize, 4.0), 1, 1, CONTIGUOUS, CONSTANT, n);
    let case = |what: &str, i: Setup, policy: u64, coarse: Vec<f64>| {
        let n = i.coarse;
        let floats = [vec![2.0; n as usize], coarse].concat();
        Case::accepted(what, i.clone(), &record(&i, n, n, n, 0, policy, 0.0, 4.0, n), vec![(0..n).collect(), bits(&floats)]).large()
    };
    let packed = (0..1023).flat_map(|i| (0..=i).map(move |j| if i == j { 2.0 } else { 0.0 })).collect();
    let inverse = (0..1024 * 1024).map(|k| if k % 1025 == 0 { 0.25 } else { 0.0 }).collect();
    vec![case("Auto at 1,023", of(1023), FACTOR, packed), case("Auto at 1,024", of(1024), INVERSE, inverse)]
}

/// Two late causes at once, where 01 says which comes first. 16 and 17, 18 or 24 never meet: without a node the coarse dimension is 0.
/// After 22 there is no damping factor, so the coarse matrix that 23 and 24 look at is not formed, save where no row is.
/// Every input of 23 would be one of 24: its pivots are zero, NaN or infinite.
fn both() -> Vec<Case<Setup>> {
    let on = Setup::on;
    // Blocks [4 2; 2 x] and [4 2; y 5].
    let two = |x: f64, y: f64| Csr::full([[4.0, 2.0, 0.0, 0.0], [2.0, x, 0.0, 0.0], [0.0, 0.0, 4.0, 2.0], [0.0, 0.0, y, 5.0]]);
    // The same with the first block not symmetric, and a link between the blocks.
    let skew = |link: f64| Csr::full([[4.0, 2.0, link, 0.0], [1.0, 5.0, 0.0, 0.0], [link, 0.0, 4.0, 2.0], [0.0, 0.0, 2.0, 5.0]]);
    // Two linked rows, and a third that stores nothing.
    let loose = |link: f64| Csr::full([[1.0, link, 0.0], [link, 1.0, 0.0], [0.0, 0.0, 0.0]]);
    // As many rows with 1 on the diagonal, and these numbers at (0, 1).
    let long = |n: usize, links: &[f64]| {
        let mut a = Csr::diagonal(n, 1.0);
        a.row_ptr.to_mut()[1..].iter_mut().for_each(|p| *p += links.len() as u32);
        for &x in links {
            a.col_idx.to_mut().insert(1, 1);
            a.values.to_mut().insert(1, x);
        }
        a
    };
    let last = |mut a: Csr, x: f64| {
        *a.values.to_mut().last_mut().unwrap() = x;
        a
    };
    let short = |k: usize, i: Setup| {
        let mut rooms = i.rooms;
        rooms[k] = Room::CoarseShort;
        Setup { rooms, ..i }
    };
    vec![
        Case::new("14 and 15 in one block", on(Csr::full([[0.0, 2.0], [1.0, 5.0]]), 2, 1, CONTIGUOUS, CONSTANT, 2), 14, &[0]),
        Case::new("15 in block 0, 14 in block 1", on(two(1.0, 1.0), 2, 1, CONTIGUOUS, CONSTANT, 4), 15, &[1]),
        Case::new("14 in block 1", on(two(5.0, 1.0), 2, 1, GRAPH, SMOOTHED, 4), 14, &[2]),
        Case::new("14 and 17", on(long(2050, &[1.0]), 2, 1, GRAPH, CONSTANT, 0), 14, &[0]),
        Case::new("14, and 22 stage 2", on(skew(1e200), 2, 1, GRAPH, SMOOTHED, 4), 14, &[0]),
        Case::new("14 and 23", on(skew(1.7e308), 2, 2, GRAPH, CONSTANT, 2), 14, &[0]),
        Case::new("14 and 24", on(skew(9.0), 2, 1, GRAPH, CONSTANT, 4), 14, &[0]),
        Case::new("15 and 17", on(last(long(2049, &[]), 0.0), 1, 1, GRAPH, CONSTANT, 0), 15, &[2048]),
        Case::new("15, and 22 stage 2", on(loose(1e200), 1, 3, GRAPH, SMOOTHED, 2), 15, &[2]),
        Case::new("15 and 23", on(loose(-1.0), 1, 3, CONTIGUOUS, CONSTANT, 1), 15, &[2]),
        Case::new("15 and 24", on(loose(-2.0), 1, 3, CONTIGUOUS, CONSTANT, 1), 15, &[2]),
        Case::new("16, and 22 stage 1", on(Csr::of(&[]), 1, 1, GRAPH, SMOOTHED, 0), 16, &[]),
        Case::new("16 and 23", on(Csr::of(&[]), 8, 1, STRONG, CONSTANT, 0), 16, &[]),
        Case::new("17, and 22 stage 2", on(long(2049, &[1e200]), 1, 1, CONTIGUOUS, SMOOTHED, 0), 17, &[2049]),
        Case::new("17 and 23", on(long(2049, &[1.7e308, 1.7e308]), 1, 1, CONTIGUOUS, CONSTANT, 0), 17, &[2049]),
        Case::new("17 and 24", on(long(2049, &[4.0]), 1, 1, CONTIGUOUS, CONSTANT, 0), 17, &[2049]),
        Case::new("17 with blocks", on(Csr::diagonal(2056, 1.0), 8, 1, CONTIGUOUS, CONSTANT, 0), 17, &[2056]),
        Case::new("18 at the largest dimension", short(1, on(Csr::diagonal(2048, 1.0), 1, 1, GRAPH, CONSTANT, 2048)), 18, &[2048]).large(),
        Case::new("18 with blocks, smoothed", short(3, on(two(5.0, 2.0), 2, 1, STRONG, SMOOTHED, 4)), 18, &[4]),
        Case::new("22 stage 1 and 23", on(Csr::of(&[]), 1, 1, CONTIGUOUS, SMOOTHED, 0), 22, &[1]),
        Case::new("22 stage 3 where the other basis has 24", on(negative(), 1, 3, CONTIGUOUS, SMOOTHED, 1), 22, &[3]),
        Case::new("24 with the other basis", on(negative(), 1, 3, CONTIGUOUS, CONSTANT, 1), 24, &[0]),
    ]
}

/// What 19, 20 and 21 are to diagonal and estimate alone is 14 or 15 to setup.
fn never() -> Vec<Case<Setup>> {
    let on = |a: Csr, block: u64| Setup::on(a, block, 1, GRAPH, SMOOTHED, 2);
    let large = 1.7e308;
    vec![
        Case::new("row 1 without a diagonal entry", on(Csr::of(&[&[(0, 1.0)], &[(0, 1.0)]]), 1), 15, &[1]),
        Case::new("row 1 without a diagonal entry in a block", on(Csr::of(&[&[(0, 4.0), (1, 2.0)], &[(0, 2.0)]]), 2), 15, &[1]),
        Case::new("row 1 without a diagonal entry in a block that is not symmetric", on(Csr::of(&[&[(0, 4.0)], &[(0, 2.0)]]), 2), 14, &[0]),
        Case::new("a diagonal sum of zero", on(Csr::of(&[&[(0, 1.0)], &[(1, 1.0), (1, -1.0)]]), 1), 15, &[1]),
        Case::new("an infinite diagonal sum", on(Csr::of(&[&[(0, 1.0)], &[(1, large), (1, large)]]), 1), 15, &[1]),
        Case::new("a negative diagonal sum", on(Csr::of(&[&[(0, 1.0)], &[(1, -1.0)]]), 1), 15, &[1]),
    ]
}

/// Numbers that are no policy: the boundary's own answer, with every list kept and a record of zeros.
fn no_policy() -> Vec<Case<Setup>> {
    let base = Setup::base();
    vec![
        Case::new("no such aggregation", Setup { aggregation: 3, ..base.clone() }, 255, &[]),
        Case::new("no such basis", Setup { basis: 2, ..base.clone() }, 255, &[]),
        Case::new("no such coarse policy", Setup { policy: 3, ..base.clone() }, 255, &[]),
        Case::new("no such coarse policy, and block size 0", Setup { policy: u64::MAX, block: 0, ..base }, 255, &[]),
    ]
}

impl Setup {
    pub fn cases() -> Vec<Case<Setup>> {
        [accepted(), bound(), both(), never(), no_policy()].into_iter().flatten().collect()
    }
}
