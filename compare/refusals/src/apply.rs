//! The two-level apply: 25 for the residual, 25 for the correction, 26, 13.
use crate::faults::{Case, Entry, Fault};
use crate::lists::{ANSWER, Item, Kind, Lent, Random, Room, Seen, bits, odd};
use crate::matrix::{ENTRIES, ROWS};
use crate::setup::{AUTO, CONSTANT, CONTIGUOUS, FACTOR, GRAPH, INVERSE, SMOOTHED};
use yelomawin::ffi;

/// Where a number stands in the record.
pub const ROWS_AT: usize = 0;
pub const ENTRIES_AT: usize = 1;
pub const BLOCK: usize = 2;
pub const GROUP: usize = 3;
pub const NODES: usize = 4;
pub const GROUPS: usize = 5;
pub const COARSE: usize = 6;
pub const TRANSFERS: usize = 7;
pub const AGGREGATION: usize = 8;
pub const BASIS: usize = 9;
pub const POLICY: usize = 10;

#[derive(Clone)]
pub struct Apply {
    pub record: Vec<u64>,
    /// The used integers and floats; odd numbers may stand behind them, or the last one is missing.
    pub ints: Vec<u32>,
    pub floats: Vec<f64>,
    pub ints_short: bool,
    pub floats_short: bool,
    pub residual: Vec<f64>,
    pub correction: usize,
    pub work: Room,
}

fn lengthened<T: Item>(g: &mut Random, used: &[T], short: bool) -> Vec<T> {
    let mut list = used.to_vec();
    if short {
        list.pop();
    } else {
        let more = g.next() % 4;
        list.extend(odd::<T>(g, more as usize));
    }
    list
}

impl Entry for Apply {
    const NAME: &'static str = "apply";
    fn call(&self, g: &mut Random) -> Seen {
        let (ints, floats) = (lengthened(g, &self.ints, self.ints_short), lengthened(g, &self.floats, self.floats_short));
        let coarse = self.record.get(COARSE).copied().unwrap_or(0).min(4096);
        let length = self.work.length(g, 2 * coarse, 0);
        let mut work: Lent<f64> = Lent::new(g, length);
        let mut z: Lent<f64> = Lent::new(g, self.correction);
        let room = g.pick(&ANSWER);
        let mut answer: Lent<u64> = Lent::new(g, room);
        let before = (bits(&self.record), bits(&ints), bits(&floats), bits(&self.residual));
        let number = unsafe {
            ffi::yelomawin_apply(
                self.record.as_ptr(), self.record.len(), ints.as_ptr(), ints.len(), floats.as_ptr(), floats.len(),
                self.residual.as_ptr(), self.residual.len(), z.ptr(), z.len(), work.ptr(), work.len(), answer.ptr(), answer.len(),
            )
        };
        let mut seen = Seen::new(number);
        seen.read("record", &before.0, &self.record);
        seen.read("setup_ints", &before.1, &ints);
        seen.read("setup_floats", &before.2, &floats);
        seen.read("residual", &before.3, &self.residual);
        seen.lent("correction", Kind::Result, &z);
        seen.lent("work", Kind::Work, &work);
        seen.lent("answer", Kind::Answer, &answer);
        seen
    }
}

/// The clauses of 26 that an input meets, in 01's words; where a number is over a limit or a product fails, the lists are not looked at.
pub fn clauses(i: &Apply) -> Vec<&'static str> {
    let r: Vec<u128> = i.record.iter().map(|&x| x as u128).collect();
    let smoothed = i.record[BASIS] == SMOOTHED;
    let mut met = Vec::new();
    let mut clause = |holds: bool, what: &'static str| {
        if holds {
            met.push(what)
        }
    };
    clause(r[ROWS_AT] > ROWS as u128, "rows over the limit");
    clause(r[ENTRIES_AT] > ENTRIES as u128, "entries over the limit");
    clause(r[BLOCK] > 8, "block size over the limit");
    clause(r[GROUP] > ROWS as u128, "group size over the limit");
    clause(r[COARSE] > 2048, "coarse dimension over the limit");
    clause(r[BLOCK] == 0, "block size 0");
    clause(i.record[POLICY] == AUTO, "an unresolved Auto");
    clause(smoothed && r[TRANSFERS] > r[ROWS_AT] + r[ENTRIES_AT], "transfer count above rows + entries");
    clause(!smoothed && r[TRANSFERS] > 0, "transfer count above 0 unless smoothed");
    clause(r[ROWS_AT] != r[NODES] * r[BLOCK], "rows not nodes times block size");
    clause(r[COARSE] != r[GROUPS] * r[BLOCK], "coarse dimension not groups times block size");
    let c = r[COARSE];
    let coarse = if i.record[POLICY] == INVERSE { c * c } else { c * (c + 1) / 2 };
    let used = (r[NODES] + if smoothed { r[ROWS_AT] + 1 + r[TRANSFERS] } else { 0 }, r[ROWS_AT] * r[BLOCK] + r[TRANSFERS] + coarse);
    let held = (i.ints.len() as u128 - i.ints_short as u128, i.floats.len() as u128 - i.floats_short as u128);
    clause(held.0 < used.0, "integers too short");
    clause(held.1 < used.1, "floats too short");
    if held.0 < used.0 {
        return met;
    }
    let (nodes, rows, transfers) = (i.record[NODES] as usize, i.record[ROWS_AT] as usize, i.record[TRANSFERS] as usize);
    clause(i.ints[..nodes].iter().any(|&g| g as u64 >= i.record[GROUPS]), "a group id not below the group count");
    if smoothed {
        let pointers = &i.ints[nodes..nodes + rows + 1];
        clause(pointers[0] != 0, "transfer pointers that don't start at 0");
        clause(pointers.windows(2).any(|w| w[1] < w[0]), "transfer pointers that fall");
        clause(pointers[rows] as usize != transfers, "transfer pointers that miss the transfer count");
        let columns = &i.ints[nodes + rows + 1..nodes + rows + 1 + transfers];
        clause(columns.iter().any(|&c| c as u64 >= i.record[COARSE]), "a transfer column not below the coarse dimension");
    }
    met
}

/// How many clauses there are: each must be met alone by some case.
pub const CLAUSES: usize = 18;

impl Apply {
    /// 01's example: [16 -14; -14 16], Contiguous, size 2, and the residual (16, 32).
    pub fn base() -> Apply {
        Apply {
            record: vec![2, 4, 1, 2, 2, 1, 1, 0, CONTIGUOUS, CONSTANT, FACTOR, 0, 4f64.to_bits(), 5, 4],
            ints: vec![0, 0],
            floats: vec![4.0, 4.0, 2.0],
            ints_short: false,
            floats_short: false,
            residual: vec![16.0, 32.0],
            correction: 2,
            work: Room::More,
        }
    }
    /// The same lengths with a transfer of one weight a row: block factors 2, weights 1/2, coarse factor 4.
    fn smooth(&mut self) {
        self.record = vec![2, 4, 1, 2, 2, 1, 1, 2, GRAPH, SMOOTHED, FACTOR, f64::NAN.to_bits(), f64::INFINITY.to_bits(), 0, u64::MAX];
        self.ints = vec![0, 0, 0, 1, 2, 0, 0];
        self.floats = vec![2.0, 2.0, 0.5, 0.5, 4.0];
    }
    fn invert(&mut self) {
        self.record[POLICY] = INVERSE;
        *self.floats.last_mut().unwrap() = 0.25;
    }
    /// As many rows and nodes in one group.
    fn of_rows(rows: u64) -> Apply {
        let n = rows as usize;
        let mut floats = vec![4.0; n];
        floats.push(2.0);
        Apply {
            record: vec![rows, 0, 1, 1, rows, 1, 1, 0, GRAPH, CONSTANT, FACTOR, 0, 0, 0, 0],
            ints: vec![0; n],
            floats,
            residual: vec![0.0; n],
            correction: n,
            ..Apply::base()
        }
    }
    /// As many groups, with the unit matrix as coarse factor, and one node, in the last of them.
    fn of_groups(groups: u64) -> Apply {
        let mut floats = vec![2.0];
        for i in 0..groups {
            floats.extend((0..i).map(|_| 0.0));
            floats.push(1.0);
        }
        Apply {
            record: vec![1, 0, 1, 1, 1, groups, groups, 0, GRAPH, CONSTANT, FACTOR, 0, 0, 0, 0],
            ints: vec![groups as u32 - 1],
            floats,
            residual: vec![8.0],
            correction: 1,
            ..Apply::base()
        }
    }
    pub fn faults() -> Vec<Vec<Fault<Apply>>> {
        let residual = |i: &Apply| i.residual.len() as u64 != i.record[ROWS_AT];
        let correction = |i: &Apply| i.correction as u64 != i.record[ROWS_AT];
        let told_residual = |i: &Apply| vec![i.record[ROWS_AT], i.residual.len() as u64];
        let told_correction = |i: &Apply| vec![i.record[ROWS_AT], i.correction as u64];
        fn misfit(i: &Apply) -> bool {
            !clauses(i).is_empty()
        }
        let f = |what: &'static str, put: fn(&mut Apply)| Fault::new(26, what, put, misfit);
        vec![
            vec![
                Fault::new(25, "residual one longer", |i: &mut Apply| i.residual.push(f64::NAN), residual).with(told_residual),
                Fault::new(25, "residual one shorter", |i: &mut Apply| { i.residual.pop(); }, residual).with(told_residual),
                Fault::new(25, "no residual", |i: &mut Apply| i.residual.clear(), residual).with(told_residual),
            ],
            vec![
                Fault::new(25, "correction one longer", |i: &mut Apply| i.correction += 1, correction).with(told_correction),
                Fault::new(25, "correction one shorter", |i: &mut Apply| i.correction = i.correction.saturating_sub(1), correction).with(told_correction),
            ],
            vec![
                f("rows over the limit", |i| *i = Apply::of_rows(ROWS + 1)).large(),
                f("entries over the limit", |i| i.record[ENTRIES_AT] = ENTRIES as u64 + 1),
                f("entries far over the limit", |i| { i.smooth(); i.record[ENTRIES_AT] = u64::MAX }),
                f("block size 9", |i| {
                    i.record[..8].copy_from_slice(&[9, 0, 9, 1, 1, 1, 9, 0]);
                    (i.ints, i.floats) = (vec![0], vec![1.0; 81 + 45]);
                    (i.residual, i.correction) = (vec![1.0; 9], 9);
                }),
                f("group size over the limit", |i| i.record[GROUP] = ROWS + 1),
                f("coarse dimension over the limit", |i| *i = Apply::of_groups(2049)).large(),
                f("block size 0", |i| {
                    i.record[..8].copy_from_slice(&[0, 0, 0, 1, 1, 1, 0, 0]);
                    (i.ints, i.floats) = (vec![0], vec![]);
                    (i.residual, i.correction) = (vec![], 0);
                }),
                f("an unresolved Auto", |i| i.record[POLICY] = AUTO),
                f("a transfer count above rows + entries", |i| {
                    i.smooth();
                    i.record[ENTRIES_AT] = 0;
                    i.record[TRANSFERS] = 3;
                    (i.ints, i.floats) = (vec![0, 0, 0, 1, 3, 0, 0, 0], vec![2.0, 2.0, 0.5, 0.5, 0.5, 4.0]);
                }),
                f("a transfer count far above rows + entries", |i| { i.smooth(); i.record[TRANSFERS] = u64::MAX }),
                f("a transfer that is not smoothed", |i| { i.record[TRANSFERS] = 1; i.floats.push(1.0) }),
                f("fewer nodes than rows", |i| { i.record[NODES] = 1 }),
                f("nodes times block size is 2 in 64 bits", |i| {
                    i.record[..7].copy_from_slice(&[2, 0, 2, 1, (1 << 63) + 1, 1, 2]);
                    i.floats = vec![1.0; 7];
                }),
                f("more groups than the coarse dimension", |i| i.record[GROUPS] = 2),
                f("groups times block size is 1 in 64 bits", |i| {
                    i.record[..7].copy_from_slice(&[3, 0, 3, 1, 1, 0xaaaa_aaaa_aaaa_aaab, 1]);
                    (i.ints, i.floats) = (vec![0], vec![1.0; 10]);
                    (i.residual, i.correction) = (vec![1.0; 3], 3);
                }),
                f("no group for a node", |i| { i.record[GROUPS] = 0; i.record[COARSE] = 0; i.floats = vec![4.0, 4.0] }),
                f("integers one too short", |i| i.ints_short = true),
                f("integers one too short, smoothed", |i| { i.smooth(); i.ints_short = true }),
                f("no integers", |i| { i.ints.clear(); i.ints.push(0); i.ints_short = true }),
                f("floats one too short, packed", |i| i.floats_short = true),
                f("floats one too short, packed and smoothed", |i| { i.smooth(); i.floats_short = true }),
                f("floats one too short, inverse", |i| {
                    i.record[GROUPS] = 2;
                    i.record[COARSE] = 2;
                    i.record[POLICY] = INVERSE;
                    i.floats = vec![4.0, 4.0, 1.0, 0.0, 0.0, 1.0];
                    i.floats_short = true;
                }),
                f("the last group id is the group count", |i| i.ints[1] = 1),
                f("the first group id far above the group count", |i| i.ints[0] = u32::MAX),
                f("transfer pointers from 1", |i| { i.smooth(); i.ints[2] = 1 }),
                f("transfer pointers that fall", |i| { i.smooth(); i.ints[3] = 3 }),
                f("transfer pointers that end below the count", |i| { i.smooth(); i.ints[4] = 1 }),
                f("transfer pointers that end above the count", |i| { i.smooth(); i.ints[4] = u32::MAX }),
                f("the first transfer column is the coarse dimension", |i| { i.smooth(); i.ints[5] = 1 }),
                f("the last transfer column far above the coarse dimension", |i| { i.smooth(); i.ints[6] = u32::MAX }),
            ],
            vec![Fault::new(13, "work list one too short", |i: &mut Apply| i.work = Room::Short, |i| i.work == Room::Short && i.record[COARSE] > 0)],
        ]
    }
    pub fn cases() -> Vec<Case<Apply>> {
        let with = |change: fn(&mut Apply)| { let mut i = Apply::base(); change(&mut i); i };
        let plain = || vec![bits(&[13.0, 14.0])];
        let of = |what: &str, i: Apply, z: &[f64]| Case::accepted(what, i, &[], vec![bits(z)]);
        vec![
            Case::accepted("01's example, lists longer", Apply::base(), &[], plain()),
            Case::accepted("with the inverse", with(Apply::invert), &[], plain()),
            of("smoothed, odd damping factor, scale and counts", with(|i| { i.smooth(); i.residual = vec![8.0, 8.0] }), &[2.25, 2.25]),
            of("smoothed, an empty transfer row", with(|i| { i.smooth(); i.ints[3] = 2; i.residual = vec![8.0, 8.0] }), &[2.5, 2.0]),
            of("smoothed, columns that do not ascend", with(|i| {
                i.smooth();
                i.record[GROUPS] = 2;
                i.record[COARSE] = 2;
                (i.ints, i.floats) = (vec![0, 0, 0, 2, 2, 1, 0], vec![2.0, 2.0, 0.5, 0.5, 1.0, 0.0, 1.0]);
                i.residual = vec![8.0, 8.0];
            }), &[6.0, 2.0]),
            Case::accepted("a record longer than needed", with(|i| i.record.extend([7, u64::MAX])), &[], plain()),
            Case::accepted("group size 0", with(|i| i.record[GROUP] = 0), &[], plain()),
            Case::accepted("group size at the limit", with(|i| i.record[GROUP] = ROWS), &[], plain()),
            Case::accepted("entries at the limit", with(|i| i.record[ENTRIES_AT] = ENTRIES as u64), &[], plain()),
            Case::accepted("counts made up", with(|i| { i.record[13] = u64::MAX; i.record[14] = 0 }), &[], plain()),
            of("no row, no group", with(|i| {
                i.record[..8].copy_from_slice(&[0, 0, 8, 0, 0, 0, 0, 0]);
                (i.ints, i.floats) = (vec![], vec![]);
                (i.residual, i.correction) = (vec![], 0);
            }), &[]),
            of("a group that no node is in", with(|i| { i.record[GROUPS] = 2; i.record[COARSE] = 2; i.floats = vec![4.0, 4.0, 2.0, 0.0, 1.0] }), &[13.0, 14.0]),
            of("a factor of zero", with(|i| i.floats[0] = 0.0), &[f64::INFINITY, 14.0]),
            of("rows at the limit", Apply::of_rows(ROWS), &vec![0.0; ROWS as usize]).large(),
            of("the largest coarse dimension", Apply::of_groups(2048), &[10.0]).large(),
            Case::new("rows far above the limit: 25 before 26", with(|i| i.record[ROWS_AT] = u64::MAX), 25, &[u64::MAX, 2]),
            Case::new("no rows, a residual: 25 before 26", with(|i| i.record.fill(0)), 25, &[0, 2]),
            Case::new("a record of 14 numbers", with(|i| { i.record.pop(); }), 26, &[]),
            Case::new("no record", with(|i| i.record.clear()), 26, &[]),
            Case::new("no such aggregation", with(|i| i.record[AGGREGATION] = 3), 26, &[]),
            Case::new("no such basis", with(|i| i.record[BASIS] = 2), 26, &[]),
            Case::new("no such coarse policy", with(|i| i.record[POLICY] = u64::MAX), 26, &[]),
            Case::new("a record of 14 numbers, a residual one longer: 26 before 25", with(|i| { i.record.pop(); i.residual.push(1.0) }), 26, &[]),
            Case::new("no such aggregation, no residual: 26 before 25", with(|i| { i.record[AGGREGATION] = 3; i.residual.clear() }), 26, &[]),
            Case::new("no such basis, a correction one longer: 26 before 25", with(|i| { i.record[BASIS] = 2; i.correction += 1 }), 26, &[]),
            Case::new("no such coarse policy, a residual one longer: 26 before 25", with(|i| { i.record[POLICY] = 3; i.residual.push(1.0) }), 26, &[]),
        ]
    }
    /// The clauses of 26 that some fault meets alone.
    pub fn met_alone() -> std::collections::BTreeSet<&'static str> {
        let alone = |f: &Fault<Apply>| {
            let mut i = Apply::base();
            (f.put)(&mut i);
            clauses(&i)
        };
        Apply::faults()[2].iter().map(alone).filter(|c| c.len() == 1).map(|c| c[0]).collect()
    }
}
