//! Every call from safe code: results of examples worked by hand, refusals, numbers far above the limits, lists used again.
use yelomawin::*;

const DIAG: ([u32; 3], [u32; 2], [f64; 2]) = ([0, 1, 2], [0, 1], [16.0, 4.0]);

fn diag() -> Matrix<'static> {
    Matrix { rows: 2, cols: 2, row_ptr: &DIAG.0, col_idx: &DIAG.1, values: &DIAG.2 }
}

fn options() -> Options {
    Options {
        block_size: 1,
        group_size: 1,
        aggregation: Aggregation::Graph,
        basis: Basis::PiecewiseConstant,
        coarse_policy: CoarsePolicy::Auto,
    }
}

#[test]
fn roots() {
    assert_eq!(root(2.0).to_bits(), 0x3FF6_A09E_667F_3BCD);
    assert_eq!(root(f64::MAX).to_bits(), 0x5FEF_FFFF_FFFF_FFFF);
    assert!(root(-1.0).is_nan());
}

#[test]
fn calls_on_a_matrix() {
    assert_eq!(diag().validate(), Ok(()));
    assert_eq!(diag().diagonal(), Ok(vec![16.0, 4.0]));
    let e = diag().estimate(&[16.0, 4.0]).unwrap();
    assert!((e.radius - 1.0).abs() < 1e-12 && (e.damping_factor - 4.0 / 3.0).abs() < 1e-12);
    assert_eq!(diag().estimate(&[16.0]), Err(Refusal::WrongLength { expected: 2, actual: 1 }));
    assert_eq!(diag().estimate(&[16.0, 0.0]), Err(Refusal::ZeroDiagonal { row: 1 }));
    let bad = [16.0, f64::NAN];
    assert_eq!(Matrix { values: &bad, ..diag() }.validate(), Err(Refusal::ValueNotFinite));
    let empty = Matrix { row_ptr: &[0, 0, 0], col_idx: &[], values: &[], ..diag() };
    assert_eq!(empty.diagonal(), Err(Refusal::MissingDiagonal { row: 0 }));
    assert_eq!(BlockJacobi::build(&empty, 1).unwrap_err(), Refusal::BlockPivot { row: 0 });
}

#[test]
fn numbers_above_the_limits_are_refused_and_nothing_overflows() {
    for huge in [MOST_ROWS + 1, usize::MAX / 8, usize::MAX - 1, usize::MAX] {
        for (rows, cols) in [(huge, 2), (2, huge), (huge, huge)] {
            let a = Matrix { rows, cols, ..diag() };
            assert_eq!(a.validate(), Err(Refusal::TooLarge));
            assert_eq!(a.diagonal(), Err(Refusal::TooLarge));
            assert_eq!(a.estimate(&[1.0]), Err(Refusal::TooLarge));
            assert_eq!(BlockJacobi::build(&a, huge).unwrap_err(), Refusal::TooLarge);
            assert_eq!(Setup::build(&a, &options()).unwrap_err(), Refusal::TooLarge);
        }
        for aggregation in [Aggregation::Contiguous, Aggregation::Graph] {
            let o = Options { aggregation, ..options() };
            assert_eq!(Setup::build(&diag(), &Options { block_size: huge, ..o }).unwrap_err(), Refusal::BlockSize);
            assert_eq!(Setup::build(&diag(), &Options { group_size: huge, ..o }).unwrap_err(), Refusal::GroupSize);
        }
        assert_eq!(BlockJacobi::build(&diag(), huge).unwrap_err(), Refusal::BlockSize);
        assert_eq!(group(huge, &[0, 0], &[]), Err(Refusal::GroupSize));
    }
    assert_eq!(Setup::build(&diag(), &Options { block_size: 0, ..options() }).unwrap_err(), Refusal::BlockSize);
    assert_eq!(Setup::build(&diag(), &Options { group_size: 0, ..options() }).unwrap_err(), Refusal::GroupSize);
    assert_eq!(BlockJacobi::build(&diag(), 0).unwrap_err(), Refusal::BlockSize);
    let many = vec![0; MOST_ROWS + 2];
    assert_eq!(group(1, &many, &[]), Err(Refusal::TooLarge));
    assert_eq!(group(1, &[], &[]), Err(Refusal::NeighbourOffsets));
    assert_eq!(group(1, &[0], &[]), Err(Refusal::NoNode));
    assert_eq!(group(1, &[0, 1], &[1]), Err(Refusal::NeighbourOutside));
}

/// Paths one after the other, then single nodes with what they list: offsets and neighbours.
fn graph(paths: &[u32], more: &[&[u32]]) -> (Vec<u32>, Vec<u32>) {
    let mut lists: Vec<Vec<u32>> = Vec::new();
    for &n in paths {
        let first = lists.len() as u32;
        lists.extend((0..n).map(|v| [v.wrapping_sub(1), v + 1].into_iter().filter(|&w| w < n).map(|w| first + w).collect()));
    }
    lists.extend(more.iter().map(|l| l.to_vec()));
    let mut offsets = vec![0];
    lists.iter().for_each(|l| offsets.push(offsets[offsets.len() - 1] + l.len() as u32));
    (offsets, lists.concat())
}

#[test]
fn logs_of_joinings() {
    use Rule::*;
    let logged = |size: usize, paths: &[u32], more: &[&[u32]], log: &[(u32, u32, Rule)]| {
        let (offsets, neighbours) = graph(paths, more);
        let grouping = group_log(size, &offsets, &neighbours).unwrap();
        let joinings: Vec<Joining> = log.iter().map(|&(moved, taker, rule)| Joining { moved, taker, rule }).collect();
        assert_eq!(grouping.joinings, joinings);
        // The groups are those without a log.
        assert_eq!((grouping.groups, grouping.ids), group(size, &offsets, &neighbours).unwrap());
    };
    logged(2, &[5], &[], &[]);
    logged(8, &[9], &[], &[(1, 0, OnlyOneNamed)]);
    logged(8, &[8, 7], &[&[3, 11]], &[(2, 1, FewerMembers)]);
    logged(8, &[8, 7], &[&[3, 3, 11]], &[(2, 0, MostEdges)]);
    logged(8, &[8, 8], &[&[3, 11]], &[(2, 0, LowerId)]);
    logged(16, &[16], &[&[], &[16, 16, 3]], &[(2, 1, MostEdges), (1, 0, OnlyOneNamed)]);
    let six: [&[u32]; 6] = [&[0], &[2], &[], &[0], &[], &[4, 3, 1]];
    logged(20, &[], &six, &[(2, 0, OnlyOneNamed), (4, 3, FewerMembers), (3, 0, LowerId), (0, 1, OnlyOneNamed)]);
    assert_eq!(group_log(0, &[0, 0], &[]), Err(Refusal::GroupSize));
    assert_eq!(group_log(1, &[0], &[]), Err(Refusal::NoNode));
    assert_eq!(group_log(1, &[], &[]), Err(Refusal::NeighbourOffsets));
    assert_eq!(group_log(1, &[0, 1], &[1]), Err(Refusal::NeighbourOutside));
    assert_eq!(group_log(1, &vec![0; MOST_ROWS + 2], &[]), Err(Refusal::TooLarge));
}

#[test]
fn logs_in_lists_of_ones_own() {
    let (offsets, neighbours) = graph(&[9], &[]);
    let (mut ids, mut log, mut work) = (Vec::new(), vec![7; 100], Vec::new());
    assert_eq!(group_log_in(8, &offsets, &neighbours, &mut ids, &mut log, &mut work), Ok((1, 1)));
    assert_eq!((ids, &log[..3], &log[3..]), (vec![0; 9], &[1, 0, 1][..], &[0; 24][..]));
    assert!(work.iter().all(|&x| x == 0));
    let joining = Joining { moved: 2, taker: 0, rule: Rule::MostEdges };
    assert_eq!(joining.to_string(), "group 2 joins group 0: most edges");
    assert_eq!([0, 1, 4, 5].map(Rule::from_number), [None, Some(Rule::OnlyOneNamed), Some(Rule::LowerId), None]);
}

/// A log that is one too short is 29, and leaves every list; a work list that is too short is found before it.
#[test]
fn a_log_that_is_too_short() {
    let (offsets, neighbours) = graph(&[9], &[]);
    for (log, work, cause) in [(27, 152, 0), (26, 152, 29), (0, 152, 29), (26, 151, 13)] {
        let (mut ids, mut log, mut work, mut answer) = (vec![7; 9], vec![7; log], vec![7; work], [7; 2]);
        // Sound: every list is lent with its length.
        let number = unsafe {
            ffi::yelomawin_group_log(
                9, 8, offsets.as_ptr(), offsets.len(), neighbours.as_ptr(), neighbours.len(), ids.as_mut_ptr(), ids.len(),
                log.as_mut_ptr(), log.len(), work.as_mut_ptr(), work.len(), answer.as_mut_ptr(), answer.len(),
            )
        };
        assert_eq!(number, cause);
        if cause != 0 {
            assert!(answer == [0; 2] && [ids, log, work].concat().iter().all(|&x| x == 7));
        }
    }
    let refused = Refusal::from_number(29, &[]).unwrap();
    assert_eq!(refused, Refusal::LogTooShort);
    assert!(refused.to_string().contains("three elements for each node"), "{refused}");
}

#[test]
fn coarse_dimension_above_the_limit() {
    let n = 2049;
    let (row_ptr, col_idx): (Vec<u32>, Vec<u32>) = ((0..=n).collect(), (0..n).collect());
    let values = vec![1.0; n as usize];
    let a = Matrix { rows: n as usize, cols: n as usize, row_ptr: &row_ptr, col_idx: &col_idx, values: &values };
    assert_eq!(Setup::build(&a, &options()).unwrap_err(), Refusal::CoarseTooLarge { dimension: 2049 });
}

#[test]
fn complexity_counts_what_is_not_zero() {
    // 4 1; 1 4 fills its coarse matrix; of 4 1; -1 4 the pair cancels when it is averaged
    for (below, both) in [(1.0, 8), (-1.0, 6)] {
        let a = Matrix { rows: 2, cols: 2, row_ptr: &[0, 2, 4], col_idx: &[0, 1, 0, 1], values: &[4.0, 1.0, below, 4.0] };
        assert_eq!(Setup::build(&a, &options()).unwrap().complexity(), (both, 4));
    }
}

#[test]
fn setups_and_their_applies() {
    let mut setup = Setup::build(&diag(), &options()).unwrap();
    assert_eq!((setup.nodes(), setup.groups(), setup.coarse_dimension(), setup.transfers()), (2, 2, 2, 0));
    assert_eq!(setup.group_of_node(), [0, 1]);
    assert_eq!(setup.complexity(), (4, 2));
    let mut z = [0.0; 2];
    setup.apply(&[16.0, 40.0], &mut z).unwrap();
    assert_eq!(z, [2.0, 20.0]);
    assert_eq!(setup.apply(&[16.0], &mut z), Err(Refusal::WrongLength { expected: 2, actual: 1 }));
    assert_eq!(setup.apply(&[16.0, 4.0], &mut z[..1]), Err(Refusal::WrongLength { expected: 2, actual: 1 }));
    assert_eq!(z, [2.0, 20.0]);
    let mut y = [0.0; 2];
    setup.apply_in(&[16.0, 4.0], &mut y, &mut Vec::new()).unwrap();
    assert_eq!(y, [2.0, 2.0]);
}

/// What a setup of diag(16, 4) answers to lists of these lengths.
fn setup_in(l: Lengths) -> u64 {
    let (a, o) = (diag(), options());
    let (mut setup_ints, mut work_ints) = (vec![0; l.setup_ints], vec![0; l.work_ints]);
    let (mut setup_floats, mut work_floats) = (vec![0.0; l.setup_floats], vec![0.0; l.work_floats]);
    let mut record = [0; RECORD];
    // Sound: every list is lent with its length.
    unsafe {
        ffi::yelomawin_setup(
            a.rows as u64, a.cols as u64,
            a.row_ptr.as_ptr(), a.row_ptr.len(), a.col_idx.as_ptr(), a.col_idx.len(), a.values.as_ptr(), a.values.len(),
            o.block_size as u64, o.group_size as u64, o.aggregation as u64, o.basis as u64, o.coarse_policy as u64,
            setup_ints.as_mut_ptr(), setup_ints.len(), setup_floats.as_mut_ptr(), setup_floats.len(),
            work_ints.as_mut_ptr(), work_ints.len(), work_floats.as_mut_ptr(), work_floats.len(),
            record.as_mut_ptr(), record.len(),
        )
    }
}

#[test]
fn lengths_are_those_below_which_a_setup_refuses() {
    let shorter = |l: Lengths| {
        [
            Lengths { setup_ints: l.setup_ints - 1, ..l },
            Lengths { setup_floats: l.setup_floats - 1, ..l },
            Lengths { work_ints: l.work_ints - 1, ..l },
            Lengths { work_floats: l.work_floats - 1, ..l },
        ]
    };
    let (least, whole) = (lengths(2, 2, 1, 0), lengths(2, 2, 1, 2));
    assert_eq!((setup_in(least), shorter(least).map(setup_in)), (18, [13; 4]));
    assert_eq!((setup_in(whole), shorter(whole).map(setup_in)), (0, [13, 18, 18, 18]));
    let most = lengths(usize::MAX, usize::MAX, usize::MAX, usize::MAX);
    assert_eq!(most, lengths(MOST_ROWS, MOST_ENTRIES, MOST_BLOCK, MOST_COARSE));
}

#[test]
fn a_refused_factoring_leaves_its_list() {
    let mut list = Vec::with_capacity(50);
    let place = list.as_ptr();
    assert_eq!(BlockJacobi::build_in(&diag(), 9, &mut list).unwrap_err(), Refusal::BlockSize);
    assert_eq!((list.as_ptr(), list.capacity()), (place, 50));
    let blocks = BlockJacobi::build_in(&diag(), 1, &mut list).unwrap();
    assert_eq!((blocks.factors(), blocks.factors().as_ptr()), (&[4.0, 2.0][..], place));
    let back = blocks.into_factors();
    assert_eq!((list.capacity(), back.as_ptr()), (0, place));
}

#[test]
fn more_groups_than_likely() {
    // 100 nodes that nothing links: each is a group, though groups of 10 are asked for.
    let (row_ptr, col_idx): (Vec<u32>, Vec<u32>) = ((0..=100).collect(), (0..100).collect());
    let values = vec![4.0; 100];
    let a = Matrix { rows: 100, cols: 100, row_ptr: &row_ptr, col_idx: &col_idx, values: &values };
    let mut setup = Setup::build(&a, &Options { group_size: 10, ..options() }).unwrap();
    assert_eq!((setup.groups(), setup.coarse_dimension()), (100, 100));
    let mut z = [0.0; 100];
    setup.apply(&[1.0; 100], &mut z).unwrap();
    assert_eq!(z, [0.5; 100]);
}

/// 300 nodes of two unknowns, a chain in each third.
fn chains(scale: f64) -> (Vec<u32>, Vec<u32>, Vec<f64>) {
    let (mut ptr, mut col, mut val) = (vec![0], vec![], vec![]);
    for i in 0..600u32 {
        let v = i / 2;
        for w in [v.wrapping_sub(1), v, v + 1] {
            if w < 300 && w / 100 == v / 100 {
                col.push(2 * w + i % 2);
                val.push(scale * if w == v { 4.0 } else { -1.0 });
            }
        }
        ptr.push(col.len() as u32);
    }
    (ptr, col, val)
}

#[test]
fn the_record_by_names_and_the_parts_in_their_places() {
    let (row_ptr, col_idx, values) = chains(1.0);
    let a = Matrix { rows: 600, cols: 600, row_ptr: &row_ptr, col_idx: &col_idx, values: &values };
    for (basis, coarse_policy) in [(Basis::PiecewiseConstant, CoarsePolicy::FactorSolve), (Basis::JacobiSmoothed, CoarsePolicy::ExplicitInverse)] {
        let setup = Setup::build(&a, &Options { block_size: 2, group_size: 30, basis, coarse_policy, ..options() }).unwrap();
        let record = setup.record();
        assert_eq!(&record.numbers(), setup.record_numbers());
        assert_eq!(Record::of(setup.record_numbers()), Some(*record));
        assert_eq!((record.basis, record.coarse_policy, record.nodes), (basis, coarse_policy, 300));
        let (layout, (ints, floats)) = (setup.layout(), setup.lists());
        assert!(ints[layout.ids.clone()].iter().all(|&id| (id as usize) < record.groups));
        // The places follow one another and use up the lists.
        assert_eq!([layout.ids.end, layout.pointers.end, layout.columns.end], [layout.pointers.start, layout.columns.start, ints.len()]);
        assert_eq!([layout.factors.end, layout.weights.end, layout.coarse.end], [layout.weights.start, layout.coarse.start, floats.len()]);
        if basis == Basis::JacobiSmoothed {
            let pointers = &ints[layout.pointers.clone()];
            assert_eq!((pointers.len(), pointers[0], pointers[600] as usize), (601, 0, record.transfers));
            assert!(ints[layout.columns.clone()].iter().all(|&column| (column as usize) < record.coarse_dimension));
        } else {
            assert!(layout.pointers.is_empty() && layout.columns.is_empty() && layout.weights.is_empty());
        }
    }
    let mut numbers = *Setup::build(&diag(), &options()).unwrap().record_numbers();
    numbers[9] = 2;
    assert_eq!(Record::of(&numbers), None);
}

#[test]
fn lists_used_again_change_no_bit() {
    let mut w = Workspace::default();
    let mut places = Vec::new();
    for scale in [1.0, 3.0, 0.1] {
        let (row_ptr, col_idx, values) = chains(scale);
        let a = Matrix { rows: 600, cols: 600, row_ptr: &row_ptr, col_idx: &col_idx, values: &values };
        for basis in [Basis::PiecewiseConstant, Basis::JacobiSmoothed] {
            for coarse_policy in [CoarsePolicy::FactorSolve, CoarsePolicy::ExplicitInverse] {
                // Groups of 30 in chains of 100: more groups than the guess after the setup of 2 rows below.
                let o = Options { block_size: 2, group_size: 30, basis, coarse_policy, ..options() };
                let mut fresh = Setup::build(&a, &o).unwrap();
                let mut again = Setup::build_in(&a, &o, &mut w).unwrap();
                assert_eq!(fresh.record_numbers(), again.record_numbers());
                let bits = |x: &[f64]| x.iter().map(|v| v.to_bits()).collect::<Vec<_>>();
                assert_eq!(fresh.lists().0, again.lists().0);
                assert_eq!(bits(fresh.lists().1), bits(again.lists().1));
                let r: Vec<f64> = (0..600).map(|i| (i % 17) as f64 - 8.0).collect();
                let (mut y, mut z) = (vec![0.0; 600], vec![0.0; 600]);
                fresh.apply(&r, &mut y).unwrap();
                again.apply(&r, &mut z).unwrap();
                assert_eq!(bits(&y), bits(&z));
                places.push((again.lists().0.as_ptr(), again.lists().1.as_ptr()));
                w.recycle(again);
            }
        }
        if scale == 3.0 {
            let small = Setup::build_in(&diag(), &options(), &mut w).unwrap();
            w.recycle(small);
            let refused = Setup::build_in(&diag(), &Options { group_size: 0, ..options() }, &mut w);
            assert_eq!(refused.unwrap_err(), Refusal::GroupSize);
        }
    }
    // After the first setup nothing was allocated: the lists stayed where they are.
    assert!(places[1..].iter().all(|p| *p == places[0]), "{places:?}");
}
