//! The examples of document 01's section 'Checked by example', with what 01 says of each.
use crate::{Case, Csr, Options};

fn path(first: u32, count: u32) -> Vec<Vec<u32>> {
    (0..count)
        .map(|i| {
            let mut l = Vec::new();
            if i > 0 {
                l.push(first + i - 1);
            }
            if i + 1 < count {
                l.push(first + i + 1);
            }
            l
        })
        .collect()
}

fn group(lists: Vec<Vec<u32>>, size: usize) -> Case {
    Case::Group { lists, size }
}

fn diag(xs: &[f64]) -> Csr {
    let rows: Vec<Vec<(u32, f64)>> = xs.iter().enumerate().map(|(i, &x)| vec![(i as u32, x)]).collect();
    Csr::from_rows(xs.len(), &rows)
}

fn full(rows: &[&[f64]]) -> Csr {
    let rows: Vec<Vec<(u32, f64)>> =
        rows.iter().map(|r| r.iter().enumerate().map(|(j, &x)| (j as u32, x)).collect()).collect();
    Csr::from_rows(rows.len(), &rows)
}

fn two(a: Csr, group: usize, aggregation: u8, basis: u8, residuals: &[&[f64]]) -> Case {
    Case::TwoLevel {
        a,
        options: Options { block: 1, group, aggregation, basis, policy: 0 },
        residuals: residuals.iter().map(|r| r.to_vec()).collect(),
    }
}

/// A line that an answer must have: the whole of it, or the numbers that it begins with where 01 says no more.
pub enum Line {
    Is(String),
    Begins(String),
}

impl Line {
    pub fn met(&self, line: &str) -> bool {
        match self {
            Line::Is(all) => line == all,
            Line::Begins(front) => line.strip_prefix(&front[..]).is_some_and(|rest| rest.is_empty() || rest.starts_with(' ')),
        }
    }
}

impl std::fmt::Display for Line {
    fn fmt(&self, f: &mut std::fmt::Formatter) -> std::fmt::Result {
        match self {
            Line::Is(all) => write!(f, "'{all}'"),
            Line::Begins(front) => write!(f, "'{front} …'"),
        }
    }
}

/// The name, the case, and the lines that its answer must have.
pub fn all() -> Vec<(&'static str, Case, Vec<Line>)> {
    let hex = |xs: &[f64]| xs.iter().map(|x| format!(" {:016X}", x.to_bits())).collect::<String>();
    let line = |text: &str| Line::Is(text.into());
    let ids = |xs: &[u32]| Line::Is(format!("ids{}", xs.iter().map(|x| format!(" {x}")).collect::<String>()));
    let factors = |xs: &[f64]| Line::Is(format!("factors{}", hex(xs)));
    let corrected = |xs: &[f64]| Line::Is(format!("corrected{}", hex(xs)));
    let mut fifteen = path(0, 8);
    fifteen.extend(path(8, 7));
    let with = |base: &[Vec<u32>], more: &[&[u32]]| {
        let mut l = base.to_vec();
        l.extend(more.iter().map(|m| m.to_vec()));
        l
    };
    let root = |x: f64| Case::Root { bits: x.to_bits() };
    let small = |x: f64| Case::Blocks { a: diag(&[x]), block: 1, residual: vec![1.0] };
    vec![
        ("path_5_size_2", group(path(0, 5), 2), vec![ids(&[0, 0, 1, 1, 2])]),
        ("path_8_size_7", group(path(0, 8), 7), vec![ids(&[0, 0, 0, 0, 0, 0, 0, 1])]),
        ("path_9_size_8", group(path(0, 9), 8), vec![ids(&[0; 9])]),
        ("one_node", group(vec![vec![]], 8), vec![ids(&[0])]),
        ("one_way", group(vec![vec![], vec![0]], 8), vec![ids(&[0, 0])]),
        (
            "fewer_members",
            group(with(&fifteen, &[&[3, 11]]), 8),
            vec![ids(&[0, 0, 0, 0, 0, 0, 0, 0, 1, 1, 1, 1, 1, 1, 1, 1])],
        ),
        (
            "most_edges",
            group(with(&fifteen, &[&[3, 3, 11]]), 8),
            vec![ids(&[0, 0, 0, 0, 0, 0, 0, 0, 1, 1, 1, 1, 1, 1, 1, 0])],
        ),
        ("two_rounds", group(with(&path(0, 16), &[&[], &[16, 16, 3]]), 16), vec![ids(&[0; 18])]),
        (
            "three_rounds",
            group(vec![vec![0], vec![2], vec![], vec![0], vec![], vec![4, 3, 1]], 20),
            vec![ids(&[0; 6])],
        ),
        ("root_of_2", root(2.0), vec![line("result 3FF6A09E667F3BCD")]),
        ("root_of_the_smallest", Case::Root { bits: 1 }, vec![line("result 1E60000000000000")]),
        ("root_of_the_largest", root(f64::MAX), vec![line("result 5FEFFFFFFFFFFFFF")]),
        (
            "block_4_2_2_5",
            Case::Blocks { a: full(&[&[4.0, 2.0], &[2.0, 5.0]]), block: 2, residual: vec![8.0, 10.0] },
            vec![factors(&[2.0, 0.0, 1.0, 2.0]), corrected(&[1.25, 1.5])],
        ),
        ("pivot_at_the_tolerance", small(1e-14), vec![line("refused 15")]),
        ("pivot_above_the_tolerance", small(2e-14), vec![factors(&[2e-14f64.sqrt()])]),
        (
            "difference_at_the_tolerance",
            Case::Blocks { a: full(&[&[1.0, 1e-11], &[0.0, 1.0]]), block: 2, residual: vec![1.0, 1.0] },
            vec![factors(&[1.0, 0.0, 0.0, 1.0])],
        ),
        (
            "overflow_by_duplicates",
            Case::Blocks {
                a: Csr::from_rows(2, &[vec![(0, 1.0), (1, f64::MAX), (1, f64::MAX)], vec![(1, 1.0)]]),
                block: 2,
                residual: vec![1.0, 1.0],
            },
            vec![line("refused 15")],
        ),
        (
            "contiguous_16_14",
            two(full(&[&[16.0, -14.0], &[-14.0, 16.0]]), 2, 0, 0, &[&[16.0, 32.0]]),
            vec![corrected(&[13.0, 14.0])],
        ),
        (
            "diag_16_4",
            two(diag(&[16.0, 4.0]), 1, 1, 0, &[&[16.0, 4.0], &[16.0, 40.0]]),
            vec![corrected(&[2.0, 2.0]), corrected(&[2.0, 20.0])],
        ),
        ("contiguous_mixes", two(diag(&[16.0, 9.0]), 2, 0, 0, &[&[16.0, 9.0]]), vec![corrected(&[2.0, 2.0])]),
        (
            "contiguous_mixes_more",
            two(diag(&[16.0, 9.0]), 2, 0, 0, &[&[16.0, 34.0]]),
            vec![Line::Begins(format!("corrected{}", hex(&[3.0])))],
        ),
        ("no_row_contiguous", two(diag(&[]), 1, 0, 0, &[&[]]), vec![line("refused 23")]),
        ("no_row_smoothed", two(diag(&[]), 1, 0, 1, &[&[]]), vec![line("refused 22 1")]),
        ("no_row_graph", two(diag(&[]), 1, 1, 0, &[&[]]), vec![line("refused 16")]),
        ("no_row_strong_graph", two(diag(&[]), 1, 2, 1, &[&[]]), vec![line("refused 16")]),
    ]
}
