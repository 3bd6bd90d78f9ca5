//! A failing case made smaller as long as it fails: rows, entries, nodes and numbers go one after the other until none can.
use crate::{Case, Csr, Options};

/// Takes out an entry; where the lists contradict each other, what there is of it.
fn drop_entry(a: &mut Csr, k: usize) {
    if k < a.col_idx.len() {
        a.col_idx.remove(k);
    }
    if k < a.values.len() {
        a.values.remove(k);
    }
    for p in a.row_ptr.iter_mut().filter(|p| **p as usize > k) {
        *p -= 1;
    }
}

/// Takes out a row with the entries that its pointers spell, if they spell any.
fn drop_row(a: &mut Csr, i: usize) {
    let stored = a.col_idx.len().min(a.values.len());
    if let (Some(&start), Some(&end)) = (a.row_ptr.get(i), a.row_ptr.get(i + 1)) {
        for k in (start as usize..(end as usize).min(stored)).rev() {
            drop_entry(a, k);
        }
    }
    if a.row_ptr.len() > 1 {
        a.row_ptr.remove((i + 1).min(a.row_ptr.len() - 1));
    }
    a.rows -= 1;
}

fn drop_column(a: &mut Csr, j: usize) {
    for k in (0..a.col_idx.len()).rev().filter(|&k| a.col_idx[k] as usize == j).collect::<Vec<_>>() {
        drop_entry(a, k);
    }
    for c in a.col_idx.iter_mut().filter(|c| **c as usize > j) {
        *c -= 1;
    }
    a.cols -= 1;
}

fn changed(a: &Csr, change: impl FnOnce(&mut Csr)) -> Csr {
    let mut b = a.clone();
    change(&mut b);
    b
}

/// The list with one number simpler: 1 for any number, 0 for that; there is no way back.
fn simpler(x: &[f64]) -> impl Iterator<Item = Vec<f64>> {
    let at = (0..x.len()).flat_map(|k| [(k, 1.0), (k, 0.0)]).filter(|&(k, v)| x[k] != v && x[k] != 0.0);
    at.map(|(k, v)| [&x[..k], &[v], &x[k + 1..]].concat())
}

/// The list without these elements, as far as it has them.
fn without<T: Clone>(x: &[T], gone: &[usize]) -> Vec<T> {
    x.iter().enumerate().filter(|(k, _)| !gone.contains(k)).map(|(_, v)| v.clone()).collect()
}

/// The matrix without these rows, which ascend; a square one loses their columns too.
fn without_rows(a: &Csr, gone: &[usize]) -> Csr {
    changed(a, |m| {
        for &i in gone.iter().rev() {
            drop_row(m, i);
            if a.rows == a.cols {
                drop_column(m, i);
            }
        }
    })
}

/// Smaller matrices, each with the rows of the old one that are gone: first whole nodes, from one on or one alone.
fn matrices(a: &Csr, block: usize) -> impl Iterator<Item = (Csr, Vec<usize>)> {
    let b = block.max(1);
    let nodes = (0..a.rows / b).map(move |k| k * b..a.rows).chain((0..a.rows / b).map(move |k| k * b..(k + 1) * b));
    let rows = nodes.map(|gone| gone.collect()).map(|gone: Vec<usize>| (without_rows(a, &gone), gone));
    let columns = (0..if a.rows == a.cols { 0 } else { a.cols }).rev().map(|j| changed(a, |m| drop_column(m, j)));
    let entries = (0..a.col_idx.len().max(a.values.len())).rev().map(|k| changed(a, |m| drop_entry(m, k)));
    let values = simpler(&a.values).map(|values| Csr { values, ..a.clone() });
    rows.chain(columns.chain(entries).chain(values).map(|m| (m, Vec::new())))
}

/// Smaller numbers first: sizes from 1 on, policies from 0 on.
fn options(o: &Options) -> impl Iterator<Item = Options> {
    let o = *o;
    let sizes = (1..o.block).map(move |block| Options { block, ..o }).chain((1..o.group).map(move |group| Options { group, ..o }));
    let aggregation = (0..o.aggregation).map(move |aggregation| Options { aggregation, ..o });
    let rest = (0..o.basis).map(move |basis| Options { basis, ..o }).chain((0..o.policy).map(move |policy| Options { policy, ..o }));
    sizes.chain(aggregation).chain(rest)
}

/// The lists without a node.
fn without_node(lists: &[Vec<u32>], gone: usize) -> Vec<Vec<u32>> {
    let g = gone as u32;
    without(lists, &[gone]).iter().map(|l| l.iter().filter(|&&w| w != g).map(|&w| w - (w > g) as u32).collect()).collect()
}

/// One list less, or one of them simpler.
fn residuals(all: &[Vec<f64>]) -> impl Iterator<Item = Vec<Vec<f64>>> {
    let fewer = (0..if all.len() > 1 { all.len() } else { 0 }).map(|k| without(all, &[k]));
    fewer.chain((0..all.len()).flat_map(move |k| simpler(&all[k]).map(move |r| [&all[..k], &[r], &all[k + 1..]].concat())))
}

/// Smaller cases, made as they are asked for.
fn smaller(case: &Case) -> Box<dyn Iterator<Item = Case> + '_> {
    match case {
        Case::Root { bits } => Box::new((0..64).filter(move |k| bits >> k & 1 == 1).map(move |k| Case::Root { bits: bits & !(1 << k) })),
        Case::Validate { a } => Box::new(matrices(a, 1).map(|(a, _)| Case::Validate { a })),
        Case::Diagonal { a } => Box::new(matrices(a, 1).map(|(a, _)| Case::Diagonal { a })),
        Case::Blocks { a, block, residual } => {
            let of = |a: Csr, block: usize, residual: Vec<f64>| Case::Blocks { a, block, residual };
            let rows = matrices(a, 1).map(move |(a, gone)| of(a, *block, without(residual, &gone)));
            let sizes = (1..*block).map(move |block| of(a.clone(), block, residual.clone()));
            Box::new(rows.chain(sizes).chain(simpler(residual).map(move |r| of(a.clone(), *block, r))))
        }
        Case::Estimate { a, diagonal } => {
            let rows = matrices(a, 1).map(|(a, gone)| Case::Estimate { a, diagonal: without(diagonal, &gone) });
            Box::new(rows.chain(simpler(diagonal).map(|diagonal| Case::Estimate { a: a.clone(), diagonal })))
        }
        Case::Group { lists, size } => {
            let nodes = (0..lists.len()).map(|v| without_node(lists, v));
            let places = (0..lists.len()).flat_map(|v| (0..lists[v].len()).map(move |k| (v, k)));
            let neighbours = places.map(|(v, k)| [&lists[..v], &[without(&lists[v], &[k])], &lists[v + 1..]].concat());
            let fewer = nodes.chain(neighbours).map(|lists| Case::Group { lists, size: *size });
            Box::new(fewer.chain((1..*size).map(|size| Case::Group { lists: lists.clone(), size })))
        }
        Case::TwoLevel { a, options: o, residuals: r } => {
            let of = |a: Csr, options: Options, residuals: Vec<Vec<f64>>| Case::TwoLevel { a, options, residuals };
            let rows = matrices(a, o.block).map(move |(a, gone)| of(a, *o, r.iter().map(|r| without(r, &gone)).collect()));
            // A block smaller by one of its unknowns, in every node.
            let unknowns = (0..if o.block > 1 { o.block } else { 0 }).map(move |k| {
                let gone: Vec<usize> = (k..a.rows).step_by(o.block).collect();
                let rest = r.iter().map(|r| without(r, &gone)).collect();
                of(without_rows(a, &gone), Options { block: o.block - 1, ..*o }, rest)
            });
            let choices = options(o).map(move |o| of(a.clone(), o, r.clone()));
            Box::new(rows.chain(unknowns).chain(choices).chain(residuals(r).map(move |r| of(a.clone(), *o, r))))
        }
    }
}

pub fn shrink(mut case: Case, fails: impl Fn(&Case) -> bool) -> Case {
    loop {
        let found = smaller(&case).find(|c| fails(c));
        match found {
            Some(c) => case = c,
            None => return case,
        }
    }
}

#[cfg(test)]
mod tests {
    use super::*;
    use crate::answers::{Answer, answer, matrix};
    use crate::draw;
    use std::collections::BTreeSet;

    fn drawn(seed: u64) -> [Case; 7] {
        [
            draw::validate(seed, 9),
            draw::diagonal(seed, 9),
            draw::blocks(seed, 9),
            draw::estimate(seed, 9),
            draw::two_level(seed, 9),
            draw::group(seed, 9),
            draw::root(seed),
        ]
    }

    fn stored(c: &Case) -> Option<&Csr> {
        match c {
            Case::Validate { a } | Case::Diagonal { a } => Some(a),
            Case::Blocks { a, .. } | Case::Estimate { a, .. } | Case::TwoLevel { a, .. } => Some(a),
            Case::Group { .. } | Case::Root { .. } => None,
        }
    }

    /// Cases of every kind that the Rust refuses, contradictory lists among them, as long as it refuses them by the same cause.
    #[test]
    fn a_refused_case_becomes_small() {
        let cause = |c: &Case| if let Answer::Refused(r) = answer(c) { r.number } else { 0 };
        let mut met = BTreeSet::new();
        for case in (0..2000).flat_map(drawn) {
            let n = cause(&case);
            if n != 0 {
                met.insert(n);
                let small = shrink(case, |c| cause(c) == n);
                let few = stored(&small).is_none_or(|a| a.rows <= 4 && a.values.len() <= 5 && a.col_idx.len() <= 5);
                assert!(few && !matches!(&small, Case::Group { lists, .. } if !lists.is_empty()), "cause {n}: {small:?}");
            }
        }
        assert!((2..=25).all(|n| [13, 17, 18].contains(&n) || met.contains(&n)), "{met:?}");
    }

    /// "Fails" while a negative entry is left, while a node lists itself, while a bit is set: everything else becomes as simple as it can.
    #[test]
    fn a_failing_case_becomes_simple() {
        let fails = |c: &Case| match c {
            Case::Group { lists, .. } => lists.iter().enumerate().any(|(v, l)| l.contains(&(v as u32))),
            Case::Root { bits } => bits >> 7 & 1 == 1,
            _ => stored(c).is_some_and(|a| a.values.iter().any(|&v| v < 0.0) && matrix(a).is_ok()),
        };
        let mut shrunk = [0; 7];
        for seed in 0..600 {
            for (kind, case) in drawn(seed).into_iter().enumerate().filter(|(_, c)| fails(c)) {
                shrunk[kind] += 1;
                let small = shrink(case, fails);
                assert!(stored(&small).is_none_or(|a| a.rows <= 2 && a.cols <= 2 && a.values.len() == 1), "{small:?}");
                let zero = |list: &[f64]| list.iter().all(|&x| x == 0.0);
                assert!(match &small {
                    Case::Blocks { block, residual, .. } => *block <= 1 && zero(residual),
                    Case::Estimate { diagonal, .. } => zero(diagonal),
                    Case::Group { lists, size } => lists[..] == [[0]] && *size <= 1,
                    Case::Root { bits } => *bits == 1 << 7,
                    Case::TwoLevel { options: o, residuals, .. } => {
                        o.block <= 1 && o.group <= 1 && [o.aggregation, o.basis, o.policy] == [0; 3] && residuals.len() == 1 && zero(&residuals[0])
                    }
                    Case::Validate { .. } | Case::Diagonal { .. } => true,
                }, "{small:?}");
            }
        }
        assert!(shrunk.iter().all(|&n| n > 50), "{shrunk:?}");
    }
}
