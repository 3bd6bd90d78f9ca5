//! What the library must answer, and leave in its lists, by the Rust's answer; where the Rust tells nothing, by document 01.
use crate::answers::Answer;
use crate::joining::Joined;
use crate::refusal::Refusal;
use crate::{Case, Csr, Options};
use hybit_precond::probe::Kept;
use lent::{Expected, bits};

/// The causes with which the Rust tells no row.
const UNTOLD: [u32; 4] = [14, 15, 21, 24];

fn refused(r: &Refusal, rows: usize) -> Expected {
    let row_below = UNTOLD.contains(&r.number).then_some(rows as u64);
    Expected { number: r.number as u64, values: r.values.clone(), row_below, results: Vec::new() }
}

pub fn accepted(values: &[u64], results: Vec<Vec<u64>>) -> Expected {
    Expected { values: values.to_vec(), results, ..Expected::default() }
}

/// The record of a setup; the complexity counts by their definition.
pub fn record(a: &Csr, o: &Options, k: &Kept) -> [u64; 15] {
    let (n, e) = (a.rows, a.values.len());
    let sizes = [n, e, o.block, o.group, n / o.block, k.groups, k.coarse, k.weights.len()].map(|x| x as u64);
    let policies = [o.aggregation, o.basis, if k.inverse { 2 } else { 1 }].map(u64::from);
    let mut all = [0; 15];
    all[..8].copy_from_slice(&sizes);
    all[8..11].copy_from_slice(&policies);
    all[11..].copy_from_slice(&[k.damping.to_bits(), k.scale.to_bits(), (e + k.nonzeros) as u64, e as u64]);
    all
}

/// What grouping with a log must answer: the Rust's groups, with the log of a program that has these groups too.
pub fn logged(plain: &Joined, count: usize, ids: &[u32]) -> Result<Expected, String> {
    if (plain.count, &plain.ids[..]) != (count, ids) {
        return Err(format!("the program that keeps a log has {} groups, {:?}, the Rust has {count}, {ids:?}", plain.count, plain.ids));
    }
    Ok(accepted(&[count as u64, plain.log.len() as u64], vec![bits(ids), bits(plain.log.as_flattened())]))
}

/// What the first call of a case must answer.
pub fn of(case: &Case, rust: &Answer) -> Expected {
    match (case, rust) {
        (Case::Validate { .. }, Answer::Accepted) => Expected::default(),
        (Case::Diagonal { .. }, Answer::Floats(d)) => accepted(&[], vec![bits(d)]),
        (Case::Blocks { .. }, Answer::Blocks(factors, _)) => accepted(&[], vec![bits(factors)]),
        (Case::Group { .. }, Answer::Groups(count, ids)) => accepted(&[*count as u64], vec![bits(ids)]),
        (Case::Estimate { .. }, Answer::Estimate { rho, damping }) => accepted(&bits(&[*rho, *damping]), vec![]),
        (Case::TwoLevel { a, options, .. }, Answer::TwoLevel(k, _)) => {
            let (ints, floats) = k.lists();
            accepted(&record(a, options, k), vec![bits(&ints), bits(&floats)])
        }
        (Case::Validate { a } | Case::Diagonal { a }, Answer::Refused(r)) => refused(r, a.rows),
        (Case::Blocks { a, .. } | Case::Estimate { a, .. } | Case::TwoLevel { a, .. }, Answer::Refused(r)) => refused(r, a.rows),
        (Case::Group { .. }, Answer::Refused(r)) => refused(r, 0),
        _ => unreachable!("a case and an answer of another kind"),
    }
}
