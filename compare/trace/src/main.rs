//! The numbers that the Rust forms: `trace FIRST COUNT MOST` draws, for every block size up to 3 and every choice of the three policies,
//! COUNT cases of at most MOST rows that the Rust accepts, from the seed FIRST on, and writes each with one residual and with `formed`: every rounded
//! result of setup and of one apply, in ascending order of its bits. They come from the source itself, built over a number that writes down its results.
mod recorded;

#[allow(dead_code)]
mod hybit_core {
    use crate::recorded::f64;
    include!(concat!(env!("OUT_DIR"), "/core.rs"));
}

#[allow(dead_code)]
mod hybit_matrix {
    use crate::hybit_core::HybitError;
    mod csr32 {
        use crate::{hybit_core, recorded::f64};
        include!(concat!(env!("OUT_DIR"), "/csr32.rs"));
    }
    pub use csr32::Csr32Matrix;
    mod abtm {
        include!("../../hybit-matrix/src/abtm.rs");
    }
    pub use abtm::AbtmTopology;
}

#[allow(dead_code)]
mod hybit_precond {
    use crate::recorded::{Whole, f64};
    use crate::{hybit_core, hybit_matrix};
    include!(concat!(env!("OUT_DIR"), "/precond.rs"));
}

use cases::answers::{self, Answer};
use cases::{Case, Csr, Options, draw, text};
use hybit_core::{HybitError, Preconditioner};
use hybit_precond::*;

/// The numbers formed, and the correction.
fn run(a: &Csr, o: &Options, r: &[f64]) -> Result<(Vec<u64>, Vec<f64>), HybitError> {
    let number = |xs: &[f64]| xs.iter().map(|&x| recorded::f64::of(x)).collect::<Vec<_>>();
    let m = hybit_matrix::Csr32Matrix::new(a.rows, a.cols, a.row_ptr.clone(), a.col_idx.clone(), number(&a.values))?;
    recorded::formed();
    let p = TwoLevelBlockJacobiPreconditioner::from_csr32_with_aggregation_basis_and_policy(
        &m,
        o.block,
        o.group,
        [TwoLevelAggregation::Contiguous, TwoLevelAggregation::Graph, TwoLevelAggregation::StrongGraph][o.aggregation as usize],
        [TwoLevelBasis::PiecewiseConstant, TwoLevelBasis::JacobiSmoothed][o.basis as usize],
        [TwoLevelCoarseApplyPolicy::Auto, TwoLevelCoarseApplyPolicy::FactorSolve, TwoLevelCoarseApplyPolicy::ExplicitInverse][o.policy as usize],
    )?;
    let mut z = number(&vec![0.0; a.rows]);
    p.apply(&number(r), &mut z)?;
    let mut formed = recorded::formed();
    formed.sort_unstable();
    Ok((formed, z.iter().map(|x| x.plain()).collect()))
}

/// The case with its answer and the numbers formed, if the Rust accepts it.
fn traced(name: &str, a: Csr, options: Options, residual: Vec<f64>) -> Option<String> {
    let Ok((formed, z)) = run(&a, &options, &residual) else { return None };
    let case = Case::TwoLevel { a, options, residuals: vec![residual] };
    let answer = answers::answer(&case);
    let Answer::TwoLevel(_, corrected) = &answer else { panic!("{name}: the Rust refuses what its recording copy accepts") };
    let bits = |xs: &[f64]| xs.iter().map(|x| lent::pattern(x.to_bits())).collect::<Vec<_>>();
    assert_eq!(bits(&z), bits(&corrected[0]), "{name}: the recording copy differs from the Rust");
    let formed: String = formed.iter().map(|x| format!(" {x:016X}")).collect();
    Some(text::write(name, &case, &answer).replace("\nend\n", &format!("\nformed{formed}\nend\n")))
}

fn main() {
    let args: Vec<u64> = std::env::args().skip(1).map_while(|s| s.parse().ok()).collect();
    let [first, count, most] = args[..] else {
        eprintln!("usage: trace FIRST COUNT MOST");
        std::process::exit(2);
    };
    let mut seed = first;
    for block in 1..=3 {
        for chosen in 0..18 {
            let (aggregation, basis, policy) = (chosen / 6, chosen / 3 % 2, chosen % 3);
            let mut left = count;
            while left > 0 {
                let Case::TwoLevel { a, options, residuals } = draw::two_level(seed, most as usize) else { unreachable!() };
                let nodes = a.rows / options.block.max(1);
                let options = Options { aggregation, basis, policy, ..options };
                if options.block == block && nodes > 1 {
                    let residual = residuals[0].clone();
                    if let Some(written) = traced(&seed.to_string(), a, options, residual) {
                        print!("{written}");
                        left -= 1;
                    }
                }
                seed += 1;
            }
        }
    }
}
