//! Demand 3 on runs: `separation SEED COUNT MOST` draws COUNT matrices of several free-standing parts with at most MOST nodes, builds a
//! setup of each under Graph or StrongGraph, and applies it to two residuals that agree on some parts, zeros of either sign, and differ on
//! the others. The corrections must be equal numbers on every row of the parts that agree. The numbers are drawn so small that every
//! number formed is finite; what is handed out is looked at. The same matrices under Contiguous are the control: there parts must be seen to mix.
//! The first case in which a part moved is shrunk and printed.
mod draw;
mod parts;

use cases::{Case, Csr, Options, answers, run, shrink, text};
use std::collections::BTreeMap;
use yelomawin::{Aggregation, Basis, CoarsePolicy, Matrix, Setup};

/// What two applies of one setup did.
#[derive(Default)]
struct Moved {
    /// Rows of the parts that agree: looked at, with another number, with a zero of the other sign.
    kept: usize,
    wrong: Vec<usize>,
    signs: usize,
    /// Rows of the other parts that have another number.
    elsewhere: usize,
    /// Whether every number handed out is finite.
    finite: bool,
}

fn asked(o: &Options) -> yelomawin::Options {
    yelomawin::Options {
        block_size: o.block,
        group_size: o.group,
        aggregation: [Aggregation::Contiguous, Aggregation::Graph, Aggregation::StrongGraph][o.aggregation as usize],
        basis: [Basis::PiecewiseConstant, Basis::JacobiSmoothed][o.basis as usize],
        coarse_policy: [CoarsePolicy::Auto, CoarsePolicy::FactorSolve, CoarsePolicy::ExplicitInverse][o.policy as usize],
    }
}

/// The number of the refusal where the setup is refused.
fn moved(a: &Csr, o: &Options, residuals: &[Vec<f64>]) -> Result<Moved, u64> {
    let n = a.rows;
    let lent = Matrix { rows: n, cols: a.cols, row_ptr: &a.row_ptr, col_idx: &a.col_idx, values: &a.values };
    let mut setup = Setup::build(&lent, &asked(o)).map_err(|r| r.number())?;
    let mut z = [vec![0.0; n], vec![0.0; n]];
    for k in 0..2 {
        setup.apply(&residuals[k], &mut z[k]).map_err(|r| r.number())?;
    }
    let agrees = parts::agreeing(&parts::parts(a, o.block), o.block, &residuals[0], &residuals[1]);
    let finite = |list: &[f64]| list.iter().all(|x| x.is_finite());
    let mut m = Moved { finite: finite(setup.lists().1) && finite(&z[0]) && finite(&z[1]), ..Moved::default() };
    for i in 0..n {
        let (x, y) = (z[0][i], z[1][i]);
        if agrees[i] {
            m.kept += 1;
            m.signs += (x == y && x.to_bits() != y.to_bits()) as usize;
            if x != y {
                m.wrong.push(i);
            }
        } else {
            m.elsewhere += (x != y) as usize;
        }
    }
    Ok(m)
}

/// Whether a part moved that must not, in a case that meets demand 3's premises.
fn mixes(case: &Case) -> bool {
    let Case::TwoLevel { a, options, residuals } = case else { unreachable!("only such cases are drawn") };
    options.aggregation > 0 && residuals.len() == 2 && moved(a, options, residuals).is_ok_and(|m| m.finite && !m.wrong.is_empty())
}

fn main() {
    let args: Vec<String> = std::env::args().skip(1).collect();
    let numbers: Vec<u64> = args.iter().filter_map(|s| s.parse().ok()).collect();
    let [seed, count, most] = numbers[..] else {
        eprintln!("usage: separation SEED COUNT MOST");
        std::process::exit(2);
    };
    // By aggregation, basis, policy and block size: setups accepted.
    let mut accepted = BTreeMap::<String, u64>::new();
    let mut refused = BTreeMap::<u64, u64>::new();
    let (mut rows, mut signs, mut elsewhere) = (0, 0, 0);
    let (mut control, mut mixed) = (0, BTreeMap::<String, u64>::new());
    for s in run::seeds(seed, count) {
        let case = draw::case(s, most as usize);
        let Case::TwoLevel { a, options, residuals } = &case else { unreachable!("only such cases are drawn") };
        let o = asked(options);
        match moved(a, options, residuals) {
            Ok(m) => {
                assert!(m.finite, "seed {s}: a number that is not finite: the ranges drawn from are too wide");
                if let Some(i) = m.wrong.first() {
                    println!("separation, seed {s}: row {i} of an untouched part moved; made smaller:");
                    let small = shrink::shrink(case, mixes);
                    print!("{}", text::write(&s.to_string(), &small, &answers::answer(&small)));
                    std::process::exit(1);
                }
                *accepted.entry(format!("{:?}, {:?}, {:?}, block size {}", o.aggregation, o.basis, o.coarse_policy, o.block_size)).or_default() += 1;
                rows += m.kept;
                signs += m.signs;
                elsewhere += m.elsewhere;
            }
            Err(number) => *refused.entry(number).or_default() += 1,
        }
        if let Ok(m) = moved(a, &Options { aggregation: 0, ..*options }, residuals) {
            assert!(m.finite, "seed {s}: a number that is not finite: the ranges drawn from are too wide");
            control += 1;
            *mixed.entry(format!("{:?}, {:?}", o.basis, o.coarse_policy)).or_default() += !m.wrong.is_empty() as u64;
        }
    }
    let total: u64 = accepted.values().sum();
    let least = accepted.iter().min_by_key(|e| e.1);
    let kinds = accepted.len();
    println!("separation: {total} of {count} setups accepted under Graph and StrongGraph; {kinds} kinds of options, least often {least:?}");
    println!("  refused by cause: {refused:?}");
    println!("  {rows} rows of untouched parts, every number equal ({signs} zeros of the other sign); {elsewhere} rows elsewhere moved");
    println!("  control: {} of {control} setups under Contiguous mixed parts: {mixed:?}", mixed.values().sum::<u64>());
    // All 24 kinds of options must have been seen, loads must have moved something, and each kind of control must have mixed.
    if accepted.len() < 24 || elsewhere == 0 || mixed.len() < 4 || mixed.values().any(|&m| m == 0) {
        println!("separation: too little was seen");
        std::process::exit(1);
    }
}
