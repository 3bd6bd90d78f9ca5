//! One case on both sides: nothing where they agree, else what differs.
use crate::answers::Answer;
use crate::draw::Random;
use crate::{Case, Csr, Options, expected, joining};
use lent::{Expected, Seen, bits, differences, keeps, pattern};

/// The library's calls on lists of one form; an error says what is wrong whatever the answer.
pub trait Library {
    const NAME: &'static str;
    /// The bits, a NaN as 7FF8000000000000.
    fn root(bits: u64) -> u64;
    fn validate(g: &mut Random, a: &Csr) -> Result<Seen, String>;
    fn diagonal(g: &mut Random, a: &Csr) -> Result<Seen, String>;
    /// Result list "factors".
    fn blocks(g: &mut Random, a: &Csr, block: usize) -> Result<Seen, String>;
    fn block_apply(g: &mut Random, rows: usize, block: usize, factors: &[f64], residual: &[f64]) -> Result<Seen, String>;
    fn group(g: &mut Random, lists: &[Vec<u32>], size: usize) -> Result<Seen, String>;
    /// Result lists "ids" and "log".
    fn group_log(g: &mut Random, lists: &[Vec<u32>], size: usize) -> Result<Seen, String>;
    fn estimate(g: &mut Random, a: &Csr, diagonal: &[f64]) -> Result<Seen, String>;
    /// Result lists "setup_ints" and "setup_floats", answer list "record"; lists for a coarse dimension.
    fn setup(g: &mut Random, a: &Csr, o: &Options, coarse: usize) -> Result<Seen, String>;
    fn apply(g: &mut Random, record: &[u64], ints: &[u32], floats: &[f64], residual: &[f64]) -> Result<Seen, String>;
}

fn alike(call: &str, seen: &Seen, want: &Expected, keeps: bool) -> Result<(), String> {
    match &differences(seen, want, keeps)[..] {
        [] => Ok(()),
        found => Err(format!("{call}: {}", found.join("; "))),
    }
}

/// What differs, if anything does.
pub fn compared<L: Library>(case: &Case, rust: &Answer, seed: u64) -> Result<(), String> {
    let g = &mut Random(seed ^ 0xA5A5_5A5A);
    if let (Case::Root { bits }, Answer::Floats(r)) = (case, rust) {
        let (ours, theirs) = (L::root(*bits), pattern(r[0].to_bits()));
        return if ours == theirs { Ok(()) } else { Err(format!("root: {ours:016X}, the Rust has {theirs:016X}")) };
    }
    let want = expected::of(case, rust);
    let left = keeps(want.number);
    match case {
        Case::Root { .. } => unreachable!("a root is a number"),
        Case::Validate { a } => alike("validate", &L::validate(g, a)?, &want, left),
        Case::Diagonal { a } => alike("diagonal", &L::diagonal(g, a)?, &want, left),
        Case::Blocks { a, block, residual } => {
            let seen = L::blocks(g, a, *block)?;
            alike("blocks", &seen, &want, left)?;
            let Answer::Blocks(_, z) = rust else { return Ok(()) };
            let solved = L::block_apply(g, a.rows, *block, &seen.left::<f64>("factors"), residual)?;
            alike("block apply", &solved, &expected::accepted(&[], vec![bits(z)]), true)
        }
        Case::Group { lists, size } => {
            alike("grouping", &L::group(g, lists, *size)?, &want, true)?;
            let logged = match rust {
                Answer::Groups(count, ids) => expected::logged(&joining::joined(lists, *size), *count, ids)?,
                _ => want,
            };
            alike("grouping with a log", &L::group_log(g, lists, *size)?, &logged, true)
        }
        Case::Estimate { a, diagonal } => alike("estimate", &L::estimate(g, a, diagonal)?, &want, left),
        Case::TwoLevel { a, options, residuals } => {
            let (seen, told) = setup::<L>(g, a, options)?;
            alike("setup", &seen, &want, left)?;
            let Answer::TwoLevel(k, corrected) = rust else { return Ok(()) };
            if told.is_some_and(|c| c != k.coarse as u64) {
                return Err(format!("setup: cause 18 told the dimension {told:?}, the Rust has {}", k.coarse));
            }
            let (record, ints, floats) = (seen.left::<u64>("record"), seen.left::<u32>("setup_ints"), seen.left::<f64>("setup_floats"));
            for (r, z) in residuals.iter().zip(corrected) {
                alike("apply", &L::apply(g, &record, &ints, &floats, r)?, &expected::accepted(&[], vec![bits(z)]), true)?;
            }
            Ok(())
        }
    }
}

/// Setup; where its lists are too short for the coarse part, once more with room for the dimension that the refusal told.
fn setup<L: Library>(g: &mut Random, a: &Csr, o: &Options) -> Result<(Seen, Option<u64>), String> {
    let guess = g.below(3);
    let seen = L::setup(g, a, o, guess)?;
    if seen.number != 18 {
        return Ok((seen, None));
    }
    let told = seen.left::<u64>("record")[0];
    alike("setup", &seen, &Expected { number: 18, values: vec![told], ..Expected::default() }, keeps(18))?;
    if told <= guess as u64 || told > a.rows as u64 {
        return Err(format!("setup: cause 18 told the dimension {told} with room for {guess}, of {} rows", a.rows));
    }
    Ok((L::setup(g, a, o, told as usize)?, Some(told)))
}
