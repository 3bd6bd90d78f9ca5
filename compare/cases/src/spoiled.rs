//! Whether a comparison notices: every call of a case in turn is spoiled in one place, and the comparison must find a difference.
use crate::compare::{Library, compared};
use crate::draw::Random;
use crate::{Case, Csr, Options, answers, draw};
use lent::Seen;
use std::cell::Cell;
use std::marker::PhantomData;

thread_local! {
    /// Calls to come before the one that is spoiled.
    static BEFORE: Cell<u64> = const { Cell::new(u64::MAX) };
}

/// Whether this call is the one to spoil.
fn now() -> bool {
    let left = BEFORE.get();
    BEFORE.set(left.wrapping_sub(1));
    left == 0
}

/// The number, or one element of one list, in turn with what is drawn.
fn spoiled(g: &mut Random, seen: Result<Seen, String>) -> Result<Seen, String> {
    let mut seen = seen?;
    if now() {
        let k = g.below(seen.lists.len() + 1);
        match seen.lists.get_mut(k).filter(|l| !l.after.is_empty()) {
            // The complement is another number, and no NaN for a NaN.
            Some(list) => {
                let at = g.below(list.after.len());
                list.after[at] = !list.after[at];
            }
            None => seen.number ^= 1,
        }
    }
    Ok(seen)
}

struct Spoiled<L>(PhantomData<L>);

impl<L: Library> Library for Spoiled<L> {
    const NAME: &'static str = L::NAME;
    fn root(bits: u64) -> u64 {
        L::root(bits) ^ now() as u64
    }
    fn validate(g: &mut Random, a: &Csr) -> Result<Seen, String> {
        let seen = L::validate(g, a);
        spoiled(g, seen)
    }
    fn diagonal(g: &mut Random, a: &Csr) -> Result<Seen, String> {
        let seen = L::diagonal(g, a);
        spoiled(g, seen)
    }
    fn blocks(g: &mut Random, a: &Csr, block: usize) -> Result<Seen, String> {
        let seen = L::blocks(g, a, block);
        spoiled(g, seen)
    }
    fn block_apply(g: &mut Random, rows: usize, block: usize, factors: &[f64], residual: &[f64]) -> Result<Seen, String> {
        let seen = L::block_apply(g, rows, block, factors, residual);
        spoiled(g, seen)
    }
    fn group(g: &mut Random, lists: &[Vec<u32>], size: usize) -> Result<Seen, String> {
        let seen = L::group(g, lists, size);
        spoiled(g, seen)
    }
    fn group_log(g: &mut Random, lists: &[Vec<u32>], size: usize) -> Result<Seen, String> {
        let seen = L::group_log(g, lists, size);
        spoiled(g, seen)
    }
    fn estimate(g: &mut Random, a: &Csr, diagonal: &[f64]) -> Result<Seen, String> {
        let seen = L::estimate(g, a, diagonal);
        spoiled(g, seen)
    }
    fn setup(g: &mut Random, a: &Csr, o: &Options, coarse: usize) -> Result<Seen, String> {
        let seen = L::setup(g, a, o, coarse);
        spoiled(g, seen)
    }
    fn apply(g: &mut Random, record: &[u64], ints: &[u32], floats: &[f64], residual: &[f64]) -> Result<Seen, String> {
        let seen = L::apply(g, record, ints, floats, residual);
        spoiled(g, seen)
    }
}

/// How many calls of a case are spoiled without being noticed, of how many.
fn unnoticed<L: Library>(case: &Case, seed: u64) -> (u64, u64) {
    let rust = answers::answer(case);
    let mut missed = 0;
    for k in 0.. {
        BEFORE.set(k);
        let noticed = compared::<Spoiled<L>>(case, &rust, seed).is_err();
        // The count was not used up: the case has no call of this number.
        if BEFORE.get() <= k {
            return (missed, k);
        }
        missed += !noticed as u64;
    }
    unreachable!("a case has an end")
}

/// Exits with 1 where something was not noticed.
pub fn main<L: Library>() {
    let (mut missed, mut calls) = (0, 0);
    for seed in 0..4000 {
        let (m, c) = unnoticed::<L>(&draw::any(seed, 12), seed);
        if m > 0 {
            println!("{}: seed {seed}, {m} of {c} spoiled calls not noticed", L::NAME);
        }
        missed += m;
        calls += c;
    }
    println!("{}: {calls} spoiled calls, {missed} not noticed", L::NAME);
    std::process::exit((missed > 0 || calls == 0) as i32);
}
