//! Every cause of every entry point, by document 01 alone: `refusals SEED COUNT` calls every case COUNT times, with other odd numbers and
//! lengths each time, and compares the number, what is returned with it, and every element of every list lent. Lists are as long
//! as needed or longer and full of odd numbers, also where a call is accepted. Each cause is met alone, in each of its ways, and together with every
//! later cause of the same entry point that can be had beside it. `refusals --pairs` lists the pairs that these tables do not give;
//! those that there are stand with the cases made by hand.
//! `refusals --self-test` spoils what was seen in one place after another and asks that each be noticed.
mod apply;
mod block_apply;
mod blocks;
mod diagonal;
mod estimate;
mod faults;
mod group;
mod group_log;
mod lists;
mod matrix;
mod setup;
mod validate;

use apply::Apply;
use block_apply::BlockApply;
use blocks::Blocks;
use diagonal::Diagonal;
use estimate::Estimate;
use faults::{Case, Entry, Fault, Tally, cases, run, unnoticed};
use group::Group;
use group_log::GroupLog;
use lists::Random;
use setup::Setup;
use validate::Validate;

/// What is done with the cases of each entry point.
enum Task {
    Run { seed: u64, count: u64 },
    Pairs,
    SelfTest,
}

/// Whether all went well.
fn entry<I: Entry>(task: &Task, base: I, places: Vec<Vec<Fault<I>>>, more: Vec<Case<I>>) -> bool {
    let mut not_had = Vec::new();
    let mut all = cases(&base, &places, &mut not_had);
    let alone: usize = places.iter().map(|p| p.len()).sum();
    let pairs = all.len() - alone;
    let accepted = more.iter().filter(|c| c.want.number == 0).count();
    all.extend(more);
    match task {
        Task::Pairs => {
            not_had.iter().for_each(|p| println!("{}: {p}", I::NAME));
            true
        }
        Task::SelfTest => {
            let (spoiled, out) = unnoticed(&all, &mut Random(1));
            out.iter().for_each(|o| println!("not noticed: {o}"));
            println!("{}: {spoiled} spoiled numbers and lists, {} not noticed", I::NAME, out.len());
            out.is_empty() && spoiled > 0
        }
        Task::Run { seed, count } => {
            let mut tally = Tally::default();
            for k in 0..*count {
                run(&all, &mut Random(seed.wrapping_add(k)), k == 0, &mut tally);
            }
            tally.differences.iter().take(40).for_each(|d| println!("{d}"));
            let causes: Vec<String> = tally.causes.iter().filter(|&&c| c != 0).map(|c| c.to_string()).collect();
            println!(
                "{}: {} cases ({alone} alone, {pairs} pairs, {accepted} accepted, {} by hand), {} calls, causes {}, {} differences",
                I::NAME, all.len(), all.len() - alone - pairs - accepted, tally.calls, causes.join(" "), tally.differences.len()
            );
            tally.differences.is_empty()
        }
    }
}

/// Whether every clause of 26 is met alone by a case.
fn clauses() -> bool {
    let met = Apply::met_alone();
    if met.len() != apply::CLAUSES {
        println!("apply: only {} of the {} clauses of 26 are met alone: {met:?}", met.len(), apply::CLAUSES);
    }
    met.len() == apply::CLAUSES
}

fn main() {
    let args: Vec<String> = std::env::args().skip(1).collect();
    let task = match &args.iter().map(|a| a.as_str()).collect::<Vec<_>>()[..] {
        ["--pairs"] => Task::Pairs,
        ["--self-test"] => Task::SelfTest,
        [seed, count] => Task::Run { seed: seed.parse().expect("a seed"), count: count.parse().expect("a count") },
        _ => {
            eprintln!("usage: refusals SEED COUNT | --pairs | --self-test");
            std::process::exit(2);
        }
    };
    let well = [
        entry(&task, Validate::base(), Validate::faults(), Validate::cases()),
        entry(&task, Diagonal::base(), Diagonal::faults(), Diagonal::cases()),
        entry(&task, Blocks::base(), Blocks::faults(), Blocks::cases()),
        entry(&task, BlockApply::base(), BlockApply::faults(), BlockApply::cases()),
        entry(&task, Group::base(), Group::faults(), Group::cases()),
        entry(&task, GroupLog::base(), GroupLog::faults(), GroupLog::cases()),
        entry(&task, Estimate::base(), Estimate::faults(), Estimate::cases()),
        entry(&task, Setup::base(), Setup::faults(), Setup::cases()),
        entry(&task, Apply::base(), Apply::faults(), Apply::cases()),
        clauses(),
    ];
    let kept = matrix::COLUMNS.iter().all(|&c| c == 0) && matrix::VALUES.iter().all(|v| v.to_bits() == 0);
    if !kept {
        println!("the shared lists of zeros were written to");
    }
    if well.contains(&false) || !kept {
        std::process::exit(1);
    }
}
