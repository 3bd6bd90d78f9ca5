//! A comparison from the command line: NAME KIND FIRST COUNT MOST for COUNT seeds from FIRST on, cases of at most MOST rows or nodes.
//! KIND is root, validate, diagonal, blocks, group, joining (graphs whose groups join much), estimate, two_level, hard (cases that random
//! numbers miss), wide (coarse dimensions around 1,024) or any. The first case that differs is shrunk and printed. A run in which no case
//! was accepted has failed, and one of joining that did not meet every rule and three rounds.
//! NAME --self-test spoils calls in one place after the other and asks that each be noticed.
use crate::answers::{self, Answer};
use crate::compare::{Library, compared};
use crate::joining::{Met, joined};
use crate::{Case, draw, hard, shrink, spoiled, text};
use std::collections::BTreeMap;

fn drawn(kind: &str, seed: u64, most: usize) -> Option<Case> {
    Some(match kind {
        "root" => draw::root(seed),
        "validate" => draw::validate(seed, most),
        "diagonal" => draw::diagonal(seed, most),
        "blocks" => draw::blocks(seed, most),
        "group" => draw::group(seed, most),
        "joining" => draw::joining(seed, most),
        "estimate" => draw::estimate(seed, most),
        "two_level" => draw::two_level(seed, most),
        "hard" => hard::hard(seed),
        "wide" => hard::wide(seed),
        "any" => draw::any(seed, most),
        _ => return None,
    })
}

/// The seeds of a run; a range that ends above 64 bits would be an empty one.
pub fn seeds(first: u64, count: u64) -> std::ops::Range<u64> {
    let Some(end) = first.checked_add(count) else {
        eprintln!("{count} seeds from {first} on do not fit 64 bits");
        std::process::exit(2);
    };
    first..end
}

/// Draws, compares and reports.
pub fn main<L: Library>() {
    let name = L::NAME;
    let args: Vec<String> = std::env::args().skip(1).collect();
    if args == ["--self-test"] {
        return spoiled::main::<L>();
    }
    let number = |k: usize| args.get(k).and_then(|s| s.parse::<u64>().ok());
    let (Some(kind), Some(first), Some(count), Some(most)) = (args.first(), number(1), number(2), number(3)) else {
        eprintln!("usage: {name} KIND FIRST COUNT MOST | --self-test");
        std::process::exit(2);
    };
    let (mut ran, mut refused, mut met) = (0, BTreeMap::<u32, u64>::new(), Met::default());
    for seed in seeds(first, count) {
        let Some(case) = drawn(kind, seed, most as usize) else {
            eprintln!("no kind '{kind}'");
            std::process::exit(2);
        };
        let rust = answers::answer(&case);
        if let Err(what) = compared::<L>(&case, &rust, seed) {
            let planted = if kind == "hard" { format!(" ({})", hard::planted(seed)) } else { String::new() };
            println!("{name}, {kind}{planted}, seed {seed}: {what}");
            let differs = |c: &Case| compared::<L>(c, &answers::answer(c), seed).err();
            let small = shrink::shrink(case, |c| differs(c).is_some());
            println!("made smaller: {}", differs(&small).unwrap_or_default());
            print!("{}", text::write(&seed.to_string(), &small, &answers::answer(&small)));
            std::process::exit(1);
        }
        ran += 1;
        if let Answer::Refused(r) = &rust {
            *refused.entry(r.number).or_default() += 1;
        } else if let (Case::Group { lists, size }, "joining") = (&case, &kind[..]) {
            met.add(&joined(lists, *size));
        }
    }
    let accepted = ran - refused.values().sum::<u64>();
    let causes: Vec<String> = refused.iter().map(|(n, k)| format!("{n} ({k})")).collect();
    let causes = if causes.is_empty() { String::new() } else { format!(", refused by cause {}", causes.join(", ")) };
    println!("{name}, {kind}: {ran} cases from seed {first}, no difference; {accepted} accepted{causes}");
    if kind == "joining" {
        println!("{name}, {kind}: {met}");
    }
    if kind == "joining" && !met.above(0) || accepted == 0 {
        println!("{name}, {kind}: too little was seen");
        std::process::exit(1);
    }
}
