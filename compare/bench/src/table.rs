//! Measured times and peaks as Markdown.
use crate::limits::Work;
use std::fmt::Write;

pub struct Row {
    pub what: String,
    pub size: String,
    pub rows: usize,
    /// The coarse dimension that was aimed at.
    pub coarse: Option<usize>,
    /// Milliseconds: the Rust's call, the Rust's validate and call together where ours checks the matrix too, and ours.
    pub rust: f64,
    pub checked: Option<f64>,
    pub ours: f64,
    /// The least time that the call's work takes on this machine.
    pub least: Option<f64>,
}

impl Row {
    pub fn new(what: String, size: String, rows: usize, rust: f64, checked: Option<f64>, ours: f64) -> Row {
        eprintln!("{what:34} {size:>40} {rust:11.3} ms {ours:11.3} ms {:7.2}", ours / rust);
        Row { what, size, rows, coarse: None, rust, checked, ours, least: None }
    }

    pub fn limited(self, work: Work) -> Row {
        Row { least: Some(work.least()), ..self }
    }

    /// What a panel of the plot shows.
    pub fn series(&self) -> String {
        self.coarse.map_or(self.what.clone(), |c| format!("{}, c ≈ {}", self.what, counted(c)))
    }
}

/// Peak memory of one side, in KiB: what the input takes, and the peak with it.
pub struct Peak {
    pub input: u64,
    pub peak: u64,
}

pub struct Memory {
    pub what: String,
    pub rust: Peak,
    pub ours: Peak,
}

/// A number with commas.
pub fn counted(n: usize) -> String {
    let digits = n.to_string();
    let groups: Vec<&str> = digits.as_bytes().rchunks(3).rev().map(|c| std::str::from_utf8(c).unwrap()).collect();
    groups.join(",")
}

fn milliseconds(x: f64) -> String {
    if x < 10.0 { format!("{x:.3}") } else if x < 100.0 { format!("{x:.2}") } else { format!("{x:.1}") }
}

pub fn markdown(command: &str, machine: &str, rows: &[Row], memory: &[Memory]) -> String {
    let mut out = String::new();
    let o = &mut out;
    writeln!(o, "# Benchmarks\n").unwrap();
    writeln!(o, "Written by `compare/bench/run {command} --write`: {machine}.\n").unwrap();
    writeln!(
        o,
        "Both sides ran in one process on the same input, one thread each, in turn; a time is the shortest of up to 25 runs (of about two\n\
         seconds, or a single one that takes longer). Every result was compared bit for bit. Our lists are lent again from run to run, as a\n\
         solver would; the Rust allocates its own at each call, and that is counted as it is. \"With validate\" adds the time of the Rust's own\n\
         `validate`: our calls check the matrix each time, the Rust does when it builds one. The Rust keeps no log of joinings: beside grouping\n\
         with a log stands its grouping without one.\n\n\
         ![Times against rows](benchmarks.svg)\n"
    )
    .unwrap();
    writeln!(
        o,
        "\"Limit\" is a time below which the call cannot be here, measured in the same run: the longest of three, the bytes of the lists that it must read and write once, at\n\
         the speed of a plain read of as many bytes (from the cache where they fit); the additions that wait for one another (of the backward solve); the multiplications\n\
         with their additions (of factor and inverse), the last two at the speed of loops that do nothing else. Branches, divisions, roots and sorting count nothing.\n"
    )
    .unwrap();
    writeln!(o, "| Call | Size | Rust, ms | Rust with validate, ms | Ours, ms | Ours / Rust | Ours / Rust with validate | Limit, ms | Ours / limit |").unwrap();
    writeln!(o, "|---|---|---:|---:|---:|---:|---:|---:|---:|").unwrap();
    for r in rows {
        let (checked, ratio) = r.checked.map_or(("".into(), "".into()), |c| (milliseconds(c), format!("{:.2}", r.ours / c)));
        let (least, above) = r.least.map_or(("".into(), "".into()), |l| (milliseconds(l), format!("{:.1}", r.ours / l)));
        writeln!(
            o,
            "| {} | {} | {} | {checked} | {} | {:.2} | {ratio} | {least} | {above} |",
            r.what, r.size, milliseconds(r.rust), milliseconds(r.ours), r.ours / r.rust
        )
        .unwrap();
    }
    if memory.is_empty() {
        return out;
    }
    writeln!(o, "\n## Peak memory\n").unwrap();
    writeln!(
        o,
        "Each side builds the matrix and one setup in a process of its own; the peak is VmHWM of /proc/self/status, with what stood there\n\
         once the matrix was built beside it. Document 01 fixes how long the lists are that a setup is lent, and an accepted setup leaves\n\
         zeros in all that it does not use: every page of them is touched.\n"
    )
    .unwrap();
    writeln!(o, "| Setup | Rust: matrix, MiB | Rust: peak, MiB | Ours: matrix, MiB | Ours: peak, MiB | Ours / Rust, above the matrix |").unwrap();
    writeln!(o, "|---|---:|---:|---:|---:|---:|").unwrap();
    let mib = |k: u64| format!("{:.1}", k as f64 / 1024.0);
    for m in memory {
        let above = |p: &Peak| p.peak.saturating_sub(p.input) as f64;
        writeln!(
            o,
            "| {} | {} | {} | {} | {} | {:.2} |",
            m.what, mib(m.rust.input), mib(m.rust.peak), mib(m.ours.input), mib(m.ours.peak), above(&m.ours) / above(&m.rust)
        )
        .unwrap();
    }
    out
}
