//! What is printed.
use crate::job::Job;
use std::io::{self, Write};
use std::time::Duration;
use yelomawin::{Aggregation, Ended, Parts, Setup, Solved, lengths};

/// Why the program ends before its end.
pub enum Stop {
    /// Nobody reads on.
    Quiet,
    Said(String),
}

impl From<String> for Stop {
    fn from(said: String) -> Stop {
        Stop::Said(said)
    }
}

/// Where the report goes: standard error, where a file is written to standard output.
pub struct Report {
    pub on_stderr: bool,
}

impl Report {
    /// A line of output.
    pub fn say(&self, line: String) -> Result<(), Stop> {
        let written = if self.on_stderr { writeln!(io::stderr(), "{line}") } else { writeln!(io::stdout(), "{line}") };
        written.map_err(|e| match e.kind() {
            io::ErrorKind::BrokenPipe => Stop::Quiet,
            _ => Stop::Said(format!("standard output: {e}")),
        })
    }
}

/// So many rows are told one by one.
const SHOWN: usize = 12;

/// A number of things, one of them in the singular.
pub fn counted(n: usize, what: &str) -> String {
    format!("{n} {what}{}", if n == 1 { "" } else { "s" })
}

fn bytes(n: usize) -> String {
    match n {
        0..1024 => format!("{n} B"),
        1024..1_048_576 => format!("{:.1} KiB", n as f64 / 1024.0),
        _ => format!("{:.1} MiB", n as f64 / 1_048_576.0),
    }
}

/// What is asked for: the matrix, its block size, the loads.
pub fn asked(report: &Report, name: &str, job: &Job, rows: usize, entries: usize, parts: &Parts) -> Result<(), Stop> {
    let b = job.options.block_size;
    report.say(format!(
        "{name}: {}, {}, {} in {}",
        counted(rows, "unknown"), counted(entries, if entries == 1 { "entry" } else { "entrie" }), counted(rows / b, "node"),
        counted(parts.count(), "free-standing row")
    ))?;
    let at = format!("at unknown {} of every node", job.unknown());
    let loads = match &job.loads {
        Some(f) => format!("from {}", if f == "-" { "standard input" } else { f }),
        None => format!("-1.0 {at}"),
    };
    report.say(format!("block size {b} ({} a node); loads: {loads}; new load: {:?} more {at} of row {}", counted(b, "unknown"), job.add, job.row))
}

/// The two levels, and the groups of each row.
pub fn setup(report: &Report, setup: &Setup, parts: &Parts) -> Result<(), Stop> {
    let (n, e, c, b) = (setup.rows(), setup.entries(), setup.coarse_dimension(), setup.block_size());
    let (with, without) = setup.complexity();
    let share = |entries: u64| format!("{:.1} %", 100.0 * entries as f64 / with as f64);
    let l = setup.layout();
    let line = |level: &str, unknowns: usize, entries: u64, memory: usize, more: String| {
        report.say(format!("{level:<10} {unknowns:>10} {entries:>12} {:>10} {:>12}   {more}", share(entries), bytes(memory)))
    };
    report.say(format!("{:<10} {:>10} {:>12} {:>10} {:>12}", "level", "unknowns", "non-zeros", "of both", "memory"))?;
    line("0, matrix", n, without, 4 * (n + 1) + 12 * e, format!("{}, their factors {}", counted(setup.nodes(), "node"), bytes(8 * l.factors.len())))?;
    let coarse = if setup.inverts() { "inverted" } else { "factored" };
    line("1, coarse", c, with - without, 8 * l.coarse.len(), format!("{}, {coarse}, scale {:e}", counted(setup.groups(), "group"), setup.coarse_scale()))?;
    if setup.smoothed() {
        let memory = 4 * (l.pointers.len() + l.columns.len()) + 8 * l.weights.len();
        report.say(format!("smoothed transfer: {}, damping factor {}, {}", counted(setup.transfers(), "weight"), setup.damping_factor(), bytes(memory)))?;
    }
    let held = 4 * setup.lists().0.len() + 8 * setup.lists().1.len() + 16 * c;
    let built = lengths(n, e, b, c);
    let built = 4 * (built.setup_ints + built.work_ints) + 8 * (built.setup_floats + built.work_floats);
    report.say(format!(
        "operator complexity {with}/{without} = {:.3} (non-zeros of both levels over those of the matrix, as PyAMG has it), grid complexity {}/{n} = {:.3}; the setup holds {}, and needs {} while it is built",
        with as f64 / without as f64, n + c, (n + c) as f64 / n as f64, bytes(held), bytes(built)
    ))?;
    let mut members = vec![0usize; setup.groups()];
    setup.group_of_node().iter().for_each(|&g| members[g as usize] += 1);
    for s in 0..parts.count().min(SHOWN) {
        let mut groups: Vec<u32> = parts.nodes(s).map(|v| setup.group_of_node()[v]).collect();
        let nodes = groups.len();
        groups.sort_unstable();
        groups.dedup();
        let sizes: Vec<String> = groups.iter().take(SHOWN).map(|&g| members[g as usize].to_string()).collect();
        let rest = if groups.len() > SHOWN { ", .." } else { "" };
        let last = if sizes == ["1"] { "node" } else { "nodes" };
        report.say(format!("  row {s}: {} in {}, of {}{rest} {last}", counted(nodes, "node"), counted(groups.len(), "group"), sizes.join(", ")))?;
    }
    if parts.count() > SHOWN {
        report.say(format!("  and {} more", counted(parts.count() - SHOWN, "row")))?;
    }
    Ok(())
}

/// How a row that is not solved ended.
fn ended(e: Ended, residual: f64) -> String {
    match e {
        Ended::Reached => String::new(),
        Ended::Open => format!(", tolerance not reached (residual {residual:.1e})"),
        Ended::Stalled => format!(", tolerance not reached (residual {residual:.1e}, and rounding lets it fall no further)"),
        Ended::NotPositive => ", stopped: the matrix or the preconditioner is not positive definite there".into(),
        Ended::Overflow => ", stopped: a number became too large".into(),
    }
}

/// Before and after, number by number; +0 and -0 are equal.
pub fn compared(report: &Report, job: &Job, parts: &Parts, before: &Solved, after: &Solved) -> Result<String, Stop> {
    report.say(format!("a load of {:?} added at every node of row {}:", job.add, job.row))?;
    let (mut all, mut moved, mut untold) = (0, 0, 0);
    let mut unsolved = Vec::new();
    for s in 0..parts.count() {
        let part = parts.unknowns(s);
        let differ = part.iter().filter(|&&i| before.x[i] != after.x[i]).count();
        if s != job.row {
            all += part.len();
            moved += differ;
        }
        let worst = if before.ended[s] == Ended::Reached { after } else { before };
        let how = ended(worst.ended[s], worst.residual[s]);
        if !how.is_empty() {
            unsolved.push(format!("row {s}{how}"));
        }
        if s < SHOWN || s == job.row || differ > 0 && moved == differ {
            let largest = |x: &[f64]| part.iter().map(|&i| x[i].abs()).fold(0.0, f64::max);
            report.say(format!(
                "  row {s}: {} compared, {differ} differ; largest {:.9e} before, {:.9e} after; {} and {} iterations; residual {:.1e} and {:.1e}{how}",
                counted(part.len(), "figure"), largest(&before.x), largest(&after.x), before.iterations[s], after.iterations[s],
                before.residual[s], after.residual[s]
            ))?;
        } else {
            untold += 1;
        }
    }
    if untold > 0 {
        report.say(format!("  and {} more", counted(untold, "row")))?;
    }
    if parts.count() == 1 {
        report.say("there is no other row to compare".into())?;
    } else {
        report.say(format!("figures of the other rows: {all} compared, {moved} differ"))?;
    }
    if moved > 0 && job.options.aggregation == Aggregation::Contiguous {
        report.say("under contiguous grouping a group may span two rows: graph keeps them apart".into())?;
    }
    let mut wrong = Vec::new();
    if !unsolved.is_empty() {
        let rest = if unsolved.len() > SHOWN { format!("; and {} more", unsolved.len() - SHOWN) } else { String::new() };
        let few = unsolved.iter().take(SHOWN).map(String::as_str).collect::<Vec<_>>().join("; ");
        wrong.push(format!("{} of {} not solved: {few}{rest}", unsolved.len(), counted(parts.count(), "row")));
        if (0..parts.count()).any(|s| [before.ended[s], after.ended[s]].contains(&Ended::Stalled)) {
            wrong.push("where rounding lets a residual fall no further, only a larger --tolerance can be reached".into());
        }
    }
    if moved > 0 && job.options.aggregation != Aggregation::Contiguous {
        wrong.push("figures of other rows moved, which is proved not to happen while all numbers are finite: are they?".into());
    }
    Ok(wrong.join("\n"))
}

/// How long each step took.
pub fn times(report: &Report, read: Duration, setup: Duration, solves: [Duration; 2]) -> Result<(), Stop> {
    let s = |d: Duration| if d.as_millis() < 100 { format!("{:.2} ms", 1e3 * d.as_secs_f64()) } else { format!("{:.2} s", d.as_secs_f64()) };
    report.say(format!("times: reading and checking {}, setup {}, solving {} and {}", s(read), s(setup), s(solves[0]), s(solves[1])))
}

/// Every figure: unknown, row, before, after.
pub fn figures(f: &mut dyn Write, parts: &Parts, before: &[f64], after: &[f64]) -> io::Result<()> {
    writeln!(f, "unknown row before after")?;
    (0..before.len()).try_for_each(|i| writeln!(f, "{i} {} {:e} {:e}", parts.of_unknown(i), before[i], after[i]))
}

/// Every node: its row and its group.
pub fn groups(f: &mut dyn Write, setup: &Setup, parts: &Parts) -> io::Result<()> {
    writeln!(f, "node row group")?;
    setup.group_of_node().iter().enumerate().try_for_each(|(v, g)| writeln!(f, "{v} {} {g}", parts.of_unknown(v * setup.block_size())))
}
