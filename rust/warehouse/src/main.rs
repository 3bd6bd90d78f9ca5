//! A warehouse of free-standing rows: its setup in figures, and what a new load on one row does to the others.
mod clock;
mod compare;
mod csr;
mod job;
mod market;
mod outputs;
mod pattern;
mod progress;
mod refused;
mod report;

use job::{Asked, HELP, Job};
use market::File;
use outputs::{Outputs, is_stdout};
use progress::Progress;
use report::{Report, Stop, counted};
use std::time::Instant;
use yelomawin::{Parts, Setup, solve_telling};

const SAMPLE: &[u8] = include_bytes!("../sample/three-rows.mtx");

fn run() -> Result<(), Stop> {
    let job = match Job::read(std::env::args_os().skip(1))? {
        Asked::Help => return Report { on_stderr: false }.say(HELP.trim_end().into()),
        Asked::Version => return Report { on_stderr: false }.say(format!("warehouse {}", env!("CARGO_PKG_VERSION"))),
        Asked::Job(job) => job,
    };
    let report = Report { on_stderr: [&job.groups, &job.figures].into_iter().flatten().any(|f| is_stdout(f)) };
    let outputs = Outputs::open(&job)?;
    let start = Instant::now();
    let progress = Progress::every_second();
    let name = match job.file.as_deref() {
        Some("-") => "standard input",
        Some(f) => f,
        None => "the sample (three-rows.mtx)",
    };
    progress.stage(&format!("reading {name}"));
    let file = match &job.file {
        Some(f) => File::read(f)?,
        None => File::of(name, SAMPLE.to_vec()),
    };
    let a = file.matrix(&progress)?;
    drop(file);
    // What needs no setup is checked before it.
    let b = job.options.block_size;
    refused::blocks(b, a.rows).map_err(|r| refused::explained(name, r, &job))?;
    progress.stage("checking that the matrix is symmetric");
    if let Some(where_) = a.asymmetry() {
        return Err(format!("{name}: conjugate gradients need a symmetric matrix, and {where_} (rows and columns from 1)").into());
    }
    progress.stage("finding the free-standing rows");
    let parts = Parts::of(&a.matrix(), b).map_err(|r| refused::explained(name, r, &job))?;
    let load = match &job.loads {
        Some(f) => File::read(f)?.vector(a.rows)?,
        None => job.own_weight(a.rows),
    };
    let more = job.with_new_load(&load, &parts)?;
    if let Some(doubt) = pattern::doubt(&a, b) {
        eprintln!("warning: {doubt}");
    }
    progress.stage("building the setup");
    let read = start.elapsed();
    let built = Setup::build(&a.matrix(), &job.options);
    let setup_time = start.elapsed() - read;
    progress.stage("");
    let mut setup = built.map_err(|r| refused::setup(name, r, &job, &a, &parts, &progress))?;
    report::asked(&report, name, &job, a.rows, a.values.len(), &parts)?;
    report::setup(&report, &setup, &parts)?;
    if let Some(f) = outputs.groups {
        f.written(|f| report::groups(f, &setup, &parts))?;
    }
    let mut solved = |what: &str, load: &[f64]| {
        progress.stage(what);
        let start = Instant::now();
        let tell = |k, open| progress.at(|| format!("iteration {k}, {open} of {} not solved yet", counted(parts.count(), "row")));
        let solved = solve_telling(&a.matrix(), &parts, |r, z| setup.apply(r, z), load, &job.goal, tell);
        solved.map(|s| (s, start.elapsed())).map_err(|r| refused::explained(name, r, &job))
    };
    let (before, first) = solved("solving for the loads", &load)?;
    let (after, second) = solved("solving with the new load", &more)?;
    progress.stage("");
    if let Some(f) = outputs.figures {
        f.written(|f| report::figures(f, &parts, &before.x, &after.x))?;
    }
    let wrong = report::compared(&report, &job, &parts, &before, &after)?;
    report::times(&report, read, setup_time, [first, second])?;
    if job.compare {
        compare::compared(&job, &a, &parts, &load, &progress, &report)?;
    }
    if wrong.is_empty() { Ok(()) } else { Err(wrong.into()) }
}

fn main() {
    if let Err(Stop::Said(e)) = run() {
        eprintln!("{e}");
        std::process::exit(1);
    }
}
