//! What is asked for on the command line.
use std::ffi::OsString;
use yelomawin::{Aggregation, Basis, CoarsePolicy, Goal, Options, Parts};

pub const HELP: &str = include_str!("../help.txt");

/// The names of the groupings and of the bases on the command line and in tables.
pub const AGGREGATIONS: [(&str, Aggregation); 3] =
    [("graph", Aggregation::Graph), ("strong-graph", Aggregation::StrongGraph), ("contiguous", Aggregation::Contiguous)];
pub const BASES: [(&str, Basis); 2] = [("piecewise-constant", Basis::PiecewiseConstant), ("jacobi-smoothed", Basis::JacobiSmoothed)];

pub enum Asked {
    Help,
    Version,
    Job(Box<Job>),
}

pub struct Job {
    /// The sample, if none is named.
    pub file: Option<String>,
    pub options: Options,
    pub loads: Option<String>,
    pub groups: Option<String>,
    pub figures: Option<String>,
    pub row: usize,
    pub add: f64,
    unknown: Option<usize>,
    pub goal: Goal,
    pub compare: bool,
}

fn read<T: std::str::FromStr>(option: &str, what: &str, s: &str, taken: impl Fn(&T) -> bool) -> Result<T, String> {
    s.parse().ok().filter(taken).ok_or_else(|| format!("{option}: expected {what}, found '{s}'"))
}

fn count(option: &str, s: &str) -> Result<usize, String> {
    read(option, "a count from 1", s, |&n| n > 0)
}

fn from_0(option: &str, s: &str) -> Result<usize, String> {
    read(option, "a number from 0", s, |_| true)
}

fn named<T: Copy>(option: &str, names: &[(&str, T)], s: &str) -> Result<T, String> {
    let all: Vec<&str> = names.iter().map(|n| n.0).collect();
    names.iter().find(|n| n.0 == s).map(|n| n.1).ok_or_else(|| format!("{option}: expected {}, found '{s}'", all.join(" or ")))
}

impl Job {
    fn new() -> Job {
        Job {
            file: None,
            options: Options {
                block_size: 3,
                group_size: 8,
                aggregation: Aggregation::Graph,
                basis: Basis::PiecewiseConstant,
                coarse_policy: CoarsePolicy::Auto,
            },
            loads: None,
            groups: None,
            figures: None,
            row: 0,
            add: -5.0,
            unknown: None,
            goal: Goal { tolerance: 1e-9, most: 20_000 },
            compare: false,
        }
    }

    /// From the arguments of the program.
    pub fn read(args: impl Iterator<Item = OsString>) -> Result<Asked, String> {
        let mut job = Job::new();
        let args: Result<Vec<String>, OsString> = args.map(OsString::into_string).collect();
        let mut args = args.map_err(|a| format!("expected an argument in Unicode, found {a:?}"))?.into_iter();
        while let Some(a) = args.next() {
            match a.as_str() {
                "--help" | "-h" => return Ok(Asked::Help),
                "--version" => return Ok(Asked::Version),
                "--compare" => job.compare = true,
                _ if a.starts_with('-') && a != "-" => {
                    let (option, value) = match a.split_once('=') {
                        Some((option, value)) => (option, Some(value.to_string())),
                        None => (a.as_str(), None),
                    };
                    let value = value.or_else(|| args.next());
                    job.take(option, value.ok_or_else(|| format!("{a}: expected a value after it, or no such option\n{HELP}"))?)?;
                }
                _ => {
                    if let Some(first) = job.file.replace(a.clone()) {
                        return Err(format!("expected one file, found '{first}' and '{a}'"));
                    }
                }
            }
        }
        let last = job.options.block_size - 1;
        if let Some(k) = job.unknown.filter(|&k| k > last) {
            return Err(format!("--unknown: expected 0 to {last}, found {k}"));
        }
        if job.file.as_deref() == Some("-") && job.loads.as_deref() == Some("-") {
            return Err("--loads: standard input is read for the matrix already".into());
        }
        Ok(Asked::Job(Box::new(job)))
    }

    fn take(&mut self, option: &str, s: String) -> Result<(), String> {
        use CoarsePolicy::*;
        let o = &mut self.options;
        match option {
            "--block" => o.block_size = count(option, &s)?,
            "--group" => o.group_size = count(option, &s)?,
            "--aggregation" => o.aggregation = named(option, &AGGREGATIONS, &s)?,
            "--basis" => o.basis = named(option, &BASES, &s)?,
            "--coarse" => o.coarse_policy = named(option, &[("auto", Auto), ("factor", FactorSolve), ("inverse", ExplicitInverse)], &s)?,
            "--loads" => self.loads = Some(s),
            "--groups" => self.groups = Some(s),
            "--figures" => self.figures = Some(s),
            "--row" => self.row = from_0(option, &s)?,
            "--add" => self.add = read(option, "a finite number", &s, |x: &f64| x.is_finite())?,
            "--unknown" => self.unknown = Some(from_0(option, &s)?),
            "--tolerance" => self.goal.tolerance = read(option, "a number from 1e-16 to below 1", &s, |t| (1e-16..1.0).contains(t))?,
            "--most" => self.goal.most = count(option, &s)?,
            "--compare" | "--help" | "--version" => return Err(format!("{option}: expected no value, found '{s}'")),
            _ => return Err(format!("no option '{option}'\n{HELP}")),
        }
        Ok(())
    }

    /// The unknown of a node that own loads act on.
    pub fn unknown(&self) -> usize {
        self.unknown.unwrap_or(if self.options.block_size > 1 { 1 } else { 0 })
    }

    fn loaded(&self, i: usize) -> bool {
        i % self.options.block_size == self.unknown()
    }

    /// -1 at every node.
    pub fn own_weight(&self, rows: usize) -> Vec<f64> {
        (0..rows).map(|i| if self.loaded(i) { -1.0 } else { 0.0 }).collect()
    }

    /// The loads with the new one on its row.
    pub fn with_new_load(&self, load: &[f64], parts: &Parts) -> Result<Vec<f64>, String> {
        if self.row >= parts.count() {
            return Err(match parts.count() {
                1 => format!("--row: expected 0, for one row stands free; found {}", self.row),
                n => format!("--row: expected 0 to {}, found {}", n - 1, self.row),
            });
        }
        let row = parts.unknowns(self.row);
        let mut more = load.to_vec();
        row.iter().filter(|&&i| self.loaded(i)).for_each(|&i| more[i] += self.add);
        match row.iter().find(|&&i| !more[i].is_finite()) {
            Some(i) => Err(format!("--add: {:?} and the load {:?} of unknown {i} add up to no finite number", self.add, load[*i])),
            None => Ok(more),
        }
    }
}
