//! Matrices to try the preconditioner on.
mod beam;
mod poisson;
mod racking;

use std::io::Write;

const HELP: &str = include_str!("../help.txt");

/// The largest number of unknowns that the library takes.
const MOST: usize = 1 << 20;

/// The lower half of a symmetric matrix; entries of one place add.
pub struct Lower {
    rows: usize,
    about: String,
    entries: Vec<(u32, u32, f64)>,
}

impl Lower {
    fn new(rows: usize, about: String) -> Lower {
        Lower { rows, about, entries: Vec::new() }
    }

    /// Adds at (i, j); what lies above the diagonal is the mirror image's.
    fn add(&mut self, i: usize, j: usize, x: f64) {
        if i >= j && x != 0.0 {
            self.entries.push((i as u32, j as u32, x));
        }
    }

    /// The entries by rows, each place once, zeros left out.
    fn summed(mut self) -> Vec<(u32, u32, f64)> {
        self.entries.sort_by_key(|e| (e.0, e.1));
        self.entries.dedup_by(|next, sum| {
            let same = (next.0, next.1) == (sum.0, sum.1);
            if same {
                sum.2 += next.2;
            }
            same
        });
        self.entries.retain(|e| e.2 != 0.0);
        self.entries
    }

    fn write(self, out: &mut impl Write) -> std::io::Result<()> {
        let (rows, about) = (self.rows, self.about.clone());
        let entries = self.summed();
        writeln!(out, "%%MatrixMarket matrix coordinate real symmetric\n% {about}\n{rows} {rows} {}", entries.len())?;
        entries.iter().try_for_each(|(i, j, x)| writeln!(out, "{} {} {x:e}", i + 1, j + 1))
    }
}

/// The options that a sample knows, by name, with their values.
fn options(args: &[String], known: &[&str]) -> Result<Vec<Option<usize>>, String> {
    let mut values = vec![None; known.len()];
    let mut args = args.iter();
    while let Some(a) = args.next() {
        let (name, value) = match a.split_once('=') {
            Some((name, value)) => (name, Some(value.to_string())),
            None => (a.as_str(), None),
        };
        let k = known.iter().position(|n| *n == name).ok_or_else(|| format!("no option '{name}' of this sample\n{HELP}"))?;
        let value = value.or_else(|| args.next().cloned()).ok_or_else(|| format!("{name}: expected a value after it"))?;
        let least = usize::from(name != "--loose");
        let number = value.parse().ok().filter(|&n: &usize| (least..=MOST).contains(&n));
        values[k] = Some(number.ok_or_else(|| format!("{name}: expected a number from {least} to {MOST}, found '{value}'"))?);
    }
    Ok(values)
}

/// The matrix that the arguments ask for; none where help is asked for.
fn asked(args: &[String]) -> Result<Option<Lower>, String> {
    if args.iter().any(|a| a == "--help" || a == "-h") {
        return Ok(None);
    }
    let fits = |unknowns: Option<usize>| match unknowns {
        Some(n) if n <= MOST => Ok(()),
        _ => Err(format!("more than {MOST} unknowns, and the library takes no more")),
    };
    match args.first().map(String::as_str) {
        Some("racking") => {
            let v = options(&args[1..], &["--rows", "--bays", "--levels", "--loose"])?;
            let (rows, bays, levels) = (v[0].unwrap_or(3), v[1].unwrap_or(6), v[2].unwrap_or(4));
            fits((12 * (bays + 1)).checked_mul(levels).and_then(|n| n.checked_mul(rows)))?;
            match v[3] {
                Some(s) if s >= rows => Err(format!("--loose: expected 0 to {}, found {s}", rows - 1)),
                loose => Ok(Some(racking::matrix(rows, bays, levels, loose))),
            }
        }
        Some("poisson") => {
            let v = options(&args[1..], &["--side", "--rows"])?;
            let (side, rows) = (v[0].unwrap_or(50), v[1].unwrap_or(1));
            fits(side.checked_mul(side).and_then(|n| n.checked_mul(rows)))?;
            Ok(Some(poisson::matrix(side, rows)))
        }
        Some(other) => Err(format!("no sample '{other}': expected racking or poisson\n{HELP}")),
        None => Err(format!("expected racking or poisson\n{HELP}")),
    }
}

fn main() {
    let args: Vec<String> = std::env::args_os().skip(1).map(|a| a.to_string_lossy().into_owned()).collect();
    let mut out = std::io::BufWriter::new(std::io::stdout());
    let written = match asked(&args) {
        Ok(Some(matrix)) => matrix.write(&mut out).and_then(|()| out.flush()),
        Ok(None) => out.write_all(HELP.as_bytes()).and_then(|()| out.flush()),
        Err(said) => {
            eprintln!("{}", said.trim_end());
            std::process::exit(1);
        }
    };
    if let Err(e) = written.or_else(|e| if e.kind() == std::io::ErrorKind::BrokenPipe { Ok(()) } else { Err(e) }) {
        eprintln!("standard output: {e}");
        std::process::exit(1);
    }
}

#[cfg(test)]
mod tests {
    use super::*;

    fn of(args: &str) -> Result<Lower, String> {
        asked(&args.split_whitespace().map(str::to_string).collect::<Vec<_>>()).map(Option::unwrap)
    }

    /// The largest force that moving every node alike along an unknown asks for, row by row.
    fn forces(a: Lower, unknown: usize) -> Vec<f64> {
        let mut force = vec![0.0; a.rows];
        for (i, j, x) in a.summed() {
            let (i, j) = (i as usize, j as usize);
            if j % 6 == unknown {
                force[i] += x;
            }
            if i != j && i % 6 == unknown {
                force[j] += x;
            }
        }
        force
    }

    #[test]
    fn sizes() {
        assert_eq!(of("racking --rows 10 --bays 20 --levels 5").unwrap().rows, 12_600);
        assert_eq!(of("racking --rows=2 --bays=1 --levels=1").unwrap().rows, 48);
        let p = of("poisson --side 3 --rows 2").unwrap();
        assert_eq!((p.rows, p.summed().len()), (18, 2 * (9 + 12)));
    }

    #[test]
    fn a_loose_row_moves_without_a_force_and_the_others_do_not() {
        for unknown in 0..3 {
            let force = forces(of("racking --rows 3 --bays 2 --levels 2 --loose 1").unwrap(), unknown);
            let largest = |row: usize| force[row * 72..(row + 1) * 72].iter().fold(0.0, |m: f64, f| m.max(f.abs()));
            assert!(largest(0) > 1.0 && largest(1) < 1e-6 && largest(2) > 1.0, "{unknown}: {} {} {}", largest(0), largest(1), largest(2));
        }
    }

    #[test]
    fn what_cannot_be_done_is_said() {
        for (args, message) in [
            ("", "expected racking or poisson\nusage:"),
            ("frame", "no sample 'frame': expected racking or poisson\nusage:"),
            ("racking --side 3", "no option '--side' of this sample"),
            ("racking --rows", "--rows: expected a value after it"),
            ("racking --rows 0", "--rows: expected a number from 1 to 1048576, found '0'"),
            ("racking --bays x", "--bays: expected a number from 1 to 1048576, found 'x'"),
            ("racking --rows 3 --loose 3", "--loose: expected 0 to 2, found 3"),
            ("racking --rows 1000000 --bays 1000000 --levels 1000000", "more than 1048576 unknowns"),
            ("poisson --side 1025", "more than 1048576 unknowns"),
        ] {
            assert!(of(args).err().unwrap().starts_with(message), "{args}");
        }
    }
}
