//! Iterations and seconds without a preconditioner, with simple ones, and with each grouping and basis.
use crate::clock::worked;
use crate::csr::Csr;
use crate::job::{AGGREGATIONS, BASES, Job};
use crate::progress::Progress;
use crate::report::{Report, Stop, counted};
use yelomawin::{Aggregation, BlockJacobi, Ended, Matrix, Options, Parts, Refusal, Setup, solve_telling};

/// How a residual is corrected.
type Corrects = Box<dyn FnMut(&[f64], &mut [f64]) -> Result<(), Refusal>>;

fn jacobi(a: &Matrix) -> Result<Corrects, Refusal> {
    let diagonal = a.diagonal()?;
    Ok(Box::new(move |r, z| {
        z.iter_mut().zip(r).zip(&diagonal).for_each(|((z, r), d)| *z = r / d);
        Ok(())
    }))
}

fn none(_: &Matrix) -> Result<Corrects, Refusal> {
    Ok(Box::new(|r, z| {
        z.copy_from_slice(r);
        Ok(())
    }))
}

/// Prints a line for each; a row is solved as in the main job.
pub fn compared(job: &Job, a: &Csr, parts: &Parts, load: &[f64], progress: &Progress, report: &Report) -> Result<(), Stop> {
    let o = job.options;
    report.say(format!(
        "compared, for the loads without the new one, groups of {}, until no residual of a row is above {:e} of its largest load:",
        counted(o.group_size, "node"), job.goal.tolerance
    ))?;
    report.say(format!("  {:<36} {:>10} {:>10} {:>12} {:>10}", "preconditioner", "setup, s", "solve, s", "iterations", "residual"))?;
    let whole = Parts::whole(a.rows);
    let line = |name: &str, parts: &Parts, build: &dyn Fn(&Matrix) -> Result<Corrects, Refusal>| -> Result<(), Stop> {
        progress.stage(&format!("comparing: {name}"));
        let start = worked();
        let mut corrects = match build(&a.matrix()) {
            Ok(c) => c,
            Err(r) => return report.say(format!("  {name:<36} refused: cause {}", r.number())),
        };
        let setup = worked() - start;
        let tell = |k, open| progress.at(|| format!("comparing: {name}, iteration {k}, {open} of {} not solved yet", counted(parts.count(), "row")));
        let solved = solve_telling(&a.matrix(), parts, &mut corrects, load, &job.goal, tell).map_err(|r| Stop::Said(r.to_string()))?;
        let solve = worked() - start - setup;
        let most = solved.iterations.iter().max().unwrap_or(&0);
        let residual = solved.residual.iter().fold(0.0f64, |m, &r| if r > m || r.is_nan() { r } else { m });
        let open = solved.ended.iter().filter(|&&e| e != Ended::Reached).count();
        let note = if open > 0 { format!("  {open} of {} not solved", counted(parts.count(), "row")) } else { String::new() };
        report.say(format!("  {name:<36} {:>10.4} {:>10.4} {most:>12} {residual:>10.1e}{note}", setup.as_secs_f64(), solve.as_secs_f64()))
    };
    line("none", parts, &none)?;
    line("Jacobi", parts, &jacobi)?;
    line(&format!("block Jacobi, blocks of {}", o.block_size), parts, &|a| {
        let blocks = BlockJacobi::build(a, o.block_size)?;
        Ok(Box::new(move |r, z| blocks.apply(r, z)))
    })?;
    for (aggregation_name, aggregation) in AGGREGATIONS {
        // Groups that span rows want one step length for all rows.
        let mixes = aggregation == Aggregation::Contiguous && parts.count() > 1;
        for (basis_name, basis) in BASES {
            let name = format!("{aggregation_name}, {basis_name}{}", if mixes { " *" } else { "" });
            line(&name, if mixes { &whole } else { parts }, &|a| {
                let mut setup = Setup::build(a, &Options { aggregation, basis, ..o })?;
                Ok(Box::new(move |r, z| setup.apply(r, z)))
            })?;
        }
    }
    progress.stage("");
    let of_rows = "; iterations of the row that takes most; * its groups may span two rows, so that the step length is one for all";
    report.say(format!("seconds of processor time{}", if parts.count() > 1 { of_rows } else { "" }))
}
