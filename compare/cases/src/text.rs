//! A case and its answer as text: one line a list, floats by their 16 hexadecimal digits, every NaN as 7FF8000000000000.
use crate::answers::Answer;
use crate::{Case, Csr};
use std::fmt::Write;

fn ints<T: std::fmt::Display>(out: &mut String, name: &str, xs: impl IntoIterator<Item = T>) {
    write!(out, "{name}").unwrap();
    for x in xs {
        write!(out, " {x}").unwrap();
    }
    out.push('\n');
}

fn floats(out: &mut String, name: &str, xs: &[f64]) {
    write!(out, "{name}").unwrap();
    for &x in xs {
        write!(out, " {:016X}", lent::pattern(x.to_bits())).unwrap();
    }
    out.push('\n');
}

fn matrix(out: &mut String, a: &Csr) {
    ints(out, "matrix", [a.rows, a.cols]);
    ints(out, "row_ptr", &a.row_ptr);
    ints(out, "col_idx", &a.col_idx);
    floats(out, "values", &a.values);
}

pub fn write(name: &str, case: &Case, answer: &Answer) -> String {
    let mut out = String::new();
    let o = &mut out;
    let kind = match case {
        Case::Root { .. } => "root",
        Case::Validate { .. } => "validate",
        Case::Diagonal { .. } => "diagonal",
        Case::Blocks { .. } => "blocks",
        Case::Group { .. } => "group",
        Case::Estimate { .. } => "estimate",
        Case::TwoLevel { .. } => "two_level",
    };
    writeln!(o, "case {kind} {name}").unwrap();
    match case {
        Case::Root { bits } => writeln!(o, "argument {bits:016X}").unwrap(),
        Case::Validate { a } | Case::Diagonal { a } => matrix(o, a),
        Case::Blocks { a, block, residual } => {
            matrix(o, a);
            ints(o, "block", [*block]);
            floats(o, "residual", residual);
        }
        Case::Group { lists, size } => {
            ints(o, "size", [*size]);
            let (offsets, neighbours) = lent::flat(lists);
            ints(o, "offsets", offsets);
            ints(o, "neighbours", neighbours);
        }
        Case::Estimate { a, diagonal } => {
            matrix(o, a);
            floats(o, "diagonal", diagonal);
        }
        Case::TwoLevel { a, options, residuals } => {
            matrix(o, a);
            let p = options;
            ints(o, "options", [p.block, p.group, p.aggregation as usize, p.basis as usize, p.policy as usize]);
            for r in residuals {
                floats(o, "residual", r);
            }
        }
    }
    match answer {
        Answer::Refused(r) => {
            ints(o, "refused", std::iter::once(r.number as u64).chain(r.values.iter().copied()));
        }
        Answer::Accepted => writeln!(o, "accepted").unwrap(),
        Answer::Floats(xs) => floats(o, "result", xs),
        Answer::Blocks(factors, z) => {
            floats(o, "factors", factors);
            floats(o, "corrected", z);
        }
        Answer::Groups(count, ids) => {
            ints(o, "groups", [*count]);
            ints(o, "ids", ids);
        }
        Answer::Estimate { rho, damping } => floats(o, "estimate", &[*rho, *damping]),
        Answer::TwoLevel(k, corrected) => {
            ints(o, "groups", [k.groups]);
            ints(o, "coarse", [k.coarse]);
            ints(o, "ids", &k.ids);
            ints(o, "transfer_ptr", &k.transfer_ptr);
            ints(o, "transfer_idx", &k.transfer_idx);
            floats(o, "factors", &k.factors);
            floats(o, "weights", &k.weights);
            floats(o, "coarse_part", &k.coarse_part);
            floats(o, "damping", &[k.damping]);
            for z in corrected {
                floats(o, "corrected", z);
            }
        }
    }
    out.push_str("end\n");
    out
}
