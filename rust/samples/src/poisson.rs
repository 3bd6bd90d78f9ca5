//! Poisson's equation on squares by five-point differences, zero outside.
use crate::Lower;

pub fn matrix(side: usize, rows: usize) -> Lower {
    let mut out = Lower::new(side * side * rows, format!("poisson --side {side} --rows {rows}: five-point differences"));
    for i in 0..side * side * rows {
        out.add(i, i, 4.0);
        if i % side > 0 {
            out.add(i, i - 1, -1.0);
        }
        if i % (side * side) >= side {
            out.add(i, i - side, -1.0);
        }
    }
    out
}
