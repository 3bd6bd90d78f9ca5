//! Free-standing rows of pallet racking.
use crate::Lower;
use crate::beam::{Section, stiffness};

/// Width of a bay, depth of a row, height of a level: mm.
const WIDTH: f64 = 2700.0;
const DEPTH: f64 = 1100.0;
const HEIGHT: f64 = 1500.0;

const UPRIGHT: Section = Section { area: 600.0, strong: 9e5, weak: 6e5, torsion: 1.6e3 };
const BEAM: Section = Section { area: 450.0, strong: 7e5, weak: 2e5, torsion: 4e5 };
const BRACE: Section = Section { area: 150.0, strong: 5e4, weak: 5e4, torsion: 3e2 };

const ALONG: [f64; 3] = [1.0, 0.0, 0.0];
const UP: [f64; 3] = [0.0, 0.0, 1.0];

/// Upright frame, level (0 is the floor), front or back.
type Place = (usize, usize, usize);

/// Every member of a row: its section, its ends, and a direction in the plane of its strong bending.
fn members(bays: usize, levels: usize, loose: bool) -> Vec<(&'static Section, Place, Place, [f64; 3])> {
    let mut all = Vec::new();
    for f in 0..=bays {
        for l in 1..=levels {
            if l > 1 || !loose {
                all.extend((0..2).map(|s| (&UPRIGHT, (f, l - 1, s), (f, l, s), ALONG)));
                // A diagonal of the frame, leaning to and fro.
                all.push((&BRACE, (f, l - 1, l % 2), (f, l, 1 - l % 2), ALONG));
            }
            all.push((&BRACE, (f, l, 0), (f, l, 1), ALONG));
            if f < bays {
                all.extend((0..2).map(|s| (&BEAM, (f, l, s), (f + 1, l, s), UP)));
            }
        }
    }
    all
}

pub fn matrix(rows: usize, bays: usize, levels: usize, loose: Option<usize>) -> Lower {
    let nodes = 2 * (bays + 1) * levels;
    let about = match loose {
        Some(s) => format!("racking --rows {rows} --bays {bays} --levels {levels} --loose {s}: beam elements, 6 unknowns a node, N and mm"),
        None => format!("racking --rows {rows} --bays {bays} --levels {levels}: beam elements, 6 unknowns a node, N and mm"),
    };
    let mut out = Lower::new(6 * nodes * rows, about);
    let at = |(f, l, s): Place| [f as f64 * WIDTH, s as f64 * DEPTH, l as f64 * HEIGHT];
    for row in 0..rows {
        let node = |(f, l, s): Place| l.checked_sub(1).map(|l| row * nodes + (f * levels + l) * 2 + s);
        for (section, p, q, side) in members(bays, levels, loose == Some(row)) {
            let k = stiffness(section, at(p), at(q), side);
            for (u, i) in [(p, 0), (q, 6)] {
                for (v, j) in [(p, 0), (q, 6)] {
                    let (Some(u), Some(v)) = (node(u), node(v)) else { continue };
                    (0..36).for_each(|d| out.add(6 * u + d / 6, 6 * v + d % 6, k[i + d / 6][j + d % 6]));
                }
            }
        }
    }
    out
}
