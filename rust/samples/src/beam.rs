//! A straight beam in space between two nodes, six unknowns each: Euler and Bernoulli's, with axial force and torsion.

/// Area, the second moments about the two axes of the section, and the torsion constant. mm.
pub struct Section {
    pub area: f64,
    /// Of bending in the plane of the beam and the second axis.
    pub strong: f64,
    /// Of bending across it.
    pub weak: f64,
    pub torsion: f64,
}

/// Steel, N/mm².
const E: f64 = 210_000.0;
const G: f64 = 81_000.0;

type Vector = [f64; 3];

fn cross(a: Vector, b: Vector) -> Vector {
    [a[1] * b[2] - a[2] * b[1], a[2] * b[0] - a[0] * b[2], a[0] * b[1] - a[1] * b[0]]
}

fn unit(a: Vector) -> (Vector, f64) {
    let length = (a[0] * a[0] + a[1] * a[1] + a[2] * a[2]).sqrt();
    (a.map(|x| x / length), length)
}

/// One unknown of both nodes with itself, and with that of the other node.
fn pair(k: &mut [[f64; 12]; 12], u: usize, at: f64, between: f64) {
    for (i, j, s) in [(u, u, at), (u + 6, u + 6, at), (u, u + 6, between), (u + 6, u, between)] {
        k[i][j] += s;
    }
}

/// The stiffness of a beam from p to q; `side` gives the plane of its strong bending with the beam's own direction.
pub fn stiffness(section: &Section, p: Vector, q: Vector, side: Vector) -> [[f64; 12]; 12] {
    let (x, length) = unit([q[0] - p[0], q[1] - p[1], q[2] - p[2]]);
    let (z, _) = unit(cross(x, side));
    let axes = [x, cross(z, x), z];
    let (stretch, twist) = (E * section.area / length, G * section.torsion / length);
    let mut k = [[0.0; 12]; 12];
    // Places in a node: displacement along x, y, z of the beam, then rotation about them.
    pair(&mut k, 0, stretch, -stretch);
    pair(&mut k, 3, twist, -twist);
    // Bending in the plane of y, with rotation about z; and of z, with rotation about y, where the signs turn.
    for (shift, turn, moment, sign) in [(1, 5, section.strong, 1.0), (2, 4, section.weak, -1.0)] {
        let b = E * moment / length.powi(3);
        pair(&mut k, shift, 12.0 * b, -12.0 * b);
        pair(&mut k, turn, 4.0 * b * length * length, 2.0 * b * length * length);
        let lever = sign * 6.0 * b * length;
        for (i, j, s) in [(shift, turn, lever), (shift, turn + 6, lever), (shift + 6, turn, -lever), (shift + 6, turn + 6, -lever)] {
            k[i][j] += s;
            k[j][i] += s;
        }
    }
    // From the beam's axes to those of space, three by three.
    let mut out = [[0.0; 12]; 12];
    for i in 0..12 {
        for j in 0..12 {
            let (bi, bj) = (i / 3 * 3, j / 3 * 3);
            for m in 0..3 {
                for l in 0..3 {
                    out[i][j] += axes[m][i % 3] * k[bi + m][bj + l] * axes[l][j % 3];
                }
            }
        }
    }
    out
}

#[cfg(test)]
mod tests {
    use super::*;

    #[test]
    fn a_beam_resists_no_motion_of_the_whole() {
        let section = Section { area: 600.0, strong: 9e5, weak: 6e5, torsion: 1600.0 };
        for (p, q, side) in [
            ([0.0; 3], [2700.0, 0.0, 0.0], [0.0, 0.0, 1.0]),
            ([0.0; 3], [0.0, 0.0, 1500.0], [1.0, 0.0, 0.0]),
            ([10.0, 20.0, 30.0], [10.0, 1120.0, 1530.0], [1.0, 0.0, 0.0]),
        ] {
            let k = stiffness(&section, p, q, side);
            let size = k.iter().flatten().fold(0.0f64, |m, x| m.max(x.abs()));
            for axis in 0..3 {
                let mut along = [0.0; 12];
                (along[axis], along[6 + axis]) = (1.0, 1.0);
                // A turn about the axis through p: q moves by the axis cross (q - p).
                let mut turned = [0.0; 12];
                let mut e = [0.0; 3];
                e[axis] = 1.0;
                let moved = cross(e, [q[0] - p[0], q[1] - p[1], q[2] - p[2]]);
                (0..3).for_each(|d| turned[6 + d] = moved[d]);
                (turned[3 + axis], turned[9 + axis]) = (1.0, 1.0);
                for motion in [along, turned] {
                    for row in &k {
                        let force: f64 = row.iter().zip(motion).map(|(a, b)| a * b).sum();
                        assert!(force.abs() < 1e-9 * size, "{axis} {force} {size}");
                    }
                }
            }
            for i in 0..12 {
                for j in 0..12 {
                    assert!((k[i][j] - k[j][i]).abs() <= 1e-12 * size, "{i} {j}");
                }
            }
        }
    }

    #[test]
    fn a_cantilever_bends_as_the_book_says() {
        // A load of 1 at the end: the deflection is l³/3EI, the rotation l²/2EI.
        let section = Section { area: 1.0, strong: 2.0, weak: 3.0, torsion: 1.0 };
        let (l, k) = (10.0, stiffness(&section, [0.0; 3], [10.0, 0.0, 0.0], [0.0, 1.0, 0.0]));
        let (d, r) = (l * l * l / (3.0 * E * 2.0), l * l / (2.0 * E * 2.0));
        assert!((k[7][7] * d + k[7][11] * r - 1.0).abs() < 1e-9 && (k[11][7] * d + k[11][11] * r).abs() < 1e-9);
    }
}
