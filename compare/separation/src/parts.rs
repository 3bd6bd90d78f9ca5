//! The unconnected parts of a matrix, by its stored entries alone.
use cases::Csr;

/// For each node the lowest node that it is linked with, over any others and whatever the entries' values.
pub fn parts(a: &Csr, block: usize) -> Vec<usize> {
    let nodes = a.rows / block;
    let mut part: Vec<usize> = (0..nodes).collect();
    let entries = || (0..a.rows).flat_map(|i| a.col_idx[a.row_ptr[i] as usize..a.row_ptr[i + 1] as usize].iter().map(move |&j| (i / block, j as usize / block)));
    // As many rounds as a chain of nodes may need.
    loop {
        let mut changed = false;
        for (u, v) in entries() {
            let low = part[u].min(part[v]);
            changed |= part[u] != low || part[v] != low;
            (part[u], part[v]) = (low, low);
        }
        if !changed {
            return part;
        }
    }
}

/// Whether two residuals agree on the part of each row: equal numbers on all of its rows, zeros of either sign.
pub fn agreeing(part: &[usize], block: usize, x: &[f64], y: &[f64]) -> Vec<bool> {
    let mut agrees = vec![true; part.len()];
    for i in 0..x.len() {
        agrees[part[i / block]] &= x[i] == y[i];
    }
    (0..x.len()).map(|i| agrees[part[i / block]]).collect()
}

#[cfg(test)]
mod tests {
    use super::*;

    #[test]
    fn parts_by_stored_entries() {
        // Blocks of two: node 3 lists node 1 by a stored zero, node 0 lists node 2, node 4 stands alone.
        let rows = vec![vec![(4, 1.0)], vec![], vec![], vec![], vec![], vec![], vec![], vec![(2, 0.0)], vec![(8, 1.0)], vec![]];
        let part = parts(&Csr::from_rows(10, &rows), 2);
        assert_eq!(part, [0, 1, 0, 1, 4]);
        let (x, mut y) = (vec![0.0; 10], vec![-0.0; 10]);
        y[7] = 1.0;
        assert_eq!(agreeing(&part, 2, &x, &y), [true, true, false, false, true, true, false, false, true, true]);
    }
}
