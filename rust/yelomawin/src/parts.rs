//! The parts of a matrix that nothing links, such as the free-standing rows of a warehouse.
use crate::{MOST_BLOCK, Matrix, Refusal};

/// The smallest sets of nodes that no stored entry, a stored zero neither, links with the rest; numbered by first appearance.
#[derive(Clone, Debug, PartialEq, Eq)]
pub struct Parts {
    block_size: usize,
    of_node: Vec<usize>,
    unknowns: Vec<Vec<usize>>,
}

impl Parts {
    /// Those of a matrix with so many unknowns a node.
    ///
    /// ```
    /// # use yelomawin::{Matrix, Parts};
    /// // Unknowns 0 and 2 are linked, 1 stands alone.
    /// let a = Matrix { rows: 3, cols: 3, row_ptr: &[0, 2, 3, 5], col_idx: &[0, 2, 1, 0, 2], values: &[4.0, -1.0, 4.0, -1.0, 4.0] };
    /// let parts = Parts::of(&a, 1)?;
    /// assert_eq!((parts.count(), parts.unknowns(0), parts.unknowns(1)), (2, &[0, 2][..], &[1][..]));
    /// # Ok::<(), yelomawin::Refusal>(())
    /// ```
    pub fn of(a: &Matrix, block_size: usize) -> Result<Parts, Refusal> {
        a.validate()?;
        if a.rows != a.cols {
            return Err(Refusal::NotSquare);
        }
        if !(1..=MOST_BLOCK).contains(&block_size) {
            return Err(Refusal::BlockSize);
        }
        if !a.rows.is_multiple_of(block_size) {
            return Err(Refusal::NotMultiple);
        }
        let nodes = a.rows / block_size;
        let mut parent: Vec<usize> = (0..nodes).collect();
        for i in 0..a.rows {
            for &j in &a.col_idx[a.row(i)] {
                let (u, v) = (top(&mut parent, i / block_size), top(&mut parent, j as usize / block_size));
                parent[u.max(v)] = u.min(v);
            }
        }
        let mut parts = Parts { block_size, of_node: vec![0; nodes], unknowns: Vec::new() };
        for v in 0..nodes {
            let t = top(&mut parent, v);
            if t == v {
                parts.of_node[v] = parts.unknowns.len();
                parts.unknowns.push(Vec::new());
            }
            // The lowest node of a part is its top, so its number is known.
            let s = parts.of_node[t];
            parts.of_node[v] = s;
            parts.unknowns[s].extend(v * block_size..(v + 1) * block_size);
        }
        Ok(parts)
    }

    /// Everything as one part: a solver then takes one step length for all.
    pub fn whole(rows: usize) -> Parts {
        Parts { block_size: 1, of_node: vec![0; rows], unknowns: vec![(0..rows).collect()] }
    }

    pub fn count(&self) -> usize {
        self.unknowns.len()
    }
    /// How many unknowns all parts have.
    pub fn rows(&self) -> usize {
        self.of_node.len() * self.block_size
    }
    /// The unknowns of a part, ascending.
    pub fn unknowns(&self, part: usize) -> &[usize] {
        &self.unknowns[part]
    }
    /// The nodes of a part, ascending.
    pub fn nodes(&self, part: usize) -> impl Iterator<Item = usize> {
        self.unknowns[part].iter().step_by(self.block_size).map(|i| i / self.block_size)
    }
    /// The part of an unknown.
    pub fn of_unknown(&self, i: usize) -> usize {
        self.of_node[i / self.block_size]
    }
}

fn top(parent: &mut [usize], mut v: usize) -> usize {
    while parent[v] != v {
        parent[v] = parent[parent[v]];
        v = parent[v];
    }
    v
}

#[cfg(test)]
mod tests {
    use super::*;

    #[test]
    fn a_single_entry_links_two_nodes() {
        // Three nodes of two unknowns; one entry, a stored zero, leads from the last node to the first.
        let a = Matrix { rows: 6, cols: 6, row_ptr: &[0, 0, 0, 0, 0, 1, 1], col_idx: &[1], values: &[0.0] };
        let parts = Parts::of(&a, 2).unwrap();
        assert_eq!((parts.unknowns(0), parts.unknowns(1)), (&[0, 1, 4, 5][..], &[2, 3][..]));
        assert_eq!(parts.nodes(0).collect::<Vec<_>>(), [0, 2]);
        assert_eq!((parts.count(), parts.rows(), parts.of_unknown(5), parts.of_unknown(3)), (2, 6, 0, 1));
    }

    #[test]
    fn what_cannot_be_taken_is_refused() {
        let a = Matrix { rows: 4, cols: 4, row_ptr: &[0; 5], col_idx: &[], values: &[] };
        assert_eq!(Parts::of(&a, 0), Err(Refusal::BlockSize));
        assert_eq!(Parts::of(&a, 9), Err(Refusal::BlockSize));
        assert_eq!(Parts::of(&a, 3), Err(Refusal::NotMultiple));
        assert_eq!(Parts::of(&Matrix { cols: 5, ..a }, 1), Err(Refusal::NotSquare));
        assert_eq!(Parts::of(&Matrix { row_ptr: &[0; 4], ..a }, 1), Err(Refusal::RowListLength));
    }
}
