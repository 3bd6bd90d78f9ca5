//! What the pattern of a matrix's entries says about the unknowns a node.
use crate::csr::Csr;
use yelomawin::MOST_BLOCK;

/// So many nodes are looked at, evenly spread.
const LOOKED_AT: usize = 10_000;

/// With so many unknowns a node: of the nodes that are linked with others, the share whose unknowns are all linked with the same nodes.
/// An unknown without links, such as one that is held, says nothing.
fn share(a: &Csr, block: usize) -> Option<f64> {
    let nodes = a.rows / block;
    let (mut linked, mut alike) = (0usize, 0usize);
    for v in (0..nodes).step_by(nodes.div_ceil(LOOKED_AT).max(1)) {
        // The other nodes that each unknown is linked with, of unknowns with any link.
        let links = |i: usize| {
            let mut others: Vec<usize> = a.col_idx[a.row(i)].iter().map(|&j| j as usize / block).filter(|&u| u != v).collect();
            others.dedup();
            a.col_idx[a.row(i)].iter().any(|&j| j as usize != i).then_some(others)
        };
        let known: Vec<Vec<usize>> = (v * block..(v + 1) * block).filter_map(links).collect();
        if known.iter().any(|k| !k.is_empty()) {
            linked += 1;
            alike += usize::from(known.iter().all(|k| *k == known[0]));
        }
    }
    (linked > 1).then(|| alike as f64 / linked as f64)
}

/// A warning where the entries speak for another number of unknowns a node.
pub fn doubt(a: &Csr, block: usize) -> Option<String> {
    let shares: Vec<(usize, f64)> =
        (1..=MOST_BLOCK).filter(|&b| a.rows.is_multiple_of(b)).filter_map(|b| share(a, b).map(|s| (b, s))).collect();
    let own = shares.iter().find(|s| s.0 == block)?.1;
    let (likely, its) = *shares.iter().rev().find(|s| s.1 >= 0.9)?;
    let told = |s: f64, b: usize| format!("with {b} a node, {:.0} % of the nodes have all unknowns linked with the same nodes", 100.0 * s);
    if likely > block {
        Some(format!("the entries look like {likely} unknowns a node, and --block says {block}: {}", told(its, likely)))
    } else if likely < block && own < 0.5 {
        let other = if likely > 1 { format!(", {}", told(its, likely)) } else { String::new() };
        Some(format!("the entries do not look like {block} unknowns a node, as --block says, but like {likely}: {}{other}", told(own, block)))
    } else {
        None
    }
}

#[cfg(test)]
mod tests {
    use super::*;

    /// A path of nodes with full blocks.
    fn path(nodes: u32, block: u32) -> Csr {
        let mut entries = Vec::new();
        for u in 0..nodes {
            for v in u.saturating_sub(1)..nodes.min(u + 2) {
                entries.extend((0..block * block).map(|k| (u * block + k / block, v * block + k % block, 1.0)));
            }
        }
        Csr::new((nodes * block) as usize, entries)
    }

    #[test]
    fn a_block_size_that_does_not_suit() {
        for block in [1, 2, 3, 6] {
            let a = path(12, block);
            for said in (1..=8).filter(|b| a.rows.is_multiple_of(*b)) {
                let doubt = doubt(&a, said);
                assert_eq!(doubt.is_some(), said != block as usize, "{block} as {said}: {doubt:?}");
                assert!(doubt.is_none_or(|d| d.contains(&format!("like {block}"))), "{block} as {said}");
            }
        }
    }

    #[test]
    fn nothing_is_said_where_nothing_speaks() {
        let lone = Csr::new(24, (0..24).map(|i| (i, i, 1.0)).collect());
        assert!((1..=8).all(|b| doubt(&lone, b).is_none()));
        // Every third unknown is held: it has no links.
        let mut held = path(12, 3);
        let entries = (0..36).flat_map(|i| held.row(i).map(move |p| (i, p))).filter(|&(i, p)| {
            let j = held.col_idx[p] as usize;
            i == j || i % 3 != 2 && j % 3 != 2
        });
        held = Csr::new(36, entries.map(|(i, p)| (i as u32, held.col_idx[p], held.values[p])).collect());
        assert_eq!(doubt(&held, 3), None);
    }
}
