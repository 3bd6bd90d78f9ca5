//! Matrices and graphs to measure on. Built list by list, so that building leaves no trace in the peak memory.
use cases::Csr;
use cases::draw::Random;

/// Unknowns a node of a frame.
pub const BLOCK: usize = 6;

/// The value of the link between two unknowns, the same from either side.
fn link(i: usize, j: usize) -> f64 {
    Random((i.min(j) as u64) << 32 | i.max(j) as u64).unit() - 0.5
}

/// The nodes beside a node of a frame: a grid in each of four free-standing parts.
fn beside(nodes: usize, v: usize) -> impl Iterator<Item = usize> {
    let per = nodes / 4;
    let side = (per as f64).sqrt().ceil() as usize;
    let (first, k) = (v / per * per, v % per);
    let end = (first + per).min(nodes);
    let up = (k >= side).then(|| v - side);
    let left = (k % side > 0).then(|| v - 1);
    let right = (k % side + 1 < side && v + 1 < end).then_some(v + 1);
    let down = (v + side < end).then_some(v + side);
    [up, left, right, down].into_iter().flatten()
}

/// A frame of racking with 6 unknowns a node.
pub fn frame(rows: usize) -> Csr {
    frame_of(rows, BLOCK)
}

/// The same with any number of unknowns a node, each linked with two unknowns of every node beside it, or the only one.
pub fn frame_of(rows: usize, block: usize) -> Csr {
    let nodes = rows / block;
    let mut a = Csr { rows: nodes * block, cols: nodes * block, row_ptr: vec![0], col_idx: Vec::new(), values: Vec::new() };
    for i in 0..nodes * block {
        let (v, k) = (i / block, i % block);
        let mut reach = 0.0;
        let mut own = 0;
        let mut others = beside(nodes, v).peekable();
        loop {
            if own == 0 && others.peek().is_none_or(|&w| w > v) {
                own = a.values.len() + 1;
                a.col_idx.push(i as u32);
                a.values.push(0.0);
            }
            let Some(w) = others.next() else { break };
            // Towards lower nodes the next unknown, towards higher ones the one before.
            let also = if w < v { (k + 1) % block } else { (k + block - 1) % block };
            for &j in &[k.min(also), k.max(also)][usize::from(k == also)..] {
                let x = link(i, w * block + j);
                reach += x.abs();
                a.col_idx.push((w * block + j) as u32);
                a.values.push(x);
            }
        }
        a.values[own - 1] = reach + 1.0;
        a.row_ptr.push(a.values.len() as u32);
    }
    a.col_idx.shrink_to_fit();
    a.values.shrink_to_fit();
    a
}

/// A diagonal with one dense row and column.
pub fn arrow(rows: usize) -> Csr {
    let mut a = Csr { rows, cols: rows, row_ptr: vec![0], col_idx: Vec::new(), values: Vec::new() };
    for i in 0..rows {
        let columns = if i == 0 { 0..rows } else { 0..1 };
        a.col_idx.extend(columns.map(|j| j as u32));
        if i > 0 {
            a.col_idx.push(i as u32);
        }
        let from = a.values.len();
        a.values.extend(a.col_idx[from..].iter().map(|&j| if j as usize != i { link(i, j as usize) / rows as f64 } else { 2.0 }));
        a.row_ptr.push(a.values.len() as u32);
    }
    a
}

/// The frame's nodes as neighbour lists: offsets and neighbours.
pub fn frame_graph(rows: usize, block: usize) -> (Vec<u32>, Vec<u32>) {
    let nodes = rows / block;
    let (mut offsets, mut neighbours) = (vec![0], Vec::new());
    for v in 0..nodes {
        neighbours.extend(beside(nodes, v).map(|w| w as u32));
        offsets.push(neighbours.len() as u32);
    }
    (offsets, neighbours)
}

/// The group size that brings the coarse dimension of a frame nearest to one, and not above the limit.
pub fn group_size(rows: usize, block: usize, coarse: usize) -> usize {
    let (offsets, neighbours) = frame_graph(rows, block);
    let least = (rows / coarse).max(1);
    let dimension = |g: usize| block * yelomawin::group(g, &offsets, &neighbours).unwrap().0;
    (0..24)
        .map(|k| least + k * least.div_ceil(20))
        .map(|g| (dimension(g), g))
        .filter(|&(c, _)| c <= yelomawin::MOST_COARSE)
        .min_by_key(|&(c, _)| c.abs_diff(coarse))
        .expect("a group size")
        .1
}

/// A ring of nodes with 8 unknowns: 16 entries a row, 8 of them in the node's own block.
pub fn ring(rows: usize) -> Csr {
    let n = rows;
    let mut a = Csr { rows, cols: rows, row_ptr: vec![0], col_idx: Vec::with_capacity(16 * n), values: Vec::with_capacity(16 * n) };
    for i in 0..n {
        let first = i / 8 * 8;
        let (before, after) = ((first + n - 8) % n, (first + 8) % n);
        let mut columns: Vec<usize> = (first..first + 8).chain(before..before + 4).chain(after + 4..after + 8).collect();
        columns.sort_unstable();
        let reach: f64 = columns.iter().filter(|&&j| j != i).map(|&j| link(i, j).abs()).sum();
        for j in columns {
            a.col_idx.push(j as u32);
            a.values.push(if j == i { reach + 1.0 } else { link(i, j) });
        }
        a.row_ptr.push(a.values.len() as u32);
    }
    a
}

/// A square grid of nodes.
pub fn grid(side: usize) -> Vec<Vec<usize>> {
    let of = |v: usize| {
        let (x, y) = (v % side, v / side);
        let up = (y > 0).then(|| v - side);
        let left = (x > 0).then(|| v - 1);
        let right = (x + 1 < side).then_some(v + 1);
        let down = (y + 1 < side).then_some(v + side);
        [up, left, right, down].into_iter().flatten().collect()
    };
    (0..side * side).map(of).collect()
}

pub fn random_graph(nodes: usize, each: usize) -> Vec<Vec<usize>> {
    let mut g = Random(7);
    (0..nodes).map(|_| (0..each).map(|_| g.below(nodes)).collect()).collect()
}

pub fn star(nodes: usize) -> Vec<Vec<usize>> {
    (0..nodes).map(|v| if v == 0 { (1..nodes).collect() } else { vec![0] }).collect()
}

/// Paths of 64 nodes, then as many nodes in paths of 8 that each name four of the long ones, some twice: all the short ones join.
pub fn joining_paths(nodes: usize) -> Vec<Vec<usize>> {
    let mut g = Random(7);
    let half = nodes / 2;
    let of = |v: usize| {
        let length = if v < half { 64 } else { 8 };
        let mut list: Vec<usize> = [v.wrapping_sub(1), v + 1].into_iter().filter(|w| *w < nodes && *w / length == v / length).collect();
        if v >= half && v % 2 == 0 {
            let w = g.below(half);
            list.extend(std::iter::repeat_n(w, 1 + g.below(2)));
        }
        list
    };
    (0..nodes).map(of).collect()
}
