//! Blocks alone: 1 to 10, 13 to 15.
use crate::faults::{Case, Entry, Fault};
use crate::lists::{ANSWER, Kind, Lent, Random, Room, Seen, bits, within};
use crate::matrix::{Csr, OnMatrix, ROWS, on_matrix, square};
use yelomawin::ffi;

#[derive(Clone)]
pub struct Blocks {
    pub a: Csr,
    pub size: u64,
    pub room: Room,
}

on_matrix!(Blocks);

impl Entry for Blocks {
    const NAME: &'static str = "blocks";
    fn call(&self, g: &mut Random) -> Seen {
        let (a, before) = (&self.a, self.a.before());
        let length = self.room.length(g, within(a.rows, ROWS) * within(self.size, 9), 0);
        let mut f: Lent<f64> = Lent::new(g, length);
        let room = g.pick(&ANSWER);
        let mut answer: Lent<u64> = Lent::new(g, room);
        let number = unsafe {
            ffi::yelomawin_blocks(
                a.rows, a.cols, a.row_ptr.as_ptr(), a.row_ptr.len(), a.col_idx.as_ptr(), a.col_idx.len(), a.values.as_ptr(), a.values.len(),
                self.size, f.ptr(), f.len(), answer.ptr(), answer.len(),
            )
        };
        let mut seen = Seen::new(number);
        a.after(&mut seen, before);
        seen.lent("factors", Kind::Result, &f);
        seen.lent("answer", Kind::Answer, &answer);
        seen
    }
}

/// The first row of the first block that is not symmetric beyond its tolerance.
pub fn skewed(a: &Csr, size: u64) -> Option<u64> {
    let n = a.rows.min(64) as usize;
    let entry = |i, j| a.at(i, j).unwrap_or(0.0);
    (0..n).step_by(size.max(1) as usize).find_map(|start| {
        let block = start..n.min(start.saturating_add(size as usize));
        let scale = block.clone().flat_map(|i| block.clone().map(move |j| (i, j))).map(|(i, j)| entry(i, j).abs()).fold(1.0, f64::max);
        block.clone().any(|i| (start..i).any(|j| (entry(i, j) - entry(j, i)).abs() > 1e-11 * scale)).then_some(start as u64)
    })
}

impl Blocks {
    pub fn base() -> Blocks {
        Blocks { a: Csr::plain(), size: 2, room: Room::More }
    }
    pub fn faults() -> Vec<Vec<Fault<Blocks>>> {
        let mut places = square();
        places.push(vec![
            Fault::new(10, "block size 0", |i: &mut Blocks| i.size = 0, |i| i.size == 0 || i.size > 8),
            Fault::new(10, "block size 9", |i: &mut Blocks| i.size = 9, |i| i.size == 0 || i.size > 8),
            Fault::new(10, "block size far above 8", |i: &mut Blocks| i.size = u64::MAX - 1, |i| i.size == 0 || i.size > 8),
        ]);
        let short = |i: &Blocks| i.room == Room::Short && i.a.rows > 0 && i.size > 0;
        let skew = |i: &Blocks| skewed(&i.a, i.size);
        places.push(vec![Fault::new(13, "factor list one too short", |i: &mut Blocks| i.room = Room::Short, short)]);
        places.push(vec![
            Fault::new(14, "(0, 1) is 2, (1, 0) is 1", |i: &mut Blocks| i.a.values.to_mut()[3] = 1.0, move |i| skew(i).is_some())
                .with(move |i| skew(i).into_iter().collect()),
        ]);
        let zero = |i: &Blocks| i.a.at(0, 0) == Some(0.0);
        places.push(vec![Fault::new(15, "diagonal sum 0 in row 0", |i: &mut Blocks| i.a.values.to_mut()[1] = 0.0, zero).with(|_| vec![0])]);
        places
    }
    pub fn cases() -> Vec<Case<Blocks>> {
        let on = |a: Csr, size: u64| Blocks { a, size, room: Room::More };
        let largest = 1.7e308;
        let three = Csr::full([[4.0, 2.0, 1.0], [2.0, 5.0, 0.0], [1.0, 0.0, 9.0]]);
        let five = Csr::of(&[&[(0, 4.0)], &[(1, 4.0)], &[(2, 4.0)], &[(3, 4.0), (4, 1.0)], &[(3, 2.0), (4, 4.0)]]);
        // Blocks [4 2; 2 5] and [4 x; y z].
        let two = |x: f64, y: f64, z: f64| Csr::full([[4.0, 2.0, 0.0, 0.0], [2.0, 5.0, 0.0, 0.0], [0.0, 0.0, 4.0, x], [0.0, 0.0, y, z]]);
        vec![
            Case::accepted("plain, list longer", Blocks::base(), &[], vec![bits(&[2.0, 0.0, 1.0, 2.0])]),
            Case::accepted("no row, list longer", on(Csr::of(&[]), 8), &[], vec![vec![]]),
            Case::accepted("a smaller last block", on(three, 2), &[], vec![bits(&[2.0, 0.0, 1.0, 2.0, 3.0])]),
            Case::accepted("block size 8 on one row", on(Csr::full([[4.0]]), 8), &[], vec![bits(&[2.0])]),
            Case::accepted("2e-14", on(Csr::full([[2e-14]]), 1), &[], vec![bits(&[2e-14f64.sqrt()])]),
            Case::accepted("a difference of 1e-11", on(Csr::of(&[&[(0, 1.0), (1, 1e-11)], &[(1, 1.0)]]), 2), &[], vec![bits(&[1.0, 0.0, 0.0, 1.0])]),
            Case::accepted("rows at the limit", on(Csr::diagonal(ROWS as usize, 4.0), 1), &[], vec![bits(&vec![2.0; ROWS as usize])]).large(),
            Case::new("15 at the tolerance", on(Csr::full([[1e-14]]), 1), 15, &[0]),
            Case::new("15 by a sum of entries at the limit", on(Csr::longest(0), 1), 15, &[0]).large(),
            Case::new("14 and 15 in one block", on(Csr::full([[0.0, 2.0], [1.0, 5.0]]), 2), 14, &[0]),
            Case::new("15 in block 0, 14 in block 1", on({ let mut a = two(2.0, 1.0, 5.0); a.values.to_mut()[3] = 1.0; a }, 2), 15, &[1]),
            Case::new("14 in block 1: its first row", on(two(2.0, 1.0, 5.0), 2), 14, &[2]),
            Case::new("15 in the last row", on(two(2.0, 2.0, 1.0), 2), 15, &[3]),
            Case::new("15 by a negative pivot", on(Csr::full([[-4.0]]), 1), 15, &[0]),
            Case::new("15 where no diagonal entry is stored", on(Csr::of(&[&[]]), 1), 15, &[0]),
            Case::new("15, not 14, where duplicates overflow", on(Csr::of(&[&[(0, 1.0), (1, largest), (1, largest)], &[(1, 1.0)]]), 2), 15, &[0]),
            Case::new("14 in a smaller last block", on(five, 3), 14, &[3]),
        ]
    }
}
