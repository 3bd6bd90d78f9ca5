//! Diagonal alone: 1 to 9, 13, 19.
use crate::faults::{Case, Entry, Fault};
use crate::lists::{ANSWER, Kind, Lent, Random, Room, Seen, bits, within};
use crate::matrix::{Csr, OnMatrix, ROWS, on_matrix, square};
use yelomawin::ffi;

#[derive(Clone)]
pub struct Diagonal {
    pub a: Csr,
    pub room: Room,
}

on_matrix!(Diagonal);

impl Entry for Diagonal {
    const NAME: &'static str = "diagonal";
    fn call(&self, g: &mut Random) -> Seen {
        let (a, before) = (&self.a, self.a.before());
        let length = self.room.length(g, within(a.rows, ROWS), 0);
        let mut d: Lent<f64> = Lent::new(g, length);
        let room = g.pick(&ANSWER);
        let mut answer: Lent<u64> = Lent::new(g, room);
        let number = unsafe {
            ffi::yelomawin_diagonal(
                a.rows, a.cols, a.row_ptr.as_ptr(), a.row_ptr.len(), a.col_idx.as_ptr(), a.col_idx.len(), a.values.as_ptr(), a.values.len(),
                d.ptr(), d.len(), answer.ptr(), answer.len(),
            )
        };
        let mut seen = Seen::new(number);
        a.after(&mut seen, before);
        seen.lent("diagonal", Kind::Result, &d);
        seen.lent("answer", Kind::Answer, &answer);
        seen
    }
}

impl Diagonal {
    pub fn base() -> Diagonal {
        Diagonal { a: Csr::plain(), room: Room::More }
    }
    pub fn faults() -> Vec<Vec<Fault<Diagonal>>> {
        let mut places = square();
        places.push(vec![Fault::new(13, "diagonal list one too short", |i: &mut Diagonal| i.room = Room::Short, |i| i.room == Room::Short && i.a.rows > 0)]);
        places.push(vec![
            // The diagonal entry of row 1 becomes one at (1, 0).
            Fault::new(19, "no diagonal entry in row 1", |i: &mut Diagonal| i.a.col_idx.to_mut()[4] = 0, |i| i.a.at(1, 1).is_none()).with(|_| vec![1]),
        ]);
        places
    }
    pub fn cases() -> Vec<Case<Diagonal>> {
        let on = |a: Csr| Diagonal { a, room: Room::More };
        let largest = 1.7e308;
        vec![
            Case::accepted("plain, list longer", Diagonal::base(), &[], vec![bits(&[4.0, 5.0])]),
            Case::accepted("no row, list longer", on(Csr::of(&[])), &[], vec![vec![]]),
            Case::accepted("a stored -0 and overflow", on(Csr::of(&[&[(0, -0.0)], &[(1, largest), (1, largest)]])), &[], vec![bits(&[0.0, f64::INFINITY])]),
            Case::accepted("rows at the limit", on(Csr::diagonal(ROWS as usize, 3.0)), &[], vec![bits(&vec![3.0; ROWS as usize])]).large(),
            Case::accepted("entries at the limit", on(Csr::longest(0)), &[], vec![bits(&[0.0])]).large(),
            Case::new("one row, two columns, no entry", on(Csr { rows: 1, cols: 2, row_ptr: vec![0, 0].into(), col_idx: vec![].into(), values: vec![].into() }), 9, &[]),
            Case::new("19 in rows 1 and 2: the lowest", on(Csr::of(&[&[(0, 1.0)], &[(0, 1.0)], &[]])), 19, &[1]),
            Case::new("19, and zero and negative sums before it", on(Csr::of(&[&[(0, 0.0)], &[(1, -1.0)], &[(0, 1.0)]])), 19, &[2]),
        ]
    }
}
