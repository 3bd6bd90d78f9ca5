//! Estimate alone: 1 to 9, 25 for the diagonal, 13, 20 to 22.
use crate::faults::{Case, Entry, Fault};
use crate::lists::{ANSWER, Kind, Lent, Random, Read, Room, Seen, read, watched, within};
use crate::matrix::{Csr, OnMatrix, ROWS, on_matrix, square};
use yelomawin::ffi;

#[derive(Clone)]
pub struct Estimate {
    pub a: Csr,
    pub diagonal: Read<f64>,
    pub room: Room,
}

on_matrix!(Estimate);

impl Entry for Estimate {
    const NAME: &'static str = "estimate";
    fn call(&self, g: &mut Random) -> Seen {
        let (a, before) = (&self.a, self.a.before());
        let d0 = watched(&self.diagonal);
        let length = self.room.length(g, 3 * within(a.rows, ROWS), 0);
        let mut work: Lent<f64> = Lent::new(g, length);
        let room = g.pick(&ANSWER);
        let mut answer: Lent<u64> = Lent::new(g, room);
        let number = unsafe {
            ffi::yelomawin_estimate(
                a.rows, a.cols, a.row_ptr.as_ptr(), a.row_ptr.len(), a.col_idx.as_ptr(), a.col_idx.len(), a.values.as_ptr(), a.values.len(),
                self.diagonal.as_ptr(), self.diagonal.len(), work.ptr(), work.len(), answer.ptr(), answer.len(),
            )
        };
        let mut seen = Seen::new(number);
        a.after(&mut seen, before);
        read(&mut seen, "diagonal", d0, &self.diagonal);
        seen.lent("work", Kind::Work, &work);
        seen.lent("answer", Kind::Answer, &answer);
        seen
    }
}

fn first_bad(d: &[f64], zero: bool) -> Option<u64> {
    d.iter().position(|x| if zero { !x.is_finite() || *x == 0.0 } else { x.is_finite() && *x < 0.0 }).map(|k| k as u64)
}

impl Estimate {
    pub fn base() -> Estimate {
        Estimate { a: Csr::plain(), diagonal: vec![4.0, 5.0].into(), room: Room::More }
    }
    pub fn faults() -> Vec<Vec<Fault<Estimate>>> {
        let length = |i: &Estimate| i.diagonal.len() as u64 != i.a.rows;
        let told = |i: &Estimate| vec![i.a.rows, i.diagonal.len() as u64];
        let zero = |i: &Estimate| first_bad(&i.diagonal, true).is_some();
        let row = |i: &Estimate| first_bad(&i.diagonal, true).into_iter().collect::<Vec<_>>();
        let mut places = square();
        places.push(vec![
            Fault::new(25, "diagonal one longer", |i: &mut Estimate| i.diagonal.to_mut().push(1.0), length).with(told),
            Fault::new(25, "diagonal one shorter", |i: &mut Estimate| { i.diagonal.to_mut().pop(); }, length).with(told),
            Fault::new(25, "no diagonal", |i: &mut Estimate| i.diagonal.to_mut().clear(), length).with(told),
        ]);
        places.push(vec![Fault::new(13, "work list one too short", |i: &mut Estimate| i.room = Room::Short, |i| i.room == Room::Short && i.a.rows > 0)]);
        places.push(vec![
            Fault::new(20, "diagonal 0 in row 0", |i: &mut Estimate| i.diagonal.to_mut()[0] = 0.0, zero).with(row),
            Fault::new(20, "diagonal -0 in row 0", |i: &mut Estimate| i.diagonal.to_mut()[0] = -0.0, zero).with(row),
            Fault::new(20, "diagonal NaN in row 0", |i: &mut Estimate| i.diagonal.to_mut()[0] = f64::NAN, zero).with(row),
            Fault::new(20, "diagonal negative infinite in row 0", |i: &mut Estimate| i.diagonal.to_mut()[0] = f64::NEG_INFINITY, zero).with(row),
        ]);
        let negative = |i: &Estimate| first_bad(&i.diagonal, false);
        places.push(vec![
            Fault::new(21, "diagonal negative in row 1", |i: &mut Estimate| i.diagonal.to_mut()[1] = -5e-324, move |i| negative(i).is_some())
                .with(move |i| negative(i).into_iter().collect()),
        ]);
        // A round's norm is then 0.
        let nothing = |i: &Estimate| i.a.values.iter().all(|v| !v.is_finite() || *v == 0.0);
        places.push(vec![Fault::new(22, "only zeros stored", |i: &mut Estimate| i.a.values.to_mut().fill(0.0), nothing).with(|_| vec![2])]);
        places
    }
    pub fn cases() -> Vec<Case<Estimate>> {
        let on = |a: Csr, d: &[f64]| Estimate { a, diagonal: d.to_vec().into(), room: Room::More };
        let third: f64 = 4.0 / 3.0;
        vec![
            Case::accepted("[4], list longer", on(Csr::full([[4.0]]), &[4.0]), &[1f64.to_bits(), third.to_bits()], vec![]),
            Case::accepted("another diagonal than the matrix has", on(Csr::full([[4.0]]), &[1.0]), &[4f64.to_bits(), (4.0f64 / 12.0).to_bits()], vec![]),
            Case::accepted("diagonal the smallest number", on(Csr::full([[5e-324]]), &[5e-324]), &[1f64.to_bits(), third.to_bits()], vec![]),
            Case::new("20 in row 1, 21 in row 0: row by row", on(Csr::diagonal(2, 1.0), &[-1.0, 0.0]), 21, &[0]),
            Case::new("20 in row 0, 21 in row 1", on(Csr::diagonal(2, 1.0), &[f64::INFINITY, -1.0]), 20, &[0]),
            Case::new("20 in the last row", on(Csr::diagonal(3, 1.0), &[1.0, 1.0, 0.0]), 20, &[2]),
            Case::new("22 stage 1: no row, so the starting norm is 0", on(Csr::of(&[]), &[]), 22, &[1]),
            Case::new("22 stage 2: the first round's norm is 0", on(Csr::of(&[&[]]), &[1.0]), 22, &[2]),
            Case::new("22 stage 2: it is infinite", on(Csr::full([[1e200]]), &[1.0]), 22, &[2]),
            Case::new("22 stage 2: it is NaN", on(Csr::of(&[&[(0, 1e308), (0, -1e308)]]), &[5e-324]), 22, &[2]),
            Case::new("22 stage 2 in the second round", on(Csr::of(&[&[(1, 1.0)], &[]]), &[1.0, 1.0]), 22, &[2]),
            Case::new("22 stage 3: rho is negative", on(Csr::full([[-1.0]]), &[1.0]), 22, &[3]),
            Case::new("22 stage 3: rho is 0", on(Csr::full([[0.0, 1.0], [-1.0, 0.0]]), &[1.0, 1.0]), 22, &[3]),
            Case::new("22 stage 3: rho is infinite", late_growth(1e308), 22, &[3]),
            Case::new("22 stage 4: three times rho is infinite, the damping factor 0", late_growth(3e306), 22, &[4]),
            Case::new("22 stage 4: the damping factor is infinite", on(Csr::full([[0.0, 1.0, 0.0], [-1.0, 0.0, 0.0], [0.0, 0.0, 1e-15]]), &[1.0; 3]), 22, &[4]),
            Case::new("22 stage 2: entries at the limit, all zero", on(Csr::longest(0), &[1.0]), 22, &[2]).large(),
        ]
    }
}

/// The starting numbers of rows 0 to 10 and 101 to 111 are alike. A difference begun in the first round at rows 9 and 110 reaches
/// rows 0 and 101 with the tenth, and only then does the last row, `large` times their difference, have a large image.
fn late_growth(large: f64) -> Estimate {
    let mut rows: Vec<Vec<(u32, f64)>> = vec![Vec::new(); 112];
    for i in 0..9 {
        rows[i].push((i as u32 + 1, 1.0));
        rows[101 + i].push((i as u32 + 102, 1.0));
    }
    rows[9].push((9, 1.0));
    rows[110].push((110, 1.5));
    rows[111].extend([(101, large), (0, -large), (111, 1.5e-8)]);
    let mut diagonal = vec![1.0; 112];
    diagonal[111] = 1e-8;
    Estimate { a: Csr::of(&rows.iter().map(|r| &r[..]).collect::<Vec<_>>()), diagonal: diagonal.into(), room: Room::More }
}
