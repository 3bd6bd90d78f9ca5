//! A matrix in compressed rows, and the causes 1 to 9 that every call on a matrix looks for first.
use crate::faults::Fault;
use crate::lists::{Read, Seen, read, watched};
use std::sync::LazyLock;

pub const ROWS: u64 = 1_048_576;
pub const ENTRIES: usize = 16_777_216;

/// Zeros, one more than there may be entries.
pub static COLUMNS: LazyLock<Vec<u32>> = LazyLock::new(|| vec![0; ENTRIES + 1]);
pub static VALUES: LazyLock<Vec<f64>> = LazyLock::new(|| vec![0.0; ENTRIES + 1]);

#[derive(Clone)]
pub struct Csr {
    pub rows: u64,
    pub cols: u64,
    pub row_ptr: Read<u32>,
    pub col_idx: Read<u32>,
    pub values: Read<f64>,
}

impl Csr {
    /// A square matrix from the entries of each row.
    pub fn of(rows: &[&[(u32, f64)]]) -> Csr {
        let (row_ptr, entries) = lent::flat(rows);
        Csr {
            rows: rows.len() as u64,
            cols: rows.len() as u64,
            row_ptr: row_ptr.into(),
            col_idx: entries.iter().map(|e| e.0).collect(),
            values: entries.iter().map(|e| e.1).collect(),
        }
    }
    /// A full one; what is exactly zero is not stored.
    pub fn full<const N: usize>(rows: [[f64; N]; N]) -> Csr {
        let rows: Vec<Vec<(u32, f64)>> =
            rows.iter().map(|r| (0..).zip(r.iter().copied()).filter(|e| e.1 != 0.0).collect()).collect();
        Csr::of(&rows.iter().map(|r| &r[..]).collect::<Vec<_>>())
    }
    pub fn diagonal(rows: usize, value: f64) -> Csr {
        Csr {
            rows: rows as u64,
            cols: rows as u64,
            row_ptr: (0..=rows as u32).collect(),
            col_idx: (0..rows as u32).collect(),
            values: vec![value; rows].into(),
        }
    }
    /// [4 2; 2 5], and a stored zero in front that a fault may take the place of.
    pub fn plain() -> Csr {
        Csr::of(&[&[(0, 0.0), (0, 4.0), (1, 2.0)], &[(0, 2.0), (1, 5.0)]])
    }
    /// One row of more entries than the limit, if `more` is 1.
    pub fn longest(more: usize) -> Csr {
        let e = ENTRIES + more;
        Csr { rows: 1, cols: 1, row_ptr: vec![0, e as u32].into(), col_idx: Read::Borrowed(&COLUMNS[..e]), values: Read::Borrowed(&VALUES[..e]) }
    }
    /// The sum of what is stored at (i, j), as far as the lists make sense.
    pub fn at(&self, i: usize, j: usize) -> Option<f64> {
        let (a, e) = (*self.row_ptr.get(i)? as usize, *self.row_ptr.get(i + 1)? as usize);
        let row = (a..e).filter(|&p| self.col_idx.get(p) == Some(&(j as u32)));
        row.filter_map(|p| self.values.get(p).copied()).reduce(|x, y| x + y)
    }
    pub fn before(&self) -> [Option<Vec<u64>>; 3] {
        [watched(&self.row_ptr), watched(&self.col_idx), watched(&self.values)]
    }
    pub fn after(&self, seen: &mut Seen, before: [Option<Vec<u64>>; 3]) {
        let [p, c, v] = before;
        read(seen, "row_ptr", p, &self.row_ptr);
        read(seen, "col_idx", c, &self.col_idx);
        read(seen, "values", v, &self.values);
    }
}

/// An input with a matrix in it.
pub trait OnMatrix: 'static {
    fn a(&mut self) -> &mut Csr;
    fn look(&self) -> &Csr;
}

/// An input whose field `a` is a matrix.
macro_rules! on_matrix {
    ($name:ident) => {
        impl OnMatrix for $name {
            fn a(&mut self) -> &mut Csr {
                &mut self.a
            }
            fn look(&self) -> &Csr {
                &self.a
            }
        }
    };
}
pub(crate) use on_matrix;

fn entries(a: &Csr) -> u32 {
    a.values.len() as u32
}

/// Causes 1 to 8, in order.
pub fn valid<I: OnMatrix>() -> Vec<Vec<Fault<I>>> {
    let over = |i: &I| i.look().rows > ROWS || i.look().cols > ROWS || i.look().values.len() > ENTRIES;
    vec![
        vec![
            Fault::new(1, "columns above the limit", |i: &mut I| i.a().cols = ROWS + 1, over),
            Fault::new(1, "columns far above the limit", |i: &mut I| i.a().cols = u64::MAX, over),
            Fault::new(1, "rows above the limit", |i: &mut I| i.a().rows = ROWS + 1, over),
            Fault::new(1, "rows far above the limit", |i: &mut I| i.a().rows = u64::MAX, over),
            Fault::new(
                1,
                "rows above the limit, with their row list",
                |i: &mut I| *i.a() = Csr { rows: ROWS + 1, cols: 1, row_ptr: vec![0; ROWS as usize + 2].into(), col_idx: vec![].into(), values: vec![].into() },
                over,
            )
            .large(),
            Fault::new(1, "entries above the limit", |i: &mut I| *i.a() = Csr::longest(1), over).large(),
        ],
        vec![
            Fault::new(2, "row list one longer", |i: &mut I| { let e = entries(i.a()); i.a().row_ptr.to_mut().push(e) }, row_list),
            Fault::new(2, "row list one shorter", |i: &mut I| { i.a().row_ptr.to_mut().pop(); }, row_list),
            Fault::new(2, "row list empty", |i: &mut I| i.a().row_ptr.to_mut().clear(), row_list),
        ],
        vec![
            Fault::new(3, "a column more", |i: &mut I| i.a().col_idx.to_mut().push(0), pairs),
            Fault::new(3, "a value more", |i: &mut I| i.a().values.to_mut().push(1.0), pairs),
        ],
        vec![Fault::new(4, "first row pointer 1", |i: &mut I| set(i.a().row_ptr.to_mut(), 0, 1), |i| i.look().row_ptr.first().is_some_and(|&p| p != 0))],
        vec![
            Fault::new(5, "an entry behind the last row", |i: &mut I| { i.a().col_idx.to_mut().push(0); i.a().values.to_mut().push(1.0) }, last),
            Fault::new(5, "last row pointer behind the entries", |i: &mut I| { let n = i.look().rows as usize; point(i.a(), n, 1) }, last),
        ],
        vec![Fault::new(6, "first row ends behind the second", |i: &mut I| point(i.a(), 1, 1), |i| i.look().row_ptr.windows(2).any(|w| w[1] < w[0]))],
        vec![
            Fault::new(7, "first column outside", |i: &mut I| { let c = i.a().cols as u32; set(i.a().col_idx.to_mut(), 0, c) }, outside),
            Fault::new(7, "last column far outside", |i: &mut I| set_last(i.a().col_idx.to_mut(), u32::MAX), outside),
        ],
        vec![
            Fault::new(8, "first value NaN", |i: &mut I| set(i.a().values.to_mut(), 0, f64::NAN), unusual),
            Fault::new(8, "last value infinite", |i: &mut I| set_last(i.a().values.to_mut(), f64::INFINITY), unusual),
            Fault::new(8, "a value negative infinite", |i: &mut I| set(i.a().values.to_mut(), 1, f64::NEG_INFINITY), unusual),
        ],
    ]
}

/// Causes 1 to 9, in order.
pub fn square<I: OnMatrix>() -> Vec<Vec<Fault<I>>> {
    let mut places = valid();
    places.push(vec![
        Fault::new(9, "a column more than rows", |i: &mut I| i.a().cols += 1, |i| i.look().rows != i.look().cols),
        Fault::new(
            9,
            "a row more than columns",
            |i: &mut I| { let e = entries(i.a()); i.a().rows += 1; i.a().row_ptr.to_mut().push(e) },
            |i| i.look().rows != i.look().cols,
        ),
    ]);
    places
}

fn set<T>(list: &mut Vec<T>, k: usize, x: T) {
    if let Some(place) = list.get_mut(k) {
        *place = x;
    }
}

fn set_last<T>(list: &mut [T], x: T) {
    if let Some(place) = list.last_mut() {
        *place = x;
    }
}

/// Lets row pointer k point as far behind the entries.
fn point(a: &mut Csr, k: usize, behind: u32) {
    let e = entries(a);
    set(a.row_ptr.to_mut(), k, e + behind);
}

fn row_list<I: OnMatrix>(i: &I) -> bool {
    i.look().row_ptr.len() as u128 != i.look().rows as u128 + 1
}

fn pairs<I: OnMatrix>(i: &I) -> bool {
    i.look().col_idx.len() != i.look().values.len()
}

fn last<I: OnMatrix>(i: &I) -> bool {
    let a = i.look();
    a.row_ptr.get(a.rows as usize).is_some_and(|&p| p as usize != a.values.len())
}

fn outside<I: OnMatrix>(i: &I) -> bool {
    i.look().col_idx.iter().any(|&c| c as u64 >= i.look().cols)
}

fn unusual<I: OnMatrix>(i: &I) -> bool {
    i.look().values.iter().any(|v| !v.is_finite())
}
