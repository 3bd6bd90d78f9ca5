//! Validate: 1 to 8.
use crate::faults::{Case, Entry, Fault};
use crate::lists::{Random, Seen};
use crate::matrix::{Csr, OnMatrix, ROWS, on_matrix, valid};
use yelomawin::ffi;

#[derive(Clone)]
pub struct Validate {
    pub a: Csr,
}

on_matrix!(Validate);

impl Entry for Validate {
    const NAME: &'static str = "validate";
    fn call(&self, _: &mut Random) -> Seen {
        let (a, before) = (&self.a, self.a.before());
        let number = unsafe {
            ffi::yelomawin_validate(a.rows, a.cols, a.row_ptr.as_ptr(), a.row_ptr.len(), a.col_idx.as_ptr(), a.col_idx.len(), a.values.as_ptr(), a.values.len())
        };
        let mut seen = Seen::new(number);
        a.after(&mut seen, before);
        seen
    }
}

impl Validate {
    pub fn base() -> Validate {
        Validate { a: Csr::plain() }
    }
    pub fn faults() -> Vec<Vec<Fault<Validate>>> {
        valid()
    }
    pub fn cases() -> Vec<Case<Validate>> {
        let on = |a: Csr| Validate { a };
        let mut wide = Csr::plain();
        wide.cols = ROWS;
        let tall = Csr { rows: ROWS, cols: 0, row_ptr: vec![0; ROWS as usize + 1].into(), col_idx: vec![].into(), values: vec![].into() };
        vec![
            Case::accepted("plain", Validate::base(), &[], vec![]),
            Case::accepted("no row", on(Csr::of(&[])), &[], vec![]),
            Case::accepted("columns at the limit", on(wide), &[], vec![]),
            Case::accepted("rows at the limit", on(tall), &[], vec![]).large(),
            Case::accepted("entries at the limit", on(Csr::longest(0)), &[], vec![]).large(),
        ]
    }
}
