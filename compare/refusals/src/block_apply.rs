//! Block apply: 25 for the residual, 25 for the correction, 26.
use crate::faults::{Case, Entry, Fault};
use crate::lists::{ANSWER, Kind, Lent, Random, Seen, bits, odd};
use crate::matrix::ROWS;
use yelomawin::ffi;

#[derive(Clone)]
pub struct BlockApply {
    pub rows: u64,
    pub size: u64,
    /// The used ones; odd numbers may stand behind them.
    pub factors: Vec<f64>,
    pub factors_short: bool,
    pub residual: Vec<f64>,
    pub correction: usize,
}

impl Entry for BlockApply {
    const NAME: &'static str = "block_apply";
    fn call(&self, g: &mut Random) -> Seen {
        let mut factors = self.factors.clone();
        if self.factors_short {
            factors.pop();
        } else {
            let more = g.next() % 4;
            factors.extend(odd::<f64>(g, more as usize));
        }
        let mut z: Lent<f64> = Lent::new(g, self.correction);
        let room = g.pick(&ANSWER);
        let mut answer: Lent<u64> = Lent::new(g, room);
        let (f0, r0) = (bits(&factors), bits(&self.residual));
        let number = unsafe {
            ffi::yelomawin_block_apply(
                self.rows, self.size, factors.as_ptr(), factors.len(), self.residual.as_ptr(), self.residual.len(),
                z.ptr(), z.len(), answer.ptr(), answer.len(),
            )
        };
        let mut seen = Seen::new(number);
        seen.read("factors", &f0, &factors);
        seen.read("residual", &r0, &self.residual);
        seen.lent("correction", Kind::Result, &z);
        seen.lent("answer", Kind::Answer, &answer);
        seen
    }
}

impl BlockApply {
    /// [4 2; 2 5] and the residual (8, 10).
    pub fn base() -> BlockApply {
        BlockApply { rows: 2, size: 2, factors: vec![2.0, 0.0, 1.0, 2.0], factors_short: false, residual: vec![8.0, 10.0], correction: 2 }
    }
    fn of_rows(rows: u64) -> BlockApply {
        let n = rows as usize;
        BlockApply { rows, size: 1, factors: vec![2.0; n], factors_short: false, residual: vec![8.0; n], correction: n }
    }
    pub fn faults() -> Vec<Vec<Fault<BlockApply>>> {
        let residual = |i: &BlockApply| i.residual.len() as u64 != i.rows;
        let correction = |i: &BlockApply| i.correction as u64 != i.rows;
        let told_residual = |i: &BlockApply| vec![i.rows, i.residual.len() as u64];
        let told_correction = |i: &BlockApply| vec![i.rows, i.correction as u64];
        let misfit = |i: &BlockApply| {
            let used = i.factors.len() as u64 - i.factors_short as u64;
            i.rows > ROWS || i.size == 0 || i.size > 8 || used < i.rows.saturating_mul(i.size)
        };
        vec![
            vec![
                Fault::new(25, "residual one longer", |i: &mut BlockApply| i.residual.push(f64::NAN), residual).with(told_residual),
                Fault::new(25, "residual one shorter", |i: &mut BlockApply| { i.residual.pop(); }, residual).with(told_residual),
                Fault::new(25, "no residual", |i: &mut BlockApply| i.residual.clear(), residual).with(told_residual),
            ],
            vec![
                Fault::new(25, "correction one longer", |i: &mut BlockApply| i.correction += 1, correction).with(told_correction),
                Fault::new(25, "correction one shorter", |i: &mut BlockApply| i.correction = i.correction.saturating_sub(1), correction).with(told_correction),
            ],
            vec![
                Fault::new(26, "block size 0", |i: &mut BlockApply| i.size = 0, misfit),
                Fault::new(26, "block size 9", |i: &mut BlockApply| { i.size = 9; i.factors = vec![1.0; 18] }, misfit),
                Fault::new(26, "block size so large that rows times size is 0 in 64 bits", |i: &mut BlockApply| i.size = 1 << 63, misfit),
                Fault::new(26, "factors one too short", |i: &mut BlockApply| i.factors_short = true, misfit),
                Fault::new(26, "rows above the limit", |i: &mut BlockApply| *i = BlockApply::of_rows(ROWS + 1), misfit).large(),
            ],
        ]
    }
    pub fn cases() -> Vec<Case<BlockApply>> {
        let base = BlockApply::base();
        let three = BlockApply { rows: 3, factors: vec![2.0, 0.0, 1.0, 2.0, 4.0, f64::NAN], residual: vec![8.0, 10.0, 32.0], correction: 3, ..base.clone() };
        let above = BlockApply { factors: vec![2.0, f64::NAN, 1.0, 2.0], ..base.clone() };
        vec![
            Case::accepted("plain, factors longer", base.clone(), &[], vec![bits(&[1.25, 1.5])]),
            Case::accepted("no row", BlockApply::of_rows(0), &[], vec![vec![]]),
            Case::accepted("a smaller last block, whose factor stands at its own width", three, &[], vec![bits(&[1.25, 1.5, 2.0])]),
            Case::accepted("numbers above a factor's diagonal do not matter", above, &[], vec![bits(&[1.25, 1.5])]),
            Case::accepted("rows at the limit", BlockApply::of_rows(ROWS), &[], vec![bits(&vec![2.0; ROWS as usize])]).large(),
            Case::new("rows far above the limit: 25 before 26", BlockApply { rows: u64::MAX, ..base.clone() }, 25, &[u64::MAX, 2]),
            Case::new("rows above the limit: 25 before 26", BlockApply { rows: ROWS + 1, size: 0, ..base }, 25, &[ROWS + 1, 2]),
        ]
    }
}
