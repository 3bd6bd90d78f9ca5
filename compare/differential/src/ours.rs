//! The library's calls on lists. Every list lent for writing is longer than asked for by up to three elements, and full of numbers that
//! must not matter. Every `unsafe` is one call of the library: sound, as each list goes with its own pointer and length, and nothing
//! else holds those lent for writing.
use cases::compare::Library;
use cases::draw::Random;
use cases::{Csr, Options};
use lent::{Kind, Lent, Seen, bits, flat, pattern};
use yelomawin::ffi::*;

pub struct OnLists;

/// A matrix's lists before a call.
fn before(a: &Csr) -> [Vec<u64>; 3] {
    [bits(&a.row_ptr), bits(&a.col_idx), bits(&a.values)]
}

fn read(seen: &mut Seen, before: &[Vec<u64>; 3], a: &Csr) {
    seen.read("row_ptr", &before[0], &a.row_ptr);
    seen.read("col_idx", &before[1], &a.col_idx);
    seen.read("values", &before[2], &a.values);
}

impl Library for OnLists {
    const NAME: &'static str = env!("CARGO_BIN_NAME");

    fn root(bits: u64) -> u64 {
        pattern(unsafe { yelomawin_root(f64::from_bits(bits)) }.to_bits())
    }

    fn validate(_: &mut Random, a: &Csr) -> Result<Seen, String> {
        let was = before(a);
        let number = unsafe {
            yelomawin_validate(
                a.rows as u64, a.cols as u64, a.row_ptr.as_ptr(), a.row_ptr.len(), a.col_idx.as_ptr(), a.col_idx.len(), a.values.as_ptr(), a.values.len(),
            )
        };
        let mut seen = Seen::new(number);
        read(&mut seen, &was, a);
        Ok(seen)
    }

    fn diagonal(g: &mut Random, a: &Csr) -> Result<Seen, String> {
        let was = before(a);
        let (mut d, mut answer) = (Lent::<f64>::roomy(g, a.rows), Lent::<u64>::roomy(g, 2));
        let number = unsafe {
            yelomawin_diagonal(
                a.rows as u64, a.cols as u64, a.row_ptr.as_ptr(), a.row_ptr.len(), a.col_idx.as_ptr(), a.col_idx.len(), a.values.as_ptr(), a.values.len(),
                d.ptr(), d.len(), answer.ptr(), answer.len(),
            )
        };
        let mut seen = Seen::new(number);
        read(&mut seen, &was, a);
        seen.lent("diagonal", Kind::Result, &d);
        seen.lent("answer", Kind::Answer, &answer);
        Ok(seen)
    }

    fn blocks(g: &mut Random, a: &Csr, block: usize) -> Result<Seen, String> {
        let was = before(a);
        let (mut f, mut answer) = (Lent::<f64>::roomy(g, a.rows * block), Lent::<u64>::roomy(g, 2));
        let number = unsafe {
            yelomawin_blocks(
                a.rows as u64, a.cols as u64, a.row_ptr.as_ptr(), a.row_ptr.len(), a.col_idx.as_ptr(), a.col_idx.len(), a.values.as_ptr(), a.values.len(),
                block as u64, f.ptr(), f.len(), answer.ptr(), answer.len(),
            )
        };
        let mut seen = Seen::new(number);
        read(&mut seen, &was, a);
        seen.lent("factors", Kind::Result, &f);
        seen.lent("answer", Kind::Answer, &answer);
        Ok(seen)
    }

    fn block_apply(g: &mut Random, rows: usize, block: usize, factors: &[f64], residual: &[f64]) -> Result<Seen, String> {
        let was = (bits(factors), bits(residual));
        let (mut z, mut answer) = (Lent::<f64>::new(g, rows), Lent::<u64>::roomy(g, 2));
        let number = unsafe {
            yelomawin_block_apply(
                rows as u64, block as u64, factors.as_ptr(), factors.len(), residual.as_ptr(), residual.len(), z.ptr(), z.len(), answer.ptr(), answer.len(),
            )
        };
        let mut seen = Seen::new(number);
        seen.read("factors", &was.0, factors);
        seen.read("residual", &was.1, residual);
        seen.lent("correction", Kind::Result, &z);
        seen.lent("answer", Kind::Answer, &answer);
        Ok(seen)
    }

    fn group(g: &mut Random, lists: &[Vec<u32>], size: usize) -> Result<Seen, String> {
        let (offsets, neighbours) = flat(lists);
        let was = (bits(&offsets), bits(&neighbours));
        let n = lists.len();
        let (mut ids, mut work) = (Lent::<u32>::roomy(g, n), Lent::<u32>::roomy(g, 8 * n + 4 * neighbours.len() + 16));
        let mut answer = Lent::<u64>::roomy(g, 2);
        let number = unsafe {
            yelomawin_group(
                n as u64, size as u64, offsets.as_ptr(), offsets.len(), neighbours.as_ptr(), neighbours.len(),
                ids.ptr(), ids.len(), work.ptr(), work.len(), answer.ptr(), answer.len(),
            )
        };
        let mut seen = Seen::new(number);
        seen.read("offsets", &was.0, &offsets);
        seen.read("neighbours", &was.1, &neighbours);
        seen.lent("ids", Kind::Result, &ids);
        seen.lent("work", Kind::Work, &work);
        seen.lent("answer", Kind::Answer, &answer);
        Ok(seen)
    }

    fn group_log(g: &mut Random, lists: &[Vec<u32>], size: usize) -> Result<Seen, String> {
        let (offsets, neighbours) = flat(lists);
        let was = (bits(&offsets), bits(&neighbours));
        let n = lists.len();
        let (mut ids, mut log) = (Lent::<u32>::roomy(g, n), Lent::<u32>::roomy(g, 3 * n));
        let (mut work, mut answer) = (Lent::<u32>::roomy(g, 8 * n + 4 * neighbours.len() + 16), Lent::<u64>::roomy(g, 2));
        let number = unsafe {
            yelomawin_group_log(
                n as u64, size as u64, offsets.as_ptr(), offsets.len(), neighbours.as_ptr(), neighbours.len(),
                ids.ptr(), ids.len(), log.ptr(), log.len(), work.ptr(), work.len(), answer.ptr(), answer.len(),
            )
        };
        let mut seen = Seen::new(number);
        seen.read("offsets", &was.0, &offsets);
        seen.read("neighbours", &was.1, &neighbours);
        seen.lent("ids", Kind::Result, &ids);
        seen.lent("log", Kind::Result, &log);
        seen.lent("work", Kind::Work, &work);
        seen.lent("answer", Kind::Answer, &answer);
        Ok(seen)
    }

    fn estimate(g: &mut Random, a: &Csr, diagonal: &[f64]) -> Result<Seen, String> {
        let (was, diagonal_was) = (before(a), bits(diagonal));
        let (mut work, mut answer) = (Lent::<f64>::roomy(g, 3 * a.rows), Lent::<u64>::roomy(g, 2));
        let number = unsafe {
            yelomawin_estimate(
                a.rows as u64, a.cols as u64, a.row_ptr.as_ptr(), a.row_ptr.len(), a.col_idx.as_ptr(), a.col_idx.len(), a.values.as_ptr(), a.values.len(),
                diagonal.as_ptr(), diagonal.len(), work.ptr(), work.len(), answer.ptr(), answer.len(),
            )
        };
        let mut seen = Seen::new(number);
        read(&mut seen, &was, a);
        seen.read("diagonal", &diagonal_was, diagonal);
        seen.lent("work", Kind::Work, &work);
        seen.lent("answer", Kind::Answer, &answer);
        Ok(seen)
    }

    fn setup(g: &mut Random, a: &Csr, o: &Options, c: usize) -> Result<Seen, String> {
        let was = before(a);
        let (n, e, b) = (a.rows, a.values.len(), o.block);
        let nodes = n.checked_div(b).unwrap_or(0);
        let (mut ints, mut floats) = (Lent::<u32>::roomy(g, nodes + 2 * n + e + 1), Lent::<f64>::roomy(g, n * b + n + e + c * c));
        let (mut work_ints, mut work_floats) = (Lent::<u32>::roomy(g, 8 * n + 4 * e + 16 + 4 * c), Lent::<f64>::roomy(g, 8 * n + 2 * e + c * c + 4 * c));
        let mut record = Lent::<u64>::roomy(g, 15);
        let number = unsafe {
            yelomawin_setup(
                n as u64, a.cols as u64, a.row_ptr.as_ptr(), a.row_ptr.len(), a.col_idx.as_ptr(), a.col_idx.len(), a.values.as_ptr(), e,
                b as u64, o.group as u64, o.aggregation as u64, o.basis as u64, o.policy as u64,
                ints.ptr(), ints.len(), floats.ptr(), floats.len(), work_ints.ptr(), work_ints.len(), work_floats.ptr(), work_floats.len(),
                record.ptr(), record.len(),
            )
        };
        let mut seen = Seen::new(number);
        read(&mut seen, &was, a);
        seen.lent("setup_ints", Kind::Result, &ints);
        seen.lent("setup_floats", Kind::Result, &floats);
        seen.lent("work_ints", Kind::Work, &work_ints);
        seen.lent("work_floats", Kind::Work, &work_floats);
        seen.lent("record", Kind::Answer, &record);
        Ok(seen)
    }

    fn apply(g: &mut Random, record: &[u64], ints: &[u32], floats: &[f64], residual: &[f64]) -> Result<Seen, String> {
        let was = (bits(ints), bits(floats), bits(residual));
        let (mut work, mut z) = (Lent::<f64>::roomy(g, 2 * record[6] as usize), Lent::<f64>::new(g, residual.len()));
        let mut answer = Lent::<u64>::roomy(g, 2);
        let number = unsafe {
            yelomawin_apply(
                record.as_ptr(), record.len(), ints.as_ptr(), ints.len(), floats.as_ptr(), floats.len(),
                residual.as_ptr(), residual.len(), z.ptr(), z.len(), work.ptr(), work.len(), answer.ptr(), answer.len(),
            )
        };
        let mut seen = Seen::new(number);
        seen.read("setup_ints", &was.0, ints);
        seen.read("setup_floats", &was.1, floats);
        seen.read("residual", &was.2, residual);
        seen.lent("correction", Kind::Result, &z);
        seen.lent("work", Kind::Work, &work);
        seen.lent("answer", Kind::Answer, &answer);
        Ok(seen)
    }
}
