//! The functions. Every `unsafe` is sound as the caller's is: each list goes with its own pointer and length, and nothing else holds those lent for writing.
#![allow(clippy::missing_safety_doc)]
use crate::BROKEN;
use crate::exported::*;
use crate::lists::{Input, Listed, Output};
use lent::{Item, Lent, Random, keeps};
use std::cell::Cell;

thread_local! {
    static SEED: Cell<u64> = const { Cell::new(1) };
}

/// The call where one of the lists does not fit, and then the call itself.
fn twice(mut call: impl FnMut(&mut Random, bool) -> Result<u64, String>) -> u64 {
    let seed = SEED.get();
    SEED.set(seed.wrapping_add(1));
    let g = &mut Random(seed);
    call(g, true).and_then(|_| call(g, false)).unwrap_or_else(|what| {
        eprintln!("on byte lists: {what}");
        BROKEN
    })
}

/// Makes one of the lists one that does not fit.
fn spoil(g: &mut Random, spoiled: bool, lists: &mut [&mut dyn Listed]) {
    if spoiled {
        let k = g.below(lists.len());
        lists[k].spoil(g);
    }
}

/// The number, if every list is what is promised beside it; `all` where a call that was made leaves all.
fn held(call: &str, spoiled: bool, number: u64, all: bool, lists: &[&dyn Listed]) -> Result<u64, String> {
    if spoiled != (number == 254) {
        return Err(format!("{call}: answer {number} where {} list does not fit", if spoiled { "a" } else { "no" }));
    }
    match lists.iter().position(|l| if spoiled { !l.kept() } else { !l.left(all) }) {
        None => Ok(number),
        Some(k) => Err(format!("{call}: list {k} is not what it must be beside answer {number}")),
    }
}

/// Beside 254 a work list is kept; else the caller looks at it.
impl<T: Item> Listed for Lent<T> {
    fn spoil(&mut self, _: &mut Random) {
        unreachable!("no byte list, so none that does not fit")
    }
    fn kept(&self) -> bool {
        Lent::kept(self)
    }
    fn left(&self, _: bool) -> bool {
        self.kept_from(self.len())
    }
}

unsafe fn read<'a, T>(list: *const T, length: usize) -> &'a [T] {
    unsafe { std::slice::from_raw_parts(list, length) }
}

unsafe fn lent<'a, T>(list: *mut T, length: usize) -> &'a mut [T] {
    unsafe { std::slice::from_raw_parts_mut(list, length) }
}

/// A call with numbers and lists, numbers and lists.
macro_rules! called {
    ($f:ident: $($n:expr),*; $($l:expr),*; $($m:expr),*; $($k:expr),*) => {
        unsafe { $f($($n,)* $($l.ptr(), $l.len(),)* $($m,)* $($k.ptr(), $k.len(),)*) }
    };
}

pub unsafe fn yelomawin_root(x: f64) -> f64 {
    f64::from_bits(unsafe { yelomawin_bytes_root(x.to_bits()) })
}

#[allow(clippy::too_many_arguments)]
pub unsafe fn yelomawin_validate(rows: u64, cols: u64, row_ptr: *const u32, l1: usize, col_idx: *const u32, l2: usize, values: *const f64, l3: usize) -> u64 {
    let (row_ptr, col_idx, values) = unsafe { (read(row_ptr, l1), read(col_idx, l2), read(values, l3)) };
    twice(|g, spoiled| {
        let (mut p, mut i, mut v) = (Input::new(g, row_ptr), Input::new(g, col_idx), Input::new(g, values));
        spoil(g, spoiled, &mut [&mut p, &mut i, &mut v]);
        let number = called!(yelomawin_bytes_validate: rows, cols; p.bytes, i.bytes, v.bytes; ; p.room, i.room, v.room);
        held("validate", spoiled, number, keeps(number), &[&p, &i, &v])
    })
}

#[allow(clippy::too_many_arguments)]
pub unsafe fn yelomawin_diagonal(
    rows: u64, cols: u64, row_ptr: *const u32, l1: usize, col_idx: *const u32, l2: usize, values: *const f64, l3: usize,
    diagonal: *mut f64, l4: usize, answer: *mut u64, l5: usize,
) -> u64 {
    let (row_ptr, col_idx, values) = unsafe { (read(row_ptr, l1), read(col_idx, l2), read(values, l3)) };
    let (diagonal, answer) = unsafe { (lent(diagonal, l4), lent(answer, l5)) };
    twice(|g, spoiled| {
        let (mut p, mut i, mut v) = (Input::new(g, row_ptr), Input::new(g, col_idx), Input::new(g, values));
        let (mut d, mut w) = (Output::result(g, diagonal), Output::answer(g, answer));
        spoil(g, spoiled, &mut [&mut p, &mut i, &mut v, &mut d, &mut w]);
        let number = called!(yelomawin_bytes_diagonal: rows, cols; p.bytes, i.bytes, v.bytes; ; p.room, i.room, v.room, d.room, w.room, d.bytes, w.bytes);
        held("diagonal", spoiled, number, keeps(number) && number != 0, &[&p, &i, &v, &d, &w])?;
        d.hand(diagonal);
        w.hand(answer);
        Ok(number)
    })
}

#[allow(clippy::too_many_arguments)]
pub unsafe fn yelomawin_blocks(
    rows: u64, cols: u64, row_ptr: *const u32, l1: usize, col_idx: *const u32, l2: usize, values: *const f64, l3: usize, block_size: u64,
    factors: *mut f64, l4: usize, answer: *mut u64, l5: usize,
) -> u64 {
    let (row_ptr, col_idx, values) = unsafe { (read(row_ptr, l1), read(col_idx, l2), read(values, l3)) };
    let (factors, answer) = unsafe { (lent(factors, l4), lent(answer, l5)) };
    twice(|g, spoiled| {
        let (mut p, mut i, mut v) = (Input::new(g, row_ptr), Input::new(g, col_idx), Input::new(g, values));
        let (mut f, mut w) = (Output::result(g, factors), Output::answer(g, answer));
        spoil(g, spoiled, &mut [&mut p, &mut i, &mut v, &mut f, &mut w]);
        let number = called!(
            yelomawin_bytes_blocks: rows, cols; p.bytes, i.bytes, v.bytes; block_size; p.room, i.room, v.room, f.room, w.room, f.bytes, w.bytes
        );
        held("blocks", spoiled, number, keeps(number) && number != 0, &[&p, &i, &v, &f, &w])?;
        f.hand(factors);
        w.hand(answer);
        Ok(number)
    })
}

#[allow(clippy::too_many_arguments)]
pub unsafe fn yelomawin_block_apply(
    rows: u64, block_size: u64, factors: *const f64, l1: usize, residual: *const f64, l2: usize, correction: *mut f64, l3: usize, answer: *mut u64, l4: usize,
) -> u64 {
    let (factors, residual) = unsafe { (read(factors, l1), read(residual, l2)) };
    let (correction, answer) = unsafe { (lent(correction, l3), lent(answer, l4)) };
    twice(|g, spoiled| {
        let (mut f, mut x) = (Input::new(g, factors), Input::new(g, residual));
        let (mut z, mut w) = (Output::result(g, correction), Output::answer(g, answer));
        spoil(g, spoiled, &mut [&mut f, &mut x, &mut z, &mut w]);
        let number = called!(yelomawin_bytes_block_apply: rows, block_size; f.bytes, x.bytes; ; f.room, x.room, z.room, w.room, z.bytes, w.bytes);
        held("block apply", spoiled, number, keeps(number) && number != 0, &[&f, &x, &z, &w])?;
        z.hand(correction);
        w.hand(answer);
        Ok(number)
    })
}

/// Grouping alone leaves all after every refusal.
#[allow(clippy::too_many_arguments)]
pub unsafe fn yelomawin_group(
    nodes: u64, group_size: u64, offsets: *const u32, l1: usize, neighbours: *const u32, l2: usize,
    ids: *mut u32, l3: usize, work: *mut u32, l4: usize, answer: *mut u64, l5: usize,
) -> u64 {
    let (offsets, neighbours) = unsafe { (read(offsets, l1), read(neighbours, l2)) };
    let (ids, work, answer) = unsafe { (lent(ids, l3), lent(work, l4), lent(answer, l5)) };
    twice(|g, spoiled| {
        let (mut o, mut n) = (Input::new(g, offsets), Input::new(g, neighbours));
        let (mut i, mut w, mut room) = (Output::result(g, ids), Output::answer(g, answer), Lent::holding(g, work));
        spoil(g, spoiled, &mut [&mut o, &mut n, &mut i, &mut w]);
        let number = called!(yelomawin_bytes_group: nodes, group_size; o.bytes, n.bytes; ; o.room, n.room, i.room, room, w.room, i.bytes, w.bytes);
        held("grouping", spoiled, number, number != 0, &[&o, &n, &i, &w, &room])?;
        i.hand(ids);
        w.hand(answer);
        work.copy_from_slice(room.list());
        Ok(number)
    })
}

#[allow(clippy::too_many_arguments)]
pub unsafe fn yelomawin_group_log(
    nodes: u64, group_size: u64, offsets: *const u32, l1: usize, neighbours: *const u32, l2: usize,
    ids: *mut u32, l3: usize, log: *mut u32, l4: usize, work: *mut u32, l5: usize, answer: *mut u64, l6: usize,
) -> u64 {
    let (offsets, neighbours) = unsafe { (read(offsets, l1), read(neighbours, l2)) };
    let (ids, log, work, answer) = unsafe { (lent(ids, l3), lent(log, l4), lent(work, l5), lent(answer, l6)) };
    twice(|g, spoiled| {
        let (mut o, mut n) = (Input::new(g, offsets), Input::new(g, neighbours));
        let (mut i, mut k, mut w) = (Output::result(g, ids), Output::result(g, log), Output::answer(g, answer));
        let mut room = Lent::holding(g, work);
        spoil(g, spoiled, &mut [&mut o, &mut n, &mut i, &mut k, &mut w]);
        let number = called!(
            yelomawin_bytes_group_log: nodes, group_size; o.bytes, n.bytes; ;
            o.room, n.room, i.room, k.room, room, w.room, i.bytes, k.bytes, w.bytes
        );
        held("grouping with a log", spoiled, number, number != 0, &[&o, &n, &i, &k, &w, &room])?;
        i.hand(ids);
        k.hand(log);
        w.hand(answer);
        work.copy_from_slice(room.list());
        Ok(number)
    })
}

#[allow(clippy::too_many_arguments)]
pub unsafe fn yelomawin_estimate(
    rows: u64, cols: u64, row_ptr: *const u32, l1: usize, col_idx: *const u32, l2: usize, values: *const f64, l3: usize,
    diagonal: *const f64, l4: usize, work: *mut f64, l5: usize, answer: *mut u64, l6: usize,
) -> u64 {
    let (row_ptr, col_idx, values, diagonal) = unsafe { (read(row_ptr, l1), read(col_idx, l2), read(values, l3), read(diagonal, l4)) };
    let (work, answer) = unsafe { (lent(work, l5), lent(answer, l6)) };
    twice(|g, spoiled| {
        let (mut p, mut i, mut v, mut d) = (Input::new(g, row_ptr), Input::new(g, col_idx), Input::new(g, values), Input::new(g, diagonal));
        let (mut w, mut room) = (Output::answer(g, answer), Lent::holding(g, work));
        spoil(g, spoiled, &mut [&mut p, &mut i, &mut v, &mut d, &mut w]);
        let number = called!(yelomawin_bytes_estimate: rows, cols; p.bytes, i.bytes, v.bytes, d.bytes; ; p.room, i.room, v.room, d.room, room, w.room, w.bytes);
        held("estimate", spoiled, number, keeps(number) && number != 0, &[&p, &i, &v, &d, &w, &room])?;
        w.hand(answer);
        work.copy_from_slice(room.list());
        Ok(number)
    })
}

#[allow(clippy::too_many_arguments)]
pub unsafe fn yelomawin_setup(
    rows: u64, cols: u64, row_ptr: *const u32, l1: usize, col_idx: *const u32, l2: usize, values: *const f64, l3: usize,
    block_size: u64, group_size: u64, aggregation: u64, basis: u64, coarse_policy: u64,
    setup_ints: *mut u32, l4: usize, setup_floats: *mut f64, l5: usize, work_ints: *mut u32, l6: usize, work_floats: *mut f64, l7: usize, record: *mut u64, l8: usize,
) -> u64 {
    let (row_ptr, col_idx, values) = unsafe { (read(row_ptr, l1), read(col_idx, l2), read(values, l3)) };
    let (setup_ints, setup_floats, work_ints, work_floats, record) =
        unsafe { (lent(setup_ints, l4), lent(setup_floats, l5), lent(work_ints, l6), lent(work_floats, l7), lent(record, l8)) };
    twice(|g, spoiled| {
        let (mut p, mut i, mut v) = (Input::new(g, row_ptr), Input::new(g, col_idx), Input::new(g, values));
        let (mut si, mut sf, mut r) = (Output::result(g, setup_ints), Output::result(g, setup_floats), Output::answer(g, record));
        let (mut wi, mut wf) = (Lent::holding(g, work_ints), Lent::holding(g, work_floats));
        spoil(g, spoiled, &mut [&mut p, &mut i, &mut v, &mut si, &mut sf, &mut r]);
        let number = called!(
            yelomawin_bytes_setup: rows, cols; p.bytes, i.bytes, v.bytes; block_size, group_size, aggregation, basis, coarse_policy;
            p.room, i.room, v.room, si.room, sf.room, wi, wf, r.room, si.bytes, sf.bytes, r.bytes
        );
        held("setup", spoiled, number, keeps(number) && number != 0, &[&p, &i, &v, &si, &sf, &r, &wi, &wf])?;
        si.hand(setup_ints);
        sf.hand(setup_floats);
        r.hand(record);
        work_ints.copy_from_slice(wi.list());
        work_floats.copy_from_slice(wf.list());
        Ok(number)
    })
}

#[allow(clippy::too_many_arguments)]
pub unsafe fn yelomawin_apply(
    record: *const u64, l1: usize, setup_ints: *const u32, l2: usize, setup_floats: *const f64, l3: usize, residual: *const f64, l4: usize,
    correction: *mut f64, l5: usize, work: *mut f64, l6: usize, answer: *mut u64, l7: usize,
) -> u64 {
    let (record, setup_ints, setup_floats, residual) = unsafe { (read(record, l1), read(setup_ints, l2), read(setup_floats, l3), read(residual, l4)) };
    let (correction, work, answer) = unsafe { (lent(correction, l5), lent(work, l6), lent(answer, l7)) };
    twice(|g, spoiled| {
        let (mut r, mut i, mut f, mut x) = (Input::new(g, record), Input::new(g, setup_ints), Input::new(g, setup_floats), Input::new(g, residual));
        let (mut z, mut w, mut room) = (Output::result(g, correction), Output::answer(g, answer), Lent::holding(g, work));
        spoil(g, spoiled, &mut [&mut r, &mut i, &mut f, &mut x, &mut z, &mut w]);
        let number = called!(
            yelomawin_bytes_apply: ; r.bytes, i.bytes, f.bytes, x.bytes; ; r.room, i.room, f.room, x.room, z.room, room, w.room, z.bytes, w.bytes
        );
        held("apply", spoiled, number, keeps(number) && number != 0, &[&r, &i, &f, &x, &z, &w, &room])?;
        z.hand(correction);
        w.hand(answer);
        work.copy_from_slice(room.list());
        Ok(number)
    })
}
