//! A call with its lists before and after it, and what document 01 says of them.
use crate::item::{Item, Lent, bits, pattern};

/// What a list is to a call.
#[derive(Clone, Copy, PartialEq, Eq, Debug)]
pub enum Kind {
    Read,
    Result,
    Work,
    Answer,
}

/// A list's elements as bits.
pub struct List {
    pub name: &'static str,
    pub kind: Kind,
    /// How long the call was told it is; what stands behind is not lent.
    pub length: usize,
    pub before: Vec<u64>,
    pub after: Vec<u64>,
    float: bool,
}

/// A call's number, and its lists.
pub struct Seen {
    pub number: u64,
    pub lists: Vec<List>,
}

impl Seen {
    pub fn new(number: u64) -> Seen {
        Seen { number, lists: Vec::new() }
    }
    pub fn lent<T: Item>(&mut self, name: &'static str, kind: Kind, list: &Lent<T>) {
        let (before, after) = (bits(&list.before), bits(&list.list));
        self.lists.push(List { name, kind, length: list.length, before, after, float: T::FLOAT });
    }
    /// A list that the call only reads.
    pub fn read<T: Item>(&mut self, name: &'static str, before: &[u64], after: &[T]) {
        self.lists.push(List { name, kind: Kind::Read, length: after.len(), before: before.to_vec(), after: bits(after), float: T::FLOAT });
    }
    /// What a list holds after the call.
    pub fn left<T: Item>(&self, name: &str) -> Vec<T> {
        let list = self.lists.iter().find(|l| l.name == name).expect("a list of the call");
        list.after[..list.length].iter().map(|&b| T::of(b)).collect()
    }
}

/// What a call must answer: the number, what is returned with it, and the used elements of the result lists of an accepted call.
#[derive(Clone, Debug, Default)]
pub struct Expected {
    pub number: u64,
    pub values: Vec<u64>,
    /// Where nothing but the call itself tells the row that it returns: what the row must be below.
    pub row_below: Option<u64>,
    pub results: Vec<Vec<u64>>,
}

/// 01's column "Left": all kept, or zero. Grouping alone keeps all after 16 too.
pub fn keeps(number: u64) -> bool {
    !(14..=24).contains(&number)
}

/// Every difference between a call and what it must answer. `keeps` is 01's "all" for this number at this entry point.
/// What is kept is kept bit by bit; of what is written, all NaNs are alike.
pub fn differences(seen: &Seen, want: &Expected, keeps: bool) -> Vec<String> {
    let mut found = Vec::new();
    if seen.number != want.number {
        found.push(format!("answers {}, not {}", seen.number, want.number));
    }
    let mut results = want.results.iter();
    for list in &seen.lists {
        // The numbers that it must begin with, before zeros; nothing where it must be as it was.
        let front: Option<&[u64]> = match list.kind {
            Kind::Read => None,
            Kind::Answer => Some(match want.row_below {
                Some(rows) if list.after[..list.length].first().is_some_and(|&row| row < rows) => &list.after[..1],
                _ => &want.values,
            }),
            Kind::Result if want.number == 0 => Some(results.next().expect("a result for each result list")),
            Kind::Work if want.number == 0 => Some(&[]),
            _ if keeps => None,
            _ => Some(&[]),
        };
        let (name, length) = (list.name, list.length);
        if list.kind == Kind::Result && front.is_some_and(|f| f.len() > length) {
            found.push(format!("{name} of {length} has no room for its result"));
        }
        let alike = |a: u64, b: u64| a == b || list.float && pattern(a) == pattern(b);
        let same = |k: usize| match front {
            Some(f) if k < length => alike(list.after[k], f.get(k).copied().unwrap_or(0)),
            _ => list.after[k] == list.before[k],
        };
        if let Some(k) = (0..list.after.len()).find(|&k| !same(k)) {
            let must = front.filter(|_| k < length).map_or(list.before[k], |f| f.get(k).copied().unwrap_or(0));
            found.push(format!("{name}[{k}] of {length} is {:x}, not {must:x}", list.after[k]));
        }
    }
    found
}

#[cfg(test)]
mod tests {
    use super::*;
    use crate::Random;

    /// A call that lends a result list of five, a work list and an answer list of two, and does to them what is asked.
    fn seen(number: u64, result: &[f64], work: f64, answer: [u64; 2]) -> Seen {
        let g = &mut Random(1);
        let (mut r, mut w, mut a) = (Lent::<f64>::new(g, 5), Lent::<f64>::new(g, 1), Lent::<u64>::new(g, 2));
        r.list[..result.len()].copy_from_slice(result);
        w.list[0] = work;
        a.list[..2].copy_from_slice(&answer);
        let mut seen = Seen::new(number);
        seen.lent("result", Kind::Result, &r);
        seen.lent("work", Kind::Work, &w);
        seen.lent("answer", Kind::Answer, &a);
        seen
    }

    #[test]
    fn every_place_counts() {
        let want = Expected { values: vec![7], results: vec![bits(&[1.0, f64::NAN])], ..Expected::default() };
        let found = |s: Seen| differences(&s, &want, true).len();
        let other_nan = f64::from_bits(0xfff4_0000_0000_0001);
        assert_eq!(found(seen(0, &[1.0, other_nan, 0.0, 0.0, 0.0], 0.0, [7, 0])), 0);
        assert_eq!(found(seen(3, &[1.0, other_nan, 0.0, 0.0, 0.0], 0.0, [7, 0])), 1);
        assert_eq!(found(seen(0, &[1.0, 0.0, 0.0, 0.0, 0.0], 0.0, [7, 0])), 1);
        assert_eq!(found(seen(0, &[1.0, f64::NAN, 0.0, 0.0, -0.0], 0.0, [7, 0])), 1);
        assert_eq!(found(seen(0, &[1.0, f64::NAN, 0.0, 0.0], 0.0, [7, 0])), 1);
        // One element behind the end of the list.
        assert_eq!(found(seen(0, &[1.0, f64::NAN, 0.0, 0.0, 0.0, 0.0], 0.0, [7, 0])), 1);
        assert_eq!(found(seen(0, &[1.0, f64::NAN, 0.0, 0.0, 0.0], -0.0, [7, 0])), 1);
        assert_eq!(found(seen(0, &[1.0, f64::NAN, 0.0, 0.0, 0.0], 0.0, [7, 1])), 1);
        let long = Expected { results: vec![vec![0; 6]], ..Expected::default() };
        assert_eq!(differences(&seen(0, &[0.0; 5], 0.0, [0, 0]), &long, true).len(), 1);
    }

    #[test]
    fn refusals_keep_or_clear() {
        let untold = Expected { number: 15, row_below: Some(3), ..Expected::default() };
        let found = |s: Seen, keeps: bool| differences(&s, &untold, keeps).len();
        assert_eq!(found(seen(15, &[0.0; 5], 0.0, [2, 0]), false), 0);
        assert_eq!(found(seen(15, &[0.0; 5], 0.0, [3, 0]), false), 1);
        assert_eq!(found(seen(15, &[0.0; 5], 0.0, [2, 1]), false), 1);
        assert_eq!(found(seen(15, &[0.0; 4], 0.0, [2, 0]), false), 1);
        // Kept is bit by bit: both lists were full of other numbers.
        assert_eq!(found(seen(15, &[0.0; 5], 0.0, [2, 0]), true), 2);
    }
}
