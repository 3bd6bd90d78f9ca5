//! Faults in an entry point's order, each met alone, and each pair of which the earlier must answer.
use crate::lists::{Random, Seen};
use lent::{Expected, differences};

/// An entry point: its input, and how it is called.
pub trait Entry: Clone {
    const NAME: &'static str;
    fn call(&self, g: &mut Random) -> Seen;
    /// 01's column "Left": all kept, or zero.
    fn keeps(number: u64) -> bool {
        lent::keeps(number)
    }
}

/// One way to meet a cause.
pub struct Fault<I> {
    pub cause: u64,
    pub what: &'static str,
    /// Puts the fault into an input without it.
    pub put: Box<dyn Fn(&mut I)>,
    /// Whether an input has it, by 01's words.
    pub shows: Box<dyn Fn(&I) -> bool>,
    /// What is returned with it.
    pub values: Box<dyn Fn(&I) -> Vec<u64>>,
    /// Too large to be paired with every other.
    pub large: bool,
}

impl<I> Fault<I> {
    pub fn new(cause: u64, what: &'static str, put: impl Fn(&mut I) + 'static, shows: impl Fn(&I) -> bool + 'static) -> Fault<I> {
        Fault { cause, what, put: Box::new(put), shows: Box::new(shows), values: Box::new(|_| Vec::new()), large: false }
    }
    pub fn with(mut self, values: impl Fn(&I) -> Vec<u64> + 'static) -> Fault<I> {
        self.values = Box::new(values);
        self
    }
    pub fn large(mut self) -> Fault<I> {
        self.large = true;
        self
    }
}

/// An input with what it must answer.
pub struct Case<I> {
    pub what: String,
    pub input: I,
    pub want: Expected,
    pub large: bool,
}

impl<I> Case<I> {
    pub fn new(what: &str, input: I, number: u64, values: &[u64]) -> Case<I> {
        Case { what: what.into(), input, want: Expected { number, values: values.to_vec(), ..Expected::default() }, large: false }
    }
    pub fn accepted(what: &str, input: I, values: &[u64], results: Vec<Vec<u64>>) -> Case<I> {
        Case { what: what.into(), input, want: Expected { values: values.to_vec(), results, ..Expected::default() }, large: false }
    }
    pub fn large(mut self) -> Case<I> {
        self.large = true;
        self
    }
}

/// The cases of a table of faults: each alone, and the pairs. `places` are in the entry point's order, each with the ways to meet it.
/// `not_had` receives the pairs of places that no two ways give together.
pub fn cases<I: Clone>(base: &I, places: &[Vec<Fault<I>>], not_had: &mut Vec<String>) -> Vec<Case<I>> {
    let mut out = Vec::new();
    let mut case = |what: String, input: I, f: &Fault<I>| {
        let want = Expected { number: f.cause, values: (f.values)(&input), ..Expected::default() };
        out.push(Case { what, input, want, large: f.large });
    };
    for (k, place) in places.iter().enumerate() {
        let first = |f: &Fault<I>, i: &I| (f.shows)(i) && !places[..k].iter().flatten().any(|e| (e.shows)(i));
        for f in place {
            let mut alone = base.clone();
            (f.put)(&mut alone);
            assert!(first(f, &alone), "cause {} ({}) does not show alone", f.cause, f.what);
            case(format!("{} ({})", f.cause, f.what), alone, f);
        }
        for later in &places[k + 1..] {
            let mut had = false;
            for (f, l) in place.iter().flat_map(|f| later.iter().map(move |l| (f, l))).filter(|(f, l)| !f.large && !l.large) {
                let mut both = base.clone();
                (l.put)(&mut both);
                (f.put)(&mut both);
                if first(f, &both) && (l.shows)(&both) {
                    had = true;
                    case(format!("{} ({}) and {} ({})", f.cause, f.what, l.cause, l.what), both, f);
                }
            }
            if !had {
                not_had.push(format!("{} and {}", place[0].cause, later[0].cause));
            }
        }
    }
    out
}

/// What a run over cases found.
#[derive(Default)]
pub struct Tally {
    pub calls: u64,
    pub causes: std::collections::BTreeSet<u64>,
    pub differences: Vec<String>,
}

/// Calls every case, and compares.
pub fn run<I: Entry>(cases: &[Case<I>], g: &mut Random, large: bool, tally: &mut Tally) {
    for case in cases.iter().filter(|c| large || !c.large) {
        let seen = case.input.call(g);
        tally.calls += 1;
        tally.causes.insert(case.want.number);
        for d in differences(&seen, &case.want, I::keeps(case.want.number)) {
            tally.differences.push(format!("{}, {}: {d}", I::NAME, case.what));
        }
    }
}

/// Spoils what was seen of every case, each list in one place and the number, and gives those whose spoiling is not noticed.
pub fn unnoticed<I: Entry>(cases: &[Case<I>], g: &mut Random) -> (u64, Vec<String>) {
    let (mut spoiled, mut out) = (0, Vec::new());
    for case in cases.iter().filter(|c| !c.large) {
        let mut seen = case.input.call(g);
        let notices = |seen: &Seen| !differences(seen, &case.want, I::keeps(case.want.number)).is_empty();
        let mut look = |noticed: bool, what: &str| {
            spoiled += 1;
            if !noticed {
                out.push(format!("{}, {}: {what}", I::NAME, case.what));
            }
        };
        seen.number ^= 1;
        look(notices(&seen), "number");
        seen.number ^= 1;
        for k in 0..seen.lists.len() {
            let length = seen.lists[k].after.len();
            if length > 0 {
                let at = (g.next() % length as u64) as usize;
                seen.lists[k].after[at] ^= 1 << 63;
                look(notices(&seen), seen.lists[k].name);
                seen.lists[k].after[at] ^= 1 << 63;
            }
        }
    }
    (spoiled, out)
}
