//! Lists lent to a call on bytes: an input's bytes with room for what they spell, and a result's room with bytes for it. Bytes and rooms are full
//! of odd numbers, and behind each stand some more that are not lent.
use lent::{Item, Lent, Random, odd, pattern};

/// The bits that may come in for an element: any NaN's for a NaN.
fn coming<T: Item>(x: T, g: &mut Random) -> u64 {
    if T::FLOAT && f64::from_bits(x.bits()).is_nan() {
        g.next() & 0x8000_0000_0000_0000 | 0x7FF0_0000_0000_0001 | g.next() >> 12
    } else {
        x.bits()
    }
}

fn spelled<T: Item>(bits: impl Iterator<Item = u64>) -> Vec<u8> {
    bits.flat_map(|b| b.to_le_bytes().into_iter().take(T::WIDTH)).collect()
}

fn words<T: Item>(bytes: &[u8]) -> impl Iterator<Item = u64> + '_ {
    bytes.chunks_exact(T::WIDTH).map(|b| b.iter().rev().fold(0, |n, &x| n << 8 | x as u64))
}

/// Adds bytes that are no whole number.
fn lengthen<T: Item>(g: &mut Random, bytes: &mut Lent<u8>) {
    let mut list = bytes.list().to_vec();
    let more = 1 + g.below(T::WIDTH - 1);
    list.extend(odd::<u8>(g, more));
    *bytes = Lent::holding(g, &list);
}

/// What is asked of a list of the call.
pub trait Listed {
    /// Makes the list one that does not fit.
    fn spoil(&mut self, g: &mut Random);
    fn kept(&self) -> bool;
    /// Whether it is what a call leaves that was made; `all` where it leaves all.
    fn left(&self, all: bool) -> bool;
}

pub struct Input<T> {
    pub bytes: Lent<u8>,
    pub room: Lent<T>,
}

impl<T: Item> Input<T> {
    pub fn new(g: &mut Random, list: &[T]) -> Input<T> {
        let bits: Vec<u64> = list.iter().map(|&x| coming(x, g)).collect();
        Input { bytes: Lent::holding(g, &spelled::<T>(bits.into_iter())), room: Lent::roomy(g, list.len()) }
    }
}

impl<T: Item> Listed for Input<T> {
    fn spoil(&mut self, g: &mut Random) {
        if self.bytes.is_empty() || g.one_in(2) {
            lengthen::<T>(g, &mut self.bytes);
        } else {
            self.room.shorten(self.bytes.len() / T::WIDTH - 1);
        }
    }
    fn kept(&self) -> bool {
        self.bytes.kept() && self.room.kept()
    }
    fn left(&self, _: bool) -> bool {
        self.bytes.kept() && self.room.cleared()
    }
}

/// A result, or an answer, which is written whatever it is.
pub struct Output<T> {
    pub bytes: Lent<u8>,
    pub room: Lent<T>,
    answer: bool,
}

impl<T: Item> Output<T> {
    /// With the bytes of a list, and up to two numbers more.
    fn over(g: &mut Random, list: &[T], answer: bool) -> Output<T> {
        let mut bytes = spelled::<T>(list.iter().map(|x| x.bits()));
        let more = g.below(3) * T::WIDTH;
        bytes.extend(odd::<u8>(g, more));
        Output { bytes: Lent::holding(g, &bytes), room: Lent::new(g, list.len()), answer }
    }
    pub fn result(g: &mut Random, list: &[T]) -> Output<T> {
        Output::over(g, list, false)
    }
    pub fn answer(g: &mut Random, list: &[T]) -> Output<T> {
        Output::over(g, list, true)
    }
    /// The list becomes what the bytes spell.
    pub fn hand(&self, list: &mut [T]) {
        list.iter_mut().zip(words::<T>(self.bytes.list())).for_each(|(x, b)| *x = T::of(b));
    }
}

impl<T: Item> Listed for Output<T> {
    fn spoil(&mut self, g: &mut Random) {
        if self.room.is_empty() || g.one_in(2) {
            lengthen::<T>(g, &mut self.bytes);
        } else {
            self.bytes.shorten((self.room.len() - 1) * T::WIDTH);
        }
    }
    fn kept(&self) -> bool {
        self.bytes.kept() && self.room.kept()
    }
    fn left(&self, all: bool) -> bool {
        if all && !self.answer {
            return self.kept();
        }
        let rest = &self.bytes.list()[self.room.len() * T::WIDTH..];
        let one_nan = |b: u64| !T::FLOAT || b == pattern(b);
        self.room.cleared() && self.bytes.kept_from(self.bytes.len()) && rest.iter().all(|&b| b == 0) && words::<T>(self.bytes.list()).all(one_nan)
    }
}

#[cfg(test)]
mod tests {
    use super::*;

    /// Changes one byte or element, also behind the end, and asks that it be noticed; `left` as given by `all`.
    fn notices<T: Item>(list: &mut Lent<T>, k: usize, x: T) -> T {
        unsafe { list.ptr().add(k).replace(x) }
    }

    #[test]
    fn inputs_are_kept_and_their_rooms_cleared() {
        let g = &mut Random(1);
        let mut x = Input::<f64>::new(g, &[1.0, f64::NAN]);
        assert!(x.kept() && !x.left(false) && !x.left(true));
        for k in 0..x.room.len() {
            notices(&mut x.room, k, 0.0);
        }
        assert!(x.left(false) && x.left(true) && !x.kept());
        for k in 0..x.room.len() + 4 {
            let was = notices(&mut x.room, k, -2.5);
            assert!(!x.left(true));
            notices(&mut x.room, k, was);
        }
        for k in 0..x.bytes.len() + 4 {
            let was = notices(&mut x.bytes, k, 0xA4);
            assert!(was == 0xA4 || !x.left(true));
            notices(&mut x.bytes, k, was);
        }
    }

    #[test]
    fn results_are_written_or_kept() {
        let g = &mut Random(1);
        // A NaN with a payload, which no call that keeps it may touch.
        let list = [f64::from_bits(0xfff4_0000_0000_0001), 3.0];
        let mut x = Output::result(g, &list);
        assert!(x.left(true) && !x.left(false));
        for k in 0..x.bytes.len() + 4 {
            let was = notices(&mut x.bytes, k, 0xA4);
            assert!(was == 0xA4 || !x.left(true));
            notices(&mut x.bytes, k, was);
        }
        for k in 0..x.bytes.len() {
            notices(&mut x.bytes, k, 0);
        }
        assert!(!x.left(false));
        for k in 0..x.room.len() {
            notices(&mut x.room, k, 0.0);
        }
        assert!(x.left(false) && !x.left(true));
        for k in x.room.len() * 8..x.bytes.len() + 4 {
            let was = notices(&mut x.bytes, k, 0xA4);
            assert!(was == 0xA4 || !x.left(false));
            notices(&mut x.bytes, k, was);
        }
        // An infinity that one more bit makes a NaN other than 7FF8000000000000.
        for (k, b) in [(7, 0x7F), (6, 0xF0)] {
            notices(&mut x.bytes, k, b);
        }
        assert!(x.left(false));
        notices(&mut x.bytes, 0, 1);
        assert!(!x.left(false));
    }
}
