//! Elements and lists of them.
use crate::Random;

/// An element of a list.
pub trait Item: Copy + Default + 'static {
    /// Bytes of one.
    const WIDTH: usize;
    const FLOAT: bool = false;
    /// One to fill a list with. No such element is zero: a zero has been written.
    fn odd(g: &mut Random) -> Self;
    fn bits(self) -> u64;
    fn of(bits: u64) -> Self;
}

impl Item for u8 {
    const WIDTH: usize = 1;
    fn odd(g: &mut Random) -> u8 {
        (g.next() >> 24) as u8 | 1
    }
    fn bits(self) -> u64 {
        self as u64
    }
    fn of(bits: u64) -> u8 {
        bits as u8
    }
}

impl Item for u32 {
    const WIDTH: usize = 4;
    fn odd(g: &mut Random) -> u32 {
        g.next() as u32 | 1
    }
    fn bits(self) -> u64 {
        self as u64
    }
    fn of(bits: u64) -> u32 {
        bits as u32
    }
}

impl Item for u64 {
    const WIDTH: usize = 8;
    fn odd(g: &mut Random) -> u64 {
        g.next() | 1
    }
    fn bits(self) -> u64 {
        self
    }
    fn of(bits: u64) -> u64 {
        bits
    }
}

impl Item for f64 {
    const WIDTH: usize = 8;
    const FLOAT: bool = true;
    fn odd(g: &mut Random) -> f64 {
        let payload = f64::from_bits(0xfff4_0000_0000_0001);
        g.pick(&[f64::NAN, payload, f64::INFINITY, f64::NEG_INFINITY, -0.0, 5e-324, -3e300, 1.5])
    }
    fn bits(self) -> u64 {
        self.to_bits()
    }
    fn of(bits: u64) -> f64 {
        f64::from_bits(bits)
    }
}

/// A float's bits, every NaN as 7FF8000000000000.
pub fn pattern(bits: u64) -> u64 {
    if f64::from_bits(bits).is_nan() { 0x7FF8_0000_0000_0000 } else { bits }
}

pub fn odd<T: Item>(g: &mut Random, count: usize) -> Vec<T> {
    (0..count).map(|_| T::odd(g)).collect()
}

pub fn bits<T: Item>(list: &[T]) -> Vec<u64> {
    list.iter().map(|x| x.bits()).collect()
}

/// Lists one after the other: where each begins and the last ends, and their elements.
pub fn flat<T: Copy>(lists: &[impl AsRef<[T]>]) -> (Vec<u32>, Vec<T>) {
    let (mut offsets, mut all) = (vec![0], Vec::new());
    for l in lists {
        all.extend_from_slice(l.as_ref());
        offsets.push(all.len() as u32);
    }
    (offsets, all)
}

/// A list lent for writing, full of odd numbers, with some more behind its end that are not lent.
pub struct Lent<T> {
    pub(crate) list: Vec<T>,
    pub(crate) before: Vec<T>,
    pub(crate) length: usize,
}

impl<T: Item> Lent<T> {
    pub fn new(g: &mut Random, length: usize) -> Lent<T> {
        let list = odd(g, length + 4);
        Lent { before: list.clone(), list, length }
    }
    /// With what it holds.
    pub fn holding(g: &mut Random, list: &[T]) -> Lent<T> {
        let mut x = Lent::new(g, list.len());
        x.list[..list.len()].copy_from_slice(list);
        x.before = x.list.clone();
        x
    }
    /// As long as needed, or up to three elements longer.
    pub fn roomy(g: &mut Random, need: usize) -> Lent<T> {
        let more = g.below(4);
        Lent::new(g, need + more)
    }
    pub fn ptr(&mut self) -> *mut T {
        self.list.as_mut_ptr()
    }
    pub fn len(&self) -> usize {
        self.length
    }
    pub fn is_empty(&self) -> bool {
        self.length == 0
    }
    /// What is lent.
    pub fn list(&self) -> &[T] {
        &self.list[..self.length]
    }
    /// Makes the list lent a shorter one.
    pub fn shorten(&mut self, length: usize) {
        assert!(length < self.length);
        self.length = length;
    }
    /// Whether what is lent is zero, and what stands behind it as it was.
    pub fn cleared(&self) -> bool {
        self.list().iter().all(|x| x.bits() == 0) && self.kept_from(self.length)
    }
    /// Whether the list is what it was, bit by bit.
    pub fn kept(&self) -> bool {
        self.kept_from(0)
    }
    /// Whether it is from element k on, with what stands behind its end.
    pub fn kept_from(&self, k: usize) -> bool {
        self.list[k..].iter().zip(&self.before[k..]).all(|(a, b)| a.bits() == b.bits())
    }
}
