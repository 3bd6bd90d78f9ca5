//! What this machine can do at the most, measured in the same run, and from it a time below which no call can be: the longest of three, the numbers that
//! it must read and write once, the additions that wait for one another, and the multiplications with their additions.
use std::hint::black_box;
use std::sync::Mutex;
use std::time::Instant;

fn shortest(runs: usize, mut call: impl FnMut()) -> f64 {
    (0..runs)
        .map(|_| {
            let start = Instant::now();
            call();
            start.elapsed().as_secs_f64() * 1e3
        })
        .fold(f64::INFINITY, f64::min)
}

/// Milliseconds to read a list of so many bytes, sixteen numbers side by side; a list that fits into the cache is read from there.
fn read(bytes: f64) -> f64 {
    static KNOWN: Mutex<Vec<(usize, f64)>> = Mutex::new(Vec::new());
    let numbers = (bytes as usize / 8).clamp(1_024, 1 << 25);
    let mut known = KNOWN.lock().unwrap();
    // Sizes within a tenth of one another share a measurement.
    let per = match known.iter().find(|k| k.0.abs_diff(numbers) * 10 <= numbers) {
        Some(&(_, per)) => per,
        None => {
            let list = vec![1u64; numbers];
            let passes = (1 << 22) / numbers + 1;
            let time = shortest(15, || {
                for _ in 0..passes {
                    let mut all = [0u64; 16];
                    for part in black_box(&list).chunks_exact(16) {
                        for (a, x) in all.iter_mut().zip(part) {
                            *a ^= x;
                        }
                    }
                    black_box(all);
                }
            });
            let per = time / (passes * numbers * 8) as f64;
            known.push((numbers, per));
            per
        }
    };
    bytes * per
}

/// Milliseconds of one addition that waits for the one before it.
fn chained() -> f64 {
    static KNOWN: Mutex<f64> = Mutex::new(0.0);
    let mut known = KNOWN.lock().unwrap();
    if *known == 0.0 {
        let n = 1 << 22;
        *known = shortest(5, || {
            let mut sum = black_box(0.0);
            let step = black_box(1.0);
            for _ in 0..n {
                sum += step;
            }
            black_box(sum);
        }) / n as f64;
    }
    *known
}

/// Milliseconds of one multiplication with its addition, sixteen side by side on numbers at hand.
fn multiplied() -> f64 {
    static KNOWN: Mutex<f64> = Mutex::new(0.0);
    let mut known = KNOWN.lock().unwrap();
    if *known == 0.0 {
        let n = 1 << 20;
        *known = shortest(5, || {
            let mut sums = [0.0f64; 16];
            let factors = black_box([0.5f64; 16]);
            let x = black_box(0.25f64);
            for _ in 0..n {
                for (s, f) in sums.iter_mut().zip(&factors) {
                    *s += f * x;
                }
            }
            black_box(sums);
        }) / (16 * n) as f64;
    }
    *known
}

/// What a call must do: bytes that it reads or writes, additions in one chain, multiplications with an addition each.
#[derive(Clone, Copy, Default)]
pub struct Work {
    pub bytes: f64,
    pub chain: f64,
    pub products: f64,
}

impl Work {
    pub fn bytes(bytes: usize) -> Work {
        Work { bytes: bytes as f64, ..Work::default() }
    }

    pub fn and(self, w: Work) -> Work {
        Work { bytes: self.bytes + w.bytes, chain: self.chain + w.chain, products: self.products + w.products }
    }

    /// Its least time in milliseconds here: the three may overlap.
    pub fn least(self) -> f64 {
        read(self.bytes).max(self.chain * chained()).max(self.products * multiplied())
    }
}

/// A matrix of n rows and e entries, read once.
pub fn matrix(n: usize, e: usize) -> Work {
    Work::bytes(4 * (n + 1) + 12 * e)
}

/// Lists of so many numbers, read or written once.
pub fn floats(count: usize) -> Work {
    Work::bytes(8 * count)
}

pub fn ints(count: usize) -> Work {
    Work::bytes(4 * count)
}

/// Ten rounds over the matrix, each with three vectors; the products with the entries run beside the reading.
pub fn estimate(n: usize, e: usize) -> Work {
    (0..10).fold(floats(2 * n), |w, _| w.and(matrix(n, e)).and(floats(3 * n)))
}

/// The factor of a coarse matrix.
pub fn factor(c: usize) -> Work {
    Work { products: (c as f64).powi(3) / 6.0, ..floats(c * c + c * (c + 1) / 2) }
}

/// c solves, each forward from its unit's row and backward whole.
pub fn inverse(c: usize) -> Work {
    Work { products: (c as f64).powi(3) * 2.0 / 3.0, ..floats(c * c) }
}

/// The coarse solve of an apply: by the factor the backward half is one chain, by the inverse all sums go side by side.
pub fn coarse_solve(c: usize, inverse: bool) -> Work {
    if inverse { floats(c * c) } else { Work { chain: (c * c) as f64 / 2.0, ..floats(c * (c + 1)) } }
}
