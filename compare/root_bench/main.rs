// Compares yelomawin_root with the Rust's sqrt, which is the hardware's, bit for bit, holds both to published roots, and times both beside
// integer roots that use no table.
// Usage: root_bench compare COUNT [SEED]     exits with 1 at the first difference; all NaNs are alike
//        root_bench time
use std::hint::black_box;
use std::process::exit;
use std::time::{Instant, SystemTime, UNIX_EPOCH};

extern "C" {
    fn yelomawin_root(x: f64) -> f64;
}

fn ours(x: f64) -> f64 {
    unsafe { yelomawin_root(x) }
}

#[inline(never)]
fn hardware(x: f64) -> f64 {
    x.sqrt()
}

const DIGITS: u64 = (1 << 52) - 1;
const INFINITY: u64 = 0x7ff0_0000_0000_0000;

// ---- integer roots without a table, correctly rounded

// A positive finite number's significand, of 53 or 54 bits, and half its exponent.
fn split(x: f64) -> (u64, i32) {
    let b = x.to_bits();
    let (m, e) = if b >> 52 == 0 {
        let z = b.leading_zeros() - 11;
        (b << z, -1022 - z as i32)
    } else {
        ((b & DIGITS) | (1 << 52), (b >> 52) as i32 - 1023)
    };
    (if e & 1 == 0 { m } else { m << 1 }, e >> 1)
}

fn joined(half: i32, q: u64) -> f64 {
    f64::from_bits((((half + 1022) as u64) << 52) + q)
}

fn special(x: f64) -> Option<f64> {
    let b = x.to_bits();
    if b << 1 == 0 || b == INFINITY || x != x {
        Some(x)
    } else if b > INFINITY {
        Some(f64::NAN)
    } else {
        None
    }
}

// One digit a step.
#[inline(never)]
fn by_digits(x: f64) -> f64 {
    if let Some(r) = special(x) {
        return r;
    }
    let (a, half) = split(x);
    let (mut left, mut twice, mut q, mut bit) = (a << 1, 0u64, 0u64, 1u64 << 53);
    while bit != 0 {
        let t = twice + bit;
        if t <= left {
            twice = t + bit;
            left -= t;
            q += bit;
        }
        left <<= 1;
        bit >>= 1;
    }
    joined(half, (q >> 1) + (q & 1))
}

// Newton's steps from a power of two to the whole root of a, then one division for the other 26 digits.
#[inline(never)]
fn by_newton(x: f64) -> f64 {
    if let Some(r) = special(x) {
        return r;
    }
    let (a, half) = split(x);
    let mut s = 1u64 << 27;
    loop {
        let t = (s + a / s) / 2;
        if t >= s {
            break;
        }
        s = t;
    }
    let n = (a - s * s) << 26;
    let (q, u) = (n / (2 * s), (n % (2 * s)) << 26);
    let (mut c, mut r) = ((s << 26) + q, u);
    if r < q * q {
        r += 2 * c - 1;
        c -= 1;
    }
    joined(half, if r - q * q > c { c + 1 } else { c })
}

// ---- numbers to try

struct Random(u64);

impl Random {
    fn next(&mut self) -> u64 {
        self.0 = self.0.wrapping_add(0x9e37_79b9_7f4a_7c15);
        let z = (self.0 ^ (self.0 >> 30)).wrapping_mul(0xbf58_476d_1ce4_e5b9);
        let z = (z ^ (z >> 27)).wrapping_mul(0x94d0_49bb_1331_11eb);
        z ^ (z >> 31)
    }
}

struct Compared {
    count: u64,
    seed: u64,
}

impl Compared {
    fn one(&mut self, bits: u64) {
        let x = f64::from_bits(bits);
        let (r, h) = (ours(x), x.sqrt());
        self.count += 1;
        if r.to_bits() != h.to_bits() && !(r.is_nan() && h.is_nan()) {
            println!("differs: root of {bits:016x}: {:016x}, hardware {:016x} (seed {})", r.to_bits(), h.to_bits(), self.seed);
            exit(1);
        }
    }

    // with its neighbours
    fn near(&mut self, bits: u64) {
        for d in [-2i64, -1, 0, 1, 2] {
            self.one(bits.wrapping_add(d as u64));
        }
    }
}

// a significand of 53 or 54 bits at a random even exponent
fn placed(a: u64, r: &mut Random) -> u64 {
    let e = 2 * (r.next() % 1000) + 20;
    let (m, up) = if a >> 53 == 0 { (a, 1) } else { (a >> 1, 2) };
    ((e + up) << 52) + (m & DIGITS)
}

// Patterns in pairs, a number and its root, as crates/root_vectors has them.
fn published() -> u64 {
    let text = include_str!("../../crates/root_vectors/src/published.rt");
    let digits = text.split("0x").skip(1).map(|t| t.chars().take_while(|c| c.is_ascii_hexdigit() || *c == '_').filter(|c| *c != '_').collect::<String>());
    let patterns: Vec<u64> = digits.map(|d| u64::from_str_radix(&d, 16).unwrap()).collect();
    for pair in patterns.chunks(2) {
        let x = f64::from_bits(pair[0]);
        if ours(x).to_bits() != pair[1] || x.sqrt().to_bits() != pair[1] {
            println!("differs: root of {:016x}: {:016x}, hardware {:016x}, published {:016x}", pair[0], ours(x).to_bits(), x.sqrt().to_bits(), pair[1]);
            exit(1);
        }
    }
    patterns.len() as u64 / 2
}

fn compare(count: u64, seed: u64) {
    println!("{} published roots are ours and the hardware's", published());
    let mut r = Random(seed);
    let mut c = Compared { count: 0, seed };
    // every exponent, with both ends of its significands and random ones, of both signs
    for e in 0..2048u64 {
        for s in [0, 1u64 << 63] {
            c.near(s + (e << 52));
            c.near(s + (e << 52) + DIGITS);
            for _ in 0..16 {
                c.one(s + (e << 52) + (r.next() & DIGITS));
            }
        }
    }
    // subnormals: every number of leading zeros
    for z in 12..64u32 {
        c.near(1u64 << (63 - z));
        for _ in 0..200 {
            c.one((r.next() >> z) | (1u64 << (63 - z)));
        }
    }
    // both edges of every entry of the table, for even and odd exponents
    for k in 64..257u64 {
        for a in [(k << 46) - 1, k << 46, (k << 46) + 1, (k << 46) + 2] {
            if a >= 1 << 52 && a < 1 << 54 {
                c.near(placed(a, &mut r));
            }
        }
    }
    // in thirds: squares and their neighbours, the middles between two roots, any bits
    while c.count < count {
        let s = (1u64 << 26) + r.next() % ((1 << 26) + 1);
        let a = s * s;
        c.near(placed(a.min((1 << 54) - 1), &mut r));
        let q = (1u128 << 52) + (r.next() & DIGITS) as u128;
        let a = ((q * q + q) >> 52) as u64;
        c.near(placed(a, &mut r));
        for _ in 0..5 {
            c.one(r.next());
        }
    }
    println!("{} roots are the hardware's, bit for bit (seed {seed})", c.count);
}

// ---- times

fn shortest(mut run: impl FnMut() -> u64) -> f64 {
    (0..15).map(|_| {
        let start = Instant::now();
        let n = run();
        start.elapsed().as_nanos() as f64 / n as f64
    }).fold(f64::MAX, f64::min)
}

fn time() {
    let mut r = Random(1);
    let xs: Vec<f64> = (0..1 << 16).map(|_| f64::from_bits(r.next() % INFINITY)).collect();
    let roots: [(&str, fn(f64) -> f64); 4] = [("ours", ours), ("hardware", hardware), ("one digit a step", by_digits), ("Newton, no table", by_newton)];
    for &x in &xs {
        for (name, f) in roots {
            if f(x).to_bits() != x.sqrt().to_bits() {
                println!("differs: {name} at {:016x}", x.to_bits());
                exit(1);
            }
        }
    }
    println!("{} random positive finite numbers, shortest of 15 runs, nanoseconds a root", xs.len());
    println!("{:18} {:>12} {:>8} {:>18} {:>8}", "", "independent", "/ ours", "one after another", "/ ours");
    let mut first = (0.0, 0.0);
    for (name, f) in roots {
        let apart = shortest(|| {
            for &x in &xs {
                black_box(f(black_box(x)));
            }
            xs.len() as u64
        });
        let chained = shortest(|| {
            let mut last = 0u64;
            for &x in &xs {
                last = f(f64::from_bits(x.to_bits() ^ (last & 1))).to_bits();
            }
            black_box(last);
            xs.len() as u64
        });
        if first.0 == 0.0 {
            first = (apart, chained);
        }
        println!("{name:18} {apart:12.2} {:8.2} {chained:18.2} {:8.2}", apart / first.0, chained / first.1);
    }
}

fn main() {
    let args: Vec<String> = std::env::args().collect();
    let number = |i: usize| args.get(i).and_then(|s| s.parse::<u64>().ok());
    match args.get(1).map(|s| s.as_str()) {
        Some("compare") => {
            let clock = SystemTime::now().duration_since(UNIX_EPOCH).unwrap().as_nanos() as u64;
            compare(number(2).unwrap_or(1_000_000), number(3).unwrap_or(clock));
        }
        Some("time") => time(),
        _ => {
            println!("usage: root_bench compare COUNT [SEED] | root_bench time");
            exit(2);
        }
    }
}
