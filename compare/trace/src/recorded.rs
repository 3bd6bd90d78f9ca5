//! A number that writes down every rounded result: of +, -, *, / and of the root. What rounds nothing (magnitude, `max`, a sign turned, a
//! whole number made a float) is not written down.
#![allow(non_camel_case_types)]
use std::ops::{Add, AddAssign, Div, DivAssign, Mul, MulAssign, Neg, Sub, SubAssign};
use std::sync::Mutex;

type Plain = core::primitive::f64;

#[derive(Clone, Copy, Debug, Default, PartialEq, PartialOrd)]
pub struct f64(Plain);

/// One for all threads: rayon's do some of the work.
static FORMED: Mutex<Vec<u64>> = Mutex::new(Vec::new());

/// What was written down since this was last asked.
pub fn formed() -> Vec<u64> {
    std::mem::take(&mut *FORMED.lock().unwrap())
}

fn form(x: Plain) -> f64 {
    FORMED.lock().unwrap().push(lent::pattern(x.to_bits()));
    f64(x)
}

impl f64 {
    pub const EPSILON: f64 = f64(Plain::EPSILON);
    pub const MIN_POSITIVE: f64 = f64(Plain::MIN_POSITIVE);

    pub const fn of(x: Plain) -> f64 {
        f64(x)
    }
    pub fn plain(self) -> Plain {
        self.0
    }
    pub fn sqrt(self) -> f64 {
        form(self.0.sqrt())
    }
    pub fn max(self, other: f64) -> f64 {
        f64(self.0.max(other.0))
    }
    pub fn abs(self) -> f64 {
        f64(self.0.abs())
    }
    pub fn narrow(self) -> f32 {
        self.0 as f32
    }
    pub fn is_finite(self) -> bool {
        self.0.is_finite()
    }
    pub fn is_sign_negative(self) -> bool {
        self.0.is_sign_negative()
    }
    pub fn total_cmp(&self, other: &f64) -> std::cmp::Ordering {
        self.0.total_cmp(&other.0)
    }
}

macro_rules! operation {
    ($trait:ident $method:ident $assign_trait:ident $assign_method:ident) => {
        impl $trait for f64 {
            type Output = f64;
            fn $method(self, other: f64) -> f64 {
                form(self.0.$method(other.0))
            }
        }
        impl $trait<&f64> for &f64 {
            type Output = f64;
            fn $method(self, other: &f64) -> f64 {
                form(self.0.$method(other.0))
            }
        }
        impl $assign_trait for f64 {
            fn $assign_method(&mut self, other: f64) {
                *self = form(self.0.$method(other.0));
            }
        }
    };
}
operation!(Add add AddAssign add_assign);
operation!(Sub sub SubAssign sub_assign);
operation!(Mul mul MulAssign mul_assign);
operation!(Div div DivAssign div_assign);

impl Neg for f64 {
    type Output = f64;
    fn neg(self) -> f64 {
        f64(-self.0)
    }
}

/// As the standard library's: from -0 on.
impl std::iter::Sum for f64 {
    fn sum<I: Iterator<Item = f64>>(numbers: I) -> f64 {
        numbers.fold(f64(-0.0), |sum, x| sum + x)
    }
}

impl From<f32> for f64 {
    fn from(x: f32) -> f64 {
        f64(x.into())
    }
}

impl std::fmt::LowerExp for f64 {
    fn fmt(&self, f: &mut std::fmt::Formatter<'_>) -> std::fmt::Result {
        self.0.fmt(f)
    }
}

/// A whole number made a float.
pub trait Whole {
    fn float(self) -> f64;
}

impl Whole for usize {
    fn float(self) -> f64 {
        f64(self as Plain)
    }
}

impl Whole for u16 {
    fn float(self) -> f64 {
        f64(self.into())
    }
}
