//! Lists lent to a call: what fills them, and what they must hold afterwards.
mod item;
mod seen;

pub use item::{Item, Lent, bits, flat, odd, pattern};
pub use random::Random;
pub use seen::{Expected, Kind, List, Seen, differences, keeps};
