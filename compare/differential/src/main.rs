//! The port against the Rust, on the caller's own lists: every bit of every result is compared, NaNs alike, and every element of every list lent,
//! accepted or refused.
mod ours;

fn main() {
    cases::run::main::<ours::OnLists>();
}
