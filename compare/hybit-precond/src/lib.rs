include!(concat!(env!("HYBIT_SRC"), "/crates/hybit-precond/src/lib.rs"));

// A child module sees the private functions and fields of the source above.
pub mod probe;
