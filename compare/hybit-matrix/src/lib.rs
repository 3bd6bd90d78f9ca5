pub mod csr32 {
    include!(concat!(env!("HYBIT_SRC"), "/crates/hybit-matrix/src/csr32.rs"));
}
pub use csr32::Csr32Matrix;

use hybit_core::HybitError;
mod abtm;
pub use abtm::AbtmTopology;
