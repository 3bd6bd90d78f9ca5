// A stand-in for a file that is not published with the sources: only a preconditioner that document 01 leaves out calls it.
use super::{Csr32Matrix, HybitError};

pub struct AbtmTopology;
pub struct AbtmRow;
pub struct AbtmWord;

impl AbtmTopology {
    pub fn from_csr32(_: &Csr32Matrix) -> Result<Self, HybitError> {
        unimplemented!()
    }
    pub fn nrows(&self) -> usize {
        unimplemented!()
    }
    pub fn nonempty_words(&self) -> usize {
        unimplemented!()
    }
    pub fn row(&self, _: usize) -> Result<AbtmRow, HybitError> {
        unimplemented!()
    }
}

impl AbtmRow {
    pub fn words(&self) -> Vec<AbtmWord> {
        unimplemented!()
    }
}

impl AbtmWord {
    pub fn mask(&self) -> u64 {
        unimplemented!()
    }
    pub fn word_index(&self) -> u32 {
        unimplemented!()
    }
}
