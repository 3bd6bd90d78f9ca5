//! Why a call was refused, in words that a person can act on.
use std::fmt;

macro_rules! causes {
    ($($number:literal $name:ident $({ $($field:ident),* })? $text:literal)*) => {
        /// A cause of refusal. What a variant holds is what the library returns with its number; rows count from 0.
        #[derive(Clone, Copy, Debug, PartialEq, Eq)]
        #[non_exhaustive]
        pub enum Refusal {
            $(#[doc = $text] $name $({ $($field: u64),* })?,)*
        }

        impl Refusal {
            /// The cause of a number that the library answered, with the values returned beside it.
            pub fn from_number(number: u64, values: &[u64]) -> Option<Refusal> {
                let mut values = values.iter().copied();
                let mut next = || values.next().unwrap_or(0);
                match number {
                    $($number => Some(Refusal::$name $({ $($field: next()),* })?),)*
                    _ => None,
                }
            }

            /// The number by which the library and its papers call the cause.
            pub fn number(&self) -> u64 {
                match self {
                    $(Refusal::$name { .. } => $number,)*
                }
            }
        }

        impl fmt::Display for Refusal {
            fn fmt(&self, f: &mut fmt::Formatter<'_>) -> fmt::Result {
                match *self {
                    $(Refusal::$name $({ $($field),* })? => write!(f, $text),)*
                }?;
                write!(f, " (cause {})", self.number())
            }
        }
    };
}

causes! {
    1 TooLarge "too large: at most 1,048,576 rows, columns or nodes and 16,777,216 entries or neighbours are taken"
    2 RowListLength "the list of row pointers must have one element more than there are rows"
    3 ColumnListLength "the lists of columns and values must be equally long"
    4 FirstPointer "the first row pointer must be 0"
    5 LastPointer "the last row pointer must be the number of entries"
    6 PointerFalls "a row pointer is smaller than the one before it: rows must follow each other"
    7 ColumnOutside "a column is not below the number of columns: columns count from 0"
    8 ValueNotFinite "a value is NaN or infinite"
    9 NotSquare "the matrix must have as many rows as columns"
    10 BlockSize "the block size (unknowns a node) must be 1 to 8"
    11 GroupSize "the group size (nodes a group) must be 1 to 1,048,576"
    12 NotMultiple "the number of rows must be a multiple of the block size: every node has as many unknowns"
    13 ListTooShort "a list lent to the call is too short"
    14 BlockNotSymmetric { row } "the diagonal block that begins at matrix row {row} is not symmetric: are both halves of the matrix stored, and stored once?"
    15 BlockPivot { row } "the pivot of matrix row {row} is not above 1e-14 times the largest entry of its diagonal block (taken as 1 if it is smaller): is the node supported, and is the matrix positive definite? If its units are only very small, scale the matrix up"
    16 NoNode "there is no node to group"
    17 CoarseTooLarge { dimension } "the coarse dimension (groups times block size) would be {dimension}, above 2,048: choose a larger group size (grouping along the entries makes a group at least for each part that nothing links to the rest)"
    18 CoarseListTooShort { dimension } "a list lent to the call is too short for the coarse dimension {dimension}"
    19 MissingDiagonal { row } "matrix row {row} stores no diagonal entry"
    20 ZeroDiagonal { row } "the diagonal at matrix row {row} is zero or not finite"
    21 NegativeDiagonal { row } "the diagonal at matrix row {row} is negative"
    22 EstimateFailed { stage } "the spectral radius could not be estimated: stage {stage} (1 starting norm, 2 a round's norm, 3 the radius, 4 the damping factor) came out zero, negative or not finite"
    23 CoarseScale "the coarse matrix holds nothing but zeros and NaNs, or an infinite number: scale the matrix"
    24 CoarsePivot { row } "the pivot of row {row} of the coarse matrix is not above 1e-14 times its largest entry (taken as 1 if it is smaller): is the matrix positive definite? If its units are only very small, scale the matrix up"
    25 WrongLength { expected, actual } "a vector has {actual} numbers where {expected} are expected"
    26 SetupMisfit "the setup's record and its lists do not fit each other"
    27 NeighbourOffsets "the neighbour offsets must be one more than the nodes, begin at 0, never fall and end at the number of neighbours"
    28 NeighbourOutside "a neighbour is not below the number of nodes: nodes count from 0"
    29 LogTooShort "the list for the log of joinings must have three elements for each node (only callers from C can meet this)"
    255 NoPolicy "a number given for a policy names none (only callers from C can meet this)"
}

impl std::error::Error for Refusal {}

/// What the library answered, as a result.
pub(crate) fn answered(number: u64, values: &[u64]) -> Result<(), Refusal> {
    match number {
        0 => Ok(()),
        n => Err(Refusal::from_number(n, values).expect("the library answers 0, 1 to 29 or 255")),
    }
}

#[cfg(test)]
mod tests {
    use super::*;

    #[test]
    fn every_number_has_its_message() {
        for n in (1..=29).chain([255]) {
            let r = Refusal::from_number(n, &[7, 9]).unwrap();
            assert_eq!(r.number(), n);
            let said = r.to_string();
            assert!(said.ends_with(&format!(" (cause {n})")) && !said.contains('{'), "{said}");
        }
        for n in [0, 30, 254, 256, u64::MAX] {
            assert_eq!(Refusal::from_number(n, &[]), None);
        }
    }

    #[test]
    fn messages_name_what_was_returned() {
        let said = |n, values: &[u64]| Refusal::from_number(n, values).unwrap().to_string();
        for n in [14, 15, 19, 20, 21, 24] {
            assert!(said(n, &[41]).contains("row 41"), "{}", said(n, &[41]));
        }
        assert!(said(17, &[3000]).contains("would be 3000, above 2,048: choose a larger group size"));
        assert!(said(18, &[600]).contains("coarse dimension 600"));
        assert!(said(22, &[3]).contains("stage 3 "));
        assert_eq!(said(25, &[6, 5]), "a vector has 5 numbers where 6 are expected (cause 25)");
    }
}
