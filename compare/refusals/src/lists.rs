//! How long lent lists are, and lists that a call only reads.
pub use lent::{Item, Kind, Lent, Random, Seen, bits, odd};

/// How long a list is that the call needs: as long or up to four longer, one too short at entry, one too short for the coarse part, or none.
#[derive(Clone, Copy, PartialEq, Eq, Debug)]
pub enum Room {
    More,
    Short,
    CoarseShort,
    None,
}

/// Rows, nodes or sizes above their limit are refused before any list is looked at: such a call gets lists as for eight.
pub fn within(x: u64, most: u64) -> u64 {
    if x > most { 8 } else { x }
}

impl Room {
    /// The length for what is needed at entry and for the coarse part.
    pub fn length(self, g: &mut Random, entry: u64, coarse: u64) -> usize {
        let more = g.next() % 5;
        (match self {
            Room::More => entry + coarse + more,
            Room::Short => entry.saturating_sub(1),
            Room::None => 0,
            Room::CoarseShort => (entry + coarse).saturating_sub(1),
        }) as usize
    }
}

/// Lengths of a list that receives values: there may be no room for the first.
pub const ANSWER: [usize; 5] = [0, 1, 2, 3, 5];

/// A list that the call only reads. The shared ones, as long as the limits, are looked at once, at the end of the program.
pub type Read<T> = std::borrow::Cow<'static, [T]>;

pub fn watched<T: Item>(list: &Read<T>) -> Option<Vec<u64>> {
    match list {
        Read::Owned(l) => Some(bits(l)),
        Read::Borrowed(_) => None,
    }
}

pub fn read<T: Item>(seen: &mut Seen, name: &'static str, before: Option<Vec<u64>>, after: &[T]) {
    if let Some(b) = before {
        seen.read(name, &b, after);
    }
}
