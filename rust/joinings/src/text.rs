//! A graph as the grouping program reads it.
use yelomawin::Refusal;

const MOST_NODES: u32 = 256;
const MOST_NEIGHBOURS: u32 = 2048;

pub struct Graph {
    pub group_size: u32,
    pub offsets: Vec<u32>,
    pub neighbours: Vec<u32>,
}

/// A number of any length; one that is too large for anything stays too large.
fn number(digits: &[u8]) -> u32 {
    digits.iter().fold(0, |n: u32, b| n.saturating_mul(10).saturating_add((b - b'0') as u32))
}

/// The numbers of a text, up to the first byte that is neither digit nor white space; what is not read yet.
struct Numbers<'a>(&'a [u8]);

impl Iterator for Numbers<'_> {
    type Item = u32;
    fn next(&mut self) -> Option<u32> {
        let blank = |b: &u8| b" \t\n\r".contains(b);
        let start = self.0.iter().position(|b| !blank(b)).unwrap_or(self.0.len());
        let rest = &self.0[start..];
        let end = rest.iter().position(|b| !b.is_ascii_digit()).unwrap_or(rest.len());
        // A byte that is neither ends the reading, with the number that it stands behind.
        if end == 0 || rest.get(end).is_some_and(|b| !blank(b)) {
            self.0 = rest;
            return None;
        }
        self.0 = &rest[end..];
        Some(number(&rest[..end]))
    }
}

/// Nodes, group size, what each node lists, and nothing behind it.
pub fn read(text: &[u8]) -> Result<Graph, Refusal> {
    let mut numbers = Numbers(text);
    let mut next = || numbers.next().ok_or(Refusal::NeighbourOffsets);
    let nodes = next()?;
    if nodes > MOST_NODES {
        return Err(Refusal::TooLarge);
    }
    let mut graph = Graph { group_size: next()?, offsets: vec![0], neighbours: Vec::new() };
    for _ in 0..nodes {
        let count = next()?;
        if count > MOST_NEIGHBOURS - graph.neighbours.len() as u32 {
            return Err(Refusal::TooLarge);
        }
        for _ in 0..count {
            graph.neighbours.push(next()?);
        }
        graph.offsets.push(graph.neighbours.len() as u32);
    }
    match numbers.next() {
        None if numbers.0.is_empty() => Ok(graph),
        _ => Err(Refusal::NeighbourOffsets),
    }
}

#[cfg(test)]
mod tests {
    use super::*;

    #[test]
    fn graphs_and_what_is_none() {
        let graph = read(b" 2\t3\r\n1 1\n000 ").unwrap();
        assert_eq!((graph.group_size, &graph.offsets[..], &graph.neighbours[..]), (3, &[0, 1, 1][..], &[1][..]));
        let cause = |text: &str| read(text.as_bytes()).err().map(|r| r.number());
        for malformed in ["", "1", "1 2", "1 2 1", "1 2 0 5", "1 2 x", "1 2 0x", "1 2 0 x", "-1 2", "1 2 0\u{c}"] {
            assert_eq!(cause(malformed), Some(27), "{malformed}");
        }
        for large in ["257", "257 x", "99999999999999999999", "1 1 2049", "2 1 1 0 2048", "1 1 99999999999999999999"] {
            assert_eq!(cause(large), Some(1), "{large}");
        }
        // Numbers that no call takes are left to the call.
        assert_eq!((cause("0 0"), cause("1 99999999999 1 99999999999")), (None, None));
    }
}
