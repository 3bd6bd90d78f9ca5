//! Growth and joining by the words of documents 01 and 02 alone, with the log of the joinings: a second program beside the Rust, which keeps
//! no log. It has nothing in common with the port but the papers.
use std::collections::{BTreeMap, VecDeque};

/// The groups after joining, and the log: the group that moved, its taker, both as grown, and the rule.
pub struct Joined {
    pub ids: Vec<u32>,
    pub count: usize,
    pub log: Vec<[u32; 3]>,
    /// Rounds that joined something.
    pub rounds: usize,
}

/// From each ungrouped node in turn, first in first out, until the group size is reached.
fn grown(lists: &[Vec<u32>], size: usize) -> Vec<Vec<usize>> {
    let mut grouped = vec![false; lists.len()];
    let mut groups = Vec::new();
    for first in 0..lists.len() {
        if grouped[first] {
            continue;
        }
        let (mut members, mut queue) = (Vec::new(), VecDeque::from([first]));
        while members.len() < size
            && let Some(v) = queue.pop_front()
        {
            if !grouped[v] {
                grouped[v] = true;
                members.push(v);
                queue.extend(lists[v].iter().map(|&w| w as usize));
            }
        }
        groups.push(members);
    }
    groups
}

/// The group that a group joins, and the rule: its candidates, with edges and members, thin out until one is left.
fn taker(edges: &BTreeMap<usize, usize>, members: impl Fn(usize) -> usize) -> Option<(usize, u32)> {
    let mut left: Vec<usize> = edges.keys().copied().collect();
    if left.len() <= 1 {
        return left.first().map(|&only| (only, 1));
    }
    let most = left.iter().map(|g| edges[g]).max()?;
    left.retain(|g| edges[g] == most);
    if left.len() == 1 {
        return Some((left[0], 2));
    }
    let fewest = left.iter().map(|&g| members(g)).min()?;
    left.retain(|&g| members(g) == fewest);
    Some((*left.iter().min()?, if left.len() == 1 { 3 } else { 4 }))
}

pub fn joined(lists: &[Vec<u32>], size: usize) -> Joined {
    let mut groups = grown(lists, size);
    let floor = (size / 4).max(1);
    let mut group_of = vec![0; lists.len()];
    for (g, members) in groups.iter().enumerate() {
        members.iter().for_each(|&v| group_of[v] = g);
    }
    let (mut log, mut rounds) = (Vec::new(), 0);
    loop {
        let before = log.len();
        for g in 0..groups.len() {
            if groups[g].is_empty() || groups[g].len() >= floor {
                continue;
            }
            let mut edges = BTreeMap::new();
            for &w in groups[g].iter().flat_map(|&v| &lists[v]) {
                if group_of[w as usize] != g {
                    *edges.entry(group_of[w as usize]).or_insert(0) += 1;
                }
            }
            if let Some((to, rule)) = taker(&edges, |h| groups[h].len()) {
                let members = std::mem::take(&mut groups[g]);
                members.iter().for_each(|&v| group_of[v] = to);
                groups[to].extend(members);
                log.push([g as u32, to as u32, rule]);
            }
        }
        if log.len() == before {
            break;
        }
        rounds += 1;
    }
    let mut numbers = BTreeMap::new();
    let ids = group_of.iter().map(|g| { let next = numbers.len() as u32; *numbers.entry(*g).or_insert(next) }).collect();
    Joined { ids, count: numbers.len(), log, rounds }
}

/// What a run has met.
#[derive(Default)]
pub struct Met {
    /// Joinings by each rule.
    rules: [u64; 4],
    /// Graphs of three rounds or more.
    three_rounds: u64,
}

impl Met {
    pub fn add(&mut self, plain: &Joined) {
        plain.log.iter().for_each(|place| self.rules[place[2] as usize - 1] += 1);
        self.three_rounds += (plain.rounds >= 3) as u64;
    }
    /// Whether there were more than so many joinings by each rule, and graphs of three rounds.
    pub fn above(&self, least: u64) -> bool {
        self.rules.iter().all(|&n| n > least) && self.three_rounds > least
    }
}

impl std::fmt::Display for Met {
    fn fmt(&self, f: &mut std::fmt::Formatter) -> std::fmt::Result {
        let [only, edges, members, id] = self.rules;
        write!(f, "joinings by rule 1 ({only}), 2 ({edges}), 3 ({members}), 4 ({id}), {} graphs of three rounds or more", self.three_rounds)
    }
}

#[cfg(test)]
mod tests {
    use super::*;
    use crate::answers::{Answer, answer};
    use crate::{Case, draw, examples};

    /// What the log's examples say, and the Rust's groups.
    #[test]
    fn the_examples() {
        let logs: [(&str, &[[u32; 3]], usize); 9] = [
            ("path_5_size_2", &[], 0),
            ("path_8_size_7", &[], 0),
            ("path_9_size_8", &[[1, 0, 1]], 1),
            ("one_node", &[], 0),
            ("one_way", &[[1, 0, 1]], 1),
            ("fewer_members", &[[2, 1, 3]], 1),
            ("most_edges", &[[2, 0, 2]], 1),
            ("two_rounds", &[[2, 1, 2], [1, 0, 1]], 2),
            ("three_rounds", &[[2, 0, 1], [4, 3, 3], [3, 0, 4], [0, 1, 1]], 3),
        ];
        for (name, log, rounds) in logs {
            let case = examples::all().into_iter().find(|e| e.0 == name).unwrap().1;
            let (Case::Group { lists, size }, Answer::Groups(count, ids)) = (&case, answer(&case)) else { unreachable!() };
            let plain = joined(lists, *size);
            assert_eq!((&plain.log[..], plain.count, &plain.ids), (log, count, &ids), "{name}");
            assert_eq!(plain.rounds, rounds, "{name}");
        }
    }

    /// The graphs that are drawn for the log meet every rule and three rounds often; the Rust has the same groups.
    #[test]
    fn every_rule_is_met() {
        let mut met = Met::default();
        for seed in 0..4000 {
            let case = draw::joining(seed, 64);
            let (Case::Group { lists, size }, Answer::Groups(count, ids)) = (&case, answer(&case)) else { continue };
            let plain = joined(lists, *size);
            assert_eq!((plain.count, &plain.ids), (count, &ids), "seed {seed}");
            met.add(&plain);
        }
        assert!(met.above(400), "{met}");
    }
}
