//! The figures that decided a joining, found by following the log from the groups as they were grown.
use std::collections::{BTreeMap, VecDeque};
use yelomawin::{Joining, Rule};

/// What each node lists.
pub struct Lists<'a> {
    pub offsets: &'a [u32],
    pub neighbours: &'a [u32],
}

impl Lists<'_> {
    fn nodes(&self) -> usize {
        self.offsets.len() - 1
    }
    fn of(&self, node: usize) -> impl Iterator<Item = usize> {
        self.neighbours[self.offsets[node] as usize..self.offsets[node + 1] as usize].iter().map(|&w| w as usize)
    }
}

/// The group of each node, by its number as grown.
pub struct Groups(Vec<usize>);

impl Groups {
    /// From each node that is in no group yet, in turn: first in, first out, until the group size is reached.
    pub fn grown(lists: &Lists, group_size: usize) -> Groups {
        let mut group = vec![usize::MAX; lists.nodes()];
        let mut count = 0;
        for first in 0..lists.nodes() {
            if group[first] != usize::MAX {
                continue;
            }
            let (mut members, mut queue) = (0, VecDeque::from([first]));
            while members < group_size
                && let Some(v) = queue.pop_front()
            {
                if group[v] == usize::MAX {
                    group[v] = count;
                    members += 1;
                    queue.extend(lists.of(v));
                }
            }
            count += 1;
        }
        Groups(group)
    }

    fn members(&self, group: usize) -> usize {
        self.0.iter().filter(|&&g| g == group).count()
    }

    /// The joining in words: the taker's figure against that of the best that lost by it.
    pub fn told(&self, lists: &Lists, joining: &Joining) -> String {
        let (moved, taker) = (joining.moved as usize, joining.taker as usize);
        let mut edges = BTreeMap::<usize, usize>::new();
        for w in (0..lists.nodes()).filter(|&v| self.0[v] == moved).flat_map(|v| lists.of(v)) {
            if self.0[w] != moved {
                *edges.entry(self.0[w]).or_default() += 1;
            }
        }
        let others = || edges.keys().copied().filter(|&g| g != taker);
        let like = |g: &usize| edges[g] == edges[&taker];
        let as_small = |g: &usize| self.members(*g) == self.members(taker);
        let figures = match joining.rule {
            Rule::OnlyOneNamed => None,
            Rule::MostEdges => others().map(|g| edges[&g]).max().map(|best| (edges[&taker], best)),
            Rule::FewerMembers => others().filter(like).map(|g| self.members(g)).min().map(|best| (self.members(taker), best)),
            Rule::LowerId => others().filter(like).filter(as_small).min().map(|best| (taker, best)),
        };
        figures.map_or(joining.to_string(), |(won, lost)| format!("{joining}, {won} against {lost}"))
    }

    pub fn join(&mut self, joining: &Joining) {
        self.0.iter_mut().filter(|g| **g == joining.moved as usize).for_each(|g| *g = joining.taker as usize);
    }

    /// Numbered as the nodes meet them.
    pub fn numbered(&self) -> Vec<u32> {
        let mut numbers = BTreeMap::new();
        self.0.iter().map(|g| { let next = numbers.len() as u32; *numbers.entry(*g).or_insert(next) }).collect()
    }
}
