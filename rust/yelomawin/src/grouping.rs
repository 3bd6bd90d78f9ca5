//! Grouping alone, and with a log of the joinings.
use crate::refusal::{Refusal, answered};
use crate::{MOST_ENTRIES, MOST_ROWS, ffi, room};
use std::fmt;

/// How long the work list must be. Larger numbers are refused before any list is looked at: cut down, no product can overflow.
fn work_room(nodes: usize, neighbours: usize) -> usize {
    8 * nodes.min(MOST_ROWS) + 4 * neighbours.min(MOST_ENTRIES) + 16
}

/// The groups of nodes by what each lists, `neighbours[offsets[v]..offsets[v + 1]]`: how many, and the group of each node.
///
/// ```
/// // A path of five nodes, each listing those beside it.
/// let (count, ids) = yelomawin::group(2, &[0, 1, 3, 5, 7, 8], &[1, 0, 2, 1, 3, 2, 4, 3])?;
/// assert_eq!((count, &ids[..]), (3, &[0, 0, 1, 1, 2][..]));
/// # Ok::<(), yelomawin::Refusal>(())
/// ```
pub fn group(group_size: usize, offsets: &[u32], neighbours: &[u32]) -> Result<(usize, Vec<u32>), Refusal> {
    let mut ids = Vec::new();
    let count = group_in(group_size, offsets, neighbours, &mut ids, &mut Vec::new())?;
    Ok((count, ids))
}

/// The same with lists that are made as long as needed.
pub fn group_in(
    group_size: usize, offsets: &[u32], neighbours: &[u32], ids: &mut Vec<u32>, work: &mut Vec<u32>,
) -> Result<usize, Refusal> {
    let nodes = offsets.len().saturating_sub(1);
    let ids = room(ids, nodes.min(MOST_ROWS));
    let work = room(work, work_room(nodes, neighbours.len()));
    let mut answer = [0; 2];
    // Sound: every list is lent as a Rust slice with its length; those for writing are borrowed for this call alone.
    let number = unsafe {
        ffi::yelomawin_group(
            nodes as u64, group_size as u64, offsets.as_ptr(), offsets.len(), neighbours.as_ptr(), neighbours.len(),
            ids.as_mut_ptr(), ids.len(), work.as_mut_ptr(), work.len(), answer.as_mut_ptr(), answer.len(),
        )
    };
    answered(number, &answer)?;
    Ok(answer[0] as usize)
}

/// The rule that decided a joining: the first test that left a single candidate, of those that the group's lists name.
#[derive(Clone, Copy, Debug, PartialEq, Eq, Hash)]
pub enum Rule {
    /// Only one group was named.
    OnlyOneNamed = 1,
    /// Most edges lead to one of them.
    MostEdges,
    /// Of those with most edges, one has fewer members.
    FewerMembers,
    /// Of those with as few members, the one with the lower id.
    LowerId,
}

impl Rule {
    /// The rule of a number, 1 to 4, in a log.
    pub fn from_number(number: u32) -> Option<Rule> {
        [Rule::OnlyOneNamed, Rule::MostEdges, Rule::FewerMembers, Rule::LowerId].into_iter().find(|&rule| rule as u32 == number)
    }
}

impl fmt::Display for Rule {
    fn fmt(&self, f: &mut fmt::Formatter<'_>) -> fmt::Result {
        f.write_str(match self {
            Rule::OnlyOneNamed => "only one group named",
            Rule::MostEdges => "most edges",
            Rule::FewerMembers => "fewer members",
            Rule::LowerId => "lower id",
        })
    }
}

/// One group joins another. Both have their ids as grown: from 0, in the order in which growth made the groups.
#[derive(Clone, Copy, Debug, PartialEq, Eq, Hash)]
pub struct Joining {
    /// The group that moved.
    pub moved: u32,
    /// The group that took it in.
    pub taker: u32,
    /// Why this one.
    pub rule: Rule,
}

impl fmt::Display for Joining {
    fn fmt(&self, f: &mut fmt::Formatter<'_>) -> fmt::Result {
        write!(f, "group {} joins group {}: {}", self.moved, self.taker, self.rule)
    }
}

/// Groups with the log of how they joined.
#[derive(Clone, Debug, PartialEq, Eq)]
pub struct Grouping {
    /// How many groups there are.
    pub groups: usize,
    /// The group of each node, numbered anew after the joinings.
    pub ids: Vec<u32>,
    /// The joinings in their order.
    pub joinings: Vec<Joining>,
}

/// The groups that [`group`] gives, and the joinings that led to them.
///
/// ```
/// use yelomawin::{Joining, Rule};
///
/// // Six nodes and the group size 20: whoever has fewer than 5 members looks for a group to join.
/// let lists: [&[u32]; 6] = [&[0], &[2], &[], &[0], &[], &[4, 3, 1]];
/// let offsets: Vec<u32> = (0..=6).map(|v| lists[..v].iter().map(|l| l.len() as u32).sum()).collect();
/// let grouping = yelomawin::group_log(20, &offsets, &lists.concat())?;
/// assert_eq!((grouping.groups, &grouping.ids[..]), (1, &[0; 6][..]));
/// assert_eq!(grouping.joinings[1], Joining { moved: 4, taker: 3, rule: Rule::FewerMembers });
/// let log: Vec<String> = grouping.joinings.iter().map(|joining| joining.to_string()).collect();
/// assert_eq!(log, [
///     "group 2 joins group 0: only one group named",
///     "group 4 joins group 3: fewer members",
///     "group 3 joins group 0: lower id",
///     "group 0 joins group 1: only one group named",
/// ]);
/// # Ok::<(), yelomawin::Refusal>(())
/// ```
pub fn group_log(group_size: usize, offsets: &[u32], neighbours: &[u32]) -> Result<Grouping, Refusal> {
    let (mut ids, mut log) = (Vec::new(), Vec::new());
    let (groups, joinings) = group_log_in(group_size, offsets, neighbours, &mut ids, &mut log, &mut Vec::new())?;
    let joining = |place: &[u32]| Joining { moved: place[0], taker: place[1], rule: Rule::from_number(place[2]).expect("a rule is 1 to 4") };
    Ok(Grouping { groups, ids, joinings: log.chunks_exact(3).take(joinings).map(joining).collect() })
}

/// The same with lists that are made as long as needed: how many groups, and how many joinings. Of these the log holds the group that
/// moved, its taker and the rule's number each, and zeros after them.
pub fn group_log_in(
    group_size: usize, offsets: &[u32], neighbours: &[u32], ids: &mut Vec<u32>, log: &mut Vec<u32>, work: &mut Vec<u32>,
) -> Result<(usize, usize), Refusal> {
    let nodes = offsets.len().saturating_sub(1);
    let (ids, log) = (room(ids, nodes.min(MOST_ROWS)), room(log, 3 * nodes.min(MOST_ROWS)));
    let work = room(work, work_room(nodes, neighbours.len()));
    let mut answer = [0; 2];
    // Sound: every list is lent as a Rust slice with its length; those for writing are borrowed for this call alone.
    let number = unsafe {
        ffi::yelomawin_group_log(
            nodes as u64, group_size as u64, offsets.as_ptr(), offsets.len(), neighbours.as_ptr(), neighbours.len(),
            ids.as_mut_ptr(), ids.len(), log.as_mut_ptr(), log.len(), work.as_mut_ptr(), work.len(), answer.as_mut_ptr(), answer.len(),
        )
    };
    answered(number, &answer)?;
    Ok((answer[0] as usize, answer[1] as usize))
}
