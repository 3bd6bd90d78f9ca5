//! Grouping with a log: the causes of grouping alone, then 29; every refusal keeps all.
use crate::faults::{Case, Entry, Fault};
use crate::group::Group;
use crate::lists::{ANSWER, Kind, Lent, Random, Room, Seen, read, watched};
use crate::matrix::ROWS;
use yelomawin::ffi;

#[derive(Clone)]
pub struct GroupLog {
    group: Group,
    log: Room,
}

impl Entry for GroupLog {
    const NAME: &'static str = "group_log";
    fn keeps(_: u64) -> bool {
        true
    }
    fn call(&self, g: &mut Random) -> Seen {
        let i = &self.group;
        let (o0, n0) = (watched(&i.offsets), watched(&i.neighbours));
        let needs = i.needs();
        let (ids, log, work) = (i.ids.length(g, needs[0], 0), self.log.length(g, 3 * needs[0], 0), i.work.length(g, needs[1], 0));
        let room = g.pick(&ANSWER);
        let (mut ids, mut log, mut work) = (Lent::<u32>::new(g, ids), Lent::<u32>::new(g, log), Lent::<u32>::new(g, work));
        let mut answer: Lent<u64> = Lent::new(g, room);
        let number = unsafe {
            ffi::yelomawin_group_log(
                i.nodes, i.size, i.offsets.as_ptr(), i.offsets.len(), i.neighbours.as_ptr(), i.neighbours.len(),
                ids.ptr(), ids.len(), log.ptr(), log.len(), work.ptr(), work.len(), answer.ptr(), answer.len(),
            )
        };
        let mut seen = Seen::new(number);
        read(&mut seen, "offsets", o0, &i.offsets);
        read(&mut seen, "neighbours", n0, &i.neighbours);
        seen.lent("ids", Kind::Result, &ids);
        seen.lent("log", Kind::Result, &log);
        seen.lent("work", Kind::Work, &work);
        seen.lent("answer", Kind::Answer, &answer);
        seen
    }
}

/// A fault of grouping alone.
fn with_log(f: Fault<Group>) -> Fault<GroupLog> {
    Fault {
        cause: f.cause,
        what: f.what,
        put: Box::new(move |i| (f.put)(&mut i.group)),
        shows: Box::new(move |i| (f.shows)(&i.group)),
        values: Box::new(move |i| (f.values)(&i.group)),
        large: f.large,
    }
}

/// Paths one after the other, then single nodes with what they list.
fn paths(lengths: &[u32], more: &[&[u32]]) -> Vec<Vec<u32>> {
    let mut lists: Vec<Vec<u32>> = Vec::new();
    for &n in lengths {
        let first = lists.len() as u32;
        lists.extend((0..n).map(|v| [v.wrapping_sub(1), v + 1].into_iter().filter(|&w| w < n).map(|w| first + w).collect()));
    }
    lists.extend(more.iter().map(|l| l.to_vec()));
    lists
}

impl GroupLog {
    fn of(group: Group) -> GroupLog {
        GroupLog { group, log: Room::More }
    }
    pub fn base() -> GroupLog {
        GroupLog::of(Group::base())
    }
    pub fn faults() -> Vec<Vec<Fault<GroupLog>>> {
        let short = |i: &GroupLog| i.log != Room::More && i.group.nodes > 0;
        let mut places: Vec<Vec<Fault<GroupLog>>> = Group::faults().into_iter().map(|p| p.into_iter().map(with_log).collect()).collect();
        // Without a node no log is too short, so 16 and 29 never meet.
        places.push(vec![
            Fault::new(29, "log one too short", |i: &mut GroupLog| i.log = Room::Short, short),
            Fault::new(29, "no log", |i: &mut GroupLog| i.log = Room::None, short),
        ]);
        places
    }
    pub fn cases() -> Vec<Case<GroupLog>> {
        let on = |size: u64, lists: &[Vec<u32>]| GroupLog::of(Group::of(size, &lists.iter().map(|l| &l[..]).collect::<Vec<_>>()));
        let logged = |what: &str, input: GroupLog, ids: &[u64], log: &[u64]| {
            let groups = ids.iter().max().map_or(0, |g| g + 1);
            Case::accepted(what, input, &[groups, log.len() as u64 / 3], vec![ids.to_vec(), log.to_vec()])
        };
        let six: [&[u32]; 6] = [&[0], &[2], &[], &[0], &[], &[4, 3, 1]];
        let split = |first: usize, second: usize, last: u64| [vec![0; first], vec![1; second], vec![last]].concat();
        vec![
            logged("plain, lists longer", GroupLog::base(), &[0, 0], &[]),
            logged("one node, no neighbour", on(8, &paths(&[1], &[])), &[0], &[]),
            logged("path of 5, size 2", on(2, &paths(&[5], &[])), &[0, 0, 1, 1, 2], &[]),
            logged("path of 9, size 8", on(8, &paths(&[9], &[])), &[0; 9], &[1, 0, 1]),
            logged("fewer members", on(8, &paths(&[8, 7], &[&[3, 11]])), &split(8, 7, 1), &[2, 1, 3]),
            logged("most edges", on(8, &paths(&[8, 7], &[&[3, 3, 11]])), &split(8, 7, 0), &[2, 0, 2]),
            logged("lower id", on(8, &paths(&[8, 8], &[&[3, 11]])), &split(8, 8, 0), &[2, 0, 4]),
            logged("two rounds", on(16, &paths(&[16], &[&[], &[16, 16, 3]])), &[0; 18], &[2, 1, 2, 1, 0, 1]),
            logged("three rounds", on(20, &paths(&[], &six)), &[0; 6], &[2, 0, 1, 4, 3, 3, 3, 0, 4, 0, 1, 1]),
            logged("nodes at the limit", GroupLog::of(Group::unlinked(ROWS)), &(0..ROWS).collect::<Vec<_>>(), &[]).large(),
        ]
    }
}
