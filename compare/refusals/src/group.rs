//! Grouping alone: 1, 11, 27, 16, 28, 13; every refusal keeps all.
use crate::faults::{Case, Entry, Fault};
use crate::lists::{ANSWER, Kind, Lent, Random, Read, Room, Seen, read, watched, within};
use crate::matrix::{COLUMNS, ENTRIES, ROWS};
use yelomawin::ffi;

#[derive(Clone)]
pub struct Group {
    pub nodes: u64,
    pub size: u64,
    pub offsets: Read<u32>,
    pub neighbours: Read<u32>,
    pub ids: Room,
    pub work: Room,
}

impl Group {
    pub fn needs(&self) -> [u64; 2] {
        let (n, e) = (within(self.nodes, ROWS), within(self.neighbours.len() as u64, ENTRIES as u64));
        [n, 8 * n + 4 * e + 16]
    }
    pub fn of(size: u64, lists: &[&[u32]]) -> Group {
        let (offsets, neighbours) = lent::flat(lists);
        Group { nodes: lists.len() as u64, size, offsets: offsets.into(), neighbours: neighbours.into(), ids: Room::More, work: Room::More }
    }
    pub fn unlinked(nodes: u64) -> Group {
        Group { nodes, size: 1, offsets: vec![0; nodes as usize + 1].into(), neighbours: vec![].into(), ids: Room::More, work: Room::More }
    }
}

impl Entry for Group {
    const NAME: &'static str = "group";
    fn keeps(_: u64) -> bool {
        true
    }
    fn call(&self, g: &mut Random) -> Seen {
        let (o0, n0) = (watched(&self.offsets), watched(&self.neighbours));
        let needs = self.needs();
        let (ids, work, room) = (self.ids.length(g, needs[0], 0), self.work.length(g, needs[1], 0), g.pick(&ANSWER));
        let mut ids: Lent<u32> = Lent::new(g, ids);
        let mut work: Lent<u32> = Lent::new(g, work);
        let mut answer: Lent<u64> = Lent::new(g, room);
        let number = unsafe {
            ffi::yelomawin_group(
                self.nodes, self.size, self.offsets.as_ptr(), self.offsets.len(), self.neighbours.as_ptr(), self.neighbours.len(),
                ids.ptr(), ids.len(), work.ptr(), work.len(), answer.ptr(), answer.len(),
            )
        };
        let mut seen = Seen::new(number);
        read(&mut seen, "offsets", o0, &self.offsets);
        read(&mut seen, "neighbours", n0, &self.neighbours);
        seen.lent("ids", Kind::Result, &ids);
        seen.lent("work", Kind::Work, &work);
        seen.lent("answer", Kind::Answer, &answer);
        seen
    }
}

fn set(list: &mut Vec<u32>, k: usize, x: u32) {
    if let Some(place) = list.get_mut(k) {
        *place = x;
    }
}

impl Group {
    /// Two nodes that list each other.
    pub fn base() -> Group {
        Group::of(2, &[&[1], &[0]])
    }
    pub fn faults() -> Vec<Vec<Fault<Group>>> {
        let over = |i: &Group| i.nodes > ROWS || i.neighbours.len() > ENTRIES;
        let size = |i: &Group| i.size == 0 || i.size > ROWS;
        let offsets = |i: &Group| {
            let o = &i.offsets;
            o.len() as u128 != i.nodes as u128 + 1 || o[0] != 0 || o.windows(2).any(|w| w[1] < w[0]) || o[o.len() - 1] as usize != i.neighbours.len()
        };
        let outside = |i: &Group| i.neighbours.iter().any(|&w| w as u64 >= i.nodes);
        let short = |i: &Group| (i.ids == Room::Short && i.needs()[0] > 0) || i.work == Room::Short;
        vec![
            vec![
                Fault::new(1, "nodes above the limit", |i: &mut Group| i.nodes = ROWS + 1, over),
                Fault::new(1, "nodes far above the limit", |i: &mut Group| i.nodes = u64::MAX, over),
                Fault::new(1, "nodes above the limit, with their offsets", |i: &mut Group| *i = Group::unlinked(ROWS + 1), over).large(),
                Fault::new(
                    1,
                    "neighbours above the limit",
                    |i: &mut Group| { i.offsets = vec![0, 0, ENTRIES as u32 + 1].into(); i.neighbours = Read::Borrowed(&COLUMNS[..ENTRIES + 1]) },
                    over,
                )
                .large(),
            ],
            vec![
                Fault::new(11, "group size 0", |i: &mut Group| i.size = 0, size),
                Fault::new(11, "group size above the limit", |i: &mut Group| i.size = ROWS + 1, size),
                Fault::new(11, "group size 2^32 + 1", |i: &mut Group| i.size = (1 << 32) + 1, size),
            ],
            vec![
                Fault::new(27, "an offset more", |i: &mut Group| i.offsets.to_mut().push(i.neighbours.len() as u32), offsets),
                Fault::new(27, "an offset less", |i: &mut Group| { i.offsets.to_mut().pop(); }, offsets),
                Fault::new(27, "no offset", |i: &mut Group| i.offsets.to_mut().clear(), offsets),
                Fault::new(27, "first offset 1", |i: &mut Group| set(i.offsets.to_mut(), 0, 1), offsets),
                Fault::new(27, "offsets fall", |i: &mut Group| set(i.offsets.to_mut(), 1, 3), offsets),
                Fault::new(27, "a neighbour behind the last offset", |i: &mut Group| i.neighbours.to_mut().push(0), offsets),
                Fault::new(27, "last offset too large", |i: &mut Group| set(i.offsets.to_mut(), i.nodes as usize, i.neighbours.len() as u32 + 1), offsets),
            ],
            // Where no node is, no neighbour can be, so 16 and 28 never meet.
            vec![Fault::new(16, "no node", |i: &mut Group| { i.nodes = 0; i.offsets = vec![0].into(); i.neighbours = vec![].into() }, |i| i.nodes == 0)],
            vec![
                Fault::new(28, "last neighbour the node count", |i: &mut Group| set(i.neighbours.to_mut(), 1, 2), outside),
                Fault::new(28, "first neighbour far outside", |i: &mut Group| set(i.neighbours.to_mut(), 0, u32::MAX), outside),
            ],
            vec![
                Fault::new(13, "id list one too short", |i: &mut Group| i.ids = Room::Short, short),
                Fault::new(13, "work list one too short", |i: &mut Group| i.work = Room::Short, short),
            ],
        ]
    }
    pub fn cases() -> Vec<Case<Group>> {
        let path = |n: u32| -> Vec<Vec<u32>> { (0..n).map(|v| [v.wrapping_sub(1), v + 1].into_iter().filter(|&w| w < n).collect()).collect() };
        let on = |size: u64, lists: Vec<Vec<u32>>| Group::of(size, &lists.iter().map(|l| &l[..]).collect::<Vec<_>>());
        let ids = |ids: &[u64]| vec![ids.to_vec()];
        vec![
            Case::accepted("plain, lists longer", Group::base(), &[1], ids(&[0, 0])),
            Case::accepted("one node, no neighbour", Group::of(8, &[&[]]), &[1], ids(&[0])),
            Case::accepted("path of 5, size 2", on(2, path(5)), &[3], ids(&[0, 0, 1, 1, 2])),
            Case::accepted("path of 8, size 7", on(7, path(8)), &[2], ids(&[0, 0, 0, 0, 0, 0, 0, 1])),
            Case::accepted("path of 9, size 8", on(8, path(9)), &[1], ids(&[0; 9])),
            Case::accepted("a node that lists itself, thrice", Group::of(1, &[&[0, 0, 0]]), &[1], ids(&[0])),
            Case::accepted("group size at the limit", Group::of(ROWS, &[&[1], &[0]]), &[1], ids(&[0, 0])),
            Case::accepted("nodes at the limit", Group::unlinked(ROWS), &[ROWS], vec![(0..ROWS).collect()]).large(),
        ]
    }
}
