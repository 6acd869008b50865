//! The list of unused blocks of the pool bitmap's ring: a head, a tail, and a table with the block that follows each.

use std::mem::replace;

use space_check::{ProblemKind, Refusal};

use super::audit::Audit;
use super::blocks::{need, sum, Blocks, Step};
use super::manager::Manager;
use crate::fields::manager as m;
use crate::outside::Outside;

/// Indices have 16 bits.
const INDICES: usize = 1 << 16;

struct List {
    base: u64,
    head: u64,
    tail: u64,
    /// For each block of the ring the one that follows it.
    next: Vec<u64>,
    /// For each index whether that block holds a bitmap.
    in_use: Vec<bool>,
}

impl List {
    /// The table is read whole, before anything else is looked at.
    fn read(manager: &Manager) -> Step<Self> {
        let next = manager.free_next()?;
        let mut in_use = vec![false; INDICES];
        manager.pool_indices()?.into_iter().for_each(|index| in_use[index as usize] = true);
        let [base, head, tail] = [m::BITMAP_BASE, m::FREE_HEAD, m::FREE_TAIL].map(|field| manager.field(field));
        Ok(List { base, head, tail, next, in_use })
    }
}

impl Audit<'_, '_> {
    /// The list from its head to its tail; a head of 0xffff alone means that there is none.
    pub fn free_ring(&mut self, manager: &Manager) -> Step<()> {
        let list = List::read(manager).inspect_err(|_| {
            self.notes.outside.get_or_insert(Outside::FreeNextTable);
        })?;
        let mut way = Vec::new();
        let audited = if list.head == m::NO_INDEX { Ok(()) } else { self.along(&list, &mut way) };
        self.notes.free_ring.came(&list, &way);
        audited
    }

    /// Index by index; `way` gets each that is come to.
    fn along(&mut self, list: &List, way: &mut Vec<u64>) -> Step<()> {
        let mut visited = vec![false; INDICES];
        let mut index = list.head;
        loop {
            way.push(index);
            need(index < list.next.len() as u64, Refusal::RingIndex)?;
            if replace(&mut visited[index as usize], true) {
                return self.ring_problem(ProblemKind::FreeRepeated, list, index);
            }
            self.report.free_ring += 1;
            if list.in_use[index as usize] {
                self.ring_problem(ProblemKind::FreeInUse, list, index)?;
            }
            if index == list.tail {
                return Ok(());
            }
            index = list.next[index as usize];
        }
    }

    /// The block's address is made for a problem alone.
    fn ring_problem(&mut self, kind: ProblemKind, list: &List, index: u64) -> Step<()> {
        self.notes.outside.get_or_insert(Outside::Problem(kind));
        let block = sum(list.base, index)?;
        self.problem_if(true, kind, block);
        Ok(())
    }
}

/// Where the way along the list ends.
#[derive(Clone, Copy, Debug, PartialEq, Eq)]
pub enum RingEnd {
    /// At its tail, whose entry leads back into it, out of the ring or elsewhere.
    Tail(Leads),
    /// At a block that was visited: the head or another, one that holds a bitmap or not.
    Again { head: bool, in_use: bool },
    /// At an index that the ring doesn't have: at once or later.
    Outside { head: bool, index: u64 },
}

#[derive(Clone, Copy, Debug, PartialEq, Eq)]
pub enum Leads {
    Back,
    Out,
    Elsewhere,
}

/// What a pass met on the list, and what stands beside it.
#[derive(Clone, Copy, Default)]
pub struct FreeRing {
    /// The blocks of the ring.
    pub blocks: u64,
    /// Bytes of the manager behind the table, and behind the list of address or chunk-info blocks; below 0 where it passes the end.
    pub behind_table: i64,
    pub behind_listed: i64,
    /// The first block of that list is past the count.
    pub listed_far: bool,
    /// The head means that there is no list, or is an index that the ring doesn't have.
    pub empty: bool,
    pub head_out: bool,
    /// A pass came to the head.
    pub audited: bool,
    pub end: Option<RingEnd>,
    /// Every block of the ring that holds no bitmap was visited; the ring's last was; block 0xffff was.
    pub whole: bool,
    pub last: bool,
    pub highest: bool,
    /// A block that holds a bitmap was visited: at the head, behind it and before the tail, at the tail.
    pub in_use: [bool; 3],
    /// A bitmap's index is at or above the ring's count.
    pub in_use_past: bool,
    /// The address of a block that was visited would pass 2^64 - 1.
    pub far: bool,
}

impl FreeRing {
    /// What is known before the pool's bitmap is read.
    pub fn beside(blocks: &Blocks, manager: &Manager) -> Self {
        let listed = if manager.field(m::ADDRESS_BLOCKS) > 0 { m::ADDRESS_BLOCKS } else { m::CHUNK_INFO_COUNT };
        let first = manager.list(manager.field(m::LISTED_OFFSET), manager.field(listed).min(1), m::ADDRESS_WIDTH);
        let (head, ring) = (manager.field(m::FREE_HEAD), manager.field(m::BITMAP_RING));
        FreeRing {
            blocks: ring,
            empty: head == m::NO_INDEX,
            head_out: head != m::NO_INDEX && head >= ring,
            behind_table: manager.behind(m::FREE_NEXT_OFFSET, m::BITMAP_RING, m::INDEX_WIDTH),
            behind_listed: manager.behind(m::LISTED_OFFSET, listed, m::ADDRESS_WIDTH),
            listed_far: first.is_ok_and(|first| first.iter().any(|&address| address >= blocks.count)),
            ..FreeRing::default()
        }
    }

    fn came(&mut self, list: &List, way: &[u64]) {
        let ring = list.next.len() as u64;
        let in_use = |index: u64| list.in_use[index as usize];
        self.audited = true;
        self.in_use_past = (ring..INDICES as u64).any(in_use);
        let Some((&last, before)) = way.split_last() else { return };
        let head = before.is_empty();
        let again = before.contains(&last);
        let visited = if again || last >= ring { before } else { way };
        self.end = Some(if last >= ring {
            RingEnd::Outside { head, index: last }
        } else if again {
            RingEnd::Again { head: last == list.head, in_use: in_use(last) }
        } else {
            let entry = list.next[last as usize];
            let inside = if visited.contains(&entry) { Leads::Back } else { Leads::Elsewhere };
            RingEnd::Tail(if entry < ring { inside } else { Leads::Out })
        });
        let unused = (0..ring.min(INDICES as u64)).filter(|&index| !in_use(index)).count();
        self.whole = visited.len() == unused && !visited.iter().any(|&index| in_use(index));
        self.last = visited.contains(&(ring.wrapping_sub(1)));
        self.highest = visited.contains(&m::NO_INDEX);
        let at = |index: u64| [index == list.head, index != list.head && index != list.tail, index == list.tail];
        for &index in visited.iter().filter(|&&index| in_use(index)) {
            self.in_use = [0, 1, 2].map(|place| self.in_use[place] || at(index)[place]);
        }
        self.far = visited.iter().any(|&index| list.base.checked_add(index).is_none());
    }
}

#[cfg(test)]
mod tests {
    use super::*;
    use crate::answer::Report;
    use crate::fields::put_list;
    use crate::model::audit::Pool;
    use crate::model::Notes;

    const TABLE: usize = m::LENGTH + 8;

    /// A manager whose ring has these entries, from block 100 on.
    fn manager(head: u64, tail: u64, next: &[u64], in_use: &[u64]) -> Vec<u8> {
        let mut bytes = vec![0; TABLE + next.len() * m::INDEX_WIDTH];
        let fields = [
            (m::FREE_HEAD, head),
            (m::FREE_TAIL, tail),
            (m::FREE_NEXT_OFFSET, TABLE as u64),
            (m::BITMAP_RING, next.len() as u64),
            (m::BITMAP_BASE, 100),
            (m::BITMAP_SLOTS, in_use.len() as u64),
            (m::INDEX_OFFSET, m::LENGTH as u64),
        ];
        fields.into_iter().for_each(|(field, value)| field.set(&mut bytes, value));
        put_list(&mut bytes, m::LENGTH, m::INDEX_WIDTH, in_use.iter().copied());
        put_list(&mut bytes, TABLE, m::INDEX_WIDTH, next.iter().copied());
        bytes
    }

    /// The problems, the number of different indices, and the rule by which the original is no reference.
    type Found = (Vec<(u64, u64)>, u64, Option<Outside>);

    fn audited(manager: &[u8]) -> Step<Found> {
        let mut notes = Notes::default();
        let pool = Pool::default();
        let mut audit = Audit { pool: &pool, cells: &mut [], report: Report::default(), notes: &mut notes };
        audit.free_ring(&Manager::of(manager))?;
        let report = audit.report;
        let problems = report.first_problems[..report.problems as usize].iter().map(|p| (p.kind, p.block)).collect();
        Ok((problems, report.free_ring, notes.outside))
    }

    fn sound(visited: u64) -> Step<Found> {
        Ok((Vec::new(), visited, None))
    }

    fn with(problems: &[(ProblemKind, u64)], visited: u64) -> Step<Found> {
        let rule = Outside::Problem(problems[0].0);
        Ok((problems.iter().map(|(kind, block)| (kind.number(), *block)).collect(), visited, Some(rule)))
    }

    const IN_USE: ProblemKind = ProblemKind::FreeInUse;
    const AGAIN: ProblemKind = ProblemKind::FreeRepeated;
    const NONE: u64 = m::NO_INDEX;

    #[test]
    fn a_list_goes_on_to_its_tail() {
        assert_eq!(audited(&manager(2, 1, &[1, 0, 3, 0], &[])), sound(4));
        // The tail's entry isn't looked at, whether it leads out, back or to itself.
        for entry in [NONE, 4, 2, 1] {
            assert_eq!(audited(&manager(2, 1, &[1, entry, 0, 3], &[3])), sound(3));
        }
    }

    #[test]
    fn a_head_that_is_the_tail_is_one_index() {
        for entry in [0, 1, 2, NONE] {
            assert_eq!(audited(&manager(1, 1, &[0, entry], &[0])), sound(1));
        }
        assert_eq!(audited(&manager(1, 1, &[0, 1], &[1])), with(&[(IN_USE, 101)], 1));
    }

    #[test]
    fn only_a_head_of_ffff_is_an_empty_list() {
        // The tail isn't looked at.
        for tail in [0, 1, 7, NONE] {
            assert_eq!(audited(&manager(NONE, tail, &[0], &[0])), sound(0));
        }
        assert_eq!(audited(&manager(NONE - 1, NONE, &[0], &[])), Err(Refusal::RingIndex));
        assert_eq!(audited(&manager(0, 1, &[NONE, 0], &[])), Err(Refusal::RingIndex));
        // It is an index elsewhere, where the ring has so many blocks.
        let mut next = vec![0; INDICES];
        (next[0], next[0xffff]) = (NONE, 5);
        assert_eq!(audited(&manager(0, NONE, &next, &[])), sound(2));
        assert_eq!(audited(&manager(0, 5, &next, &[NONE])), with(&[(IN_USE, 100 + NONE)], 3));
        assert_eq!(audited(&manager(NONE, 5, &next, &[])), sound(0));
        assert_eq!(audited(&manager(0, NONE, &next[..0xffff], &[])), Err(Refusal::RingIndex));
    }

    #[test]
    fn an_index_lies_inside_the_ring() {
        assert_eq!(audited(&manager(1, 1, &[0, 0], &[])), sound(1));
        assert_eq!(audited(&manager(2, 2, &[0, 0], &[])), Err(Refusal::RingIndex));
        assert_eq!(audited(&manager(0, 2, &[1, 2], &[0, 1])), Err(Refusal::RingIndex));
        assert_eq!(audited(&manager(0, 0, &[], &[])), Err(Refusal::RingIndex));
        // Outside comes before in use, and a bitmap past the ring is nothing by itself.
        assert_eq!(audited(&manager(2, 2, &[0, 0], &[2])), Err(Refusal::RingIndex));
        assert_eq!(audited(&manager(1, 1, &[0, 0], &[2, NONE])), sound(1));
    }

    #[test]
    fn a_block_in_use_is_a_problem_wherever_it_stands() {
        let next = [1, 2, 3, NONE];
        for in_use in 0..4 {
            let expected = if in_use == 3 { sound(3) } else { with(&[(IN_USE, 100 + in_use)], 3) };
            assert_eq!(audited(&manager(0, 2, &next, &[in_use])), expected);
        }
        // Once for each block, however many bitmaps name it.
        assert_eq!(audited(&manager(0, 2, &next, &[2, 1, 2, 1])), with(&[(IN_USE, 101), (IN_USE, 102)], 3));
    }

    #[test]
    fn a_list_that_misses_its_tail_ends_at_a_repeat() {
        assert_eq!(audited(&manager(0, 3, &[1, 2, 0, 0], &[])), with(&[(AGAIN, 100)], 3));
        assert_eq!(audited(&manager(0, 3, &[1, 2, 1, 0], &[])), with(&[(AGAIN, 101)], 3));
        assert_eq!(audited(&manager(0, NONE, &[0], &[])), with(&[(AGAIN, 100)], 1));
        // The second visit is the second problem alone.
        assert_eq!(audited(&manager(0, 3, &[1, 2, 1, 0], &[1])), with(&[(IN_USE, 101), (AGAIN, 101)], 3));
    }

    #[test]
    fn the_table_is_read_whole_before_the_head() {
        for head in [0, 1, 2, NONE] {
            let bytes = manager(head, 1, &[1, 0], &[]);
            let expected = if head == 2 { Err(Refusal::RingIndex) } else { sound([2, 1, 0][head.min(2) as usize]) };
            assert_eq!(audited(&bytes), expected);
            assert_eq!(audited(&bytes[..bytes.len() - 1]), Err(Refusal::OutsideBytes));
        }
        // One without entries lies nowhere.
        let mut bytes = manager(NONE, 0, &[], &[]);
        m::FREE_NEXT_OFFSET.set(&mut bytes, 0xffff_ffff);
        assert_eq!(audited(&bytes), sound(0));
    }

    #[test]
    fn the_address_is_made_for_a_problem_alone() {
        let at_end = |next: &[u64], base: u64| {
            let mut bytes = manager(0, 1, next, &[]);
            m::BITMAP_BASE.set(&mut bytes, base);
            audited(&bytes)
        };
        assert_eq!(at_end(&[1, 0], u64::MAX), sound(2));
        assert_eq!(at_end(&[2, 0, 2], u64::MAX - 2), with(&[(AGAIN, u64::MAX)], 2));
        assert_eq!(at_end(&[2, 0, 2], u64::MAX - 1), Err(Refusal::Overflow));
    }
}
