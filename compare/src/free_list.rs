//! The unused blocks of the pool bitmap's ring, as the manager lists them: a head, a tail, and a table with the block
//! that follows each.

use crate::fields::{manager as m, put_list};

pub struct FreeList {
    pub head: u64,
    pub tail: u64,
    /// For each block of the ring the one that follows it.
    pub next: Vec<u64>,
}

impl FreeList {
    /// The list that goes through these indices in their order, in a ring of so many blocks.
    pub fn through(indices: &[u64], ring: u64) -> Self {
        let mut next = vec![m::NO_INDEX; ring as usize];
        for pair in indices.windows(2) {
            next[pair[0] as usize] = pair[1];
        }
        let end = |index: Option<&u64>| index.copied().unwrap_or(m::NO_INDEX);
        FreeList { head: end(indices.first()), tail: end(indices.last()), next }
    }

    /// The bytes of the table.
    pub fn length(&self) -> usize {
        self.next.len() * m::INDEX_WIDTH
    }

    /// Writes the list into a manager's bytes, its table at byte `at`.
    pub fn write(&self, manager: &mut [u8], at: usize) {
        m::FREE_HEAD.set(manager, self.head);
        m::FREE_TAIL.set(manager, self.tail);
        m::FREE_NEXT_OFFSET.set(manager, at as u64);
        put_list(manager, at, m::INDEX_WIDTH, self.next.iter().copied());
    }
}

#[cfg(test)]
mod tests {
    use super::*;

    #[test]
    fn a_list_goes_from_its_head_to_its_tail() {
        let mut bytes = [0; m::LENGTH + 8];
        FreeList::through(&[3, 0, 2], 4).write(&mut bytes, m::LENGTH);
        assert_eq!((m::FREE_HEAD.of(&bytes), m::FREE_TAIL.of(&bytes)), (3, 2));
        assert_eq!(bytes[m::LENGTH..], [2, 0, 0xff, 0xff, 0xff, 0xff, 0, 0]);
    }

    #[test]
    fn an_empty_list_has_no_head() {
        let mut bytes = [0; m::LENGTH + 2];
        FreeList::through(&[], 1).write(&mut bytes, m::LENGTH);
        assert_eq!((m::FREE_HEAD.of(&bytes), m::FREE_TAIL.of(&bytes)), (m::NO_INDEX, m::NO_INDEX));
        assert_eq!(bytes[m::LENGTH..], [0xff, 0xff]);
    }
}
