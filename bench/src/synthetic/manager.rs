//! The space manager, at the data area's start: one block, or more where the ring of the pool's bitmap is long.

use std::io;
use std::ops::Range;

use compare::fields::{manager as m, object, put_list};
use compare::fletcher::seal;
use compare::free_list::FreeList;

use super::queues::ring_index;
use super::{Build, Form, BLOCK, MANAGER_ID, QUEUE_ID, XID};

/// Where its lists stand: pool bitmap indices behind its fields, then the ring's unused blocks, where they fit; and the
/// addresses of chunk-info blocks, or of address blocks.
const INDICES: usize = m::LENGTH;
const ADDRESSES: usize = 2048;
/// So many addresses fit.
pub const ADDRESS_ROOM: u64 = ((BLOCK - ADDRESSES) / m::ADDRESS_WIDTH) as u64;

/// The bytes of the table that leads along the ring's unused blocks: an index for each block of the ring.
fn table(form: &Form) -> Range<usize> {
    let length = form.ring_blocks() as usize * m::INDEX_WIDTH;
    let behind_indices = INDICES + form.pool_bitmaps() as usize * m::INDEX_WIDTH;
    let start = if behind_indices + length <= ADDRESSES { behind_indices } else { BLOCK };
    start..start + length
}

pub fn blocks(form: &Form) -> u64 {
    table(form).end.div_ceil(BLOCK) as u64
}

impl Build<'_> {
    pub fn manager(&mut self, free: u64) -> io::Result<()> {
        let unused = self.unused();
        let (form, places) = (&self.form, &self.places);
        let addresses = match form.address_blocks() {
            0 => places.infos..places.address_blocks,
            count => places.address_blocks..places.address_blocks + count,
        };
        let mut bytes = vec![0; blocks(form) as usize * BLOCK];
        let fields = [
            (object::ID, MANAGER_ID),
            (object::XID, XID),
            (object::TYPE, object::MANAGER | object::EPHEMERAL),
            (m::CHUNK_INFO_COUNT, form.infos()),
            (m::ADDRESS_BLOCKS, form.address_blocks()),
            (m::FREE_COUNT, free),
            (m::LISTED_OFFSET, ADDRESSES as u64),
            (m::POOL_COUNT, form.pool_blocks()),
            (m::BITMAP_SLOTS, form.pool_bitmaps()),
            (m::BITMAP_RING, form.ring_blocks()),
            (m::BITMAP_BASE, places.bitmap_ring),
            (m::POOL_BASE, places.pool),
            // A tree's root is the last of its nodes.
            (m::POOL_QUEUE, QUEUE_ID + form.queue_nodes() - 1),
            (m::MAIN_QUEUE, QUEUE_ID + 2 * form.queue_nodes() - 1),
            (m::INDEX_OFFSET, INDICES as u64),
        ];
        fields.into_iter().for_each(|(field, value)| field.set(&mut bytes, value));
        put_list(&mut bytes, INDICES, m::INDEX_WIDTH, indices(form));
        FreeList::through(&unused, form.ring_blocks()).write(&mut bytes, table(form).start);
        put_list(&mut bytes, ADDRESSES, m::ADDRESS_WIDTH, addresses);
        seal(&mut bytes);
        self.put(places.data, &bytes)
    }

    /// The indices of the ring's blocks that aren't in use, in the order of their list.
    fn unused(&mut self) -> Vec<u64> {
        let in_use: Vec<u64> = indices(&self.form).collect();
        let mut unused: Vec<u64> = (0..self.form.ring_blocks()).filter(|index| !in_use.contains(index)).collect();
        if self.form.ring.is_some() {
            self.rng.shuffle(&mut unused);
        }
        unused
    }
}

/// The indices of the blocks that hold the pool's bitmap.
fn indices(form: &Form) -> impl Iterator<Item = u64> {
    (0..form.pool_bitmaps()).map(ring_index)
}

#[cfg(test)]
mod tests {
    use super::*;

    #[test]
    fn a_long_ring_takes_a_long_manager() {
        let short =
            Form { blocks: 1 << 24, bitmap_every: 1, queued: 100_000, mapped: 20_000, volumes: 0, ring: None, seed: 1 };
        assert_eq!((short.pool_bitmaps(), table(&short), blocks(&short)), (25, 394..494, 1));
        let long = Form { ring: Some(65_535), ..short };
        assert_eq!((table(&long), blocks(&long)), (4096..135_166, 33));
    }
}
