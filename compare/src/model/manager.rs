//! The space manager: an object over one or more blocks of the data ring.

use space_check::Refusal;

use super::blocks::{need, sum, Blocks, Step};
use super::checkpoint::Taken;
use super::Notes;
use crate::fields::{manager, superblock, Field};
use crate::fletcher::verifies_in_parts;
use crate::outside::Outside;

/// Area lengths drop their top bit.
pub const LENGTH_MASK: u64 = 0x7fff_ffff;

/// The data area, around which the manager's blocks lie.
pub struct Ring {
    base: u64,
    pub blocks: u64,
}

impl Ring {
    pub fn of(superblock: &[u8]) -> Self {
        let blocks = (superblock::DATA_BLOCKS.of(superblock) & LENGTH_MASK).max(1);
        Ring { base: superblock::DATA_BASE.of(superblock), blocks }
    }

    /// The address of block `i` of an object that is mapped at `address`.
    pub fn block(&self, address: u64, i: u64) -> Step<u64> {
        let offset = address.checked_sub(self.base).ok_or(Refusal::Overflow)?;
        sum(self.base, sum(offset, i)? % self.blocks)
    }
}

pub struct Manager<'a> {
    /// Its blocks in order, the last one whole: an object of 4 GiB over a ring of two blocks needs no copy.
    parts: Vec<&'a [u8]>,
    length: usize,
}

impl<'a> Manager<'a> {
    pub fn load(blocks: &Blocks<'a>, taken: &Taken, notes: &mut Notes) -> Step<Self> {
        let mapping = taken.lookup(superblock::MANAGER_ID.of(taken.superblock)).ok_or(Refusal::Unmapped)?;
        let ring = Ring::of(taken.superblock);
        let block_of = |i: u64| blocks.raw(ring.block(mapping.address, i)?);
        let parts = (0..mapping.size.div_ceil(blocks.size as u64)).map(block_of).collect::<Step<Vec<_>>>()?;
        notes.repeated_manager = parts.len() as u64 > ring.blocks;
        let length = mapping.size as usize;
        need(verifies_in_parts(&parts, length), Refusal::BadChecksum)?;
        need(length >= manager::LENGTH, Refusal::OutsideBytes)?;
        let manager = Manager { parts, length };
        if manager.field(manager::ADDRESS_BLOCKS) > 0 {
            notes.outside.get_or_insert(Outside::AddressBlocks);
        }
        Ok(manager)
    }

    /// A manager of these bytes, which aren't tested.
    #[cfg(test)]
    pub fn of(bytes: &'a [u8]) -> Self {
        Manager { parts: vec![bytes], length: bytes.len() }
    }

    pub fn field(&self, field: Field) -> u64 {
        self.number(field.at, field.width).expect("the manager holds its fields")
    }

    /// The indices of the ring's blocks that hold the pool's bitmap.
    pub fn pool_indices(&self) -> Step<Vec<u64>> {
        self.list(self.field(manager::INDEX_OFFSET), self.field(manager::BITMAP_SLOTS), manager::INDEX_WIDTH)
    }

    /// For each block of the ring the index of the one that follows it on the list of unused ones.
    pub fn free_next(&self) -> Step<Vec<u64>> {
        self.list(self.field(manager::FREE_NEXT_OFFSET), self.field(manager::BITMAP_RING), manager::INDEX_WIDTH)
    }

    /// `count` numbers of `width` bytes from `offset` on, read whole.
    pub fn list(&self, offset: u64, count: u64, width: usize) -> Step<Vec<u64>> {
        (0..count as usize).map(|i| self.number(offset as usize + i * width, width)).collect()
    }

    /// The bytes behind such a list, below 0 where it passes the end.
    pub fn behind(&self, offset: Field, count: Field, width: usize) -> i64 {
        self.length as i64 - self.field(offset) as i64 - self.field(count) as i64 * width as i64
    }

    fn number(&self, at: usize, width: usize) -> Step<u64> {
        need(at + width <= self.length, Refusal::OutsideBytes)?;
        Ok((at..at + width).rev().fold(0, |n, i| n << 8 | u64::from(self.byte(i))))
    }

    fn byte(&self, i: usize) -> u8 {
        let size = self.parts[0].len();
        self.parts[i / size][i % size]
    }
}
