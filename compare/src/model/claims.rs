//! Claims: who owns each block. The first owner keeps it.

use space_check::{Cell, Kind, LOGGED};

use super::audit::queued;
use super::blocks::{field, sum, Blocks, Step};
use super::checkpoint::Taken;
use super::manager::{Manager, LENGTH_MASK};
use super::tree::{mapped_key, scan_queue, ObjectMap};
use super::Notes;
use crate::answer::{Overlap, Report};
use crate::fields::{manager as m, mapped, superblock as s};
use crate::outside::Outside;

pub struct Claims<'c> {
    pub cells: &'c mut [u8],
    pub report: &'c mut Report,
    pub notes: &'c mut Notes,
}

/// What the mappings were that a pass met.
#[derive(Clone, Copy, Default)]
pub struct Mappings {
    /// A deleted one names a block of another kind, an unowned one, one past the count, or the last number.
    pub deleted_owned: bool,
    pub deleted_unowned: bool,
    pub deleted_past: bool,
    pub deleted_last: bool,
    /// A live one has other flags.
    pub other_flags: bool,
    /// One has a key below that of the one before it.
    pub out_of_order: bool,
}

impl Claims<'_> {
    /// `length` blocks from `start`, clipped at the count.
    pub fn claim(&mut self, start: u64, length: u64, kind: Kind) -> Step<()> {
        let end = sum(start, length)?.min(self.cells.len() as u64);
        (start..end).for_each(|block| self.claim_one(block, kind));
        Ok(())
    }

    fn claim_one(&mut self, block: u64, kind: Kind) {
        let (owner, claimant) = (self.cells[block as usize] & Cell::OWNER, kind.number() as u8);
        if owner == 0 {
            self.cells[block as usize] |= claimant;
        } else if owner != claimant {
            let before = self.report.overlaps();
            if before < LOGGED as u64 {
                let overlap = Overlap { block, owner: owner.into(), claimant: claimant.into() };
                self.report.first_overlaps[before as usize] = overlap;
            }
            self.report.claimants[usize::from(claimant) - 1] += 1;
        }
    }

    /// Claims 1 to 5; the areas are the taken superblock's.
    pub fn areas(&mut self, sb: &[u8], manager: &Manager) -> Step<()> {
        self.claim(0, 1, Kind::ContainerSuperblock)?;
        self.claim(s::DESCRIPTOR_BASE.of(sb), s::DESCRIPTOR_BLOCKS.of(sb) & LENGTH_MASK, Kind::DescriptorArea)?;
        self.claim(s::DATA_BASE.of(sb), s::DATA_BLOCKS.of(sb) & LENGTH_MASK, Kind::DataArea)?;
        self.claim(manager.field(m::POOL_BASE), manager.field(m::POOL_COUNT), Kind::InternalPool)?;
        self.claim(manager.field(m::BITMAP_BASE), manager.field(m::BITMAP_RING), Kind::PoolBitmapRing)
    }

    /// Claims 6 to 8: the object map, its nodes, and every mapping that is neither a ghost nor deleted.
    pub fn object_map(&mut self, blocks: &Blocks, objects: &ObjectMap) -> Step<()> {
        self.claim(objects.address, 1, Kind::ObjectMap)?;
        self.notes.walked = objects.walk(blocks, &mut |address| self.claim(address, 1, Kind::ObjectMapNode))?;
        let mut last = (0, 0);
        objects.scan(blocks, &mut |entry| {
            let Some(value) = entry.value else { return Ok(()) };
            let key = mapped_key(&entry)?;
            self.notes.mappings.out_of_order |= key < std::mem::replace(&mut last, key);
            let address = field(value, mapped::ADDRESS.at, mapped::ADDRESS.width)?;
            let flags = mapped::FLAGS.of(value);
            if flags & mapped::DELETED != 0 {
                self.note_deleted(address);
                return Ok(());
            }
            self.notes.mappings.other_flags |= flags != 0;
            self.claim(address, 1, Kind::VolumeSuperblock)
        })
    }

    fn note_deleted(&mut self, address: u64) {
        self.notes.outside.get_or_insert(Outside::DeletedMapping);
        let owner = self.cells.get(address as usize).map(|cell| cell & Cell::OWNER);
        let met = &mut self.notes.mappings;
        match owner {
            None => met.deleted_past = true,
            Some(0) => met.deleted_unowned = true,
            Some(owner) if u64::from(owner) == Kind::VolumeSuperblock.number() => {}
            Some(_) => met.deleted_owned = true,
        }
        met.deleted_last |= address == u64::MAX;
    }

    /// Claim 9.
    pub fn queue(&mut self, blocks: &Blocks, taken: &Taken, root: u64) -> Step<()> {
        scan_queue(blocks, taken, root, &mut |entry| {
            let (address, count) = queued(&entry)?;
            self.claim(address, count, Kind::FreeQueue)
        })
    }
}

#[cfg(test)]
mod tests {
    use super::*;

    #[test]
    fn the_first_owner_keeps_a_block() {
        let (mut cells, mut report, mut notes) = ([0; 1], Report::default(), Notes::default());
        let mut claims = Claims { cells: &mut cells, report: &mut report, notes: &mut notes };
        for kind in [Kind::DataArea, Kind::DataArea, Kind::InternalPool, Kind::PoolBitmapRing, Kind::InternalPool] {
            claims.claim(0, 1, kind).unwrap();
        }
        assert_eq!((report.overlaps(), cells[0]), (3, Kind::DataArea.number() as u8));
        assert_eq!(report.claimants[..5], [0, 0, 0, 2, 1]);
    }

    #[test]
    fn a_claim_is_clipped_and_its_end_must_be_a_number() {
        let (mut cells, mut report, mut notes) = ([0; 2], Report::default(), Notes::default());
        let mut claims = Claims { cells: &mut cells, report: &mut report, notes: &mut notes };
        assert!(claims.claim(1, u64::MAX - 1, Kind::InternalPool).is_ok());
        assert!(claims.claim(2, u64::MAX - 1, Kind::InternalPool).is_err());
        assert_eq!(cells, [0, Kind::InternalPool.number() as u8]);
    }
}
