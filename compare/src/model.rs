//! The rules of the check, stated once more: its refusals with their numbers, and its report.
//!
//! Written from the contract and not from the original, in the order of the contract: what block 0 says, the
//! checkpoint, the object map, the manager, the pool, the unused blocks of its bitmap's ring, the chunks, the queues, the
//! claims and the volumes'. It tells which refusal an image meets, and so which images leave the comparison with the original.

mod audit;
mod blocks;
mod checkpoint;
mod claims;
mod manager;
mod ring;
mod tree;
mod volumes;

use space_check::{Cell, Refusal, Verdict};

use crate::answer::{Answer, Report};
use crate::fields::{manager as m, object, superblock};
use crate::outside::Outside;
use audit::{Audit, Pool};
pub use blocks::Blocks;
use blocks::{need, Step};
pub use checkpoint::Taken;
use claims::Claims;
pub use claims::Mappings;
use manager::Manager;
pub use manager::Ring;
use ring::FreeRing;
pub use ring::{Leads, RingEnd};
pub use tree::ObjectMap;
use tree::Walked;
pub use tree::{Layout, WALK_LEVELS};
pub use volumes::{volume_ids, Reached, Stage, Volumes};

/// The highest block count.
pub const HIGHEST_COUNT: u64 = 0xffff_ffff;

/// What a pass met: what costs the original more than an error, how near it came to the rules that take images outside, and
/// what the mappings and the volumes were.
#[derive(Clone, Copy, Default)]
pub struct Notes {
    /// The block count, once refusal 4 isn't given.
    pub count: u64,
    /// The image has exactly count × size bytes, the map exactly count.
    pub image_exact: bool,
    pub map_exact: bool,
    /// The descriptor area ends at the count.
    pub area_ends_at_count: bool,
    /// An entry of the pool queue ends at the count.
    pub queued_to_count: bool,
    pub free_ring: FreeRing,
    pub walked: Walked,
    pub mappings: Mappings,
    pub volumes: Volumes,
    /// A superblock's map chain failed to load by an overflowing sum, on which the original panics.
    pub chain_sum_overflowed: bool,
    /// The length of a chain that came round its ring without an end: the original reads all its blocks.
    pub repeated_chain: u64,
    /// The manager is longer than its ring, so that its blocks repeat.
    pub repeated_manager: bool,
    /// The rule by which the original is no reference, of several the first that was met.
    pub outside: Option<Outside>,
}

/// One pass of the model.
pub struct Pass {
    pub answer: Answer,
    pub notes: Notes,
}

impl Pass {
    pub fn refusal(&self) -> Option<Refusal> {
        match self.answer {
            Answer::Refused(refusal) => Some(refusal),
            Answer::Reported(_) => None,
        }
    }

    pub fn reports(&self) -> bool {
        self.refusal().is_none()
    }
}

/// The answer on an image. The map ends as found after refusals 1 to 11, else with one byte set for each block.
pub fn check(image: &[u8], map: &mut [u8]) -> Pass {
    let mut notes = Notes::default();
    let opened = open(image, map.len(), &mut notes);
    let outcome = opened.and_then(|(blocks, taken)| {
        let cells = &mut map[..blocks.count as usize];
        cells.fill(0);
        let report = pass(&blocks, &taken, cells, &mut notes);
        if report.is_err() {
            cells.fill(0);
        }
        report
    });
    let answer = match outcome {
        Ok(report) => Answer::Reported(Box::new(report)),
        Err(refusal) => {
            notes.outside = notes.outside.or(Outside::by(refusal));
            Answer::Refused(refusal)
        }
    };
    Pass { answer, notes }
}

/// Refusals 1 to 11.
pub fn open<'a>(image: &'a [u8], room: usize, notes: &mut Notes) -> Step<(Blocks<'a>, Taken<'a>)> {
    let (blocks, area) = geometry(image, room, notes)?;
    let taken = checkpoint::take(&blocks, &area, notes)?;
    let features = superblock::INCOMPATIBLE.of(taken.superblock);
    need(features & superblock::REFUSED_FEATURES == 0, Refusal::Incompatible)?;
    need(superblock::BLOCK_COUNT.of(taken.superblock) == blocks.count, Refusal::CountDiffers)?;
    Ok((blocks, taken))
}

/// Refusals 1 to 8: what block 0 says, and the descriptor area that it names.
fn geometry<'a>(image: &'a [u8], room: usize, notes: &mut Notes) -> Step<(Blocks<'a>, checkpoint::Area)> {
    need(image.len() >= 4096, Refusal::ShortImage)?;
    need(superblock::MAGIC.of(image) == superblock::NXSB, Refusal::NoMagic)?;
    let size = superblock::BLOCK_SIZE.of(image);
    need(size.is_power_of_two() && (4096..=65536).contains(&size), Refusal::BlockSize)?;
    let count = superblock::BLOCK_COUNT.of(image);
    need((1..=HIGHEST_COUNT).contains(&count), Refusal::BlockCount)?;
    notes.count = count;
    need(count * size <= image.len() as u64, Refusal::MissingBlocks)?;
    need(count <= room as u64, Refusal::ShortMap)?;
    let ring = superblock::DESCRIPTOR_BLOCKS.of(image);
    need(ring < 0x8000_0000, Refusal::DescriptorLength)?;
    let base = superblock::DESCRIPTOR_BASE.of(image);
    need(base.checked_add(ring).is_some_and(|end| end <= count), Refusal::DescriptorArea)?;
    notes.image_exact = count * size == image.len() as u64;
    notes.map_exact = count == room as u64;
    notes.area_ends_at_count = base + ring == count;
    Ok((Blocks { image, size: size as usize, count }, checkpoint::Area { base, ring }))
}

/// Everything after the choice of the superblock.
fn pass(blocks: &Blocks, taken: &Taken, cells: &mut [u8], notes: &mut Notes) -> Step<Report> {
    let objects = ObjectMap::load(blocks, superblock::OBJECT_MAP.of(taken.superblock))?;
    let manager = Manager::load(blocks, taken, notes)?;
    notes.free_ring = FreeRing::beside(blocks, &manager);
    let pool = Pool::load(blocks, &manager)?;
    let mut audit = Audit { pool: &pool, cells, report: Report::default(), notes };
    audit.free_ring(&manager)?;
    audit.listed(blocks, &manager)?;
    audit.queue(blocks, taken, manager.field(m::POOL_QUEUE))?;
    let mut report = audit.report;
    report.pool_unused = pool.unused(cells)?;
    let mut claims = Claims { cells, report: &mut report, notes };
    claims.areas(taken.superblock, &manager)?;
    claims.object_map(blocks, &objects)?;
    claims.volumes(blocks, taken, &objects)?;
    claims.queue(blocks, taken, manager.field(m::MAIN_QUEUE))?;
    report.xid = object::XID.of(taken.superblock);
    report.device_free = manager.field(m::FREE_COUNT);
    compare(cells, &mut report);
    Ok(report)
}

/// Owners against marks, and the verdict.
fn compare(cells: &[u8], report: &mut Report) {
    for (block, cell) in (0..).zip(cells) {
        let (owner, marked) = (usize::from(cell & Cell::OWNER), cell & Cell::MARKED != 0);
        report.pool_used += u64::from(cell & Cell::POOL_USED != 0);
        if owner == 0 {
            report.leaked += u64::from(marked);
        } else if !marked {
            let lost = &mut report.lost[owner - 1];
            lost.first = if lost.count == 0 { block } else { lost.first };
            lost.count += 1;
        }
    }
    let sound = report.lost_blocks() == 0 && report.overlaps() == 0 && report.problems == 0;
    report.verdict = if sound { Verdict::Consistent } else { Verdict::Inconsistent }.number();
}

#[cfg(test)]
mod tests {
    use super::*;

    fn refusal(image: &[u8]) -> Option<Refusal> {
        check(image, &mut [0; 4]).refusal()
    }

    #[test]
    fn what_block_0_says_is_tested_in_order() {
        let mut image = vec![0; 4096];
        assert_eq!(refusal(&image[..4095]), Some(Refusal::ShortImage));
        assert_eq!(refusal(&image), Some(Refusal::NoMagic));
        superblock::MAGIC.set(&mut image, superblock::NXSB);
        superblock::BLOCK_SIZE.set(&mut image, 6144);
        assert_eq!(refusal(&image), Some(Refusal::BlockSize));
        superblock::BLOCK_SIZE.set(&mut image, 65536);
        assert_eq!(refusal(&image), Some(Refusal::BlockCount));
        superblock::BLOCK_COUNT.set(&mut image, 1);
        assert_eq!(refusal(&image), Some(Refusal::MissingBlocks));
        superblock::BLOCK_SIZE.set(&mut image, 4096);
        assert_eq!(refusal(&image), Some(Refusal::NoCheckpoint));
        superblock::DESCRIPTOR_BASE.set(&mut image, 2);
        assert_eq!(refusal(&image), Some(Refusal::DescriptorArea));
        superblock::DESCRIPTOR_BLOCKS.set(&mut image, 0x8000_0000);
        assert_eq!(refusal(&image), Some(Refusal::DescriptorLength));
    }
}
