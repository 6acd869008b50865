//! The pool's bitmap, the chunks' bitmaps and the pool queue: what is marked, what is used, the problems met.

use space_check::{Cell, ProblemKind, Refusal, LOGGED};

use super::blocks::{bit, cut, field, need, sum, Blocks, Step};
use super::checkpoint::Taken;
use super::manager::Manager;
use super::tree::{scan_queue, Entry};
use super::Notes;
use crate::answer::{Problem, Report};
use crate::fields::{address_block, chunk, chunk_info, manager as m, queue};
use crate::outside::Outside;

/// The internal pool and its bitmap, block after block.
#[derive(Default)]
pub struct Pool<'a> {
    base: u64,
    count: u64,
    bitmaps: Vec<&'a [u8]>,
}

impl<'a> Pool<'a> {
    /// All indices are read before the first bitmap; the size is tested after the last.
    pub fn load(blocks: &Blocks<'a>, manager: &Manager) -> Step<Self> {
        let indices = manager.pool_indices()?;
        let ring = manager.field(m::BITMAP_BASE);
        let bitmaps = indices.iter().map(|&i| blocks.raw(sum(ring, i)?)).collect::<Step<Vec<_>>>()?;
        let count = manager.field(m::POOL_COUNT);
        need(count <= indices.len() as u64 * blocks.size as u64 * 8, Refusal::BadBitmap)?;
        Ok(Pool { base: manager.field(m::POOL_BASE), count, bitmaps })
    }

    /// An address below the base wraps round and falls outside.
    fn marks(&self, address: u64) -> bool {
        let i = address.wrapping_sub(self.base);
        i < self.count && {
            let bits = self.bitmaps[0].len() as u64 * 8;
            bit(self.bitmaps[(i / bits) as usize], i % bits)
        }
    }

    /// Pool blocks marked and not used; those past the container can't be used.
    pub fn unused(&self, cells: &[u8]) -> Step<u64> {
        let mut unused = 0;
        for i in 0..self.count {
            let address = sum(self.base, i)?;
            unused += u64::from(self.marks(address) && !is_used(cells, address));
        }
        Ok(unused)
    }
}

fn is_used(cells: &[u8], address: u64) -> bool {
    usize::try_from(address).ok().and_then(|a| cells.get(a)).is_some_and(|cell| cell & Cell::POOL_USED != 0)
}

struct Chunk {
    address: u64,
    blocks: u64,
    free: u64,
    bitmap: u64,
}

/// All chunk-info blocks that an address block names; its end alone bounds their number.
fn addresses(block: &[u8]) -> Step<Vec<u64>> {
    let places = (0..address_block::COUNT.of(block) as usize).map(address_block::address);
    places.map(|place| field(block, place.at, place.width)).collect()
}

/// All records of a chunk-info block.
fn chunks(block: &[u8]) -> Step<Vec<Chunk>> {
    let record = |i: usize| {
        let r = cut(block, chunk_info::RECORDS + i * chunk_info::RECORD, chunk_info::RECORD)?;
        Ok(Chunk {
            address: chunk::ADDRESS.of(r),
            blocks: chunk::BLOCKS.of(r) & chunk::COUNT_MASK,
            free: chunk::FREE.of(r) & chunk::COUNT_MASK,
            bitmap: chunk::BITMAP.of(r),
        })
    };
    (0..chunk_info::COUNT.of(block) as usize).map(record).collect()
}

/// The address and the count of a queue's entry; a ghost counts 1.
pub fn queued(entry: &Entry) -> Step<(u64, u64)> {
    let address = field(entry.key, queue::ADDRESS.at, queue::ADDRESS.width)?;
    let count = entry.value.map_or(Ok(1), |value| field(value, queue::COUNT.at, queue::COUNT.width))?;
    Ok((address, count))
}

pub struct Audit<'p, 'c> {
    pub pool: &'p Pool<'p>,
    pub cells: &'c mut [u8],
    pub report: Report,
    pub notes: &'c mut Notes,
}

impl Audit<'_, '_> {
    /// Notes a problem where the test holds.
    pub fn problem_if(&mut self, test: bool, kind: ProblemKind, block: u64) {
        if !test {
            return;
        }
        if self.report.problems < LOGGED as u64 {
            self.report.first_problems[self.report.problems as usize] = Problem { kind: kind.number(), block };
        }
        self.report.problems += 1;
    }

    /// The blocks that the manager lists: address blocks where it counts any, whatever its other count says, else
    /// chunk-info blocks. Every list is read whole before the first block that it names.
    pub fn listed(&mut self, blocks: &Blocks, manager: &Manager) -> Step<()> {
        let offset = manager.field(m::LISTED_OFFSET);
        let list = |count| manager.list(offset, manager.field(count), m::ADDRESS_WIDTH);
        if manager.field(m::ADDRESS_BLOCKS) > 0 {
            self.address_blocks(blocks, &list(m::ADDRESS_BLOCKS)?)
        } else {
            self.chunk_infos(blocks, &list(m::CHUNK_INFO_COUNT)?)
        }
    }

    /// The chunk-info blocks of one come before the next.
    fn address_blocks(&mut self, blocks: &Blocks, listed: &[u64]) -> Step<()> {
        for &address in listed {
            self.problem_if(!self.pool.marks(address), ProblemKind::AddressUnmarked, address);
            let infos = addresses(blocks.raw(address)?)?;
            self.cells[address as usize] |= Cell::POOL_USED;
            self.chunk_infos(blocks, &infos)?;
        }
        Ok(())
    }

    /// A block's records are read before its first chunk.
    fn chunk_infos(&mut self, blocks: &Blocks, listed: &[u64]) -> Step<()> {
        for &address in listed {
            self.problem_if(!self.pool.marks(address), ProblemKind::InfoUnmarked, address);
            let records = chunks(blocks.raw(address)?)?;
            self.cells[address as usize] |= Cell::POOL_USED;
            records.iter().try_for_each(|chunk| self.chunk(blocks, chunk))?;
        }
        Ok(())
    }

    fn chunk(&mut self, blocks: &Blocks, chunk: &Chunk) -> Step<()> {
        let mut free = chunk.blocks;
        if chunk.bitmap != 0 {
            self.problem_if(!self.pool.marks(chunk.bitmap), ProblemKind::BitmapUnmarked, chunk.bitmap);
            self.problem_if(is_used(self.cells, chunk.bitmap), ProblemKind::BitmapUsed, chunk.bitmap);
            let bitmap = blocks.raw(chunk.bitmap)?;
            self.cells[chunk.bitmap as usize] |= Cell::POOL_USED;
            need(chunk.blocks <= bitmap.len() as u64 * 8, Refusal::BadBitmap)?;
            for i in (0..chunk.blocks).filter(|&i| bit(bitmap, i)) {
                let block = sum(chunk.address, i)?;
                need(block < blocks.count, Refusal::BadBitmap)?;
                self.cells[block as usize] |= Cell::MARKED;
                free -= 1;
            }
        }
        self.report.free = sum(self.report.free, free)?;
        self.report.wrong_chunks += u64::from(free != chunk.free);
        Ok(())
    }

    /// The pool queue: each of its blocks must be marked and not used.
    pub fn queue(&mut self, blocks: &Blocks, taken: &Taken, root: u64) -> Step<()> {
        scan_queue(blocks, taken, root, &mut |entry| {
            let (address, count) = queued(&entry)?;
            let end = address.checked_add(count).filter(|&end| end <= blocks.count);
            let Some(end) = end else {
                self.notes.outside.get_or_insert(Outside::QueuedPastCount);
                return Err(Refusal::Overflow);
            };
            self.notes.queued_to_count |= end == blocks.count;
            for block in address..end {
                self.problem_if(!self.pool.marks(block), ProblemKind::QueuedUnmarked, block);
                self.problem_if(is_used(self.cells, block), ProblemKind::QueuedUsed, block);
                self.cells[block as usize] |= Cell::POOL_USED;
            }
            Ok(())
        })
    }
}

#[cfg(test)]
mod tests {
    use super::*;

    #[test]
    fn a_pool_marks_its_own_blocks() {
        let bitmap = [0x03; 4096];
        let pool = Pool { base: 6, count: 2, bitmaps: vec![&bitmap] };
        assert_eq!([5, 6, 7, 8].map(|address| pool.marks(address)), [false, true, true, false]);
    }

    #[test]
    fn a_block_holds_126_records() {
        let mut block = vec![0; 4096];
        chunk_info::COUNT.set(&mut block, 126);
        assert_eq!(chunks(&block).map(|c| c.len()), Ok(126));
        chunk_info::COUNT.set(&mut block, 127);
        assert_eq!(chunks(&block).map(|c| c.len()), Err(Refusal::OutsideBytes));
    }

    #[test]
    fn a_block_holds_507_addresses() {
        let mut block = vec![0; 4096];
        address_block::COUNT.set(&mut block, 507);
        address_block::address(506).set(&mut block, 9);
        assert_eq!(addresses(&block).map(|a| (a.len(), a[506])), Ok((507, 9)));
        address_block::COUNT.set(&mut block, 508);
        assert_eq!(addresses(&block), Err(Refusal::OutsideBytes));
    }

    #[test]
    fn an_address_block_is_left_before_the_next() {
        let mut image = vec![0; 4 * 4096];
        address_block::COUNT.set(&mut image[4096..], 1);
        address_block::address(0).set(&mut image[4096..], 3);
        let blocks = Blocks { image: &image, size: 4096, count: 4 };
        let (mut cells, mut notes) = ([0; 4], Notes::default());
        let pool = Pool::default();
        let mut audit = Audit { pool: &pool, cells: &mut cells, report: Report::default(), notes: &mut notes };
        // Nothing is marked; block 2 is an empty address block, block 3 a chunk-info block without records.
        assert_eq!(audit.address_blocks(&blocks, &[1, 2, 1]), Ok(()));
        let found = audit.report.first_problems.map(|p| (p.kind, p.block));
        assert_eq!(found[..5], [(6, 1), (1, 3), (6, 2), (6, 1), (1, 3)]);
        assert_eq!((audit.report.problems, cells), (5, [0, 0x20, 0x20, 0x20]));
    }

    #[test]
    fn zeros_of_a_bitmap_are_free() {
        let mut image = vec![0; 16 * 4096];
        image[4096..4098].copy_from_slice(&[0xff, 0x03]);
        let blocks = Blocks { image: &image, size: 4096, count: 16 };
        let pool = Pool::default();
        for (bitmap, free) in [(0, 16), (1, 6)] {
            let report = Report::default();
            let mut audit = Audit { pool: &pool, cells: &mut [0; 16], report, notes: &mut Notes::default() };
            assert_eq!(audit.chunk(&blocks, &Chunk { address: 0, blocks: 16, free, bitmap }), Ok(()));
            assert_eq!((audit.report.free, audit.report.wrong_chunks), (free, 0));
        }
    }
}
