//! Empty containers by mkapfs, with a whole bitmap of the pool.

use std::fs::File;
use std::io;
use std::os::unix::fs::FileExt;
use std::path::Path;

use compare::fields::{checkpoint_map, manager as m, mapping, put, superblock as s};
use compare::fletcher::seal;
use compare::free_list::FreeList;

use crate::container::BLOCK;
use crate::scratch::Scratch;

const BITMAP_BITS: u64 = 8 * BLOCK as u64;
/// mkapfs keeps the list of bitmap indices in 8 bytes.
const INDEX_ROOM: u64 = 4;

pub struct Made {
    pub scratch: Scratch,
    /// The pool's bitmap had to be completed.
    pub completed: bool,
    /// Blocks of its ring that aren't in use, and so are listed as unused.
    pub unused: u64,
}

/// A container of so many blocks.
pub fn make(program: &Path, blocks: u64) -> io::Result<Made> {
    let scratch = Scratch::new(&format!("mkapfs-{blocks}"), blocks * BLOCK as u64)?;
    compare::mkapfs::make(program, &scratch.path)?;
    let completed = complete_pool_bitmap(&scratch.file)?;
    let block = read(&scratch.file, manager(&scratch.file)?)?;
    let unused = m::BITMAP_RING.of(&block) - m::BITMAP_SLOTS.of(&block);
    Ok(Made { scratch, completed, unused })
}

/// Some versions give every pool one bitmap block, which is too small from 32,769 pool blocks on: the original panics
/// there, and the proved pass refuses. The manager is told of as many as the pool needs, which its free list then lacks;
/// the others' bits are all 0.
fn complete_pool_bitmap(file: &File) -> io::Result<bool> {
    let address = manager(file)?;
    let mut block = read(file, address)?;
    let (told, needed) = (m::BITMAP_SLOTS.of(&block), m::POOL_COUNT.of(&block).div_ceil(BITMAP_BITS));
    if needed <= told {
        return Ok(false);
    }
    if needed > INDEX_ROOM.min(m::BITMAP_RING.of(&block)) {
        return Err(io::Error::other("a pool too large for the list of its bitmap blocks"));
    }
    m::BITMAP_SLOTS.set(&mut block, needed);
    let list = m::INDEX_OFFSET.of(&block) as usize;
    for i in told..needed {
        put(&mut block, list + i as usize * m::INDEX_WIDTH, m::INDEX_WIDTH, i);
    }
    let ring = m::BITMAP_RING.of(&block);
    let unused: Vec<u64> = (needed..ring).collect();
    let table = m::FREE_NEXT_OFFSET.of(&block) as usize;
    FreeList::through(&unused, ring).write(&mut block, table);
    seal(&mut block);
    file.write_all_at(&block, address * BLOCK as u64)?;
    Ok(true)
}

/// Where the manager stands, by the one checkpoint of a new container.
fn manager(file: &File) -> io::Result<u64> {
    let superblock = read(file, 0)?;
    let map = read(file, s::DESCRIPTOR_BASE.of(&superblock) + s::DESCRIPTOR_INDEX.of(&superblock))?;
    let entries = map[checkpoint_map::ENTRIES..].chunks_exact(checkpoint_map::ENTRY);
    let id = s::MANAGER_ID.of(&superblock);
    let entry = entries.take(checkpoint_map::COUNT.of(&map) as usize).find(|entry| mapping::ID.of(entry) == id);
    entry.map(|entry| mapping::ADDRESS.of(entry)).ok_or_else(|| io::Error::other("a container without a manager"))
}

fn read(file: &File, address: u64) -> io::Result<Vec<u8>> {
    let mut block = vec![0; BLOCK];
    file.read_exact_at(&mut block, address * BLOCK as u64)?;
    Ok(block)
}
