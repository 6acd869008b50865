//! A synthetic container in a sparse file, from a seed alone: dense bitmaps, an object map of three levels, long queues,
//! volumes and a long ring of the pool's bitmap where they are wanted, and address blocks where it is large. It is
//! consistent: whatever is claimed is marked, nothing is claimed twice, and what of the ring is in use isn't listed as
//! unused.

mod address_blocks;
mod bitmaps;
mod checkpoint;
mod manager;
mod object_map;
mod queues;
mod trees;
mod volumes;

use std::fs::File;
use std::io;
use std::os::unix::fs::FileExt;

use compare::rng::Rng;

use crate::container::BLOCK;
use bitmaps::{Bits, Chunks, RECORDS};
use queues::{MAIN_SLOT, POOL_SLOT};

const XID: u64 = 1000;
const MANAGER_ID: u64 = 0x400;
const QUEUE_ID: u64 = 0x1_0000;
const VOLUME_ID: u64 = 0x10_0000;

/// What a container is to hold.
#[derive(Clone, Copy)]
pub struct Form {
    pub blocks: u64,
    /// One chunk in so many has a bitmap, the first one among them; the others are free.
    pub bitmap_every: u64,
    /// Entries of each of the two queues.
    pub queued: u64,
    /// Mappings of the object map.
    pub mapped: u64,
    /// So many of the mapped blocks are volumes that the container's superblock lists.
    pub volumes: u64,
    /// Blocks of the ring of the pool's bitmap, with a scattered list of the unused ones. Where none is wanted, the ring
    /// is twice as long as the bitmap.
    pub ring: Option<u64>,
    pub seed: u64,
}

impl Form {
    /// Nodes of each queue's tree.
    fn queue_nodes(&self) -> u64 {
        trees::nodes(self.queued)
    }

    pub fn chunks(&self) -> u64 {
        Bits::blocks(self.blocks)
    }

    fn bitmaps(&self) -> u64 {
        self.chunks().div_ceil(self.bitmap_every)
    }

    /// Chunk-info blocks.
    pub fn infos(&self) -> u64 {
        self.chunks().div_ceil(RECORDS as u64)
    }

    pub fn address_blocks(&self) -> u64 {
        address_blocks::count(self.infos())
    }

    /// Pool blocks that the bitmaps and their lists take; behind them is the queue's part.
    fn own_blocks(&self) -> u64 {
        self.bitmaps() + self.infos() + self.address_blocks()
    }

    fn pool_blocks(&self) -> u64 {
        self.own_blocks() + POOL_SLOT * self.queued
    }

    /// Blocks of the pool's bitmap.
    fn pool_bitmaps(&self) -> u64 {
        Bits::blocks(self.pool_blocks())
    }

    /// Blocks of the ring that these stand in.
    fn ring_blocks(&self) -> u64 {
        self.ring.unwrap_or(2 * self.pool_bitmaps())
    }

    /// Blocks of that ring that the manager lists as unused: all others.
    pub fn unused(&self) -> u64 {
        self.ring_blocks() - self.pool_bitmaps()
    }

    /// Blocks of the volumes besides their superblocks.
    fn volume_blocks(&self) -> u64 {
        self.volumes * volumes::blocks_each()
    }
}

/// Where the parts stand, one after the other from block 1 on.
struct Places {
    descriptors: u64,
    /// The manager, at the start of the data area, and behind it the queues' nodes.
    data: u64,
    queues: u64,
    bitmap_ring: u64,
    /// The pool, and the chunks' bitmaps.
    pool: u64,
    infos: u64,
    address_blocks: u64,
    object_map: u64,
    nodes: u64,
    end: u64,
}

impl Places {
    /// The areas of the checkpoint are twice as long as one needs them.
    fn of(form: &Form) -> Self {
        let descriptors = 1;
        let data = descriptors + 2 * (checkpoint::map_blocks(form) + 1);
        let queues = data + manager::blocks(form);
        let bitmap_ring = data + 2 * (manager::blocks(form) + 2 * form.queue_nodes());
        let pool = bitmap_ring + form.ring_blocks();
        let infos = pool + form.bitmaps();
        let address_blocks = infos + form.infos();
        let object_map = pool + form.pool_blocks();
        let nodes = object_map + 1;
        let end = nodes + trees::nodes(form.mapped);
        Places { descriptors, data, queues, bitmap_ring, pool, infos, address_blocks, object_map, nodes, end }
    }
}

/// A container under way.
struct Build<'a> {
    file: &'a File,
    form: Form,
    places: Places,
    rng: Rng,
}

pub fn write(file: &File, form: Form) -> io::Result<()> {
    file.set_len(form.blocks * BLOCK as u64)?;
    let mut build = Build { file, form, places: Places::of(&form), rng: Rng::new(form.seed) };
    let mut chunks = Chunks::choose(&form, &mut build.rng);
    let mut slots = chunks.dense_slots(build.places.end, MAIN_SLOT);
    if (slots.len() as u64) < form.queued + form.mapped + form.volume_blocks() {
        return Err(io::Error::other("the container is too small for its queues, mappings and volumes"));
    }
    build.rng.shuffle(&mut slots);
    let (queued, rest) = slots.split_at(form.queued as usize);
    let (mapped, rest) = rest.split_at(form.mapped as usize);
    chunks.bits.set(0, build.places.end);
    build.object_map(mapped, &mut chunks.bits)?;
    build.volumes(mapped, &rest[..form.volume_blocks() as usize], &mut chunks.bits)?;
    build.main_queue(queued, &mut chunks.bits)?;
    build.pool()?;
    build.chunks(&chunks)?;
    build.manager(chunks.free())?;
    build.checkpoint()
}

impl Build<'_> {
    fn put(&self, address: u64, bytes: &[u8]) -> io::Result<()> {
        self.file.write_all_at(bytes, address * BLOCK as u64)
    }

    /// Chunk bitmaps from the pool's start on, behind them the blocks that list them, and the address blocks if any.
    fn chunks(&self, chunks: &Chunks) -> io::Result<()> {
        let places = &self.places;
        let infos = chunks.info_blocks(places.pool);
        let address_blocks = address_blocks::blocks(places.infos..places.address_blocks);
        let lists: Vec<Vec<u8>> = infos.into_iter().chain(address_blocks).collect();
        for (address, block) in (places.pool..).zip(chunks.bitmaps().chain(lists.iter().map(Vec::as_slice))) {
            self.put(address, block)?;
        }
        Ok(())
    }
}
