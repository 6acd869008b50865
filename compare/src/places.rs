//! Where the parts of a container stand: areas and single blocks in any order, with free blocks between them.

use crate::rng::Rng;
use crate::shape::Shape;

// The parts: five areas, the object map, its nodes, the blocks that its mappings name and then those of the volumes.
const DESCRIPTORS: usize = 0;
const DATA: usize = 1;
const BITMAPS: usize = 2;
const POOL: usize = 3;
const QUEUED: usize = 4;
const OBJECT_MAP: usize = 5;
const NODES: usize = 6;

/// The first block of each part.
pub struct Places {
    pub count: u64,
    pub descriptors: u64,
    pub data: u64,
    pub bitmaps: u64,
    pub pool: u64,
    pub queued: u64,
    pub object_map: u64,
    pub nodes: Vec<u64>,
    pub mapped: Vec<u64>,
    pub volumes: Vec<u64>,
    /// For each block, whether something uses it.
    pub used: Vec<bool>,
}

impl Places {
    pub fn choose(shape: &Shape, rng: &mut Rng) -> Self {
        let lengths = lengths(shape);
        let (at, count) = addresses(shape, &lengths, rng);
        let mut used = vec![false; count as usize];
        used[0] = true;
        for (&start, &length) in at.iter().zip(&lengths) {
            used[start as usize..(start + length) as usize].fill(true);
        }
        let mapped = NODES + shape.object_map.nodes() as usize;
        let volumes = mapped + shape.mapped_blocks() as usize;
        Places {
            count,
            descriptors: at[DESCRIPTORS],
            data: at[DATA],
            bitmaps: at[BITMAPS],
            pool: at[POOL],
            queued: at[QUEUED],
            object_map: at[OBJECT_MAP],
            nodes: at[NODES..mapped].to_vec(),
            mapped: at[mapped..volumes].to_vec(),
            volumes: at[volumes..].to_vec(),
            used,
        }
    }
}

/// The blocks of each part.
fn lengths(shape: &Shape) -> Vec<u64> {
    let single = shape.object_map.nodes() + shape.mapped_blocks() + shape.volume_blocks();
    let mut lengths = vec![1; NODES + single as usize];
    lengths[DESCRIPTORS] = shape.descriptor_blocks();
    lengths[DATA] = shape.data_blocks();
    lengths[BITMAPS] = shape.bitmap_blocks();
    lengths[POOL] = shape.pool_blocks();
    lengths[QUEUED] = shape.queued_blocks();
    lengths
}

/// The parts one after the other from block 1 on, and the block count.
fn addresses(shape: &Shape, lengths: &[u64], rng: &mut Rng) -> (Vec<u64>, u64) {
    let mut order: Vec<usize> = (0..lengths.len()).collect();
    rng.shuffle(&mut order);
    if shape.pool_reaches_out {
        order.retain(|&part| part != POOL);
        order.push(POOL);
    }
    let (mut next, mut free) = (1, shape.free);
    let mut at = vec![0; lengths.len()];
    for part in order {
        // A pool that reaches past the end has all free blocks before it.
        let last = shape.pool_reaches_out && part == POOL;
        let gap = if last { free } else { rng.below(free.min(2) + 1) };
        free -= gap;
        at[part] = next + gap;
        next = at[part] + lengths[part];
    }
    (at, next + free)
}
