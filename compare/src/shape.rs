//! What kind of container is to be built: chosen from a seed, before any address is.

use crate::nodes::{SizeMode, TreeShape};
use crate::rng::Rng;

/// The blocks of an image that fits 65,536 bytes.
const SMALL: u64 = 16;

#[derive(Clone, Debug)]
pub struct Shape {
    pub block_size: usize,
    pub checkpoints: u64,
    /// The two newest checkpoints have one xid.
    pub equal_xids: bool,
    /// The newest checkpoint's map is broken, so an older one is taken.
    pub torn: bool,
    /// Each checkpoint has a manager of its own.
    pub own_managers: bool,
    /// Map blocks of each checkpoint.
    pub chain: u64,
    pub descriptor_slack: u64,
    pub manager_blocks: u64,
    pub data_slack: u64,
    /// The data area's length has its top bit set, which doesn't count.
    pub data_top_bit: bool,
    /// Managers are mapped so many times the data ring further on, which comes to the same block.
    pub turns: u64,
    pub bitmap_slots: u64,
    pub bitmap_slack: u64,
    /// The pool stands last and its count reaches past the container.
    pub pool_reaches_out: bool,
    pub pool_slack: u64,
    /// None in most: the original can't be compared on a container that has some.
    pub address_blocks: u64,
    pub chunk_infos: u64,
    pub chunks: u64,
    pub object_map: TreeShape,
    /// Entries of each leaf of the object map's tree; every fourth is a ghost.
    pub mappings: u64,
    pub volumes: Vec<VolumeShape>,
    /// How the volumes' ids stand in the superblocks' places.
    pub ids: Ids,
    /// Some of the mappings are deleted ones, or have other flags.
    pub deletes: bool,
    pub pool_queue: Option<QueueShape>,
    pub main_queue: Option<QueueShape>,
    /// Blocks that nothing uses.
    pub free: u64,
}

/// A volume: a superblock, and three trees of which some can be those of another.
#[derive(Clone, Debug)]
pub struct VolumeShape {
    /// Its object map's tree; without one its map is the container's.
    pub map: Option<TreeShape>,
    /// The map has only its root: its checksum, kind and tree type aren't what an object map has.
    pub bare_map: bool,
    /// Without one, that of the first volume, which has its own.
    pub extents: Option<TreeShape>,
    pub snapshots: Snapshots,
    /// Mappings of its id below the one that counts, and mappings above the checkpoint's xid.
    pub older: Vec<Other>,
    pub newer: Vec<Other>,
}

#[derive(Clone, Debug)]
pub enum Snapshots {
    None,
    /// The first volume's, or none where that has none.
    Shared,
    Own(TreeShape),
}

/// Another mapping of a volume's id.
#[derive(Clone, Copy, Debug, PartialEq, Eq)]
pub enum Other {
    Ghost,
    /// In a container with deleted mappings; elsewhere a ghost.
    Deleted,
    /// It names the volume's superblock too.
    Same,
    /// It names a block of its own, which is no superblock.
    Own,
}

/// How the ids of the volumes stand.
#[derive(Clone, Copy, Debug, PartialEq, Eq)]
pub enum Ids {
    InARow,
    /// With zeros between them, some of them twice.
    Mixed,
    /// Up to the last place that counts, with another id behind that.
    ToTheLast,
}

impl VolumeShape {
    fn random(rng: &mut Rng, first: bool, levels: u64, most: u64) -> Self {
        let others = |rng: &mut Rng| {
            let count = if rng.chance(40) { rng.between(1, most) } else { 0 };
            (0..count).map(|_| *rng.pick(&[Other::Ghost, Other::Deleted, Other::Same, Other::Own])).collect()
        };
        VolumeShape {
            map: (!rng.chance(15)).then(|| tree(rng, levels)),
            bare_map: rng.chance(15),
            extents: (first || !rng.chance(30)).then(|| tree(rng, levels)),
            snapshots: match rng.below(10) {
                0..4 => Snapshots::None,
                4 => Snapshots::Shared,
                _ => Snapshots::Own(tree(rng, levels)),
            },
            older: others(rng),
            newer: others(rng),
        }
    }

    /// Its superblock, its map, the nodes of its own trees and the blocks of its other mappings.
    fn blocks(&self) -> u64 {
        let map = self.map.map_or(0, |tree| 1 + tree.nodes());
        let extents = self.extents.map_or(0, |tree| tree.nodes());
        let snapshots = if let Snapshots::Own(tree) = &self.snapshots { tree.nodes() } else { 0 };
        let others = self.older.iter().chain(&self.newer).filter(|&&other| other == Other::Own).count() as u64;
        1 + map + extents + snapshots + others
    }
}

#[derive(Clone, Debug)]
pub struct QueueShape {
    pub tree: TreeShape,
    /// For each leaf, its entries' counts; a ghost is none and counts 1.
    pub leaves: Vec<Vec<Option<u64>>>,
}

impl QueueShape {
    /// The blocks that wait in the queue.
    pub fn blocks(&self) -> u64 {
        self.leaves.iter().flatten().map(|count| count.unwrap_or(1)).sum()
    }

    fn random(rng: &mut Rng, most: u64) -> Self {
        let tree = tree(rng, most);
        let count = |rng: &mut Rng| if rng.chance(30) { None } else { Some(rng.below(4)) };
        let leaf = |rng: &mut Rng| (0..rng.below(most + 1)).map(|_| count(rng)).collect();
        QueueShape { tree, leaves: (0..tree.leaves()).map(|_| leaf(rng)).collect() }
    }
}

fn tree(rng: &mut Rng, most: u64) -> TreeShape {
    TreeShape {
        levels: rng.between(1, most),
        fan: rng.between(1, most.min(2)),
        mode: SizeMode::random(rng),
        lowest_level: if rng.chance(10) { rng.below(30) } else { 0 },
    }
}

impl Shape {
    pub fn random(rng: &mut Rng) -> Self {
        if rng.chance(60) {
            // Tried until one fits: most do after a few.
            loop {
                let most = if rng.chance(70) { 1 } else { 2 };
                let shape = Self::of_size(rng, 4096, most);
                if shape.blocks() <= SMALL {
                    return shape;
                }
            }
        }
        let block_size = *rng.pick(&[4096, 4096, 4096, 4096, 4096, 4096, 8192, 8192, 8192, 16384, 32768, 65536]);
        Self::of_size(rng, block_size, 3)
    }

    /// More pool blocks than one bitmap block has bits, and chunks that still fit theirs.
    pub fn with_large_pool(rng: &mut Rng) -> Self {
        let shape = Self::of_size(rng, 4096, 3);
        let (bitmap_slots, pool_slack, address_blocks) = (2, 50_000, 0);
        Shape { bitmap_slots, pool_slack, pool_reaches_out: false, address_blocks, chunk_infos: 3, chunks: 40, ..shape }
    }

    /// Numbers of things go up to `most`.
    fn of_size(rng: &mut Rng, block_size: usize, most: u64) -> Self {
        let checkpoints = rng.between(1, most + 1);
        let several = checkpoints > 1;
        let chunk_infos = rng.between(1, most);
        let small = most < 3;
        // Most of what takes many blocks stays single in a part of the shapes.
        let single = |rng: &mut Rng, percent: u64, else_most: u64| if rng.chance(percent) { 1 } else { else_most };
        let manager_most = single(rng, 50, most);
        let slots_most = single(rng, 50, 2);
        let map_most = single(rng, if small { 50 } else { 10 }, 3);
        let queue_mosts = [single(rng, 70, 3), single(rng, 70, 3)];
        let levels = single(rng, if small { 80 } else { 30 }, 4);
        let volumes = if rng.chance(75) { rng.between(1, most) } else { 0 };
        Shape {
            block_size,
            checkpoints,
            equal_xids: several && rng.chance(30),
            torn: several && rng.chance(25),
            own_managers: several && rng.chance(60),
            chain: rng.between(1, most),
            descriptor_slack: rng.below(most),
            manager_blocks: rng.between(1, manager_most),
            data_slack: rng.below(most),
            data_top_bit: rng.chance(15),
            turns: if rng.chance(15) { rng.between(1, 3) } else { 0 },
            bitmap_slots: rng.between(1, slots_most),
            bitmap_slack: rng.below(most),
            pool_reaches_out: rng.chance(10),
            pool_slack: rng.below(most + 1),
            address_blocks: if rng.chance(4) { rng.between(1, most + 1) } else { 0 },
            chunk_infos,
            chunks: rng.between(chunk_infos, chunk_infos * most),
            object_map: tree(rng, map_most),
            mappings: rng.below(most + 2),
            volumes: (0..volumes).map(|i| VolumeShape::random(rng, i == 0, levels, most)).collect(),
            ids: *rng.pick(&[Ids::InARow, Ids::Mixed, Ids::Mixed, Ids::ToTheLast]),
            deletes: rng.chance(8),
            pool_queue: rng.chance(60).then(|| QueueShape::random(rng, queue_mosts[0])),
            main_queue: rng.chance(60).then(|| QueueShape::random(rng, queue_mosts[1])),
            free: if small { rng.below(4) } else { rng.below(12) + if rng.chance(10) { 40 } else { 0 } },
        }
    }

    pub fn managers(&self) -> u64 {
        if self.own_managers {
            self.checkpoints
        } else {
            1
        }
    }

    pub fn descriptor_blocks(&self) -> u64 {
        self.checkpoints * (self.chain + 1) + self.descriptor_slack
    }

    pub fn queue_nodes(&self) -> u64 {
        [&self.pool_queue, &self.main_queue].into_iter().flatten().map(|q| q.tree.nodes()).sum()
    }

    pub fn data_blocks(&self) -> u64 {
        self.managers() * self.manager_blocks + self.queue_nodes() + self.data_slack
    }

    pub fn bitmap_blocks(&self) -> u64 {
        self.bitmap_slots + self.bitmap_slack
    }

    /// Pool blocks inside the container: address blocks, chunk-info blocks, chunk bitmaps, queued blocks and some more.
    pub fn pool_blocks(&self) -> u64 {
        let queued = self.pool_queue.as_ref().map_or(0, QueueShape::blocks);
        self.address_blocks + self.chunk_infos + self.chunks + queued + self.pool_slack
    }

    /// Leaf entries of the object map's tree that are no volume's.
    pub fn mapping_entries(&self) -> u64 {
        self.object_map.leaves() * self.mappings
    }

    pub fn is_ghost(mapping: u64) -> bool {
        mapping % 4 == 3
    }

    /// The blocks that these name.
    pub fn mapped_blocks(&self) -> u64 {
        (0..self.mapping_entries()).filter(|&i| !Self::is_ghost(i)).count() as u64
    }

    pub fn volume_blocks(&self) -> u64 {
        self.volumes.iter().map(VolumeShape::blocks).sum()
    }

    pub fn queued_blocks(&self) -> u64 {
        self.main_queue.as_ref().map_or(0, QueueShape::blocks)
    }

    /// All blocks of the container.
    pub fn blocks(&self) -> u64 {
        let areas = self.descriptor_blocks() + self.data_blocks() + self.bitmap_blocks() + self.pool_blocks();
        let mapped = self.object_map.nodes() + self.mapped_blocks() + self.volume_blocks();
        2 + areas + mapped + self.queued_blocks() + self.free
    }
}
