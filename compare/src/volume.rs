//! Builds the volumes of a container: their superblocks, their trees, and their mappings for the container's object map.

use crate::fields::{mapped, object, object_map, superblock, volume};
use crate::fletcher::seal;
use crate::nodes::{bytes_of, Entry, Sizes, Tree, TreeShape};
use crate::places::Places;
use crate::rng::Rng;
use crate::shape::{Ids, Other, Shape, Snapshots, VolumeShape};

/// A volume's id is one of these and its number: they stand before, among and behind the other ids of the object map.
const IDS: [u64; 3] = [0x404, 0x4c0, u64::MAX - 0x40];
/// The id of no volume, in a place that doesn't count.
const NO_VOLUME: u64 = 0x777;

/// What the container has to know of its volumes.
#[derive(Default)]
pub struct Built {
    pub mappings: Vec<Entry>,
    /// What the places of a superblock hold, and how many it states.
    pub ids: Vec<u64>,
    pub places: u64,
}

/// The addresses that a volume's superblock has.
#[derive(Clone, Copy)]
struct Trees {
    map: u64,
    extents: u64,
    snapshots: u64,
}

pub struct Volumes<'a> {
    pub shape: &'a Shape,
    pub places: &'a Places,
    pub image: &'a mut [u8],
    pub rng: &'a mut Rng,
    /// Of the checkpoint that is taken.
    pub xid: u64,
}

impl Volumes<'_> {
    pub fn build(mut self) -> Built {
        let mut blocks = self.places.volumes.clone().into_iter();
        let (mut ids, mut mappings, mut first) = (Vec::new(), Vec::new(), None);
        for (number, shape) in (0..).zip(&self.shape.volumes) {
            let id = self.rng.pick(&IDS) + number;
            let at = blocks.next().expect("a block for each volume");
            let trees = self.trees(shape, &mut blocks, first);
            first = first.or(Some(trees));
            self.superblock(at, id, trees);
            mappings.extend(self.mappings(shape, id, at, &mut blocks));
            ids.push(id);
        }
        let ids = if ids.is_empty() { ids } else { self.spread(&ids) };
        // Places behind the last id hold 0, or don't count.
        let places = ids.len() as u64 + *self.rng.pick(&[0, 1, 5, 1000]);
        Built { mappings, ids, places }
    }

    fn block(&mut self, address: u64) -> &mut [u8] {
        let size = self.shape.block_size;
        &mut self.image[address as usize * size..][..size]
    }

    fn superblock(&mut self, at: u64, id: u64, trees: Trees) {
        // What stands beside the kind doesn't count.
        let storage = *self.rng.pick(&[0, object::PHYSICAL, object::EPHEMERAL]);
        let fields = [
            (object::ID, id),
            (object::XID, self.xid),
            (object::TYPE, object::VOLUME | storage),
            (volume::MAGIC, volume::APSB),
            (volume::OBJECT_MAP, trees.map),
            (volume::EXTENT_TREE, trees.extents),
            (volume::SNAPSHOT_TREE, trees.snapshots),
        ];
        let block = self.block(at);
        fields.into_iter().for_each(|(field, value)| field.set(block, value));
        seal(block);
    }

    /// The trees that are its own, and the addresses of those that aren't.
    fn trees(&mut self, shape: &VolumeShape, blocks: &mut dyn Iterator<Item = u64>, first: Option<Trees>) -> Trees {
        let map = match shape.map {
            Some(tree) => self.map(tree, shape.bare_map, blocks),
            None => self.places.object_map,
        };
        let extents = match shape.extents {
            Some(tree) => self.tree(tree, object::EXTENT_TREE, Sizes { key: 8, value: 20 }, blocks),
            None => first.expect("the first volume has its own").extents,
        };
        let snapshots = match &shape.snapshots {
            Snapshots::None => 0,
            Snapshots::Shared => first.map_or(0, |first| first.snapshots),
            Snapshots::Own(tree) => self.tree(*tree, object::SNAPSHOT_TREE, Sizes { key: 12, value: 16 }, blocks),
        };
        Trees { map, extents, snapshots }
    }

    /// An object map with its tree, or a block that has the tree's root alone, with whatever sizes.
    fn map(&mut self, tree: TreeShape, bare: bool, blocks: &mut dyn Iterator<Item = u64>) -> u64 {
        let at = blocks.next().expect("a block for each map");
        let more = if bare { 4 * self.rng.below(2) as usize } else { 0 };
        let sizes = Sizes { key: mapped::SIZE + more, value: mapped::SIZE };
        let root = self.tree(tree, object::OBJECT_MAP, sizes, blocks);
        let xid = self.xid;
        if bare {
            object_map::ROOT.set(self.block(at), root);
        } else {
            write_object_map(self.block(at), at, xid, root);
        }
        at
    }

    /// A tree with some entries in its leaves, which nothing reads; gives its root.
    fn tree(&mut self, shape: TreeShape, kind: u64, sizes: Sizes, blocks: &mut dyn Iterator<Item = u64>) -> u64 {
        let blocks: Vec<u64> = blocks.take(shape.nodes() as usize).collect();
        let mut next = 0;
        let mut entry = || {
            next += 1;
            let bytes = |length: usize| bytes_of(&[next, 1, 0])[..length].to_vec();
            (bytes(sizes.key), Some(bytes(sizes.value)))
        };
        let mut leaf = |rng: &mut Rng| (0..rng.below(3)).map(|_| entry()).collect();
        let leaves = (0..shape.leaves()).map(|_| leaf(self.rng)).collect();
        let tree = Tree { shape, sizes, xid: self.xid, subtype: kind, blocks: &blocks, pointers: &blocks, leaves };
        tree.write(self.image, self.shape.block_size, self.rng);
        blocks[0]
    }

    /// The mapping of a volume's superblock at `at`, not above the checkpoint's xid, with the others of its id.
    fn mappings(&mut self, shape: &VolumeShape, id: u64, at: u64, blocks: &mut dyn Iterator<Item = u64>) -> Vec<Entry> {
        let own = self.xid - *self.rng.pick(&[0, 0, 1, 2]);
        let older = shape.older.iter().zip(1..).map(|(&other, back)| (other, own - back));
        let newer = shape.newer.iter().zip(1..).map(|(&other, on)| (other, self.xid + on));
        let size = self.shape.block_size;
        let mut entries = vec![(bytes_of(&[id, own]), Some(mapping_value(size, 0, at)))];
        for (other, xid) in older.chain(newer) {
            let value = match other {
                Other::Deleted if self.shape.deletes => Some(mapping_value(size, mapped::DELETED, at)),
                Other::Ghost | Other::Deleted => None,
                Other::Same => Some(mapping_value(size, 0, at)),
                Other::Own => Some(mapping_value(size, 0, blocks.next().expect("a block for each such mapping"))),
            };
            entries.push((bytes_of(&[id, xid]), value));
        }
        entries
    }

    /// The ids at their places, with what stands between and behind them.
    fn spread(&mut self, ids: &[u64]) -> Vec<u64> {
        match self.shape.ids {
            Ids::InARow => ids.to_vec(),
            Ids::Mixed => {
                let mut spread = Vec::new();
                for &id in ids {
                    spread.extend(vec![0; self.rng.below(3) as usize]);
                    spread.extend(vec![id; 1 + self.rng.below(2) as usize]);
                }
                spread.push(ids[0]);
                spread
            }
            Ids::ToTheLast => {
                let mut spread = vec![0; superblock::MOST_VOLUMES as usize - ids.len()];
                spread.extend(ids);
                spread.push(NO_VOLUME);
                spread
            }
        }
    }
}

/// The value of a mapping.
pub fn mapping_value(block_size: usize, flags: u64, address: u64) -> Vec<u8> {
    bytes_of(&[(block_size as u64) << 32 | flags, address])
}

/// An object map over a tree.
pub fn write_object_map(block: &mut [u8], at: u64, xid: u64, root: u64) {
    object::ID.set(block, at);
    object::XID.set(block, xid);
    object::TYPE.set(block, object::OBJECT_MAP | object::PHYSICAL);
    object_map::TREE_TYPE.set(block, object::ROOT_NODE | object::PHYSICAL);
    object_map::ROOT.set(block, root);
    seal(block);
}
