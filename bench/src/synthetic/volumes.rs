//! Volumes: for each its superblock, its object map, and the three trees that a check walks.

use std::io;

use compare::fields::{object, superblock as s, volume as v};
use compare::fletcher::seal;
use compare::nodes::{bytes_of, Entry};

use super::bitmaps::Bits;
use super::object_map;
use super::trees::{self, Tree};
use super::{Build, Form, BLOCK, VOLUME_ID, XID};

/// Entries of a volume's object map, extent-reference tree and snapshot tree, which so have 123, 61 and 16 nodes.
const MAPPINGS: u64 = 12_000;
const EXTENTS: u64 = 6_000;
const SNAPSHOTS: u64 = 1_500;
/// The first id that a volume's object map maps.
const FILE_TREE_ID: u64 = 0x400;
/// Bytes of a value in an extent-reference tree.
const EXTENT: usize = 20;

/// So many blocks has a volume besides its superblock: its object map, and the nodes of its trees.
pub fn blocks_each() -> u64 {
    1 + [MAPPINGS, EXTENTS, SNAPSHOTS].map(trees::nodes).iter().sum::<u64>()
}

/// Which mappings of the container's object map are volumes: evenly spread, so that lookups take different paths.
fn volume_mappings(form: &Form) -> impl Iterator<Item = u64> {
    let &Form { mapped, volumes, .. } = form;
    (0..volumes).map(move |i| i * mapped / volumes)
}

/// Lists the volumes in the container's superblock.
pub fn list(form: &Form, block: &mut [u8]) {
    s::VOLUMES.set(block, form.volumes);
    let ids = volume_mappings(form).map(|i| VOLUME_ID + i);
    (0..).zip(ids).for_each(|(place, id)| s::volume_id(place).set(block, id));
}

impl Build<'_> {
    /// The volumes, their superblocks in blocks that the container's object map maps, all else of them in `blocks`.
    pub fn volumes(&mut self, mapped: &[u64], blocks: &[u64], marked: &mut Bits) -> io::Result<()> {
        blocks.iter().for_each(|&block| marked.set(block, 1));
        for (i, own) in volume_mappings(&self.form).zip(blocks.chunks(blocks_each() as usize)) {
            let block = self.volume(VOLUME_ID + i, own)?;
            self.put(mapped[i as usize], &block)?;
        }
        Ok(())
    }

    /// Writes a volume's object map and the nodes of its trees into `blocks`, and gives its superblock.
    fn volume(&mut self, id: u64, blocks: &[u64]) -> io::Result<Vec<u8>> {
        let (map, nodes) = (blocks[0], &blocks[1..]);
        let (map_nodes, nodes) = nodes.split_at(trees::nodes(MAPPINGS) as usize);
        let (extent_nodes, snapshot_nodes) = nodes.split_at(trees::nodes(EXTENTS) as usize);
        // A check reads none of a volume's mappings, so they may name any blocks.
        let file_tree: Vec<u64> = (0..MAPPINGS).map(|_| self.rng.below(self.form.blocks)).collect();
        let mappings = object_map::tree(FILE_TREE_ID, &file_tree, map_nodes.iter().copied());
        let extents = records(EXTENTS, object::EXTENT_TREE, extent_nodes);
        let snapshots = records(SNAPSHOTS, object::SNAPSHOT_TREE, snapshot_nodes);
        self.put_map(map, &mappings)?;
        self.physical_tree(&extents)?;
        self.physical_tree(&snapshots)?;
        Ok(superblock(id, map, &extents, &snapshots))
    }
}

/// A tree of variable sizes. What a snapshot's value holds makes no difference, since a walk reads no leaf's entries.
fn records(entries: u64, subtype: u64, nodes: &[u64]) -> Tree {
    let record = |key: u64| -> Entry { (bytes_of(&[key]), Some(vec![0; EXTENT])) };
    Tree::of((0..entries).map(record).collect(), None, subtype, nodes.iter().copied())
}

fn superblock(id: u64, map: u64, extents: &Tree, snapshots: &Tree) -> Vec<u8> {
    let fields = [
        (object::ID, id),
        (object::XID, XID),
        (object::TYPE, object::VOLUME),
        (v::MAGIC, v::APSB),
        (v::OBJECT_MAP, map),
        (v::EXTENT_TREE, extents.root()),
        (v::SNAPSHOT_TREE, snapshots.root()),
    ];
    let mut block = vec![0; BLOCK];
    fields.into_iter().for_each(|(field, value)| field.set(&mut block, value));
    seal(&mut block);
    block
}

#[cfg(test)]
mod tests {
    use std::sync::Arc;

    use compare::oracle::Ended;
    use space_check::{Cell, Kind, Verdict};

    use super::*;
    use crate::memory::Mapping;
    use crate::passes::original;
    use crate::scratch::Scratch;
    use crate::synthetic::write;

    const FORM: Form =
        Form { blocks: 1 << 18, bitmap_every: 1, queued: 10, mapped: 300, volumes: 7, ring: None, seed: 1 };

    #[test]
    fn a_volume_has_two_hundred_nodes() {
        assert_eq!([MAPPINGS, EXTENTS, SNAPSHOTS].map(trees::nodes), [123, 61, 16]);
    }

    #[test]
    fn the_original_claims_every_node() {
        let scratch = Scratch::new("volumes-test", 0).unwrap();
        write(&scratch.file, FORM).unwrap();
        let image = Arc::new(Mapping::of_file(&scratch.file).unwrap());
        let Ended::Report(report, map, _) = original(&image) else { panic!("no report") };
        assert_eq!(report.verdict, Verdict::Consistent.number());
        let owned = |kind| map.iter().filter(|&&cell| Cell(cell).owner() == Some(kind)).count() as u64;
        let each = |entries| FORM.volumes * trees::nodes(entries);
        assert_eq!(owned(Kind::ObjectMap), 1 + FORM.volumes);
        assert_eq!(owned(Kind::ObjectMapNode), trees::nodes(FORM.mapped) + each(MAPPINGS));
        assert_eq!(owned(Kind::VolumeSuperblock), FORM.mapped);
        assert_eq!(owned(Kind::ExtentNode), each(EXTENTS));
        assert_eq!(owned(Kind::SnapshotNode), each(SNAPSHOTS));
    }
}
