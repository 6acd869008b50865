//! Object maps and their trees: the container's, which maps volume superblocks, and the form that volumes' maps share.

use std::io;

use compare::fields::{mapped, object, object_map};
use compare::fletcher::seal;
use compare::nodes::{bytes_of, Sizes};

use super::bitmaps::Bits;
use super::trees::Tree;
use super::{Build, BLOCK, VOLUME_ID, XID};

impl Build<'_> {
    /// Maps a volume superblock to each of `blocks`.
    pub fn object_map(&mut self, blocks: &[u64], marked: &mut Bits) -> io::Result<()> {
        blocks.iter().for_each(|&block| marked.set(block, 1));
        let tree = tree(VOLUME_ID, blocks, self.places.nodes..);
        self.put_map(self.places.object_map, &tree)
    }

    /// Writes an object map into block `at`, and its tree.
    pub fn put_map(&mut self, at: u64, tree: &Tree) -> io::Result<()> {
        self.put(at, &block(at, tree.root()))?;
        self.physical_tree(tree)
    }
}

/// The tree that maps ids from `first` on to `blocks`, with its nodes in blocks of `nodes`.
pub fn tree(first: u64, blocks: &[u64], nodes: impl IntoIterator<Item = u64>) -> Tree {
    let size = (BLOCK as u64) << 32;
    let mapping = |(id, &block)| (bytes_of(&[id, XID]), Some(bytes_of(&[size, block])));
    let entries = (first..).zip(blocks).map(mapping).collect();
    let sizes = Sizes { key: mapped::SIZE, value: mapped::SIZE };
    Tree::of(entries, Some(sizes), object::OBJECT_MAP, nodes)
}

fn block(at: u64, root: u64) -> Vec<u8> {
    let mut block = vec![0; BLOCK];
    object::ID.set(&mut block, at);
    object::XID.set(&mut block, XID);
    object::TYPE.set(&mut block, object::OBJECT_MAP | object::PHYSICAL);
    object_map::TREE_TYPE.set(&mut block, object::ROOT_NODE | object::PHYSICAL);
    object_map::ROOT.set(&mut block, root);
    seal(&mut block);
    block
}
