//! Builds tree nodes, and trees of one to four levels.

use crate::fields::{description, fixed_slot, node, object, put, variable_slot};
use crate::fletcher::seal;
use crate::rng::Rng;

/// A key with its value; a ghost has none.
pub type Entry = (Vec<u8>, Option<Vec<u8>>);

/// Sizes as the tree's description states them.
#[derive(Clone, Copy)]
pub struct Sizes {
    pub key: usize,
    pub value: usize,
}

/// One node as it is to be written.
pub struct Node<'a> {
    pub id: u64,
    pub xid: u64,
    pub subtype: u64,
    pub level: u64,
    pub leaf: bool,
    pub fixed: bool,
    /// The description, in a root alone.
    pub root: Option<Sizes>,
    pub entries: &'a [Entry],
}

impl Node<'_> {
    /// Writes the node over a block and seals it: table, keys from the front, values from the back.
    pub fn write(&self, block: &mut [u8], rng: &mut Rng) {
        block.fill(0);
        let root = self.root.is_some();
        object::ID.set(block, self.id);
        object::XID.set(block, self.xid);
        object::TYPE.set(block, if root { object::ROOT_NODE } else { object::NODE });
        object::SUBTYPE.set(block, self.subtype);
        let flag = |set: bool, flag: u64| if set { flag } else { 0 };
        node::FLAGS.set(block, flag(root, node::ROOT) | flag(self.leaf, node::LEAF) | flag(self.fixed, node::FIXED));
        node::LEVEL.set(block, self.level);
        node::KEYS.set(block, self.entries.len() as u64);
        let slot = if self.fixed { fixed_slot::LENGTH } else { variable_slot::LENGTH };
        let offset = 8 * rng.below(2);
        let length = slot as u64 * (self.entries.len() as u64 + rng.below(4));
        node::TABLE_OFFSET.set(block, offset);
        node::TABLE_LENGTH.set(block, length);
        let table = node::DATA + offset as usize;
        self.write_entries(block, table, slot, table + length as usize);
        self.write_description(block);
        seal(block);
    }

    fn write_entries(&self, block: &mut [u8], table: usize, slot: usize, key_area: usize) {
        let value_end = block.len() - if self.root.is_some() { description::LENGTH } else { 0 };
        let (mut key_at, mut value_at) = (0, 0);
        for (i, (key, value)) in self.entries.iter().enumerate() {
            block[key_area + key_at..][..key.len()].copy_from_slice(key);
            if let Some(value) = value {
                value_at += value.len();
                block[value_end - value_at..][..value.len()].copy_from_slice(value);
            }
            let offset = if value.is_some() { value_at as u64 } else { node::GHOST };
            let at = table + i * slot;
            if self.fixed {
                fixed_slot::KEY.shifted(at).set(block, key_at as u64);
                fixed_slot::VALUE.shifted(at).set(block, offset);
            } else {
                variable_slot::KEY.shifted(at).set(block, key_at as u64);
                variable_slot::KEY_LENGTH.shifted(at).set(block, key.len() as u64);
                variable_slot::VALUE.shifted(at).set(block, offset);
                variable_slot::VALUE_LENGTH.shifted(at).set(block, value.as_ref().map_or(0, Vec::len) as u64);
            }
            key_at += key.len();
        }
    }

    fn write_description(&self, block: &mut [u8]) {
        let Some(sizes) = self.root else { return };
        let at = block.len() - description::LENGTH;
        description::FLAGS.shifted(at).set(block, description::PHYSICAL);
        description::KEY_SIZE.shifted(at).set(block, sizes.key as u64);
        description::VALUE_SIZE.shifted(at).set(block, sizes.value as u64);
    }
}

/// Whether the nodes of a tree have fixed or variable sizes.
#[derive(Clone, Copy, Debug, PartialEq, Eq)]
pub enum SizeMode {
    Fixed,
    Variable,
    Mixed,
}

impl SizeMode {
    pub fn random(rng: &mut Rng) -> Self {
        *rng.pick(&[SizeMode::Fixed, SizeMode::Variable, SizeMode::Mixed])
    }

    fn fixed(self, rng: &mut Rng) -> bool {
        match self {
            SizeMode::Fixed => true,
            SizeMode::Variable => false,
            SizeMode::Mixed => rng.chance(50),
        }
    }
}

/// The form of a tree: `levels` from 1, each index node with `fan` children.
#[derive(Clone, Copy, Debug)]
pub struct TreeShape {
    pub levels: u64,
    pub fan: u64,
    pub mode: SizeMode,
    /// A leaf is one by its flag, so its level may be above 0.
    pub lowest_level: u64,
}

impl TreeShape {
    pub fn nodes(&self) -> u64 {
        (0..self.levels as u32).map(|depth| self.fan.pow(depth)).sum()
    }

    pub fn leaves(&self) -> u64 {
        self.fan.pow(self.levels as u32 - 1)
    }
}

/// A tree to be written: its nodes' blocks and the pointers that name them, the root first.
pub struct Tree<'a> {
    pub shape: TreeShape,
    pub sizes: Sizes,
    pub xid: u64,
    pub subtype: u64,
    pub blocks: &'a [u64],
    pub pointers: &'a [u64],
    /// One list for each leaf.
    pub leaves: Vec<Vec<Entry>>,
}

impl Tree<'_> {
    pub fn write(&self, image: &mut [u8], block_size: usize, rng: &mut Rng) {
        let mut first = 0;
        for depth in 0..self.shape.levels {
            let width = self.shape.fan.pow(depth as u32) as usize;
            for i in 0..width {
                let number = first + i;
                let leaf = depth + 1 == self.shape.levels;
                let fixed = self.shape.mode.fixed(rng);
                let entries = if leaf { self.leaves[i].clone() } else { self.children(depth, i, first + width) };
                let node = Node {
                    id: self.pointers[number],
                    xid: self.xid,
                    subtype: self.subtype,
                    level: self.shape.lowest_level + self.shape.levels - 1 - depth,
                    leaf,
                    fixed,
                    root: (number == 0).then_some(self.sizes),
                    entries: &self.fitted(entries, leaf, fixed, rng),
                };
                let at = self.blocks[number] as usize * block_size;
                node.write(&mut image[at..at + block_size], rng);
            }
            first += width;
        }
    }

    /// The entries of index node `i` at a depth, the nodes below which begin with node `first`.
    fn children(&self, depth: u64, i: usize, first: usize) -> Vec<Entry> {
        let fan = self.shape.fan as usize;
        let leaves_each = self.shape.fan.pow((self.shape.levels - depth - 2) as u32) as usize;
        let child = |c: usize| (self.key_of(c * leaves_each), Some(self.pointers[first + c].to_le_bytes().to_vec()));
        (i * fan..(i + 1) * fan).map(child).collect()
    }

    /// The first key from a leaf on, so that a search doesn't end in a leaf without entries where another has the key.
    fn key_of(&self, leaf: usize) -> Vec<u8> {
        let key = self.leaves[leaf..].iter().flatten().next().map(|(key, _)| key.clone());
        key.unwrap_or_else(|| vec![0xff; self.sizes.key])
    }

    /// Keys and values get the stated sizes in a fixed node, and may be longer than needed in a variable one.
    fn fitted(&self, mut entries: Vec<Entry>, leaf: bool, fixed: bool, rng: &mut Rng) -> Vec<Entry> {
        for (key, value) in &mut entries {
            if fixed {
                key.resize(self.sizes.key, 0);
                let size = if leaf { self.sizes.value } else { node::POINTER };
                value.iter_mut().for_each(|v| v.resize(size, 0));
            } else {
                key.resize(key.len() + rng.below(3) as usize, 0);
                value.iter_mut().for_each(|v| v.resize(v.len() + rng.below(3) as usize, 0));
            }
        }
        entries
    }
}

/// A key or value made of 64-bit numbers.
pub fn bytes_of(numbers: &[u64]) -> Vec<u8> {
    let mut bytes = vec![0; 8 * numbers.len()];
    for (i, &number) in numbers.iter().enumerate() {
        put(&mut bytes, 8 * i, 8, number);
    }
    bytes
}
