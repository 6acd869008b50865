//! Tree nodes, the scan of a tree, the walk of a physical tree, and the object map's own tree.

use space_check::Refusal;

use super::blocks::{cut, field, need, Blocks, Step};
use super::checkpoint::Taken;
use crate::fields::{description, fixed_slot, mapped, node, object, object_map, variable_slot, Field};

/// A walk may need so many levels.
pub const WALK_LEVELS: u64 = 33;

/// What a node says of itself, and where its parts stand.
#[derive(Clone, Copy)]
pub struct Layout {
    flags: u64,
    level: u64,
    pub keys: u64,
    pub table: usize,
    pub key_area: usize,
    pub value_end: usize,
}

impl Layout {
    pub fn of(bytes: &[u8]) -> Self {
        let flags = node::FLAGS.of(bytes);
        let table = node::DATA + node::TABLE_OFFSET.of(bytes) as usize;
        Layout {
            flags,
            level: node::LEVEL.of(bytes),
            keys: node::KEYS.of(bytes),
            table,
            key_area: table + node::TABLE_LENGTH.of(bytes) as usize,
            value_end: bytes.len() - if flags & node::ROOT != 0 { description::LENGTH } else { 0 },
        }
    }

    pub fn is(&self, flag: u64) -> bool {
        self.flags & flag != 0
    }

    /// The fields of a slot of the table, from its own first byte, and its length.
    pub fn slot(&self) -> (&'static [Field], usize) {
        if self.is(node::FIXED) {
            (fixed_slot::ALL, fixed_slot::LENGTH)
        } else {
            (variable_slot::ALL, variable_slot::LENGTH)
        }
    }
}

#[derive(Clone, Copy)]
pub struct Node<'a> {
    bytes: &'a [u8],
    layout: Layout,
}

/// What a root says of its tree.
#[derive(Clone, Copy)]
pub struct Description {
    flags: u64,
    key_size: usize,
    value_size: usize,
}

/// An entry of a node; a ghost has no value.
pub struct Entry<'a> {
    pub key: &'a [u8],
    pub value: Option<&'a [u8]>,
}

impl<'a> Node<'a> {
    /// Reads a node: 12, 13, 14 and 15.
    pub fn read(blocks: &Blocks<'a>, address: u64) -> Step<Self> {
        let bytes = blocks.object(address)?;
        need([object::ROOT_NODE, object::NODE].contains(&object::KIND.of(bytes)), Refusal::WrongKind)?;
        let layout = Layout::of(bytes);
        need(!layout.is(node::HASHED), Refusal::WrongKind)?;
        need(layout.key_area <= layout.value_end && layout.level <= node::HIGHEST_LEVEL, Refusal::BadNode)?;
        Ok(Node { bytes, layout })
    }

    fn is(&self, flag: u64) -> bool {
        self.layout.is(flag)
    }

    pub fn describe(&self) -> Step<Description> {
        need(self.is(node::ROOT), Refusal::BadNode)?;
        let last = &self.bytes[self.bytes.len() - description::LENGTH..];
        Ok(Description {
            flags: description::FLAGS.of(last),
            key_size: description::KEY_SIZE.of(last) as usize,
            value_size: description::VALUE_SIZE.of(last) as usize,
        })
    }

    /// How many keys come before the first above the target, in order or not: of two keys the second is looked at first.
    fn keys_up_to(&self, target: (u64, u64), tree: &Description) -> Step<u64> {
        let (mut low, mut high) = (0, self.layout.keys);
        while low < high {
            let middle = (low + high) / 2;
            if mapped_key(&self.entry(middle, tree)?)? > target {
                high = middle;
            } else {
                low = middle + 1;
            }
        }
        Ok(low)
    }

    /// Entry `i`: its slot, its key and its value must lie inside the node.
    fn entry(&self, i: u64, tree: &Description) -> Step<Entry<'a>> {
        let fixed = self.is(node::FIXED);
        let slot = self.layout.table + i as usize * self.layout.slot().1;
        let part = |f: Field| field(self.bytes, slot + f.at, f.width).map(|n| n as usize);
        let (key_at, key_length, value_at, value_length) = if fixed {
            let value_size = if self.is(node::LEAF) { tree.value_size } else { node::POINTER };
            (part(fixed_slot::KEY)?, tree.key_size, part(fixed_slot::VALUE)?, value_size)
        } else {
            use variable_slot::*;
            (part(KEY)?, part(KEY_LENGTH)?, part(VALUE)?, part(VALUE_LENGTH)?)
        };
        let key = cut(self.bytes, self.layout.key_area + key_at, key_length)?;
        if value_at as u64 == node::GHOST {
            return Ok(Entry { key, value: None });
        }
        let value_start = self.layout.value_end.checked_sub(value_at).ok_or(Refusal::OutsideBytes)?;
        Ok(Entry { key, value: Some(cut(self.bytes, value_start, value_length)?) })
    }
}

fn pointer(entry: &Entry) -> Step<u64> {
    field(entry.value.ok_or(Refusal::OutsideBytes)?, 0, node::POINTER)
}

/// The id and the xid that an entry of an object map's tree has as its key.
pub fn mapped_key(entry: &Entry) -> Step<(u64, u64)> {
    let part = |f: Field| field(entry.key, f.at, f.width);
    Ok((part(mapped::ID)?, part(mapped::XID)?))
}

/// Reads the node that a child pointer names.
pub type Child<'a, 'f> = &'f dyn Fn(u64) -> Step<Node<'a>>;

/// All entries below a node, from first to last.
pub fn scan<'a>(
    node: &Node<'a>,
    tree: &Description,
    child: Child<'a, '_>,
    visit: &mut dyn FnMut(Entry<'a>) -> Step<()>,
) -> Step<()> {
    for i in 0..node.layout.keys {
        let entry = node.entry(i, tree)?;
        if node.is(node::LEAF) {
            visit(entry)?;
            continue;
        }
        // Entry i + 1 is looked at before child i is read.
        if i + 1 < node.layout.keys {
            node.entry(i + 1, tree)?;
        }
        let below = child(pointer(&entry)?)?;
        need(below.layout.level + 1 == node.layout.level, Refusal::WrongLevel)?;
        scan(&below, tree, child, visit)?;
    }
    Ok(())
}

/// A queue's tree, whose pointers are ids in the checkpoint map; nothing where its root isn't mapped.
pub fn scan_queue<'a>(
    blocks: &Blocks<'a>,
    taken: &Taken,
    root: u64,
    visit: &mut dyn FnMut(Entry<'a>) -> Step<()>,
) -> Step<()> {
    let Some(mapping) = taken.lookup(root) else { return Ok(()) };
    let root = Node::read(blocks, mapping.address)?;
    let tree = root.describe()?;
    let child = |id| Node::read(blocks, taken.lookup(id).ok_or(Refusal::Unmapped)?.address);
    scan(&root, &tree, &child, visit)
}

/// The object map, whose tree's pointers are addresses.
pub struct ObjectMap<'a> {
    pub address: u64,
    root_address: u64,
    root: Node<'a>,
    tree: Description,
}

impl<'a> ObjectMap<'a> {
    pub fn load(blocks: &Blocks<'a>, address: u64) -> Step<Self> {
        let bytes = blocks.object(address)?;
        need(object::KIND.of(bytes) == object::OBJECT_MAP, Refusal::WrongKind)?;
        let storage = object_map::TREE_TYPE.of(bytes) >> object_map::STORAGE_SHIFT;
        need(storage == object_map::PHYSICAL, Refusal::WrongKind)?;
        let root_address = object_map::ROOT.of(bytes);
        let root = Node::read(blocks, root_address)?;
        let tree = root.describe()?;
        let sizes = (tree.key_size, tree.value_size);
        let expected = (mapped::SIZE, mapped::SIZE);
        need(tree.flags & description::PHYSICAL != 0 && sizes == expected, Refusal::BadNode)?;
        Ok(ObjectMap { address, root_address, root, tree })
    }

    pub fn scan(&self, blocks: &Blocks<'a>, visit: &mut dyn FnMut(Entry<'a>) -> Step<()>) -> Step<()> {
        scan(&self.root, &self.tree, &|address| Node::read(blocks, address), visit)
    }

    /// The addresses of all nodes, parent first and last child first.
    pub fn walk(&self, blocks: &Blocks<'a>, visit: &mut dyn FnMut(u64) -> Step<()>) -> Step<Walked> {
        walk(blocks, &self.tree, self.root_address, visit)
    }

    /// The leaf entry that a search for a key comes to: the last one not above it, where all nodes are in order. There is
    /// none where some node on the way has no key up to it.
    pub fn reach(&self, blocks: &Blocks<'a>, key: (u64, u64)) -> Step<Option<Entry<'a>>> {
        let mut node = self.root;
        loop {
            let keys = node.keys_up_to(key, &self.tree)?;
            if keys == 0 {
                return Ok(None);
            }
            let entry = node.entry(keys - 1, &self.tree)?;
            if node.is(node::LEAF) {
                return Ok(Some(entry));
            }
            let below = Node::read(blocks, pointer(&entry)?)?;
            need(below.layout.level + 1 == node.layout.level, Refusal::WrongLevel)?;
            node = below;
        }
    }
}

/// The nodes of a tree that nothing has read yet, by the description of its own root, which may say anything of flags and sizes.
pub fn walk_from(blocks: &Blocks, root: u64, visit: &mut dyn FnMut(u64) -> Step<()>) -> Step<Walked> {
    let tree = Node::read(blocks, root)?.describe()?;
    walk(blocks, &tree, root, visit)
}

fn walk(blocks: &Blocks, tree: &Description, root: u64, visit: &mut dyn FnMut(u64) -> Step<()>) -> Step<Walked> {
    let mut walk = Walk { blocks, tree, walked: Walked::default(), visit };
    walk.from(root, 1)?;
    Ok(walk.walked)
}

/// How far a walk went: nodes with repeats, and levels.
#[derive(Clone, Copy, Default)]
pub struct Walked {
    pub nodes: u64,
    pub levels: u64,
}

struct Walk<'w, 'a> {
    blocks: &'w Blocks<'a>,
    tree: &'w Description,
    walked: Walked,
    visit: &'w mut dyn FnMut(u64) -> Step<()>,
}

impl Walk<'_, '_> {
    fn from(&mut self, address: u64, level: u64) -> Step<()> {
        need(level <= WALK_LEVELS && self.walked.nodes < self.blocks.count, Refusal::TooManyNodes)?;
        self.walked.nodes += 1;
        self.walked.levels = self.walked.levels.max(level);
        let node = Node::read(self.blocks, address)?;
        (self.visit)(address)?;
        if node.is(node::LEAF) {
            return Ok(());
        }
        let pointers =
            (0..node.layout.keys).map(|i| pointer(&node.entry(i, self.tree)?)).collect::<Step<Vec<u64>>>()?;
        pointers.iter().rev().try_for_each(|&below| self.from(below, level + 1))
    }
}

#[cfg(test)]
mod tests {
    use super::*;
    use crate::nodes::{bytes_of, Node as Built, Sizes};
    use crate::rng::Rng;

    /// Blocks 1 and up hold nodes of the given levels, each but the last an index node over the next.
    fn image(levels: &[u64]) -> Vec<u8> {
        let mut image = vec![0; (levels.len() + 1) * 4096];
        for (i, &level) in levels.iter().enumerate() {
            let leaf = i + 1 == levels.len();
            let entry = (vec![0; 16], Some(bytes_of(&[i as u64 + 2])));
            let entries = if leaf { Vec::new() } else { vec![entry] };
            let root = (i == 0).then_some(Sizes { key: 16, value: 16 });
            let node = Built { id: 1, xid: 1, subtype: 0, level, leaf, fixed: true, root, entries: &entries };
            node.write(&mut image[(i + 1) * 4096..][..4096], &mut Rng::new(1));
        }
        image
    }

    fn scanned(levels: &[u64]) -> Step<()> {
        let image = image(levels);
        let blocks = Blocks { image: &image, size: 4096, count: levels.len() as u64 + 1 };
        let root = Node::read(&blocks, 1)?;
        scan(&root, &root.describe()?, &|address| Node::read(&blocks, address), &mut |_| Ok(()))
    }

    /// What a search for an id at xid 9 reaches in a leaf with these ids, each at xid 9, in this order.
    fn reached(ids: &[u64], id: u64) -> Option<u64> {
        let mut image = vec![0; 2 * 4096];
        let entries: Vec<_> = ids.iter().map(|&id| (bytes_of(&[id, 9]), None)).collect();
        let root = Some(Sizes { key: 16, value: 16 });
        let node = Built { id: 1, xid: 1, subtype: 0, level: 0, leaf: true, fixed: true, root, entries: &entries };
        node.write(&mut image[4096..], &mut Rng::new(1));
        let blocks = Blocks { image: &image, size: 4096, count: 2 };
        let root = Node::read(&blocks, 1).expect("a node");
        let tree = root.describe().expect("a root");
        let objects = ObjectMap { address: 0, root_address: 1, root, tree };
        let entry = objects.reach(&blocks, (id, 9)).expect("whole keys")?;
        Some(mapped::ID.of(entry.key))
    }

    #[test]
    fn a_search_reaches_the_last_key_up_to_its_own() {
        assert_eq!(
            [1, 2, 3, 4, 5, 6].map(|id| reached(&[2, 4, 5], id)),
            [None, Some(2), Some(2), Some(4), Some(5), Some(5)]
        );
        assert_eq!(reached(&[], 7), None);
        // Of two keys the second is looked at first, of three the second, then the third.
        assert_eq!([1, 2, 4].map(|id| reached(&[4, 2], id)), [None, Some(2), Some(2)]);
        assert_eq!([1, 2, 5, 9].map(|id| reached(&[2, 9, 1], id)), [None, Some(2), Some(2), Some(1)]);
    }

    #[test]
    fn levels_go_up_to_32_and_fall_by_one() {
        assert_eq!(scanned(&[32]), Ok(()));
        assert_eq!(scanned(&[33]), Err(Refusal::BadNode));
        assert_eq!(scanned(&[1, 0]), Ok(()));
        assert_eq!(scanned(&[2, 0]), Err(Refusal::WrongLevel));
        assert_eq!(scanned(&[0, 0]), Err(Refusal::WrongLevel));
    }
}
