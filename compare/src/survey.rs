//! Lists the objects of a container with their fields, so that damage can name what it changes.
//!
//! The container is a sound one, built here or by mkapfs; what a survey can't follow it leaves out.

use crate::fields::*;
use crate::model::{self, Blocks, Layout, Notes, ObjectMap, Ring, Taken};
pub use crate::role::Role;

#[derive(Clone, Debug)]
pub struct Object {
    pub role: Role,
    /// Its blocks in order.
    pub blocks: Vec<u64>,
    pub length: usize,
    /// Offsets count from the object's first byte.
    pub fields: Vec<Field>,
    /// In a bitmap, the bits that count.
    pub bits: u64,
}

pub struct Survey {
    pub block_size: usize,
    pub count: u64,
    pub objects: Vec<Object>,
    /// The ids that the checkpoint map has.
    pub ids: Vec<u64>,
    /// Properties of the shape, for the table of coverage.
    pub features: Vec<String>,
}

impl Survey {
    pub fn of(image: &[u8]) -> Option<Self> {
        let (blocks, taken) = model::open(image, usize::MAX, &mut Notes::default()).ok()?;
        let ids = taken.map.iter().map(|m| m.id).collect();
        let (objects, features) = (Vec::new(), Vec::new());
        let survey = Survey { block_size: blocks.size, count: blocks.count, objects, ids, features };
        let mut surveyor = Surveyor { blocks, taken, survey };
        surveyor.descriptors(image);
        surveyor.manager()?;
        surveyor.object_map()?;
        surveyor.volumes()?;
        Some(surveyor.survey)
    }

    pub fn with_role(&self, role: Role) -> Vec<&Object> {
        self.objects.iter().filter(|o| o.role == role).collect()
    }
}

struct Surveyor<'a> {
    blocks: Blocks<'a>,
    taken: Taken<'a>,
    survey: Survey,
}

/// Fields of a list's `i`th structure of `length` bytes, the list beginning at `at`.
fn repeated(fields: &[Field], at: usize, i: usize, length: usize) -> impl Iterator<Item = Field> + '_ {
    fields.iter().map(move |f| f.shifted(at + i * length))
}

/// The members of a list of the manager, which names its place and its length in fields.
fn listed(bytes: &[u8], name: &'static str, offset: Field, count: Field, width: usize) -> Vec<Field> {
    let at = offset.of(bytes) as usize;
    (0..count.of(bytes) as usize).map(|i| Field { name, at: at + i * width, width }).collect()
}

/// Its tree's pointers are ids in the checkpoint map.
fn is_queue(role: Role) -> bool {
    [Role::PoolQueueNode, Role::MainQueueNode].contains(&role)
}

impl Surveyor<'_> {
    fn add(&mut self, role: Role, address: u64, fields: Vec<Field>) {
        self.add_bits(role, address, fields, 0);
    }

    fn add_bits(&mut self, role: Role, address: u64, fields: Vec<Field>, bits: u64) {
        self.survey.objects.push(Object { role, blocks: vec![address], length: self.blocks.size, fields, bits });
    }

    fn feature(&mut self, test: bool, name: impl Into<String>) {
        if test {
            self.survey.features.push(name.into());
        }
    }

    /// Block 0 and the area that it names.
    fn descriptors(&mut self, image: &[u8]) {
        let sb = self.taken.superblock;
        // One place without a volume stands for all of them.
        let empty = (0..).map(superblock::volume_id).find(|id| id.of(sb) == 0);
        let ids = (0..=superblock::MOST_VOLUMES as usize).map(superblock::volume_id).filter(|id| id.of(sb) != 0);
        let ids: Vec<Field> = ids.chain(empty).collect();
        let fields = [&[object::XID, object::TYPE], superblock::ALL, &ids].concat();
        self.add(Role::BlockZero, 0, fields.clone());
        let (base, ring) = (superblock::DESCRIPTOR_BASE.of(image), superblock::DESCRIPTOR_BLOCKS.of(image));
        let mut xids = Vec::new();
        for address in base..base + ring {
            let Ok(block) = self.blocks.raw(address) else { continue };
            match object::KIND.of(block) {
                object::SUPERBLOCK => {
                    xids.push(object::XID.of(block));
                    self.add(Role::Superblock, address, fields.clone());
                }
                object::CHECKPOINT_MAP => self.checkpoint_map(address, block),
                _ => {}
            }
        }
        let (index, length) = (superblock::DESCRIPTOR_INDEX.of(sb), superblock::DESCRIPTOR_LENGTH.of(sb));
        self.feature(true, format!("block size {}", self.blocks.size));
        self.feature(xids.len() > 1, "several checkpoints");
        self.feature(xids.iter().max() > Some(&object::XID.of(sb)), "an older checkpoint taken");
        self.feature(xids.iter().filter(|&&x| x == object::XID.of(sb)).count() > 1, "equal xids");
        self.feature(length > 2, "chain over several blocks");
        self.feature(length > 1 && index + length - 1 > ring, "chain wraps");
    }

    fn checkpoint_map(&mut self, address: u64, block: &[u8]) {
        let mut fields = [&[object::XID, object::TYPE], checkpoint_map::ALL].concat();
        for i in 0..checkpoint_map::COUNT.of(block) as usize {
            fields.extend(repeated(mapping::ALL, checkpoint_map::ENTRIES, i, checkpoint_map::ENTRY));
        }
        self.add(Role::CheckpointMap, address, fields);
    }

    /// The manager's blocks around the data ring, and its length.
    fn manager_place(&mut self) -> Option<(Vec<u64>, usize)> {
        let sb = self.taken.superblock;
        let (ring, id) = (Ring::of(sb), superblock::MANAGER_ID.of(sb));
        let mapping = self.taken.lookup(id)?;
        let count = mapping.size.div_ceil(self.blocks.size as u64);
        let blocks = (0..count).map(|i| ring.block(mapping.address, i).ok()).collect::<Option<Vec<u64>>>()?;
        let (first, length) = (mapping.address, mapping.size as usize);
        self.feature(superblock::DATA_BLOCKS.of(sb) != ring.blocks, "data length with its top bit");
        self.feature(blocks.first() != Some(&first), "manager mapped beyond its ring");
        self.feature(self.mapped_twice(id), "manager mapped twice");
        Some((blocks, length))
    }

    fn mapped_twice(&self, id: u64) -> bool {
        self.taken.map.iter().filter(|m| m.id == id).count() > 1
    }

    fn manager(&mut self) -> Option<()> {
        let (blocks, length) = self.manager_place()?;
        let bytes = blocks.iter().map(|&a| self.blocks.raw(a).ok()).collect::<Option<Vec<_>>>()?.concat();
        let indices =
            listed(&bytes, manager::INDEX, manager::INDEX_OFFSET, manager::BITMAP_SLOTS, manager::INDEX_WIDTH);
        let free =
            listed(&bytes, manager::FREE_NEXT, manager::FREE_NEXT_OFFSET, manager::BITMAP_RING, manager::INDEX_WIDTH);
        let address_blocks = manager::ADDRESS_BLOCKS.of(&bytes);
        let count = if address_blocks > 0 { manager::ADDRESS_BLOCKS } else { manager::CHUNK_INFO_COUNT };
        let addresses = listed(&bytes, manager::LISTED_ADDRESS, manager::LISTED_OFFSET, count, manager::ADDRESS_WIDTH);
        self.feature(blocks.len() > 1, "manager over several blocks");
        self.feature(blocks.windows(2).any(|w| w[1] < w[0]), "manager wraps");
        self.feature(indices.len() > 1, "pool bitmap of several blocks");
        let (head, tail) = (manager::FREE_HEAD.of(&bytes), manager::FREE_TAIL.of(&bytes));
        self.feature(head == manager::NO_INDEX, "empty free list");
        self.feature(head == tail && head != manager::NO_INDEX, "free list of one block");
        self.feature(head != tail, "free list of several blocks");
        let fields = [manager::ALL, &indices, &addresses, &free].concat();
        self.survey.objects.push(Object { role: Role::Manager, blocks, length, fields, bits: 0 });
        let (base, pool) = (manager::BITMAP_BASE.of(&bytes), manager::POOL_COUNT.of(&bytes));
        for index in indices {
            self.add_bits(Role::PoolBitmap, base + index.of(&bytes), Vec::new(), pool);
        }
        let read = if address_blocks > 0 { Self::address_block } else { Self::chunk_info };
        addresses.iter().try_for_each(|address| read(self, address.of(&bytes)))?;
        self.chunk_info_features(address_blocks, manager::CHUNK_INFO_COUNT.of(&bytes));
        self.queue(Role::PoolQueueNode, manager::POOL_QUEUE.of(&bytes));
        self.queue(Role::MainQueueNode, manager::MAIN_QUEUE.of(&bytes));
        Some(())
    }

    fn chunk_info_features(&mut self, address_blocks: u64, stated: u64) {
        let found = self.survey.with_role(Role::ChunkInfo).len() as u64;
        self.feature(found > 1 && address_blocks == 0, "several chunk-info blocks");
        self.feature(address_blocks > 1, "several address blocks");
        self.feature(address_blocks > 0 && stated != found, "address blocks beside another chunk-info count");
    }

    fn address_block(&mut self, address: u64) -> Option<()> {
        let block = self.blocks.raw(address).ok()?;
        let addresses: Vec<Field> = (0..address_block::COUNT.of(block) as usize).map(address_block::address).collect();
        self.feature(addresses.is_empty(), "empty address block");
        self.feature(addresses.len() > 1, "address block over several chunk-info blocks");
        self.add(Role::AddressBlock, address, [address_block::ALL, &addresses].concat());
        addresses.iter().try_for_each(|address| self.chunk_info(address.of(block)))
    }

    fn chunk_info(&mut self, address: u64) -> Option<()> {
        let block = self.blocks.raw(address).ok()?;
        let mut fields = chunk_info::ALL.to_vec();
        for i in 0..chunk_info::COUNT.of(block) as usize {
            let at = chunk_info::RECORDS + i * chunk_info::RECORD;
            fields.extend(chunk::ALL.iter().map(|f| f.shifted(at)));
            let bitmap = chunk::BITMAP.shifted(at).of(block);
            let blocks = chunk::BLOCKS.shifted(at).of(block) & chunk::COUNT_MASK;
            self.feature(blocks == 0, "chunk of no blocks");
            if bitmap != 0 {
                self.add_bits(Role::ChunkBitmap, bitmap, Vec::new(), blocks);
            }
        }
        self.add(Role::ChunkInfo, address, fields);
        Some(())
    }

    fn object_map(&mut self) -> Option<()> {
        let address = superblock::OBJECT_MAP.of(self.taken.superblock);
        let block = self.blocks.raw(address).ok()?;
        self.add(Role::ObjectMap, address, [&[object::TYPE], object_map::ALL].concat());
        let levels = self.tree(Role::ObjectMapNode, object_map::ROOT.of(block))?;
        self.feature(true, format!("object map of {levels} level(s)"));
        Some(())
    }

    /// The volumes that the taken superblock names, each time that it does.
    fn volumes(&mut self) -> Option<()> {
        let (blocks, sb) = (self.blocks, self.taken.superblock);
        let objects = ObjectMap::load(&blocks, superblock::OBJECT_MAP.of(sb)).ok()?;
        let ids = model::volume_ids(sb);
        for &id in &ids {
            let found = objects.reach(&blocks, (id, object::XID.of(sb))).ok()??;
            self.volume(mapped::ADDRESS.of(found.value?))?;
        }
        self.volume_features(&ids);
        Some(())
    }

    fn volume_features(&mut self, ids: &[u64]) {
        let sb = self.taken.superblock;
        let places = superblock::VOLUMES.of(sb);
        let id_in = |place: u64| superblock::volume_id(place as usize).of(sb);
        let last = (0..places.min(superblock::MOST_VOLUMES)).rev().find(|&place| id_in(place) != 0);
        let zero = (0..last.unwrap_or(0)).any(|place| id_in(place) == 0);
        let repeated = (1..ids.len()).any(|i| ids[..i].contains(&ids[i]));
        self.feature(ids.len() > 1, "several volumes");
        self.feature(zero, "zero before a volume id");
        self.feature(repeated, "volume id repeated");
        self.feature(last == Some(superblock::MOST_VOLUMES - 1), "volume in the last place");
        let behind = places > superblock::MOST_VOLUMES && id_in(superblock::MOST_VOLUMES) != 0;
        self.feature(behind, "volume id behind the last place");
    }

    fn volume(&mut self, address: u64) -> Option<()> {
        let block = self.blocks.raw(address).ok()?;
        self.add(Role::Volume, address, [&[object::TYPE], volume::ALL].concat());
        let [map, extents, snapshots] =
            [volume::OBJECT_MAP, volume::EXTENT_TREE, volume::SNAPSHOT_TREE].map(|f| f.of(block));
        let shared = |role, address| self.survey.with_role(role).iter().any(|o: &&Object| o.blocks[0] == address);
        let shares = [(Role::ExtentNode, extents), (Role::SnapshotNode, snapshots)].map(|(r, a)| shared(r, a));
        self.feature(shares != [false; 2], "tree of two volumes");
        self.feature(map == superblock::OBJECT_MAP.of(self.taken.superblock), "volume with the container's object map");
        self.feature(ObjectMap::load(&self.blocks, map).is_err(), "volume whose object map can't be loaded");
        self.feature(snapshots == 0, "volume without a snapshot tree");
        self.add(Role::VolumeMap, map, [&[object::TYPE], object_map::ALL].concat());
        let root = object_map::ROOT.of(self.blocks.raw(map).ok()?);
        let trees = [(Role::VolumeMapNode, root), (Role::ExtentNode, extents), (Role::SnapshotNode, snapshots)];
        for (role, root) in trees.into_iter().filter(|&(_, root)| root != 0) {
            let levels = self.tree(role, root)?;
            self.feature(true, format!("volume's tree of {levels} level(s)"));
        }
        Some(())
    }

    fn queue(&mut self, role: Role, id: u64) {
        let Some(root) = self.taken.lookup(id).map(|m| m.address) else { return };
        if let Some(levels) = self.tree(role, root) {
            self.feature(true, format!("queue of {levels} level(s)"));
            self.feature(self.mapped_twice(id), "queue mapped twice");
        }
    }

    /// A node and those below it; gives the number of levels.
    fn tree(&mut self, role: Role, address: u64) -> Option<u64> {
        let bytes = self.blocks.raw(address).ok()?;
        let layout = Layout::of(bytes);
        let NodeFields { mut fields, children, mappings } = NodeFields::of(role, bytes, &layout);
        if layout.is(node::ROOT) {
            fields.extend(description::ALL.iter().map(|f| f.shifted(layout.value_end)));
        }
        self.feature(layout.is(node::FIXED), "node of fixed sizes");
        self.feature(!layout.is(node::FIXED), "node of variable sizes");
        self.node_features(role, bytes, &fields);
        self.mapping_features(&mappings);
        self.add(role, address, fields);
        let mut below = 0;
        for pointer in children {
            let child = if is_queue(role) { self.taken.lookup(pointer).map(|m| m.address) } else { Some(pointer) };
            below = self.tree(role, child?)?.max(below);
        }
        Some(below + 1)
    }

    fn node_features(&mut self, role: Role, bytes: &[u8], fields: &[Field]) {
        let ghost = fields.iter().any(|f| f.name == fixed_slot::VALUE.name && f.of(bytes) == node::GHOST);
        let empty = fields.iter().any(|f| f.name == queue::COUNT.name && f.of(bytes) == 0);
        let is_map = role == Role::ObjectMapNode;
        self.feature(ghost && is_map, "object map with ghosts");
        self.feature(ghost && is_queue(role), "queue with ghosts");
        let taken = object::XID.of(self.taken.superblock);
        let newer = is_map && fields.iter().any(|f| f.name == mapped::XID.name && f.of(bytes) > taken);
        self.feature(newer, "mapping above the checkpoint's xid");
        self.feature(empty, "queue entry of count 0");
    }

    fn mapping_features(&mut self, mappings: &[Mapping]) {
        let mut deleted = mappings.iter().filter(|m| m.deleted).peekable();
        self.feature(deleted.peek().is_some(), "object map with deleted mappings");
        let beside = deleted.any(|m| mappings.iter().any(|other| other.id == m.id && !other.deleted));
        self.feature(beside, "deleted mapping beside a live one of its id");
        let ids = |deleted| mappings.iter().filter(move |m| m.deleted == deleted).map(|m| m.id);
        let several = ids(false).any(|id| ids(false).filter(|&other| other == id).count() > 1);
        self.feature(several, "several live mappings of one id");
    }
}

/// The value of an index node's entry.
pub const CHILD: Field = Field { name: "child pointer", at: 0, width: node::POINTER };

/// What a leaf of the object map says of a mapping.
struct Mapping {
    id: u64,
    deleted: bool,
}

/// The fields of a node, those in its keys and values too, its child pointers, and its mappings.
struct NodeFields {
    fields: Vec<Field>,
    children: Vec<u64>,
    mappings: Vec<Mapping>,
}

impl NodeFields {
    fn of(role: Role, bytes: &[u8], layout: &Layout) -> Self {
        let fields = [&[object::TYPE], node::ALL].concat();
        let mut out = NodeFields { fields, children: Vec::new(), mappings: Vec::new() };
        let (slots, width) = layout.slot();
        for i in 0..layout.keys as usize {
            let slots: Vec<Field> = repeated(slots, layout.table, i, width).collect();
            // Both kinds of slot have these, by the same names.
            let part = |name: &str| slots.iter().find(|f| f.name == name).map(|f| f.of(bytes) as usize);
            let key = layout.key_area + part(fixed_slot::KEY.name).unwrap_or(0);
            let value = part(fixed_slot::VALUE.name).filter(|&v| v as u64 != node::GHOST);
            let value = value.map(|v| layout.value_end - v);
            out.fields.extend(&slots);
            out.contents(role, bytes, layout.is(node::LEAF), key, value);
        }
        out
    }

    /// What an entry's key and value hold.
    fn contents(&mut self, role: Role, bytes: &[u8], leaf: bool, key: usize, value: Option<usize>) {
        let [id, xid] = [mapped::ID, mapped::XID].map(|f| f.shifted(key));
        if !leaf {
            let Some(pointer) = value.map(|v| CHILD.shifted(v)) else { return };
            self.fields.push(pointer);
            self.children.push(pointer.of(bytes));
        }
        match role {
            Role::ObjectMapNode => {
                if let Some(value) = value.filter(|_| leaf) {
                    let [flags, address] = [mapped::FLAGS, mapped::ADDRESS].map(|f| f.shifted(value));
                    self.fields.extend([flags, address]);
                    let deleted = flags.of(bytes) & mapped::DELETED != 0;
                    self.mappings.push(Mapping { id: id.of(bytes), deleted });
                }
                self.fields.extend([id, xid]);
            }
            _ if is_queue(role) && leaf => {
                self.fields.push(queue::ADDRESS.shifted(key));
                self.fields.extend(value.map(|v| queue::COUNT.shifted(v)));
            }
            // Nothing reads what other leaves hold, or the keys above them.
            _ => {}
        }
    }
}
