//! The descriptor area: the map chain of one checkpoint, its superblock, and block 0.

use std::io;
use std::ops::Range;

use compare::fields::{checkpoint_map, mapping, object, superblock as s};
use compare::fletcher::seal;

use super::{manager, volumes, Build, Form, BLOCK, MANAGER_ID, QUEUE_ID, XID};

/// So many mappings fit a block.
const MAPPINGS: usize = (BLOCK - checkpoint_map::ENTRIES) / checkpoint_map::ENTRY;

/// The nodes of both queues.
fn node_ids(form: &Form) -> Range<u64> {
    QUEUE_ID..QUEUE_ID + 2 * form.queue_nodes()
}

/// The map names the manager and the nodes.
pub fn map_blocks(form: &Form) -> u64 {
    (1 + node_ids(form).count()).div_ceil(MAPPINGS) as u64
}

impl Build<'_> {
    pub fn checkpoint(&self) -> io::Result<()> {
        let places = &self.places;
        let manager = Mapping { id: MANAGER_ID, address: places.data, blocks: manager::blocks(&self.form) };
        let node = |(id, address)| Mapping { id, address, blocks: 1 };
        let nodes = node_ids(&self.form).zip(places.queues..).map(node);
        let mappings: Vec<Mapping> = std::iter::once(manager).chain(nodes).collect();
        let superblock = places.descriptors + map_blocks(&self.form);
        for (at, listed) in (places.descriptors..).zip(mappings.chunks(MAPPINGS)) {
            self.put(at, &map_block(at, listed, at + 1 == superblock))?;
        }
        let block = self.superblock();
        self.put(superblock, &block)?;
        self.put(0, &block)
    }

    fn superblock(&self) -> Vec<u8> {
        let places = &self.places;
        let fields = [
            (object::ID, 1),
            (object::XID, XID),
            (object::TYPE, object::SUPERBLOCK | object::EPHEMERAL),
            (s::MAGIC, s::NXSB),
            (s::BLOCK_SIZE, BLOCK as u64),
            (s::BLOCK_COUNT, self.form.blocks),
            (s::INCOMPATIBLE, 2),
            (s::DESCRIPTOR_BLOCKS, places.data - places.descriptors),
            (s::DATA_BLOCKS, places.bitmap_ring - places.data),
            (s::DESCRIPTOR_BASE, places.descriptors),
            (s::DATA_BASE, places.data),
            (s::DESCRIPTOR_INDEX, 0),
            (s::DESCRIPTOR_LENGTH, map_blocks(&self.form) + 1),
            (s::MANAGER_ID, MANAGER_ID),
            (s::OBJECT_MAP, places.object_map),
        ];
        let mut block = vec![0; BLOCK];
        fields.into_iter().for_each(|(field, value)| field.set(&mut block, value));
        volumes::list(&self.form, &mut block);
        seal(&mut block);
        block
    }
}

/// Where an object stands, and how long it is.
struct Mapping {
    id: u64,
    address: u64,
    blocks: u64,
}

/// A block of the map chain.
fn map_block(at: u64, mappings: &[Mapping], last: bool) -> Vec<u8> {
    let mut block = vec![0; BLOCK];
    object::ID.set(&mut block, at);
    object::XID.set(&mut block, XID);
    object::TYPE.set(&mut block, object::CHECKPOINT_MAP | object::PHYSICAL);
    checkpoint_map::FLAGS.set(&mut block, if last { checkpoint_map::LAST } else { 0 });
    checkpoint_map::COUNT.set(&mut block, mappings.len() as u64);
    for (i, &Mapping { id, address, blocks }) in mappings.iter().enumerate() {
        let entry = checkpoint_map::ENTRIES + i * checkpoint_map::ENTRY;
        let kind = if id == MANAGER_ID { object::MANAGER } else { object::NODE };
        mapping::TYPE.shifted(entry).set(&mut block, kind | object::EPHEMERAL);
        mapping::SIZE.shifted(entry).set(&mut block, blocks * BLOCK as u64);
        mapping::ID.shifted(entry).set(&mut block, id);
        mapping::ADDRESS.shifted(entry).set(&mut block, address);
    }
    seal(&mut block);
    block
}
