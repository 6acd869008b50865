//! Builds a valid container of a given shape.

use crate::address_block;
use crate::fields::{
    checkpoint_map, chunk, chunk_info, manager as m, mapped, mapping, object, put_list, queue, superblock as s,
};
use crate::fletcher::seal;
use crate::free_list::FreeList;
use crate::nodes::{bytes_of, Entry, Sizes, Tree};
use crate::places::Places;
use crate::rng::Rng;
use crate::shape::{QueueShape, Shape};
use crate::volume;

// Object ids of the build.
const MANAGER_ID: u64 = 0x400;
const OTHER_ID: u64 = 0x401;
const POOL_QUEUE_ID: u64 = 0x410;
const MAIN_QUEUE_ID: u64 = 0x440;
const MAPPED_ID: u64 = 0x480;
/// Set in an area's length, it says that the area isn't one piece.
const TOP_BIT: u64 = 0x8000_0000;

/// A build under way.
struct Build<'a> {
    shape: &'a Shape,
    places: Places,
    rng: &'a mut Rng,
    image: Vec<u8>,
    /// The lowest xid of a checkpoint.
    xid: u64,
    volumes: volume::Built,
}

/// Blocks of the data ring that a build has given away.
struct Ephemeral {
    /// For each manager, the address at which it is mapped and its length.
    managers: Vec<(u64, u64)>,
    /// Ids and addresses of the queues' nodes.
    nodes: Vec<(u64, u64)>,
}

pub fn build(shape: &Shape, rng: &mut Rng) -> Vec<u8> {
    let places = Places::choose(shape, rng);
    let image = vec![0; places.count as usize * shape.block_size];
    let xid = rng.between(5, 500);
    let mut build = Build { shape, places, rng, image, xid, volumes: volume::Built::default() };
    build.volumes();
    build.object_map();
    let infos = build.pool_and_chunks();
    let ephemeral = build.data_area(&infos);
    build.descriptor_area(&ephemeral);
    build.image
}

/// What the manager has to know of pool and chunks.
struct Infos {
    address_blocks: Vec<u64>,
    addresses: Vec<u64>,
    indices: Vec<u64>,
    free_list: FreeList,
    pool_count: u64,
    /// Where the pool's queued blocks begin.
    queued: u64,
    free: u64,
}

impl Infos {
    /// What the manager's list names.
    fn listed(&self) -> &[u64] {
        if self.address_blocks.is_empty() {
            &self.addresses
        } else {
            &self.address_blocks
        }
    }
}

impl Build<'_> {
    fn block(&mut self, address: u64) -> &mut [u8] {
        let size = self.shape.block_size;
        &mut self.image[address as usize * size..][..size]
    }

    /// The xid of the checkpoint that is taken.
    fn taken_xid(&self) -> u64 {
        // The newest, unless it is torn or has the xid of the one before it.
        let back = u64::from(self.shape.torn || self.shape.equal_xids);
        self.xid + self.shape.checkpoints - 1 - back
    }

    fn volumes(&mut self) {
        let xid = self.taken_xid();
        let (shape, places) = (self.shape, &self.places);
        self.volumes = volume::Volumes { shape, places, image: &mut self.image, rng: self.rng, xid }.build();
    }

    fn object_map(&mut self) {
        let (at, root, xid) = (self.places.object_map, self.places.nodes[0], self.xid);
        volume::write_object_map(self.block(at), at, xid, root);
        let mut entries = self.mappings();
        entries.append(&mut self.volumes.mappings);
        entries.sort_by_key(|(key, _)| (mapped::ID.of(key), mapped::XID.of(key)));
        let leaves = self.shape.object_map.leaves() as usize;
        let cut = |leaf: usize| leaf * entries.len() / leaves;
        let tree = Tree {
            shape: self.shape.object_map,
            sizes: Sizes { key: mapped::SIZE, value: mapped::SIZE },
            xid,
            subtype: object::OBJECT_MAP,
            blocks: &self.places.nodes,
            pointers: &self.places.nodes,
            leaves: (0..leaves).map(|leaf| entries[cut(leaf)..cut(leaf + 1)].to_vec()).collect(),
        };
        tree.write(&mut self.image, self.shape.block_size, self.rng);
    }

    /// The mappings that are no volume's.
    fn mappings(&mut self) -> Vec<Entry> {
        let mut blocks = self.places.mapped.clone().into_iter();
        let mut entries: Vec<Entry> = Vec::new();
        for i in 0..self.shape.mapping_entries() {
            let block = if Shape::is_ghost(i) { None } else { blocks.next() };
            entries.push(match block {
                Some(place) if self.shape.deletes && self.rng.chance(50) => self.deleted(i, place, entries.last()),
                _ => (bytes_of(&[MAPPED_ID + i, self.xid]), block.map(|place| self.live(place))),
            });
        }
        entries
    }

    fn mapping_value(&self, flags: u64, address: u64) -> Vec<u8> {
        volume::mapping_value(self.shape.block_size, flags, address)
    }

    /// Flags that mean nothing, in containers that have some.
    fn other_flags(&mut self) -> u64 {
        if self.shape.deletes && self.rng.chance(30) {
            self.rng.number() & mapped::OTHERS
        } else {
            0
        }
    }

    fn live(&mut self, place: u64) -> Vec<u8> {
        let flags = self.other_flags();
        self.mapping_value(flags, place)
    }

    /// Mapping `i`, deleted, which names any block: of an id of its own, an older one of the next mapping's id, or a newer
    /// one of the id of the mapping before it. Keys rise in each case.
    fn deleted(&mut self, i: u64, place: u64, before: Option<&Entry>) -> Entry {
        let own = (MAPPED_ID + i, self.xid);
        let newer = before.map_or(own, |(key, _)| (mapped::ID.of(key), mapped::XID.of(key) + 1));
        let (id, xid) = *self.rng.pick(&[own, (own.0 + 1, own.1 - 1), newer]);
        let far = *self.rng.pick(&[self.places.count, u64::MAX - 1, u64::MAX]);
        let any = self.rng.below(self.places.count);
        let address = *self.rng.pick(&[place, 0, self.places.object_map, any, far]);
        let flags = self.other_flags() | mapped::DELETED;
        (bytes_of(&[id, xid]), Some(self.mapping_value(flags, address)))
    }

    /// The pool's bitmap, the chunk-info blocks and the chunks' bitmaps.
    fn pool_and_chunks(&mut self) -> Infos {
        let (shape, pool) = (self.shape, self.places.pool);
        let queued = shape.pool_queue.as_ref().map_or(0, QueueShape::blocks);
        let mut own: Vec<u64> = (queued..shape.pool_blocks()).map(|i| pool + i).collect();
        self.rng.shuffle(&mut own);
        let mut own = own.into_iter();
        let mut used: Vec<u64> = (0..queued).map(|i| pool + i).collect();
        let mut cuts: Vec<u64> = (1..shape.chunks).map(|_| self.rng.below(self.places.count)).collect();
        cuts.extend([0, self.places.count]);
        cuts.sort_unstable();
        let mut infos = Infos {
            address_blocks: own.by_ref().take(shape.address_blocks as usize).collect(),
            addresses: Vec::new(),
            indices: Vec::new(),
            free_list: FreeList::through(&[], 0),
            pool_count: shape.pool_blocks(),
            queued: pool,
            free: 0,
        };
        for i in 0..shape.chunk_infos {
            let address = own.next().expect("a pool block for each chunk-info block");
            let (from, to) = (i * shape.chunks / shape.chunk_infos, (i + 1) * shape.chunks / shape.chunk_infos);
            let bitmaps: Vec<u64> = (from..to).map(|_| own.next().expect("a pool block for each chunk")).collect();
            used.push(address);
            used.extend(self.chunk_info(address, &cuts[from as usize..=to as usize], &bitmaps, &mut infos.free));
            infos.addresses.push(address);
        }
        used.extend(&infos.address_blocks);
        self.address_blocks(&infos);
        self.pool_bitmap(&used, &mut infos);
        infos
    }

    /// Address blocks over the chunk-info blocks in their order, some of them empty.
    fn address_blocks(&mut self, infos: &Infos) {
        let count = infos.addresses.len();
        let mut cuts: Vec<usize> =
            (1..infos.address_blocks.len()).map(|_| self.rng.below(count as u64 + 1) as usize).collect();
        cuts.extend([0, count]);
        cuts.sort_unstable();
        let size = self.shape.block_size;
        for (&address, ends) in infos.address_blocks.iter().zip(cuts.windows(2)) {
            let block = &mut self.image[address as usize * size..][..size];
            address_block::write(block, &infos.addresses[ends[0]..ends[1]], self.rng);
        }
    }

    /// A chunk-info block over the chunks between `cuts`; gives the bitmaps that it took.
    fn chunk_info(&mut self, address: u64, cuts: &[u64], bitmaps: &[u64], free: &mut u64) -> Vec<u64> {
        let mut taken = Vec::new();
        let xid = self.xid;
        for (i, (ends, &bitmap)) in cuts.windows(2).zip(bitmaps).enumerate() {
            let bits: Vec<bool> = self.places.used[ends[0] as usize..ends[1] as usize].to_vec();
            let zeros = bits.iter().filter(|&&b| !b).count() as u64;
            let all_free = zeros == bits.len() as u64 && self.rng.chance(70);
            if !all_free {
                set_bits(self.block(bitmap), &bits);
                taken.push(bitmap);
            }
            *free += zeros;
            let at = chunk_info::RECORDS + i * chunk_info::RECORD;
            // The counts share their words with bits that don't matter.
            let noise = self.rng.below(4) << 20;
            let block = self.block(address);
            chunk::ADDRESS.shifted(at).set(block, ends[0]);
            chunk::BLOCKS.shifted(at).set(block, bits.len() as u64 | noise);
            chunk::FREE.shifted(at).set(block, zeros | noise);
            chunk::BITMAP.shifted(at).set(block, if all_free { 0 } else { bitmap });
        }
        let block = self.block(address);
        object::XID.set(block, xid);
        object::TYPE.set(block, object::CHUNK_INFO | object::PHYSICAL);
        chunk_info::COUNT.set(block, bitmaps.len() as u64);
        taken
    }

    fn pool_bitmap(&mut self, used: &[u64], infos: &mut Infos) {
        let shape = self.shape;
        let most = shape.bitmap_slots * shape.block_size as u64 * 8;
        let mut bits = vec![false; most as usize];
        used.iter().for_each(|a| bits[(a - self.places.pool) as usize] = true);
        if shape.pool_reaches_out {
            infos.pool_count = if self.rng.chance(50) { most } else { self.rng.between(infos.pool_count, most) };
            (0..3).for_each(|_| bits[self.rng.between(shape.pool_blocks(), most - 1) as usize] = true);
        } else if shape.pool_slack > 0 && self.rng.chance(30) {
            // One block may be marked and unused.
            bits[shape.pool_blocks() as usize - 1] = true;
        }
        let mut indices: Vec<u64> = (0..shape.bitmap_blocks()).collect();
        self.rng.shuffle(&mut indices);
        let unused = indices.split_off(shape.bitmap_slots as usize);
        for (part, &index) in bits.chunks(shape.block_size * 8).zip(&indices) {
            let address = self.places.bitmaps + index;
            set_bits(self.block(address), part);
        }
        infos.indices = indices;
        infos.free_list = FreeList::through(&unused, shape.bitmap_blocks());
    }

    /// Managers and queue nodes, somewhere in the ring.
    fn data_area(&mut self, infos: &Infos) -> Ephemeral {
        let shape = self.shape;
        let (base, ring) = (self.places.data, shape.data_blocks());
        let start = self.rng.below(ring);
        let mut places = (0..ring).map(|i| base + (start + i) % ring);
        let mut managers = Vec::new();
        for number in 0..shape.managers() {
            let blocks: Vec<u64> = places.by_ref().take(shape.manager_blocks as usize).collect();
            let bytes = self.manager(infos, number);
            for (part, &address) in bytes.chunks(shape.block_size).zip(&blocks) {
                self.block(address)[..part.len()].copy_from_slice(part);
            }
            managers.push((blocks[0] + shape.turns * ring, bytes.len() as u64));
        }
        let mut nodes = Vec::new();
        let queues =
            [(&shape.pool_queue, POOL_QUEUE_ID, infos.queued), (&shape.main_queue, MAIN_QUEUE_ID, self.places.queued)];
        for (queue, id, first) in queues {
            let Some(queue) = queue else { continue };
            let blocks: Vec<u64> = places.by_ref().take(queue.tree.nodes() as usize).collect();
            let ids: Vec<u64> = (0..queue.tree.nodes()).map(|i| id + i).collect();
            self.queue(queue, &blocks, &ids, first);
            nodes.extend(ids.into_iter().zip(blocks));
        }
        Ephemeral { managers, nodes }
    }

    /// A manager's bytes, its lists wherever there is room; `number` tells it from the other checkpoints'.
    fn manager(&mut self, infos: &Infos, number: u64) -> Vec<u8> {
        let chunk_infos = self.stated_chunk_infos(infos);
        let (shape, places) = (self.shape, &self.places);
        let indices = infos.indices.len() * m::INDEX_WIDTH;
        let addresses = infos.listed().len() * m::ADDRESS_WIDTH;
        let lists = indices + addresses + infos.free_list.length();
        let whole = shape.manager_blocks as usize * shape.block_size;
        let least = (m::LENGTH + lists).max(whole - shape.block_size + 4);
        let length = if self.rng.chance(50) { whole } else { least.next_multiple_of(4) };
        let index_offset = if shape.manager_blocks > 1 && self.rng.chance(40) {
            // The lists lie across two blocks.
            (shape.block_size - self.rng.between(1, lists as u64 - 1) as usize).min(length - lists)
        } else {
            self.rng.between(m::LENGTH as u64, (length - lists) as u64) as usize
        };
        let list_offset = index_offset + indices;
        let mut bytes = vec![0; length];
        object::ID.set(&mut bytes, MANAGER_ID);
        object::XID.set(&mut bytes, self.xid);
        object::TYPE.set(&mut bytes, object::MANAGER | object::EPHEMERAL);
        let fields = [
            (m::CHUNK_INFO_COUNT, chunk_infos),
            (m::ADDRESS_BLOCKS, infos.address_blocks.len() as u64),
            (m::FREE_COUNT, infos.free + number),
            (m::LISTED_OFFSET, list_offset as u64),
            (m::POOL_COUNT, infos.pool_count),
            (m::BITMAP_SLOTS, shape.bitmap_slots),
            (m::BITMAP_RING, shape.bitmap_blocks()),
            (m::BITMAP_BASE, places.bitmaps),
            (m::POOL_BASE, places.pool),
            (m::POOL_QUEUE, if shape.pool_queue.is_some() { POOL_QUEUE_ID } else { 0 }),
            (m::MAIN_QUEUE, if shape.main_queue.is_some() { MAIN_QUEUE_ID } else { 0 }),
            (m::INDEX_OFFSET, index_offset as u64),
        ];
        fields.into_iter().for_each(|(field, value)| field.set(&mut bytes, value));
        put_list(&mut bytes, index_offset, m::INDEX_WIDTH, infos.indices.iter().copied());
        put_list(&mut bytes, list_offset, m::ADDRESS_WIDTH, infos.listed().iter().copied());
        infos.free_list.write(&mut bytes, list_offset + addresses);
        seal(&mut bytes);
        bytes
    }

    /// The chunk-info count that a manager states: below address blocks nothing reads it.
    fn stated_chunk_infos(&mut self, infos: &Infos) -> u64 {
        let count = infos.addresses.len() as u64;
        match infos.address_blocks.len() as u64 {
            0 => count,
            blocks => {
                let any = self.rng.number();
                *self.rng.pick(&[count, 0, blocks, any])
            }
        }
    }

    /// A free queue whose entries name the blocks from `first` on.
    fn queue(&mut self, shape: &QueueShape, blocks: &[u64], ids: &[u64], first: u64) {
        let mut next = first;
        let mut leaves = Vec::new();
        for counts in &shape.leaves {
            let mut leaf = Vec::new();
            for count in counts {
                leaf.push((bytes_of(&[self.xid, next]), count.map(|c| bytes_of(&[c]))));
                next += count.unwrap_or(1);
            }
            leaves.push(leaf);
        }
        // Sizes above the least are fine too.
        let more = if self.rng.chance(20) { 4 } else { 0 };
        let tree = Tree {
            shape: shape.tree,
            sizes: Sizes { key: queue::KEY + more, value: queue::VALUE + more },
            xid: self.xid,
            subtype: object::FREE_QUEUE,
            blocks,
            pointers: ids,
            leaves,
        };
        tree.write(&mut self.image, self.shape.block_size, self.rng);
    }

    /// The checkpoints' maps and superblocks, around the ring; block 0 is a copy of one of them.
    fn descriptor_area(&mut self, ephemeral: &Ephemeral) {
        let shape = self.shape;
        let (base, ring) = (self.places.descriptors, shape.descriptor_blocks());
        let start = self.rng.below(ring);
        let mut order: Vec<u64> = (0..shape.checkpoints).collect();
        self.rng.shuffle(&mut order);
        for (place, &number) in (0..).zip(&order) {
            let newest = number + 1 == shape.checkpoints;
            let xid = self.xid + if newest && shape.equal_xids { number - 1 } else { number };
            let index = (start + place * (shape.chain + 1)) % ring;
            let manager = ephemeral.managers[number as usize % ephemeral.managers.len()];
            self.checkpoint_maps(index, xid, manager, &ephemeral.nodes);
            if newest && shape.torn {
                let first = base + index;
                object::CHECKSUM.set(self.block(first), 0);
            }
            let at = base + (index + shape.chain) % ring;
            self.superblock(at, xid, index);
        }
        let last = base + (start + shape.chain) % ring;
        let copy = self.block(last).to_vec();
        self.block(0).copy_from_slice(&copy);
        if self.rng.chance(30) {
            // Block 0's own checksum doesn't count.
            object::CHECKSUM.set(self.block(0), 1);
        }
    }

    fn superblock(&mut self, at: u64, xid: u64, index: u64) {
        let (shape, places) = (self.shape, &self.places);
        let fields = [
            (object::ID, 1),
            (object::XID, xid),
            (object::TYPE, object::SUPERBLOCK | object::EPHEMERAL),
            (s::MAGIC, s::NXSB),
            (s::BLOCK_SIZE, shape.block_size as u64),
            (s::BLOCK_COUNT, places.count),
            (s::INCOMPATIBLE, 2),
            (s::DESCRIPTOR_BLOCKS, shape.descriptor_blocks()),
            (s::DATA_BLOCKS, shape.data_blocks() | if shape.data_top_bit { TOP_BIT } else { 0 }),
            (s::DESCRIPTOR_BASE, places.descriptors),
            (s::DATA_BASE, places.data),
            (s::DESCRIPTOR_INDEX, index),
            (s::DESCRIPTOR_LENGTH, shape.chain + 1),
            (s::MANAGER_ID, MANAGER_ID),
            (s::OBJECT_MAP, places.object_map),
            (s::VOLUMES, self.volumes.places),
        ];
        let ids: Vec<_> = (0..).map(s::volume_id).zip(self.volumes.ids.iter().copied()).collect();
        let block = self.block(at);
        fields.into_iter().chain(ids).for_each(|(field, value)| field.set(block, value));
        seal(block);
    }

    /// The map chain of one checkpoint, from ring place `index` on, its entries spread over its blocks.
    fn checkpoint_maps(&mut self, index: u64, xid: u64, manager: (u64, u64), nodes: &[(u64, u64)]) {
        let (chain, size) = (self.shape.chain, self.shape.block_size as u64);
        let mut entries = vec![(MANAGER_ID, manager.0, manager.1, object::MANAGER)];
        entries.extend(nodes.iter().map(|&(id, address)| (id, address, size, object::NODE)));
        entries.push((OTHER_ID, self.places.data, size, 0));
        self.rng.shuffle(&mut entries);
        if self.rng.chance(20) {
            // A second entry with an id already there, the manager's or a queue's: the first holds.
            let &(id, _, _, kind) = self.rng.pick(&entries);
            entries.push((id, self.places.data + 1, size, kind));
        }
        let mut cuts: Vec<usize> = (1..chain).map(|_| self.rng.below(entries.len() as u64 + 1) as usize).collect();
        cuts.extend([0, entries.len()]);
        cuts.sort_unstable();
        // The last block's flag may be missing where the length ends the chain.
        let flagged = self.rng.chance(80);
        for (k, ends) in (0..).zip(cuts.windows(2)) {
            let at = self.places.descriptors + (index + k) % self.shape.descriptor_blocks();
            let block = self.block(at);
            object::ID.set(block, at);
            object::XID.set(block, xid);
            object::TYPE.set(block, object::CHECKPOINT_MAP | object::PHYSICAL);
            let last = flagged && k + 1 == chain;
            checkpoint_map::FLAGS.set(block, if last { checkpoint_map::LAST } else { 0 });
            checkpoint_map::COUNT.set(block, (ends[1] - ends[0]) as u64);
            for (i, &(id, address, size, kind)) in entries[ends[0]..ends[1]].iter().enumerate() {
                let entry = checkpoint_map::ENTRIES + i * checkpoint_map::ENTRY;
                mapping::TYPE.shifted(entry).set(block, kind | object::EPHEMERAL);
                mapping::SIZE.shifted(entry).set(block, size);
                mapping::ID.shifted(entry).set(block, id);
                mapping::ADDRESS.shifted(entry).set(block, address);
            }
            seal(block);
        }
    }
}

fn set_bits(bitmap: &mut [u8], bits: &[bool]) {
    for (i, _) in bits.iter().enumerate().filter(|(_, &bit)| bit) {
        bitmap[i / 8] |= 1 << (i % 8);
    }
}
