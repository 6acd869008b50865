//! Damages of the manager and of the pool that it describes.

use super::ring_table::table_aside;
use crate::draft::Draft;
use crate::fields::{manager, mapping, object, put, superblock, Field};
use crate::fletcher::seal;
use crate::survey::{Object, Role};

/// Sets a field of every entry that maps the manager of the superblock tried first.
pub fn remap(d: &mut Draft, field: Field, value: u64) -> Option<()> {
    let sb = *d.superblocks().first()?;
    for (map, at) in d.mapping_entries(d.get(sb, superblock::MANAGER_ID)) {
        d.rewrite(map, &[(field.shifted(at), value)]);
    }
    Some(())
}

/// The manager sealed again over another length.
pub fn reseal_as(d: &mut Draft, object: &Object, length: usize) -> Option<String> {
    remap(d, mapping::SIZE, length as u64)?;
    d.reseal(&Object { length, ..object.clone() });
    Some(format!("{length} bytes"))
}

pub fn other_length(d: &mut Draft) -> Option<String> {
    let object = d.first(Role::Manager)?;
    let most = object.blocks.len() * d.survey.block_size;
    let length = match d.rng.below(4) {
        0 => *d.rng.pick(&[28, 32, 36, 340, 344, 348]),
        1 => {
            // The free-next table stands behind that list, and would be met before it.
            table_aside(d)?;
            d.get(object, manager::LISTED_OFFSET) as usize + 4 * d.rng.below(3) as usize
        }
        2 => d.get(object, manager::INDEX_OFFSET) as usize,
        _ => 4 * d.rng.between(8, most as u64 / 4) as usize,
    };
    reseal_as(d, object, length.clamp(object::HEADER - 4, most))
}

/// The lists stand in bytes that no field of ours uses, so that a manager without its last bytes would still do.
pub fn short(d: &mut Draft) -> Option<String> {
    let object = d.first(Role::Manager)?;
    let lists = [
        (manager::INDEX_OFFSET, manager::INDEX),
        (manager::LISTED_OFFSET, manager::LISTED_ADDRESS),
        (manager::FREE_NEXT_OFFSET, manager::FREE_NEXT),
    ];
    let mut at = manager::SPARE.start;
    for (offset, name) in lists {
        d.set(object, offset, at as u64);
        for member in object.fields.iter().filter(|f| f.name == name) {
            if at + member.width > manager::SPARE.end {
                return None;
            }
            let value = d.get(object, *member);
            d.set(object, Field { at, ..*member }, value);
            at += member.width;
        }
    }
    let length = *d.rng.pick(&[manager::LENGTH - 4, manager::LENGTH]);
    reseal_as(d, object, length)
}

/// The manager fills its ring and is mapped several times as long: a sealed object verifies however often it repeats.
pub fn repeated(d: &mut Draft) -> Option<String> {
    let object = d.first(Role::Manager)?;
    let sb = *d.superblocks().first()?;
    let (first, blocks) = (object.blocks[0], object.blocks.len() as u64);
    let length = object.blocks.len() * d.survey.block_size;
    let times = d.rng.between(1, 4);
    d.rewrite(sb, &[(superblock::DATA_BASE, first), (superblock::DATA_BLOCKS, blocks)]);
    remap(d, mapping::ADDRESS, first)?;
    remap(d, mapping::SIZE, times * length as u64)?;
    d.reseal(&Object { length, ..object.clone() });
    Some(format!("{times} times a ring of {blocks}"))
}

/// Block 0 is the manager as well: what a pass reads of block 0 lies where a manager has fields that it doesn't read.
pub fn in_block_zero(d: &mut Draft) -> Option<String> {
    use superblock::{BLOCK_COUNT, BLOCK_SIZE, DESCRIPTOR_BASE, DESCRIPTOR_BLOCKS, MAGIC};
    let object = d.first(Role::Manager)?;
    let [address] = object.blocks[..] else { return None };
    let zero = d.block(0)?.to_vec();
    let mut bytes = d.block(address)?.to_vec();
    for field in [MAGIC, BLOCK_SIZE, BLOCK_COUNT, DESCRIPTOR_BLOCKS, DESCRIPTOR_BASE] {
        put(&mut bytes, field.at, field.width, field.of(&zero));
    }
    seal(bytes.get_mut(..object.length)?);
    d.block_and_rng(0)?.0.copy_from_slice(&bytes);
    let sb = *d.superblocks().first()?;
    d.rewrite(sb, &[(superblock::DATA_BASE, 0)]);
    remap(d, mapping::ADDRESS, 0)?;
    Some(format!("a copy of block {address}"))
}

pub fn bitmap_in_block_zero(d: &mut Draft) -> Option<String> {
    let object = d.first(Role::Manager)?;
    let indices: Vec<_> = object.fields.iter().filter(|f| f.name == manager::INDEX).map(|f| (*f, 0)).collect();
    // Block 0 of the ring is in use then, and may be on the list of unused ones.
    let fields = [(manager::BITMAP_BASE, 0), (manager::FREE_HEAD, manager::NO_INDEX)];
    d.rewrite(object, &[&fields, &indices[..]].concat());
    Some(format!("{} times", indices.len()))
}

pub fn no_pool(d: &mut Draft) -> Option<String> {
    let object = d.first(Role::Manager)?;
    let ring = d.get(object, manager::BITMAP_RING);
    let base = match d.rng.below(3) {
        0 => d.get(object, manager::BITMAP_BASE),
        1 => u64::MAX - ring,
        _ => u64::MAX - d.rng.below(2 * ring + 1),
    };
    d.rewrite(object, &[(manager::BITMAP_SLOTS, 0), (manager::POOL_COUNT, 0), (manager::BITMAP_BASE, base)]);
    Some(format!("bitmap base {base:#x}"))
}

pub fn far_pool(d: &mut Draft) -> Option<String> {
    let object = d.first(Role::Manager)?;
    let base = (u64::MAX - d.get(object, manager::POOL_COUNT)).wrapping_add(d.rng.below(3));
    d.rewrite(object, &[(manager::POOL_BASE, base)]);
    Some(format!("pool base {base:#x}"))
}
