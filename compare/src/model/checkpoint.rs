//! Which superblock a pass takes, and the checkpoint map that goes with it.

use space_check::Refusal;

use super::blocks::{Blocks, Step};
use super::Notes;
use crate::fields::{checkpoint_map, mapping, object, superblock};
use crate::fletcher::verifies;

/// The descriptor area that block 0 names.
pub struct Area {
    pub base: u64,
    pub ring: u64,
}

pub struct Mapping {
    pub id: u64,
    pub size: u64,
    pub address: u64,
}

/// The superblock taken, with its map.
pub struct Taken<'a> {
    pub superblock: &'a [u8],
    pub map: Vec<Mapping>,
}

impl Taken<'_> {
    /// Of two entries with one id the first holds.
    pub fn lookup(&self, id: u64) -> Option<&Mapping> {
        self.map.iter().find(|m| m.id == id)
    }
}

/// Sound superblocks are tried from the highest xid down, equal ones in ring order.
pub fn take<'a>(blocks: &Blocks<'a>, area: &Area, notes: &mut Notes) -> Step<Taken<'a>> {
    let ring = (0..area.ring).map(|i| blocks.raw(area.base + i)).collect::<Step<Vec<_>>>()?;
    let mut sound: Vec<&[u8]> = ring.into_iter().filter(|b| is_sound(b)).collect();
    // The sort is stable: equal xids keep their ring order.
    sound.sort_by_key(|b| std::cmp::Reverse(object::XID.of(b)));
    for superblock in sound {
        if let Some(map) = chain(blocks, superblock, area.ring, notes) {
            return Ok(Taken { superblock, map });
        }
    }
    Err(Refusal::NoCheckpoint)
}

fn is_sound(block: &[u8]) -> bool {
    object::KIND.of(block) == object::SUPERBLOCK && superblock::MAGIC.of(block) == superblock::NXSB && verifies(block)
}

/// The map chain of a superblock, where it loads. After as many blocks as the ring has it repeats itself.
fn chain(blocks: &Blocks, sb: &[u8], ring: u64, notes: &mut Notes) -> Option<Vec<Mapping>> {
    let length = superblock::DESCRIPTOR_LENGTH.of(sb).saturating_sub(1);
    let mut map = Vec::new();
    for k in 0..length.min(ring) {
        let offset = (superblock::DESCRIPTOR_INDEX.of(sb) + k) % ring;
        let address = superblock::DESCRIPTOR_BASE.of(sb).checked_add(offset);
        notes.chain_sum_overflowed |= address.is_none();
        let block = blocks.object(address?).ok()?;
        let ours = object::KIND.of(block) == object::CHECKPOINT_MAP && object::XID.of(block) == object::XID.of(sb);
        let count = checkpoint_map::COUNT.of(block) as usize;
        if !ours || checkpoint_map::ENTRIES + count * checkpoint_map::ENTRY > block.len() {
            return None;
        }
        let entries = block[checkpoint_map::ENTRIES..].chunks(checkpoint_map::ENTRY);
        map.extend(entries.take(count).map(mapping_of));
        if checkpoint_map::FLAGS.of(block) & checkpoint_map::LAST != 0 {
            return Some(map);
        }
    }
    if length > ring {
        notes.repeated_chain = length;
    }
    Some(map)
}

fn mapping_of(entry: &[u8]) -> Mapping {
    Mapping { id: mapping::ID.of(entry), size: mapping::SIZE.of(entry), address: mapping::ADDRESS.of(entry) }
}
