//! Damages by address blocks: those of the container, or one behind its end, which no bitmap marks.

use super::ring_table::table_aside;
use super::{queue_entry, queue_ghost};
use crate::address_block::write;
use crate::draft::Draft;
use crate::fields::{address_block, chunk, manager, superblock, Field};
use crate::survey::Role;

/// Most containers without address blocks get none: the original can't be compared on one that has some.
fn may_have(d: &mut Draft) -> Option<()> {
    (d.first(Role::AddressBlock).is_some() || d.rng.chance(30)).then_some(())
}

/// The container's first address block, or a new block.
fn any_place(d: &mut Draft) -> Option<u64> {
    d.first(Role::AddressBlock).map(|object| object.blocks[0]).or_else(|| d.grow(1))
}

fn place(d: &mut Draft) -> Option<u64> {
    may_have(d)?;
    any_place(d)
}

fn chunk_infos(d: &Draft) -> Vec<u64> {
    d.survey.with_role(Role::ChunkInfo).iter().map(|object| object.blocks[0]).collect()
}

fn write_at(d: &mut Draft, address: u64, infos: &[u64]) -> Option<()> {
    let (block, rng) = d.block_and_rng(address)?;
    write(block, infos, rng);
    Some(())
}

/// An address of the manager's list that stands at byte `at`.
fn listed_at(at: usize) -> Field {
    Field { name: manager::LISTED_ADDRESS, at, width: manager::ADDRESS_WIDTH }
}

/// The manager's list, in bytes that no field of ours uses, names these address blocks.
fn list(d: &mut Draft, addresses: &[u64]) -> Option<()> {
    let at = manager::SPARE.start;
    let mut fields = vec![(manager::ADDRESS_BLOCKS, addresses.len() as u64), (manager::LISTED_OFFSET, at as u64)];
    fields.extend((at..).step_by(manager::ADDRESS_WIDTH).map(listed_at).zip(addresses.iter().copied()));
    d.rewrite(d.first(Role::Manager)?, &fields);
    Some(())
}

/// An address block over all chunk-info blocks and `more`, the only one that is listed.
fn list_alone(d: &mut Draft, address: u64, more: &[u64]) -> Option<()> {
    let infos = [&chunk_infos(d)[..], more].concat();
    write_at(d, address, &infos)?;
    list(d, &[address])
}

/// New ones over all chunk-info blocks, in turn.
pub fn added(d: &mut Draft) -> Option<String> {
    may_have(d)?;
    let blocks = d.rng.between(1, 3);
    let first = d.grow(blocks)?;
    for i in 0..blocks {
        let infos: Vec<u64> = chunk_infos(d).into_iter().skip(i as usize).step_by(blocks as usize).collect();
        write_at(d, first + i, &infos)?;
    }
    list(d, &(first..first + blocks).collect::<Vec<u64>>())?;
    Some(format!("{blocks} from block {first}"))
}

/// There may be no pool, so that each block below it is a problem before it comes again.
pub fn twice(d: &mut Draft) -> Option<String> {
    let address = place(d)?;
    list_alone(d, address, &[])?;
    list(d, &[address, address])?;
    let pool = d.rng.chance(50);
    if !pool {
        d.rewrite(d.first(Role::Manager)?, &[(manager::POOL_COUNT, 0)]);
    }
    Some(format!("block {address}, {} pool", if pool { "with the" } else { "without a" }))
}

/// It names itself: its addresses are records too.
pub fn as_chunk_info(d: &mut Draft) -> Option<String> {
    let address = place(d)?;
    list_alone(d, address, &[address])?;
    Some(format!("block {address}"))
}

pub fn as_bitmap(d: &mut Draft) -> Option<String> {
    let address = place(d)?;
    list_alone(d, address, &[])?;
    let info = d.first(Role::ChunkInfo)?;
    let bitmap = *info.fields.iter().find(|f| f.name == chunk::BITMAP.name)?;
    d.rewrite(info, &[(bitmap, address)]);
    Some(format!("block {address}"))
}

/// Few containers have a pool queue with an entry.
pub fn queued(d: &mut Draft) -> Option<String> {
    let address = any_place(d)?;
    list_alone(d, address, &[])?;
    let role = Role::PoolQueueNode;
    queue_entry(d, role, address, 1).or_else(|| queue_ghost(d, role, address))
}

/// As many addresses as it has room for: after the others a new block again and again, one without records.
pub fn full(d: &mut Draft) -> Option<String> {
    may_have(d)?;
    let address = d.grow(2)?;
    let room = address_block::room(d.survey.block_size);
    let again = vec![address + 1; room.checked_sub(chunk_infos(d).len())?];
    list_alone(d, address, &again)?;
    Some(format!("block {address} with {room} addresses"))
}

/// It counts an address more than it has room for.
pub fn overfull(d: &mut Draft) -> Option<String> {
    let address = place(d)?;
    list_alone(d, address, &[])?;
    let count = address_block::room(d.survey.block_size) as u64 + 1;
    address_block::COUNT.set(d.block_and_rng(address)?.0, count);
    Some(format!("block {address} with {count} addresses"))
}

pub fn in_block_zero(d: &mut Draft) -> Option<String> {
    let address = place(d)?;
    list_alone(d, address, &[])?;
    list(d, &[address, 0])?;
    Some(format!("after block {address}"))
}

pub fn past_container(d: &mut Draft) -> Option<String> {
    let address = place(d)?;
    list_alone(d, address, &[])?;
    let count = d.get(d.first(Role::BlockZero)?, superblock::BLOCK_COUNT);
    let past = *d.rng.pick(&[count, count.wrapping_add(1), u64::MAX]);
    list(d, &[address, past])?;
    Some(format!("block {past:#x} of {count} after block {address}"))
}

/// The manager's list of one address block ends with the manager, or a byte further.
pub fn list_to_end(d: &mut Draft) -> Option<String> {
    let address = place(d)?;
    list_alone(d, address, &[])?;
    table_aside(d)?;
    let object = d.first(Role::Manager)?;
    let at = object.length - manager::ADDRESS_WIDTH;
    let past = d.rng.below(2);
    d.rewrite(object, &[(listed_at(at), address), (manager::LISTED_OFFSET, at as u64 + past)]);
    Some(format!("block {address}, {past} bytes past it"))
}

/// A new block, listed alone, that can be read both ways: as an address block, or as the one chunk-info block.
pub fn read_both_ways(d: &mut Draft, address_blocks: u64) -> Option<String> {
    let address = d.grow(1)?;
    list_alone(d, address, &[])?;
    let counts = [(manager::CHUNK_INFO_COUNT, 1), (manager::ADDRESS_BLOCKS, address_blocks)];
    d.rewrite(d.first(Role::Manager)?, &counts);
    Some(format!("block {address} listed, {address_blocks} address blocks"))
}
