//! Damages of block 0, of superblocks and of their map chains.

use crate::draft::Draft;
use crate::fields::{checkpoint_map, object, superblock};
use crate::model::HIGHEST_COUNT;
use crate::survey::{Object, Role};

/// A superblock copied over another block of the ring, with a new xid: its chain loads only if that stays.
pub fn copy_superblock(d: &mut Draft) -> Option<String> {
    let from = *d.superblocks().first()?;
    let base = d.get(from, superblock::DESCRIPTOR_BASE);
    let to = base.wrapping_add(d.rng.below(d.get(from, superblock::DESCRIPTOR_BLOCKS).max(1)));
    let bytes = d.block(from.blocks[0])?.to_vec();
    d.block_and_rng(to)?.0.copy_from_slice(&bytes);
    let copy = Object { blocks: vec![to], ..from.clone() };
    let xid = d.get(from, object::XID).wrapping_add(d.rng.below(3));
    let mut fields = vec![(object::XID, xid)];
    if d.rng.chance(30) {
        fields.push((superblock::INCOMPATIBLE, 0x100));
    }
    d.rewrite(&copy, &fields);
    Some(format!("from block {} to {to} with xid {xid}", from.blocks[0]))
}

/// The sum of base and offset passes 2^64 - 1: that superblock doesn't load, and an older one may.
pub fn overflowing_chain(d: &mut Draft) -> Option<String> {
    let sb = *d.superblocks().first()?;
    let ring = d.get(sb, superblock::DESCRIPTOR_BLOCKS);
    let index = d.rng.between(1, ring.max(3) - 1);
    d.rewrite(sb, &[(superblock::DESCRIPTOR_BASE, u64::MAX), (superblock::DESCRIPTOR_INDEX, index)]);
    Some(format!("superblock {} with index {index} in a ring of {ring}", sb.blocks[0]))
}

/// Lengths of a chain in a ring of one: the longest that the original still reads in a moment, and one that it doesn't.
const LONG_CHAIN: u64 = 0x1_0002;
const ENDLESS_CHAIN: u64 = 0xffff_ffff;

/// Block 0 names the superblock alone; its map block stands outside and is read again for each block of the chain.
pub fn ring_of_one(d: &mut Draft) -> Option<String> {
    let sb = *d.superblocks().first()?;
    let map = d.get(sb, superblock::DESCRIPTOR_BASE).wrapping_add(d.get(sb, superblock::DESCRIPTOR_INDEX));
    let length = match d.rng.below(100) {
        0 => ENDLESS_CHAIN,
        1..20 => LONG_CHAIN,
        _ => *d.rng.pick(&[1, 2, 3, 50]),
    };
    let zero = d.first(Role::BlockZero)?;
    d.rewrite(zero, &[(superblock::DESCRIPTOR_BASE, sb.blocks[0]), (superblock::DESCRIPTOR_BLOCKS, 1)]);
    d.rewrite(
        sb,
        &[
            (superblock::DESCRIPTOR_BASE, map),
            (superblock::DESCRIPTOR_INDEX, 0),
            (superblock::DESCRIPTOR_LENGTH, length),
        ],
    );
    let maps = d.survey.with_role(Role::CheckpointMap);
    let map = maps.into_iter().find(|o| o.blocks[0] == map)?;
    d.rewrite(map, &[(checkpoint_map::FLAGS, 0)]);
    Some(format!("chain length {length}"))
}

/// The area is the whole container, block 0 included, and a superblock may claim as much of it.
pub fn whole_area(d: &mut Draft) -> Option<String> {
    let zero = d.first(Role::BlockZero)?;
    let claimed = *d.rng.pick(&[1, 2, d.survey.count, 0x8000_0001]);
    for sb in d.superblocks() {
        let index = d.get(sb, superblock::DESCRIPTOR_BASE).wrapping_add(d.get(sb, superblock::DESCRIPTOR_INDEX));
        d.rewrite(
            sb,
            &[
                (superblock::DESCRIPTOR_BASE, 0),
                (superblock::DESCRIPTOR_INDEX, index),
                (superblock::DESCRIPTOR_BLOCKS, claimed),
            ],
        );
    }
    d.rewrite(zero, &[(superblock::DESCRIPTOR_BASE, 0), (superblock::DESCRIPTOR_BLOCKS, d.survey.count)]);
    Some(format!("claimed length {claimed:#x}"))
}

/// The area reaches from its base to the count, or a block further.
pub fn long_area(d: &mut Draft) -> Option<String> {
    let past = d.rng.below(2);
    area_to_end(d, past)
}

pub fn area_to_end(d: &mut Draft, past: u64) -> Option<String> {
    let zero = d.first(Role::BlockZero)?;
    let base = d.get(zero, superblock::DESCRIPTOR_BASE);
    let length = d.survey.count.checked_sub(base)? + past;
    d.rewrite(zero, &[(superblock::DESCRIPTOR_BLOCKS, length)]);
    Some(format!("{length} blocks from {base} of {}", d.survey.count))
}

pub fn feature(d: &mut Draft) -> Option<String> {
    let sb = *d.superblocks().first()?;
    let flags = *d.rng.pick(&[0x1, 0x100, 0x101, 0x3, 0x102, 0x2, u64::MAX]);
    d.rewrite(sb, &[(superblock::INCOMPATIBLE, flags)]);
    Some(format!("superblock {} with {flags:#x}", sb.blocks[0]))
}

/// The highest count that isn't refused as such, or the one above.
pub fn highest_count(d: &mut Draft) -> Option<String> {
    let count = HIGHEST_COUNT + d.rng.below(2);
    let holders = d.superblocks().into_iter().chain(d.first(Role::BlockZero));
    holders.for_each(|holder| d.rewrite(holder, &[(superblock::BLOCK_COUNT, count)]));
    Some(format!("{count:#x} blocks"))
}
