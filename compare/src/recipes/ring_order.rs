//! The list of the ring's unused blocks beside other faults: which is met first.

use super::ring::{free_list, members, relist, Indices, NO_INDEX};
use super::ring_table::table_of;
use crate::draft::Draft;
use crate::fields::manager;
use crate::survey::Role;

/// A table that passes the manager's end, or a list of one block that the ring doesn't have.
fn fault(d: &mut Draft, of_table: bool) -> Option<String> {
    if of_table {
        table_of(d, 1)
    } else {
        free_list(d, 0, |r| Some(r.single(r.ring)))
    }
}

/// Before it: the pool has a block more than its bitmaps have bits.
pub fn behind_pool(d: &mut Draft, of_table: bool) -> Option<String> {
    let made = fault(d, of_table)?;
    let object = d.first(Role::Manager)?;
    let bits = d.get(object, manager::BITMAP_SLOTS).wrapping_mul(d.survey.block_size as u64 * 8);
    d.rewrite(object, &[(manager::POOL_COUNT, bits.wrapping_add(1))]);
    Some(made)
}

pub fn beside_pool(d: &mut Draft) -> Option<String> {
    let of_table = d.rng.chance(50);
    behind_pool(d, of_table)
}

/// The list of address or chunk-info blocks passes the manager's end.
fn cut_listed(d: &mut Draft) -> Option<()> {
    let object = d.first(Role::Manager)?;
    d.rewrite(object, &[(manager::LISTED_OFFSET, (object.length - manager::ADDRESS_WIDTH + 1) as u64)]);
    Some(())
}

/// After it: that list, which is read whole. The free list is sound, or isn't.
pub fn before_listed(d: &mut Draft, sound: bool) -> Option<String> {
    let made = if sound { free_list(d, 2, |r| Some(r.list(2))) } else { fault(d, false) }?;
    cut_listed(d)?;
    Some(made)
}

/// After it: a block of that list past the container.
fn before_listed_block(d: &mut Draft, of_table: bool) -> Option<String> {
    let made = fault(d, of_table)?;
    let object = d.first(Role::Manager)?;
    let first = members(object, manager::LISTED_ADDRESS).next()?;
    d.rewrite(object, &[(first, d.survey.count)]);
    Some(made)
}

pub fn beside_listed(d: &mut Draft) -> Option<String> {
    match d.rng.below(4) {
        0 => before_listed_block(d, false),
        1 => before_listed_block(d, true),
        _ => before_listed(d, false),
    }
}

/// A ring without bitmaps, whose last block has the address 2^64 - 1 or past that; it leads to itself or is the tail. Another
/// fault follows before the ring is claimed.
pub fn at_end_of_numbers(d: &mut Draft) -> Option<String> {
    let mut indices = Indices::of(d, 1)?;
    indices.unused = (0..indices.ring).collect();
    let mut list = indices.list(indices.unused.len());
    let last = list.tail;
    let base = u64::MAX - last + d.rng.below(2);
    if d.rng.chance(60) {
        list.next[last as usize] = last;
        list.tail = NO_INDEX;
    }
    let made = relist(d, &list)?;
    let fields = [(manager::BITMAP_SLOTS, 0), (manager::POOL_COUNT, 0), (manager::BITMAP_BASE, base)];
    d.rewrite(d.first(Role::Manager)?, &fields);
    cut_listed(d)?;
    Some(format!("{made}, base {base:#x}"))
}
