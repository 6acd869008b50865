//! The table of the list of the ring's unused blocks: where it ends, and of how many entries it is.

use super::manager::remap;
use super::ring::{aside, entry_at, members, write, Indices, NO_INDEX};
use crate::draft::Draft;
use crate::fields::{manager, mapping, superblock, Field};
use crate::survey::{Object, Role};

/// The container's table goes where no field of ours stands, so that another damage doesn't meet it. Not sealed.
pub fn table_aside(d: &mut Draft) -> Option<()> {
    let object = d.first(Role::Manager)?;
    let entries: Vec<u64> = members(object, manager::FREE_NEXT).map(|f| d.get(object, f)).collect();
    let at = aside(entries.len() * manager::INDEX_WIDTH)?;
    d.set(object, manager::FREE_NEXT_OFFSET, at as u64);
    (at..).step_by(manager::INDEX_WIDTH).map(entry_at).zip(entries).for_each(|(f, entry)| d.set(object, f, entry));
    Some(())
}

/// The manager's other lists go where no field of ours stands, if they pass a byte. Not sealed.
fn lists_aside(d: &mut Draft, end: usize) -> Option<()> {
    let object = d.first(Role::Manager)?;
    let mut at = manager::SPARE.start;
    for (offset, name) in [(manager::INDEX_OFFSET, manager::INDEX), (manager::LISTED_OFFSET, manager::LISTED_ADDRESS)] {
        let list: Vec<Field> = members(object, name).collect();
        if list.last().is_none_or(|last| last.at + last.width <= end) {
            continue;
        }
        d.set(object, offset, at as u64);
        for member in list {
            if at + member.width > manager::SPARE.end {
                return None;
            }
            let value = d.get(object, member);
            d.set(object, Field { at, ..member }, value);
            at += member.width;
        }
    }
    Some(())
}

/// The table ends with the manager, or some bytes further; so many blocks are on the list.
pub fn table_to_end(d: &mut Draft, past: u64, blocks: usize) -> Option<String> {
    let object = d.first(Role::Manager)?;
    let list = Indices::of(d, blocks as u64)?.list(blocks);
    let at = object.length.checked_sub(list.length()).filter(|&at| at >= manager::LENGTH)?;
    lists_aside(d, at)?;
    write(d, &list, at)?;
    d.rewrite(object, &[(manager::FREE_NEXT_OFFSET, at as u64 + past)]);
    Some(format!("{blocks} blocks on it, {past} bytes past it"))
}

pub fn at_end(d: &mut Draft) -> Option<String> {
    let (past, blocks) = (d.rng.below(3), d.rng.below(3) as usize);
    table_to_end(d, past, blocks)
}

/// So many entries past the manager's end, and an empty list.
pub fn table_of(d: &mut Draft, entries: u64) -> Option<String> {
    let object = d.first(Role::Manager)?;
    let at = object.length as u64 + 1;
    let fields = [(manager::BITMAP_RING, entries), (manager::FREE_NEXT_OFFSET, at), (manager::FREE_HEAD, NO_INDEX)];
    d.rewrite(object, &fields);
    Some(format!("{entries} entries at byte {at}"))
}

pub fn no_ring(d: &mut Draft) -> Option<String> {
    let made = table_of(d, 0)?;
    let head = *d.rng.pick(&[NO_INDEX, NO_INDEX, 0]);
    d.rewrite(d.first(Role::Manager)?, &[(manager::FREE_HEAD, head)]);
    Some(format!("{made}, head {head:#x}"))
}

/// A ring of 65,535 blocks or more. The manager fills a ring of one block and is mapped as long as the table needs: a sealed
/// object verifies however often it repeats. The list leads from the first of `way` to the second and from that to the third.
pub fn long_ring(d: &mut Draft, ring: u64, way: [u64; 3], tail: u64) -> Option<String> {
    let object = d.first(Role::Manager)?;
    let [address] = object.blocks[..] else { return None };
    let size = d.survey.block_size;
    // 65,536 entries are a whole number of blocks, so that the last two have their bytes just before the first's.
    let at = manager::SPARE.start + 2 * manager::INDEX_WIDTH;
    let place = |index: u64| (at + index as usize * manager::INDEX_WIDTH) % size;
    let entries = way.windows(2).map(|pair| (entry_at(place(pair[0])), pair[1]));
    let fields = [
        (manager::BITMAP_RING, ring),
        (manager::FREE_NEXT_OFFSET, at as u64),
        (manager::FREE_HEAD, way[0]),
        (manager::FREE_TAIL, tail),
    ];
    let whole = Object { length: size, ..object.clone() };
    d.rewrite(&whole, &fields.into_iter().chain(entries).collect::<Vec<_>>());
    let length = (at + ring as usize * manager::INDEX_WIDTH).next_multiple_of(size);
    let sb = *d.superblocks().first()?;
    d.rewrite(sb, &[(superblock::DATA_BASE, address), (superblock::DATA_BLOCKS, 1)]);
    remap(d, mapping::ADDRESS, address)?;
    remap(d, mapping::SIZE, length as u64)?;
    Some(format!("{ring} blocks in {length} bytes, by {way:x?} to {tail:#x}"))
}

/// An unused block of the container's ring, or the one behind it, whose entry in a long ring's table has a place.
pub fn unused(d: &Draft) -> Option<u64> {
    Indices::of(d, 1)?.unused.first().copied().filter(|&index| index < 8)
}

pub fn of_long_ring(d: &mut Draft) -> Option<String> {
    let first = unused(d)?;
    let ring = *d.rng.pick(&[NO_INDEX, NO_INDEX + 1, NO_INDEX + 2]);
    let (way, tail) = *d.rng.pick(&[
        ([NO_INDEX, NO_INDEX, NO_INDEX], first),
        ([first, NO_INDEX, NO_INDEX - 1], NO_INDEX),
        ([first, NO_INDEX, NO_INDEX - 1], NO_INDEX - 1),
        ([first, NO_INDEX, NO_INDEX], NO_INDEX - 1),
        ([first, NO_INDEX - 1, NO_INDEX], NO_INDEX - 1),
        ([NO_INDEX - 1, NO_INDEX - 1, NO_INDEX - 1], NO_INDEX),
    ]);
    long_ring(d, ring, way, tail)
}
