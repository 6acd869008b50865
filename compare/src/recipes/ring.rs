//! Lists of the unused blocks of the pool bitmap's ring, sound ones and others.
//!
//! Most rings are made a few blocks longer, so that they have unused ones; the table goes where no field of ours stands.

use super::manager::reseal_as;
use crate::draft::Draft;
use crate::fields::{manager, Field};
use crate::free_list::FreeList;
use crate::survey::{Object, Role};

pub const NO_INDEX: u64 = manager::NO_INDEX;

/// The ring with some blocks more, and its indices by whether a bitmap stands there.
pub struct Indices {
    pub ring: u64,
    pub in_use: Vec<u64>,
    pub unused: Vec<u64>,
}

impl Indices {
    pub fn of(d: &Draft, more: u64) -> Option<Self> {
        let object = d.first(Role::Manager)?;
        let ring = members(object, manager::FREE_NEXT).count() as u64 + more;
        let in_use: Vec<u64> = members(object, manager::INDEX).map(|f| d.get(object, f)).collect();
        let unused = (0..ring).filter(|index| !in_use.contains(index)).collect();
        Some(Indices { ring, in_use, unused })
    }

    /// The list through the first so many unused blocks.
    pub fn list(&self, blocks: usize) -> FreeList {
        FreeList::through(&self.unused[..blocks.min(self.unused.len())], self.ring)
    }

    /// The list of this index alone.
    pub fn single(&self, index: u64) -> FreeList {
        FreeList { head: index, tail: index, ..self.list(0) }
    }

    /// The last of the blocks in use, where it is inside the ring.
    pub fn last_in_use(&self) -> Option<u64> {
        self.in_use.last().copied().filter(|&index| index < self.ring)
    }

    /// The list through three unused blocks, or with a block in use in the place of one of them.
    pub fn three(&self, in_use: Option<usize>) -> Option<FreeList> {
        let mut indices = self.unused.get(..3)?.to_vec();
        if let Some(place) = in_use {
            indices[place] = self.last_in_use()?;
        }
        Some(FreeList::through(&indices, self.ring))
    }
}

/// The members of one of the manager's lists.
pub fn members<'a>(object: &'a Object, name: &'static str) -> impl Iterator<Item = Field> + 'a {
    object.fields.iter().copied().filter(move |f| f.name == name)
}

/// Where a table of so many bytes ends with those that no field of ours uses; an address list may stand in the first of them.
pub fn aside(length: usize) -> Option<usize> {
    let room = manager::SPARE.len() - 3 * manager::ADDRESS_WIDTH;
    (length <= room).then(|| manager::SPARE.end - length)
}

/// An entry of the table that stands at byte `at`.
pub fn entry_at(at: usize) -> Field {
    Field { name: manager::FREE_NEXT, at, width: manager::INDEX_WIDTH }
}

/// The manager gets a list with its table at byte `at`, and a ring of as many blocks as that has entries.
pub fn write(d: &mut Draft, list: &FreeList, at: usize) -> Option<String> {
    let mut fields = vec![
        (manager::FREE_HEAD, list.head),
        (manager::FREE_TAIL, list.tail),
        (manager::BITMAP_RING, list.next.len() as u64),
        (manager::FREE_NEXT_OFFSET, at as u64),
    ];
    fields.extend((at..).step_by(manager::INDEX_WIDTH).map(entry_at).zip(list.next.iter().copied()));
    d.rewrite(d.first(Role::Manager)?, &fields);
    let (first, more) = list.next.split_at(list.next.len().min(12));
    let more = if more.is_empty() { String::new() } else { format!(" and {} more", more.len()) };
    Some(format!("from {:#x} to {:#x} by {first:x?}{more}", list.head, list.tail))
}

pub fn relist(d: &mut Draft, list: &FreeList) -> Option<String> {
    write(d, list, aside(list.length())?)
}

/// The list made of the indices of a ring that is `more` blocks longer.
pub fn free_list(d: &mut Draft, more: u64, make: impl Fn(&Indices) -> Option<FreeList>) -> Option<String> {
    let list = make(&Indices::of(d, more)?)?;
    relist(d, &list)
}

pub fn emptied(d: &mut Draft) -> Option<String> {
    let tail = *d.rng.pick(&[0, 1, NO_INDEX - 1, NO_INDEX]);
    d.rewrite(d.first(Role::Manager)?, &[(manager::FREE_HEAD, NO_INDEX), (manager::FREE_TAIL, tail)]);
    Some(format!("tail {tail:#x}"))
}

/// One unused block or several; where the tail's entry leads doesn't matter.
pub fn in_any_order(d: &mut Draft) -> Option<String> {
    let more = d.rng.between(1, 8);
    let mut indices = Indices::of(d, more)?;
    d.rng.shuffle(&mut indices.unused);
    let mut list = indices.list(d.rng.between(1, indices.unused.len() as u64) as usize);
    let used = indices.last_in_use().unwrap_or(0);
    list.next[list.tail as usize] = *d.rng.pick(&[list.head, list.tail, used, indices.ring, NO_INDEX]);
    relist(d, &list)
}

/// The last of these blocks leads back to one of them, and the tail is none of them.
fn circle(d: &mut Draft, indices: &Indices, blocks: &[u64], back: u64) -> Option<String> {
    let mut list = FreeList::through(blocks, indices.ring);
    list.next[list.tail as usize] = back;
    let other = indices.unused.iter().copied().find(|index| !blocks.contains(index)).unwrap_or(NO_INDEX);
    list.tail = *d.rng.pick(&[other, other, indices.ring, NO_INDEX]);
    relist(d, &list)
}

/// Through unused blocks of the ring as it is, or longer.
pub fn in_a_circle(d: &mut Draft) -> Option<String> {
    let more = *d.rng.pick(&[0, 1, 2, 4, 8]);
    let mut indices = Indices::of(d, more)?;
    d.rng.shuffle(&mut indices.unused);
    let most = indices.unused.len().max(2) - 1;
    let blocks = indices.unused.get(..d.rng.between(1, most as u64) as usize)?.to_vec();
    let back = *d.rng.pick(&blocks);
    circle(d, &indices, &blocks, back)
}

/// A block in use comes again, among unused ones or alone.
pub fn in_use_twice(d: &mut Draft) -> Option<String> {
    let more = d.rng.below(4);
    let mut indices = Indices::of(d, more)?;
    let used = indices.last_in_use()?;
    indices.unused.pop();
    let mut blocks = [&[used], &indices.unused[..]].concat();
    d.rng.shuffle(&mut blocks);
    circle(d, &indices, &blocks, used)
}

/// At its head or behind it, before its tail or there.
pub fn out_of_ring(d: &mut Draft) -> Option<String> {
    let more = d.rng.between(1, 3);
    let indices = Indices::of(d, more)?;
    let mut list = indices.list(d.rng.below(3) as usize);
    let index = *d.rng.pick(&[indices.ring, indices.ring, indices.ring + 1, NO_INDEX - 1, NO_INDEX]);
    if list.head == NO_INDEX {
        list.head = index.min(NO_INDEX - 1);
    } else {
        list.next[list.tail as usize] = index;
    }
    list.tail = if d.rng.chance(50) { index } else { NO_INDEX };
    relist(d, &list)
}

/// Alone, or among three blocks; there may be no pool, so that other problems follow.
pub fn over_block_in_use(d: &mut Draft) -> Option<String> {
    let place = d.rng.below(4) as usize;
    let list = match place {
        3 => Indices::of(d, 0).and_then(|r| Some(r.single(r.last_in_use()?))),
        _ => Indices::of(d, 3)?.three(Some(place)),
    };
    let made = relist(d, &list?)?;
    if d.rng.chance(30) {
        d.rewrite(d.first(Role::Manager)?, &[(manager::POOL_COUNT, 0)]);
    }
    Some(made)
}

/// All unused blocks of a ring that has as many as the rest of the manager's blocks has room for, or fewer: a sound list, or
/// one whose last block leads to another, to a block in use, or out.
pub fn of_many_blocks(d: &mut Draft) -> Option<String> {
    let object = d.first(Role::Manager)?;
    let lists = [manager::INDEX, manager::LISTED_ADDRESS].into_iter().flat_map(|name| members(object, name));
    let at = lists.map(|f| f.at + f.width).max()?;
    let whole = object.blocks.len() * d.survey.block_size;
    let room = NO_INDEX.min((whole.checked_sub(at)? / manager::INDEX_WIDTH) as u64);
    let ring = d.rng.between(room.min(100), room);
    let more = ring.checked_sub(Indices::of(d, 0)?.ring)?;
    let mut indices = Indices::of(d, more)?;
    d.rng.shuffle(&mut indices.unused);
    let mut list = indices.list(indices.unused.len());
    if d.rng.chance(40) {
        let again = *d.rng.pick(&indices.unused);
        let used = indices.last_in_use().unwrap_or(again);
        list.next[list.tail as usize] = *d.rng.pick(&[again, used, ring]);
        list.tail = used;
    }
    let whole_object = Object { length: whole, ..object.clone() };
    let made = write(d, &list, at)?;
    reseal_as(d, &whole_object, whole)?;
    Some(made)
}

/// The ring ends before a block that holds a bitmap, which is on the list or isn't.
pub fn ring_before(d: &mut Draft, on_it: bool) -> Option<String> {
    let mut indices = Indices::of(d, 0)?;
    let used = *indices.in_use.iter().max().filter(|&&index| index > 0)?;
    indices.ring = used.min(indices.ring);
    indices.unused.retain(|&index| index < indices.ring);
    let mut list = indices.list(indices.unused.len());
    if on_it {
        list.head = used;
    }
    relist(d, &list)
}

pub fn ends_before_bitmap(d: &mut Draft) -> Option<String> {
    let on_it = d.rng.chance(30);
    ring_before(d, on_it)
}
