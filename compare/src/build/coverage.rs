//! Counts how often each thing that a request can show was shown.

use std::fmt;

use space_check::node::{Sizes, Unbuilt};

use super::judge::Judgement;
use super::model::{Layout, NONALIGNED, SIZES};
use super::original::{has_stated_sizes, Ended};
use super::request::{Entry, Request, GHOST};
use crate::fields::{description, number, object};

/// A request with what came of it.
struct Case<'a> {
    request: &'a Request,
    judgement: &'a Judgement<'a>,
}

/// A row: its name, and whether a request shows it.
type Row = (&'static str, fn(&Case) -> bool);

const ROWS: &[&[Row]] = &[FORMS, HEADERS, STATED, ENTRIES, ROOM, DESCRIPTIONS, SLICES, LENGTHS, READ];

const FORMS: &[Row] = &[
    ("size 4,096: built", |c| c.is_built_of(SIZES[0])),
    ("size 8,192: built", |c| c.is_built_of(SIZES[1])),
    ("size 16,384: built", |c| c.is_built_of(SIZES[2])),
    ("size 32,768: built", |c| c.is_built_of(SIZES[3])),
    ("size 65,536: built", |c| c.is_built_of(SIZES[4])),
    ("size 0: 26", |c| c.is_26_by_size(|n| n == 0)),
    ("size below a header: 26", |c| c.is_26_by_size(|n| n == 55)),
    ("size of a header: 26", |c| c.is_26_by_size(|n| n == 56)),
    ("size below a root's header and description: 26", |c| c.request.header.root && c.is_26_by_size(|n| n == 95)),
    ("size of a root's header and description: 26", |c| c.request.header.root && c.is_26_by_size(|n| n == 96)),
    ("size a byte less than admitted: 26", |c| c.is_26_by_size(|n| SIZES.contains(&(n + 1)))),
    ("size a byte more than admitted: 26", |c| c.is_26_by_size(|n| n > 0 && SIZES.contains(&(n - 1)))),
    ("size 5,000: 26", |c| c.is_26_by_size(|n| n == 5000)),
    ("size 131,072: 26", |c| c.is_26_by_size(|n| n == 131_072)),
    ("root leaf of fixed sizes", |c| c.is_form(true, true, true)),
    ("root leaf of variable sizes", |c| c.is_form(true, true, false)),
    ("root above leaves, of fixed sizes", |c| c.is_form(true, false, true)),
    ("root above leaves, of variable sizes", |c| c.is_form(true, false, false)),
    ("leaf of fixed sizes", |c| c.is_form(false, true, true)),
    ("leaf of variable sizes", |c| c.is_form(false, true, false)),
    ("index node of fixed sizes", |c| c.is_form(false, false, true)),
    ("index node of variable sizes", |c| c.is_form(false, false, false)),
];

const HEADERS: &[Row] = &[
    ("level 32: built", |c| c.is_built() && c.request.header.level == 32),
    ("level 33: built", |c| c.is_built() && c.request.header.level == 33),
    ("level 65,535: built", |c| c.is_built() && c.request.header.level == 0xffff),
    ("kind 2: built", |c| c.is_built() && c.request.kind() == 2),
    ("kind 3: built", |c| c.is_built() && c.request.kind() == 3),
    ("another kind: built", |c| c.is_built() && !(2..=3).contains(&c.request.kind())),
    ("no storage flag: built", |c| c.is_built() && c.request.header.obj_type >> 16 == 0),
    ("physical: built", |c| c.is_built() && u64::from(c.request.header.obj_type) & object::PHYSICAL != 0),
    ("ephemeral: built", |c| c.is_built() && u64::from(c.request.header.obj_type) & object::EPHEMERAL != 0),
    ("subtype 9: built", |c| c.is_built() && u64::from(c.request.header.subtype) == object::FREE_QUEUE),
    ("subtype 9 with a flag: built", |c| c.is_built() && c.request.header.subtype == 0x4000_0009),
    ("another subtype: built", |c| c.is_built() && c.request.header.subtype & 0xffff != 9),
    ("id and xid of 2^64 - 1: built", |c| c.is_built() && c.request.header.oid & c.request.header.xid == u64::MAX),
];

const STATED: &[Row] = &[
    ("stated sizes 0 and 0, a root without entries: built", |c| c.is_zero_leaf(true) && c.is_built() && c.count() == 0),
    ("stated sizes 0 and 0, a root with a slot for each: built", |c| {
        c.is_zero_leaf(true) && c.is_built() && c.is_full_of_slots()
    }),
    ("stated sizes 0 and 0, not a root, no entries: 26", |c| c.is_zero_leaf(false) && c.is_26() && c.count() == 0),
    ("16,360 entries: built", |c| c.is_built() && c.count() == 16_360),
    ("16,361 entries: 26", |c| c.is_26() && c.layout(|_| true) && c.count() == 16_361),
    ("no slot, no entries: built", |c| c.is_built() && c.layout(|l| l.slots == 0)),
    ("no slot, entries: 26", |c| c.is_26() && c.layout(|l| l.slots == 0)),
    ("eight slots of a size that leaves one: built", |c| c.is_built() && c.request.is_fixed() && c.layout(is_one_slot)),
    ("stated sizes of 2^32 - 1: built", |c| c.is_built() && c.request.sizes == LARGEST),
    ("stated sizes of 2^32 - 1: 26", |c| c.is_26() && c.layout(|_| true) && c.request.sizes == LARGEST),
    ("an index node that states another value size: built", |c| {
        c.is_form(false, false, true) && matches!(c.request.sizes, Sizes::Fixed { value, .. } if value != 8)
    }),
    ("a leaf's entries of the stated sizes: built", |c| c.is_fixed_entries(true, true)),
    ("an index node's entries of the stated sizes: built", |c| c.is_fixed_entries(false, true)),
    ("a leaf's entries of other sizes: built", |c| c.is_fixed_entries(true, false)),
    ("an index node's entries of other sizes: built", |c| c.is_fixed_entries(false, false)),
    ("keys longer than stated: built", |c| c.is_built() && c.key_beside_stated(|key, stated| key > stated)),
    ("keys shorter than stated: built", |c| c.is_built() && c.key_beside_stated(|key, stated| key < stated)),
];

const LARGEST: Sizes = Sizes::Fixed { key: u32::MAX, value: u32::MAX };

const ENTRIES: &[Row] = &[
    ("no entries, fixed sizes: built", |c| c.is_built() && c.request.is_fixed() && c.count() == 0),
    ("no entries, variable sizes: built", |c| c.is_built() && !c.request.is_fixed() && c.count() == 0),
    ("16 entries of variable sizes: built", |c| c.is_built() && !c.request.is_fixed() && c.count() == 16),
    ("17 entries of variable sizes: built", |c| c.is_built() && !c.request.is_fixed() && c.count() == 17),
    ("a ghost of fixed sizes: built", |c| c.is_built() && c.request.is_fixed() && c.any(is_ghost)),
    ("a ghost of variable sizes: built", |c| c.is_built() && !c.request.is_fixed() && c.any(is_ghost)),
    ("ghosts and values: built", |c| c.is_built() && c.any(is_ghost) && c.any(|e| !is_ghost(e))),
    ("nothing but ghosts: built", |c| c.is_built() && c.count() > 1 && !c.any(|e| !is_ghost(e))),
    ("a ghost in an index node: built", |c| c.is_built() && !c.request.is_leaf() && c.any(is_ghost)),
    ("an empty key: built", |c| c.is_built() && c.any(|e| e.key.is_empty())),
    ("an empty value: built", |c| c.is_built() && c.any(|e| e.value.is_some_and(<[u8]>::is_empty))),
    ("an empty first value: built", |c| c.is_built() && c.first(|e| e.value.is_some_and(<[u8]>::is_empty))),
    ("rising keys: built", |c| c.is_built() && c.count() > 1 && c.entries().is_sorted_by(|a, b| a.key < b.key)),
    ("equal keys: built", |c| c.is_built() && c.entries().windows(2).any(|pair| pair[0].key == pair[1].key)),
    ("keys out of order: built", |c| c.is_built() && c.entries().windows(2).any(|pair| pair[0].key > pair[1].key)),
    ("padded pieces of odd lengths: built", |c| c.is_built() && !c.is_packed() && c.any(has_odd_lengths)),
    ("packed pieces of odd lengths: built", |c| c.is_built() && c.is_packed() && c.any(has_odd_lengths)),
    ("packed, not a root: built", |c| {
        c.is_built() && c.is_packed() && !c.request.header.root && c.any(has_odd_lengths)
    }),
];

const ROOM: &[Row] = &[
    ("all bytes used, fixed sizes: built", |c| c.is_built() && c.request.is_fixed() && c.over() == 0),
    ("all bytes used, variable sizes: built", |c| c.is_built() && !c.request.is_fixed() && c.over() == 0),
    ("all bytes used, padded: built", |c| c.is_built() && !c.is_packed() && c.over() == 0),
    ("all bytes used, packed: built", |c| c.is_built() && c.is_packed() && c.over() == 0),
    ("all bytes used of 65,536: built", |c| c.is_built_of(SIZES[4]) && c.over() == 0),
    ("a byte too many, packed: 26", |c| c.is_26() && c.is_packed() && c.over() == 1),
    ("eight bytes too many, padded: 26", |c| c.is_26() && !c.is_packed() && c.over() == 8),
    ("all slots used: built", |c| c.is_built() && c.request.is_fixed() && c.is_full_of_slots()),
    ("an entry more than slots, with room in bytes: 26", |c| {
        c.is_26() && c.over() <= 0 && c.layout(|l| l.count == l.slots + 1)
    }),
    ("16 and 8 in a root of 4,096, 144 ghosts: built", |c| c.is_built() && c.is_ghost_queue(144)),
    ("16 and 8 in a root of 4,096, 145 ghosts: 26", |c| c.is_26() && c.is_ghost_queue(145)),
    ("slots for all, and no room in bytes: 26", |c| c.is_26() && c.over() > 0 && c.layout(|l| l.count <= l.slots)),
    ("a table that doesn't fit: 26", |c| c.is_26() && c.layout(|l| l.table > l.form.space)),
];

const DESCRIPTIONS: &[Row] = &[
    ("a root's key count is not its entries': built", |c| c.root_info(24, 8).is_some_and(|n| n != c.count())),
    ("a root's description has another node size: built", |c| {
        c.root_info(4, 4).is_some_and(|n| n != c.request.node_length as u64)
    }),
    ("a root's description has other sizes than stated: built", |c| c.root_states_the_same() == Some(false)),
    ("a root's description has the stated sizes: built", |c| c.root_states_the_same() == Some(true)),
    ("a description of 41 bytes: built", |c| c.is_built() && c.request.info.len() == 41),
    ("a byte more of data: built", |c| c.is_built() && c.request.data.len() as u128 == c.request.asked() + 1),
];

const SLICES: &[Row] = &[
    ("an odd number of lengths: 17", |c| c.is_17() && !c.request.lengths.len().is_multiple_of(2)),
    ("a description of 39 bytes: 17", |c| c.is_17_but_for_info() && c.request.info.len() == 39),
    ("a description of no bytes: 17", |c| c.is_17_but_for_info() && c.request.info.is_empty()),
    ("a byte too few of data: 17", |c| {
        c.is_17() && c.request.info.len() >= 40 && c.request.asked() == c.request.data.len() as u128 + 1
    }),
    ("17 and a size that isn't admitted", |c| c.is_17() && !SIZES.contains(&c.request.node_length)),
    ("17 and more than 1,000 lengths", |c| c.is_17() && c.request.lengths.len() > 1000),
];

const LENGTHS: &[Row] = &[
    ("lengths that add up to 2^64 or more: 17", |c| c.is_17_by_sum(|asked, _| asked >= 1 << 64)),
    ("lengths whose sum less 2^64 has its data: 17", |c| {
        c.is_17_by_sum(|asked, there| asked >= 1 << 64 && asked - (1 << 64) <= there)
    }),
    ("a key's length of 2^64 - 1: 17", |c| c.is_17_by_sum(|_, _| true) && c.has_ghost_key()),
    ("a value's length of 2^64 - 2: 17", |c| c.is_17_by_sum(|_, _| true) && c.request.lengths.contains(&(GHOST - 1))),
];

const READ: &[Row] = &[
    ("read back: a leaf of fixed sizes", |c| c.is_read(true, true)),
    ("read back: a leaf of variable sizes", |c| c.is_read(true, false)),
    ("read back: an index node of fixed sizes", |c| c.is_read(false, true)),
    ("read back: an index node of variable sizes", |c| c.is_read(false, false)),
    ("read back: ghosts", |c| c.judgement.is_read_back && c.any(is_ghost)),
    ("read back: a root by its own description", |c| {
        c.judgement.is_read_back && c.request.is_fixed() && c.root_states_the_same() == Some(true)
    }),
    ("built and not to be read back", |c| c.is_built() && !c.judgement.is_read_back),
];

fn is_ghost(entry: &Entry) -> bool {
    entry.value.is_none()
}

fn has_odd_lengths(entry: &Entry) -> bool {
    !entry.key.len().is_multiple_of(8) && entry.value.is_some_and(|value| !value.len().is_multiple_of(8))
}

/// One piece of the stated sizes fits, and eight slots are reserved.
fn is_one_slot(layout: &Layout) -> bool {
    layout.slots == 8 && layout.count > 0
}

impl<'a> Case<'a> {
    fn is_built(&self) -> bool {
        self.judgement.answer.outcome.is_ok()
    }

    fn is_built_of(&self, size: usize) -> bool {
        self.is_built() && self.request.node_length == size
    }

    fn is_26(&self) -> bool {
        self.judgement.answer.outcome == Err(Unbuilt::NoRoom)
    }

    fn is_26_by_size(&self, test: fn(usize) -> bool) -> bool {
        self.is_26() && !SIZES.contains(&self.request.node_length) && test(self.request.node_length)
    }

    fn is_17(&self) -> bool {
        self.judgement.answer.outcome == Err(Unbuilt::OutsideBytes)
    }

    /// Refused for the description's length alone.
    fn is_17_but_for_info(&self) -> bool {
        let Request { data, lengths, .. } = self.request;
        self.is_17() && lengths.len().is_multiple_of(2) && self.request.asked() <= data.len() as u128
    }

    /// Refused for the sum of the lengths alone.
    fn is_17_by_sum(&self, test: fn(u128, u128) -> bool) -> bool {
        let Request { data, lengths, info, .. } = self.request;
        let (asked, there) = (self.request.asked(), data.len() as u128);
        let alone = lengths.len().is_multiple_of(2) && info.len() >= description::LENGTH;
        self.is_17() && alone && asked > there && test(asked, there)
    }

    fn has_ghost_key(&self) -> bool {
        self.request.lengths.iter().step_by(2).any(|&length| length == GHOST)
    }

    fn is_form(&self, root: bool, leaf: bool, fixed: bool) -> bool {
        let request = self.request;
        self.is_built() && (request.header.root, request.is_leaf(), request.is_fixed()) == (root, leaf, fixed)
    }

    fn entries(&self) -> &[Entry<'a>] {
        self.judgement.answer.entries.as_deref().unwrap_or_default()
    }

    fn count(&self) -> u64 {
        self.entries().len() as u64
    }

    fn any(&self, test: fn(&Entry) -> bool) -> bool {
        self.entries().iter().any(test)
    }

    fn first(&self, test: fn(&Entry) -> bool) -> bool {
        self.entries().first().is_some_and(test)
    }

    fn layout(&self, test: fn(&Layout) -> bool) -> bool {
        self.judgement.answer.layout.as_ref().is_some_and(test)
    }

    /// The bytes that are asked beyond the space; below 0 some are left.
    fn over(&self) -> i64 {
        self.judgement.answer.layout.as_ref().map_or(i64::MIN, |l| l.used() as i64 - l.form.space as i64)
    }

    fn is_full_of_slots(&self) -> bool {
        self.layout(|l| l.slots > 0 && l.count == l.slots)
    }

    /// A leaf of stated sizes 0 and 0, of an admitted size.
    fn is_zero_leaf(&self, root: bool) -> bool {
        let Request { header, sizes, .. } = self.request;
        let stated = *sizes == Sizes::Fixed { key: 0, value: 0 };
        stated && header.root == root && self.request.is_leaf() && self.layout(|_| true)
    }

    fn is_fixed_entries(&self, leaf: bool, stated: bool) -> bool {
        let request = self.request;
        let some = self.is_built() && request.is_fixed() && request.is_leaf() == leaf && self.count() > 0;
        some && has_stated_sizes(request, self.entries()) == stated
    }

    fn key_beside_stated(&self, test: fn(usize, usize) -> bool) -> bool {
        let Sizes::Fixed { key, .. } = self.request.sizes else { return false };
        self.entries().iter().any(|e| test(e.key.len(), key as usize))
    }

    fn is_packed(&self) -> bool {
        number(&self.request.info, 0, 4).is_some_and(|flags| flags & NONALIGNED != 0)
    }

    /// So many ghosts in a root leaf as a free queue has it.
    fn is_ghost_queue(&self, count: u64) -> bool {
        let Request { header, sizes, node_length, .. } = self.request;
        let form = *sizes == Sizes::Fixed { key: 16, value: 8 } && header.root && *node_length == SIZES[0];
        form && self.request.is_leaf() && self.count() == count && !self.any(|e| !is_ghost(e))
    }

    /// A field of the description of a root that is built.
    fn root_info(&self, at: usize, width: usize) -> Option<u64> {
        (self.is_built() && self.request.header.root).then(|| number(&self.request.info, at, width)).flatten()
    }

    /// Whether a root's description has the sizes that are stated.
    fn root_states_the_same(&self) -> Option<bool> {
        let Sizes::Fixed { key, value } = self.request.sizes else { return None };
        Some(self.root_info(8, 4)? == u64::from(key) && self.root_info(12, 4)? == u64::from(value))
    }

    fn is_read(&self, leaf: bool, fixed: bool) -> bool {
        let request = self.request;
        self.judgement.is_read_back && self.count() > 0 && (request.is_leaf(), request.is_fixed()) == (leaf, fixed)
    }
}

#[derive(Clone, Default)]
struct Tally {
    requests: u64,
    built: u64,
    refused: u64,
    outside: u64,
    read_back: u64,
}

impl Tally {
    fn add(&mut self, judgement: &Judgement) {
        self.requests += 1;
        match &judgement.original {
            Some(Ended::Built(_)) => self.built += 1,
            Some(_) => self.refused += 1,
            None => self.outside += 1,
        }
        self.read_back += u64::from(judgement.is_read_back);
    }
}

/// The table, request by request.
pub struct Coverage {
    rows: Vec<(Row, Tally)>,
    all: Tally,
}

impl Coverage {
    pub fn new() -> Self {
        let rows = ROWS.concat().into_iter().map(|row| (row, Tally::default())).collect();
        Coverage { rows, all: Tally::default() }
    }

    pub fn add(&mut self, request: &Request, judgement: &Judgement) {
        let case = Case { request, judgement };
        let shown = self.rows.iter_mut().filter(|((_, test), _)| test(&case));
        shown.for_each(|(_, tally)| tally.add(judgement));
        self.all.add(judgement);
    }

    pub fn requests(&self) -> u64 {
        self.all.requests
    }

    /// Rows that no request reached.
    pub fn missing(&self) -> Vec<&'static str> {
        self.rows.iter().filter(|(_, tally)| tally.requests == 0).map(|((name, _), _)| *name).collect()
    }
}

impl fmt::Display for Coverage {
    fn fmt(&self, f: &mut fmt::Formatter) -> fmt::Result {
        writeln!(
            f,
            "{:<58} {:>8} {:>8} {:>8} {:>8} {:>9}",
            "", "requests", "built", "refused", "outside", "read back"
        )?;
        let all = std::iter::once(("all requests", &self.all));
        for (name, t) in all.chain(self.rows.iter().map(|((name, _), tally)| (*name, tally))) {
            let Tally { requests, built, refused, outside, read_back } = t;
            writeln!(f, "{name:<58} {requests:>8} {built:>8} {refused:>8} {outside:>8} {read_back:>9}")?;
        }
        Ok(())
    }
}
