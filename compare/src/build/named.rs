//! The requests of the fixed list, each by what it shows, the borders from both sides.

use space_check::node::{NodeHeader, Sizes};

use super::model::{Form, NONALIGNED, SIZES};
use super::request::{Request, GHOST};
use super::seeds::numbered;
use crate::fields::{description, object, put};

type Named = (String, Request);

/// Its bytes are those that other nodes have too, so that what a name says is all that is special.
fn plain(node_length: usize, root: bool, sizes: Sizes) -> Request {
    let kind = if root { object::ROOT_NODE } else { object::NODE };
    let header = NodeHeader {
        oid: 0x1234,
        xid: 0x56,
        obj_type: (kind | object::PHYSICAL) as u32,
        subtype: object::OBJECT_MAP as u32,
        level: 0,
        root,
    };
    let mut info = vec![0; description::LENGTH];
    put(&mut info, 4, 4, node_length as u64);
    if let Sizes::Fixed { key, value } = sizes {
        description::KEY_SIZE.set(&mut info, key.into());
        description::VALUE_SIZE.set(&mut info, value.into());
    }
    put(&mut info, 32, 8, 1);
    Request { node_length, header, sizes, info, data: Vec::new(), lengths: Vec::new() }
}

fn variable() -> Request {
    plain(SIZES[0], true, Sizes::Variable)
}

fn fixed(key: u32, value: u32) -> Request {
    plain(SIZES[0], true, stated(key, value))
}

fn stated(key: u32, value: u32) -> Sizes {
    Sizes::Fixed { key, value }
}

impl Request {
    /// Entries of these lengths, each key and value with a number of its own; the description has the key count.
    fn with(mut self, lengths: &[u64]) -> Self {
        self.lengths = lengths.to_vec();
        self.data = numbered(lengths, 0);
        put(&mut self.info, 24, 8, lengths.len() as u64 / 2);
        self
    }

    fn at_level(mut self, level: u16) -> Self {
        self.header.level = level;
        self
    }

    fn with_flags(mut self, flags: u64) -> Self {
        description::FLAGS.set(&mut self.info, flags);
        self
    }

    fn packed(self) -> Self {
        self.with_flags(NONALIGNED)
    }

    fn inner(mut self) -> Self {
        self.header.root = false;
        self
    }

    fn changed(mut self, change: impl FnOnce(&mut Self)) -> Self {
        change(&mut self);
        self
    }
}

pub fn all() -> Vec<Named> {
    let groups = [
        sizes(),
        other_sizes(),
        full_of_bytes(),
        full_of_slots(),
        zero_sizes(),
        large_sizes(),
        index_nodes(),
        headers(),
        padding(),
        ghosts(),
        empty_pieces(),
        keys_and_sizes(),
        descriptions(),
        slot_counts(),
        broken_slices(),
        broken_sums(),
    ];
    groups.concat()
}

fn place(root: bool) -> &'static str {
    if root {
        "root"
    } else {
        "inner"
    }
}

fn named(name: impl Into<String>, request: Request) -> Named {
    (name.into(), request)
}

fn sizes() -> Vec<Named> {
    let mut items = Vec::new();
    for size in SIZES {
        for root in [true, false] {
            let is = format!("size-{size}-{}", place(root));
            let entries = [16, 8, 16, GHOST, 16, 8];
            items.push(named(format!("{is}-fixed"), plain(size, root, stated(16, 8)).with(&entries)));
            items.push(named(format!("{is}-variable"), plain(size, root, Sizes::Variable).with(&entries)));
        }
    }
    items
}

fn other_sizes() -> Vec<Named> {
    let roots = [0, 55, 56, 95, 96, 4095, 4097, 5000, 8191, 12_288, 65_535, 65_537, 131_072];
    let item = |root: bool| {
        move |size: usize| {
            let name = format!("no-size-{size}-{}", place(root));
            named(name, plain(size, root, Sizes::Variable).with(&[8, 8]))
        }
    };
    let no_slot = plain(100, true, stated(16, 8));
    let items = roots.into_iter().map(item(true)).chain([55, 56, 95, 96, 4095, 4097].into_iter().map(item(false)));
    items.chain([named("no-size-100-no-entries", no_slot)]).collect()
}

/// One key of 8 bytes, and a value of all that is left; and a byte more.
fn full_of_bytes() -> Vec<Named> {
    let mut items = Vec::new();
    let mut both = |name: String, request: Request| {
        let form = Form::of(&request);
        let left = form.space - form.table(1) - 8;
        let far = request.clone().with(&[8, left + 1]);
        // The last byte of the value area, which nothing else would show.
        let mark = |request: &mut Request| *request.data.last_mut().expect("a value") = 0x7e;
        items.push(named(format!("bytes-full-{name}-near"), request.with(&[8, left]).changed(mark)));
        items.push(named(format!("bytes-full-{name}-far"), far.changed(mark)));
    };
    for size in SIZES {
        for root in [true, false] {
            both(format!("{size}-{}", place(root)), plain(size, root, Sizes::Variable));
        }
    }
    both("packed".into(), variable().packed());
    both("packed-inner".into(), plain(SIZES[0], false, Sizes::Variable).packed());
    both("fixed".into(), fixed(8, 8));
    both("index".into(), fixed(8, 8).at_level(1));
    items.extend(full_of_entries());
    items
}

/// As many entries of the stated sizes as have room, though there is a slot for one more; and that one.
fn full_of_entries() -> Vec<Named> {
    let queue = |count| fixed(16, 8).with(&[16, 8].repeat(count));
    let single = |value| plain(SIZES[0], true, stated(16, value)).with(&[16, value.into()]);
    vec![
        named("bytes-142-entries-of-16-and-8-near", queue(142)),
        named("bytes-143-entries-of-16-and-8-far", queue(143)),
        named("bytes-one-entry-of-the-stated-sizes-near", single(3952)),
        named("bytes-one-entry-of-the-stated-sizes-far", single(3953)),
    ]
}

/// A slot for each ghost, and one ghost more; there would be room in bytes.
fn full_of_slots() -> Vec<Named> {
    let mut items = Vec::new();
    let mut both = |name: String, request: Request, key: u64| {
        let slots = Form::of(&request).slots(0) as usize;
        let filled = |count| request.clone().with(&[key, GHOST].repeat(count));
        items.push(named(format!("slots-{name}-{slots}-ghosts-near"), filled(slots)));
        items.push(named(format!("slots-{name}-{}-ghosts-far", slots + 1), filled(slots + 1)));
    };
    both("16-and-8".into(), fixed(16, 8), 16);
    both("16-and-8-inner".into(), fixed(16, 8).inner(), 16);
    both("16-and-8-index".into(), fixed(16, 8).at_level(1), 16);
    // An index node's values count 8, whatever is stated.
    both("16-and-1000-index".into(), fixed(16, 1000).inner().at_level(1), 16);
    both("16-and-0-index".into(), fixed(16, 0).inner().at_level(1), 16);
    for size in &SIZES[1..] {
        both(format!("{size}-empty-keys"), plain(*size, true, stated(16, 8)), 0);
    }
    items
}

/// Stated sizes of 0: a root's table is all its space, any other leaf's passes it.
fn zero_sizes() -> Vec<Named> {
    let mut items = Vec::new();
    for size in SIZES {
        let root = plain(size, true, stated(0, 0));
        let slots = Form::of(&root).slots(0) as usize;
        let filled = |count: usize| root.clone().with(&[0, 0].repeat(count));
        items.push(named(format!("stated-0-{size}-root-{slots}-empty-near"), filled(slots)));
        items.push(named(format!("stated-0-{size}-root-{}-empty-far", slots + 1), filled(slots + 1)));
        items.push(named(format!("stated-0-{size}-inner-no-entries"), plain(size, false, stated(0, 0))));
    }
    items.push(named("stated-0-root-no-entries", fixed(0, 0)));
    items.push(named("stated-0-root-a-byte-far", fixed(0, 0).with(&[1, 0])));
    items.push(named("stated-0-root-3-ghosts", fixed(0, 0).with(&[0, GHOST].repeat(3))));
    items.push(named("stated-0-inner-index", fixed(0, 0).inner().at_level(1).with(&[0, 8, 0, 8])));
    items
}

/// Stated sizes around the largest that leave a slot, and far above.
fn large_sizes() -> Vec<Named> {
    // 4 and 16 and this make up a root's space.
    let (near, far) = (3980, 3981);
    let most = u32::MAX;
    vec![
        named("stated-one-slot-no-entries", fixed(16, near)),
        named("stated-one-slot-near-a-ghost", fixed(16, near).with(&[0, GHOST])),
        named("stated-one-slot-8-empty-near", fixed(16, near).with(&[0, 0].repeat(8))),
        named("stated-one-slot-9-empty-far", fixed(16, near).with(&[0, 0].repeat(9))),
        named("stated-one-slot-its-own-entry-far", fixed(16, near).with(&[16, near.into()])),
        named("stated-no-slot-no-entries", fixed(16, far)),
        named("stated-no-slot-far-a-ghost", fixed(16, far).with(&[0, GHOST])),
        named("stated-no-slot-inner-no-entries", fixed(16, 4021).inner()),
        named("stated-2^32-1-no-entries", fixed(most, most)),
        named("stated-2^32-1-a-ghost", fixed(most, most).with(&[0, GHOST])),
        named("stated-key-2^32-1-index", fixed(most, 0).at_level(1)),
        named("stated-value-2^32-1-index", fixed(16, most).at_level(1).with(&[16, 8, 16, 8])),
    ]
}

fn index_nodes() -> Vec<Named> {
    let pointers = [16, 8, 16, 8, 16, 8];
    let index = |value: u32, root: bool| plain(SIZES[0], root, stated(16, value)).at_level(1);
    vec![
        named("index-root-values-of-8", index(8, true).with(&pointers)),
        named("index-inner-values-of-8", index(8, false).with(&pointers)),
        named("index-states-100", index(100, true).with(&pointers)),
        named("index-states-0", index(0, false).with(&pointers)),
        named("index-short-values", index(8, true).with(&[16, 4, 16, 0, 16, 8])),
        named("index-long-values", index(8, false).with(&[16, 16, 16, 9])),
        named("index-ghosts", index(8, true).with(&[16, GHOST, 16, 8, 16, GHOST])),
        named("index-variable", variable().at_level(2).with(&[5, 8, 12, 8])),
        named("index-variable-inner-ghost", variable().inner().at_level(1).with(&[5, GHOST, 12, 8])),
    ]
}

fn headers() -> Vec<Named> {
    let entry = || fixed(8, 8).with(&[8, 8]);
    let levels = [1, 32, 33, 256, 65_535].map(|level| {
        let name = format!("level-{level}");
        named(name, entry().at_level(level))
    });
    let types: [u32; 8] = [2, 3, 0x8000_0002, 0x1000_0003, 0, 5, 0x0003_0002, 0xffff_ffff];
    let types = types.map(|n| named(format!("type-{n:#x}"), entry().changed(|r| r.header.obj_type = n)));
    let subtypes = [0, 0x4000_0009, 0xffff_ffff];
    let subtypes = subtypes.map(|n| named(format!("subtype-{n:#x}"), entry().changed(|r| r.header.subtype = n)));
    let ids = [(0, 0), (u64::MAX, u64::MAX), (0x0807_0605_0403_0201, 0x1817_1615_1413_1211)].map(|(oid, xid)| {
        let name = format!("ids-{oid:#x}-{xid:#x}");
        named(name, entry().changed(|r| (r.header.oid, r.header.xid) = (oid, xid)))
    });
    let mut items = [&levels[..], &types, &subtypes, &ids].concat();
    items.extend([named("subtype-9-root", queue(fixed(16, 8))), named("subtype-9-inner", queue(fixed(16, 8).inner()))]);
    items.push(named("subtype-9-variable", queue(variable())));
    items
}

/// A free queue's node: rising (xid, address), a ghost for a count of one.
fn queue(request: Request) -> Request {
    request.with(&[16, 8, 16, GHOST, 16, 8]).changed(|r| {
        r.header.subtype = object::FREE_QUEUE as u32;
        let numbers: [u64; 8] = [5, 0x300, 2, 6, 0x1ff, 6, 0x200, 9];
        r.data = numbers.iter().flat_map(|n| n.to_le_bytes()).collect();
    })
}

/// Keys and values of 0 to 9 bytes, around a multiple of 8.
fn padding() -> Vec<Named> {
    let mut items = Vec::new();
    for length in [0, 1, 4, 7, 8, 9] {
        let entries = [length, 9 - length, 9 - length, length];
        items.push(named(format!("padded-{length}"), variable().with(&entries)));
        items.push(named(format!("packed-{length}"), variable().packed().with(&entries)));
    }
    let entries = [3, 5, 16, 1];
    items.push(named("padded-inner", variable().inner().with(&entries)));
    items.push(named("packed-inner", variable().inner().packed().with(&entries)));
    items.push(named("padded-fixed-3-and-5", fixed(3, 5).with(&[3, 5, 3, 5])));
    items.push(named("packed-fixed-3-and-5", fixed(3, 5).packed().with(&[3, 5, 3, 5])));
    items.push(named("packed-fixed-inner-index", fixed(3, 5).packed().inner().at_level(1).with(&[3, 8, 3, 8])));
    items
}

fn ghosts() -> Vec<Named> {
    let rows = [
        ("first", [16, GHOST, 16, 8, 16, 8]),
        ("last", [16, 8, 16, 8, 16, GHOST]),
        ("all", [16, GHOST, 16, GHOST, 16, GHOST]),
    ];
    let fixed_ones = rows.iter().map(|(which, l)| named(format!("ghost-{which}-fixed"), fixed(16, 8).with(l)));
    let others = rows.iter().map(|(which, l)| named(format!("ghost-{which}-variable"), variable().with(l)));
    fixed_ones.chain(others).collect()
}

fn empty_pieces() -> Vec<Named> {
    vec![
        named("empty-first-value", variable().with(&[8, 0, 8, 8])),
        named("empty-last-value", variable().with(&[8, 8, 8, 0])),
        named("empty-values-and-a-ghost", variable().with(&[8, 0, 8, GHOST, 8, 0])),
        named("empty-key", variable().with(&[0, 8, 8, 8])),
        named("empty-keys-and-values", variable().with(&[0, 0, 0, 0])),
        named("empty-key-of-a-ghost", variable().with(&[0, GHOST])),
        named("empty-values-fixed", fixed(16, 0).with(&[16, 0, 16, GHOST, 16, 0])),
        named("empty-keys-fixed", fixed(0, 8).with(&[0, 8, 0, 8])),
        named("no-entries-fixed", fixed(16, 8)),
        named("no-entries-inner-fixed", fixed(16, 8).inner()),
        named("no-entries-inner-variable", variable().inner()),
    ]
}

fn keys_and_sizes() -> Vec<Named> {
    let falling = |r: &mut Request| r.data = vec![3, 1, 1, 9, 2, 1, 1, 8, 1, 1, 1, 7];
    vec![
        named("keys-fall", variable().with(&[3, 1, 3, 1, 3, 1]).changed(falling)),
        named("keys-equal", variable().with(&[3, 1, 3, 1, 3, 1]).changed(|r| r.data.fill(7))),
        named("sizes-shorter-keys", fixed(16, 8).with(&[4, 8, 0, 8])),
        named("sizes-longer-keys", fixed(16, 8).with(&[17, 8, 40, 8])),
        named("sizes-shorter-values", fixed(16, 8).with(&[16, 3, 16, 0])),
        named("sizes-longer-values", fixed(16, 8).with(&[16, 9, 16, 40])),
        named("sizes-mixed-packed", fixed(16, 8).packed().with(&[1, 30, 29, 2, 16, 8])),
    ]
}

fn descriptions() -> Vec<Named> {
    let mut items = Vec::new();
    for flags in [0u32, 0x40, 0x3f, 0x80, 0xffff_ffbf, 0xffff_ffff] {
        for root in [true, false] {
            let request = plain(SIZES[0], root, stated(5, 3)).with(&[5, 3, 5, GHOST, 5, 3]);
            items.push(named(format!("flags-{flags:#x}-{}", place(root)), request.with_flags(flags.into())));
        }
    }
    let entries = || fixed(16, 8).with(&[16, 8, 16, 8]);
    items.extend([
        named("description-of-zeros", entries().changed(|r| r.info.fill(0))),
        named("description-of-ones", entries().changed(|r| r.info.fill(0xff))),
        named("description-key-count-9", entries().changed(|r| put(&mut r.info, 24, 8, 9))),
        named("description-node-size-8192", entries().changed(|r| put(&mut r.info, 4, 4, 8192))),
        named("description-other-sizes", entries().changed(|r| r.info[8..16].fill(3))),
        named("description-each-byte", entries().changed(|r| r.info = (1..=40).map(|b| b | 0x80).collect())),
        named("description-41-bytes-near", entries().changed(|r| r.info.push(0xee))),
        named("description-80-bytes", entries().changed(|r| r.info.resize(80, 0xee))),
        named("data-a-byte-more", entries().changed(|r| r.data.push(0xee))),
        named("data-without-entries", fixed(16, 8).changed(|r| r.data = vec![0xee; 9])),
    ]);
    items
}

/// Where sizes vary, slots are as many as entries, in eights, 16 at least.
fn slot_counts() -> Vec<Named> {
    let counts = [0, 1, 8, 15, 16, 17, 24, 25];
    let items = counts.map(|n| named(format!("variable-{n}-entries"), variable().with(&[2, 1].repeat(n))));
    // 500 slots of 8 bytes are a root's space, and no multiple of 8.
    let packed = |count: usize| variable().packed().with(&[0, 0].repeat(count));
    let full = [named("variable-496-empty-near", packed(496)), named("variable-497-empty-far", packed(497))];
    [&items[..], &full].concat()
}

fn broken_slices() -> Vec<Named> {
    let entries = || fixed(16, 8).with(&[16, 8, 16, GHOST]);
    let overfull = || fixed(16, 8).with(&[0, GHOST].repeat(145));
    let size = |r: &mut Request, n: usize| r.node_length = n;
    vec![
        named("broken-one-length", fixed(16, 8).changed(|r| r.lengths.push(0))),
        named("broken-three-lengths", entries().changed(|r| r.lengths.truncate(3))),
        named("broken-five-lengths-a-ghost-last", entries().changed(|r| r.lengths.push(GHOST))),
        named("broken-info-39-far", entries().changed(|r| r.info.truncate(39))),
        named("broken-info-0", entries().changed(|r| r.info.clear())),
        named("broken-info-39-inner-no-entries", fixed(16, 8).inner().changed(|r| r.info.truncate(39))),
        named("broken-data-a-byte-less", entries().changed(|r| r.data.truncate(39))),
        named("broken-data-none", entries().changed(|r| r.data.clear())),
        named("broken-all-three", entries().changed(|r| (r.info, r.data, r.lengths) = (vec![], vec![], vec![1]))),
        named("broken-before-size-5000", entries().changed(|r| r.info.clear()).changed(|r| size(r, 5000))),
        named("broken-before-size-0", entries().changed(|r| r.lengths.push(1)).changed(|r| size(r, 0))),
        named("broken-before-slots", overfull().changed(|r| r.info.truncate(39))),
        named("broken-before-bytes", variable().with(&[5000, 0]).changed(|r| r.data.truncate(4999))),
        named("broken-before-the-table", fixed(0, 0).inner().changed(|r| r.lengths.push(0))),
    ]
}

/// Lengths of more than there is, up to sums that 64 bits don't hold.
fn broken_sums() -> Vec<Named> {
    let half = 1 << 63;
    let item = |name: &str, lengths: &[u64], data: usize| {
        let request = variable().changed(|r| (r.lengths, r.data) = (lengths.to_vec(), vec![0x11; data]));
        named(format!("sum-{name}"), request)
    };
    vec![
        item("key-of-2^64-1", &[GHOST, GHOST], 16),
        item("key-of-2^64-1-and-1", &[GHOST, 1], 16),
        item("key-of-2^64-1-and-17", &[GHOST, 17], 16),
        item("value-of-2^64-2", &[2, GHOST - 1], 16),
        item("value-of-2^64-2-after-its-data", &[8, GHOST - 1, 8, 8], 16),
        item("2^64-of-two-keys", &[half, GHOST, half, GHOST], 0),
        item("2^64-and-16-of-three", &[half, 8, half, 8], 16),
        item("2^64-and-16-of-values", &[8, half, 8, half], 16),
        item("17-of-16-far", &[8, 8, 0, 1], 16),
        item("16-of-16-near", &[8, 7, 1, 0], 16),
        item("16-of-16-ghosts-near", &[8, GHOST, 8, GHOST], 16),
    ]
}

#[cfg(test)]
mod tests {
    use super::*;
    use crate::build::model;
    use std::collections::BTreeSet;

    #[test]
    fn every_name_is_there_once() {
        let names: BTreeSet<String> = all().into_iter().map(|(name, _)| name).collect();
        assert_eq!(names.len(), all().len());
    }

    #[test]
    fn borders_have_two_sides() {
        for (name, request) in all() {
            let is_built = model::build(&request).outcome.is_ok();
            assert!(is_built || !name.contains("near"), "{name}");
            assert!(!is_built || !name.contains("far"), "{name}");
        }
    }
}
