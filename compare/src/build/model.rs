//! The node that a request comes to, or the refusal: the rules of document 02, region after region.

use std::iter::once;

use space_check::node::{Sizes, Unbuilt};

use super::request::{Entry, Request, GHOST};
use crate::fields::{description, fixed_slot, node, variable_slot};
use crate::fletcher;

/// The sizes that a node may have.
pub const SIZES: [usize; 5] = [4096, 8192, 16384, 32768, 65536];

/// Where the description says that nothing is padded.
pub const NONALIGNED: u64 = 0x40;

const CHECKSUM: usize = 8;
/// Slots are reserved, and keys and values padded, in eights.
const EIGHT: u64 = 8;
const LEAST_VARIABLE_SLOTS: u64 = 16;

/// The node's bytes, or the refusal.
pub type Outcome = Result<Vec<u8>, Unbuilt>;

/// What a request comes to, with what it was reckoned from.
pub struct Answer<'a> {
    /// Where the slices are a list of entries.
    pub entries: Option<Vec<Entry<'a>>>,
    /// Where the size is admitted too.
    pub layout: Option<Layout>,
    pub outcome: Outcome,
}

pub fn build(request: &Request) -> Answer<'_> {
    let Some(entries) = entries(request) else {
        return Answer { entries: None, layout: None, outcome: Err(Unbuilt::OutsideBytes) };
    };
    if !SIZES.contains(&request.node_length) {
        return Answer { entries: Some(entries), layout: None, outcome: Err(Unbuilt::NoRoom) };
    }
    let layout = Layout::of(request, &entries);
    let outcome = if layout.fits() { Ok(whole(request, &entries, &layout)) } else { Err(Unbuilt::NoRoom) };
    Answer { entries: Some(entries), layout: Some(layout), outcome }
}

/// The entries, where the lengths come in pairs, their bytes are there, and so is a description.
fn entries(request: &Request) -> Option<Vec<Entry<'_>>> {
    let there = request.asked() <= request.data.len() as u128;
    if !there || !request.lengths.len().is_multiple_of(2) || request.info.len() < description::LENGTH {
        return None;
    }
    let mut rest = &request.data[..];
    let mut take = |length: u64| {
        let (taken, behind) = rest.split_at(length as usize);
        rest = behind;
        taken
    };
    let pairs = request.lengths.chunks_exact(2);
    Some(pairs.map(|pair| Entry { key: take(pair[0]), value: (pair[1] != GHOST).then(|| take(pair[1])) }).collect())
}

/// What of a layout doesn't ask the entries.
pub struct Form {
    pub space: u64,
    padded: bool,
    sizes: Sizes,
    leaf: bool,
}

impl Form {
    /// The size is admitted, and the description is there.
    pub fn of(request: &Request) -> Self {
        let footer = if request.header.root { description::LENGTH } else { 0 };
        Form {
            space: (request.node_length - node::DATA - footer) as u64,
            padded: description::FLAGS.of(&request.info) & NONALIGNED == 0,
            sizes: request.sizes,
            leaf: request.is_leaf(),
        }
    }

    /// The slots that so many entries have reserved.
    pub fn slots(&self, count: u64) -> u64 {
        match self.sizes {
            Sizes::Fixed { key, value } => {
                let value = if self.leaf { u64::from(value) } else { node::POINTER as u64 };
                in_eights(self.space / (fixed_slot::LENGTH as u64 + u64::from(key) + value))
            }
            Sizes::Variable => in_eights(count).max(LEAST_VARIABLE_SLOTS),
        }
    }

    fn slot_width(&self) -> u64 {
        let width = if self.sizes == Sizes::Variable { variable_slot::LENGTH } else { fixed_slot::LENGTH };
        width as u64
    }

    /// The bytes of all slots that so many entries have reserved.
    pub fn table(&self, count: u64) -> u64 {
        self.slots(count) * self.slot_width()
    }

    /// A key's or a value's bytes, with their padding.
    pub fn padded(&self, length: u64) -> u64 {
        if self.padded {
            in_eights(length)
        } else {
            length
        }
    }
}

fn in_eights(n: u64) -> u64 {
    n.div_ceil(EIGHT) * EIGHT
}

/// How the space of a node is shared out.
pub struct Layout {
    pub form: Form,
    pub count: u64,
    pub slots: u64,
    pub table: u64,
    pub keys: u64,
    pub values: u64,
}

impl Layout {
    fn of(request: &Request, entries: &[Entry]) -> Self {
        let form = Form::of(request);
        let count = entries.len() as u64;
        let (slots, table) = (form.slots(count), form.table(count));
        let keys = entries.iter().map(|e| form.padded(e.key.len() as u64)).sum();
        let values = entries.iter().filter_map(|e| e.value).map(|v| form.padded(v.len() as u64)).sum();
        Layout { form, count, slots, table, keys, values }
    }

    /// The bytes that are asked of the space.
    pub fn used(&self) -> u64 {
        self.table + self.keys + self.values
    }

    fn fits(&self) -> bool {
        self.count <= self.slots && self.used() <= self.form.space
    }

    fn free(&self) -> u64 {
        self.form.space - self.used()
    }
}

/// The regions one after the other, and the checksum over all of them.
fn whole(request: &Request, entries: &[Entry], layout: &Layout) -> Vec<u8> {
    let mut bytes = vec![0; CHECKSUM];
    bytes.extend(headers(request, layout));
    bytes.extend(table(entries, layout));
    entries.iter().for_each(|entry| put_padded(&mut bytes, entry.key, &layout.form));
    bytes.resize(bytes.len() + layout.free() as usize, 0);
    entries.iter().rev().filter_map(|e| e.value).for_each(|value| put_padded(&mut bytes, value, &layout.form));
    if request.header.root {
        bytes.extend(&request.info[..description::LENGTH]);
    }
    assert_eq!(bytes.len(), request.node_length, "the regions make up the node");
    fletcher::seal(&mut bytes);
    bytes
}

/// The object's header and the node's, without the checksum.
fn headers(request: &Request, layout: &Layout) -> Vec<u8> {
    let header = &request.header;
    let mut bytes = Vec::new();
    [header.oid, header.xid].iter().for_each(|n| bytes.extend(n.to_le_bytes()));
    [header.obj_type, header.subtype].iter().for_each(|n| bytes.extend(n.to_le_bytes()));
    let flags = [(header.root, node::ROOT), (request.is_leaf(), node::LEAF), (request.is_fixed(), node::FIXED)];
    bytes.extend(half(flags.iter().filter(|(set, _)| *set).map(|(_, flag)| flag).sum()));
    bytes.extend(header.level.to_le_bytes());
    bytes.extend(u32::try_from(layout.count).expect("a key count of 32 bits drops nothing").to_le_bytes());
    // The table's place, the free space's, and two lists that are empty.
    let areas = [0, layout.table, layout.keys, layout.free(), node::GHOST, 0, node::GHOST, 0];
    bytes.extend(areas.into_iter().flat_map(half));
    bytes
}

/// All slots that are reserved, those of the entries first.
fn table(entries: &[Entry], layout: &Layout) -> Vec<u8> {
    let form = &layout.form;
    let mut bytes = Vec::new();
    let (mut key_offset, mut value_offset) = (0, 0);
    for entry in entries {
        let key = entry.key.len() as u64;
        // A value is found by where it begins, counted back from the value end.
        let (offset, value) = match entry.value {
            Some(value) => {
                value_offset += form.padded(value.len() as u64);
                (value_offset, value.len() as u64)
            }
            None => (node::GHOST, 0),
        };
        match form.sizes {
            Sizes::Fixed { .. } => bytes.extend([key_offset, offset].into_iter().flat_map(half)),
            Sizes::Variable => bytes.extend([key_offset, key, offset, value].into_iter().flat_map(half)),
        }
        key_offset += form.padded(key);
    }
    bytes.resize(layout.table as usize, 0);
    bytes
}

fn put_padded(bytes: &mut Vec<u8>, piece: &[u8], form: &Form) {
    let end = bytes.len() + form.padded(piece.len() as u64) as usize;
    bytes.extend(piece);
    bytes.resize(end, 0);
}

/// A field of 16 bits.
fn half(n: u64) -> impl Iterator<Item = u8> {
    once(u16::try_from(n).expect("a field of 16 bits drops nothing")).flat_map(u16::to_le_bytes)
}

#[cfg(test)]
mod tests {
    use super::*;
    use space_check::node::NodeHeader;

    fn leaf(node_length: usize, root: bool, key: u32, value: u32) -> Request {
        let header = NodeHeader { oid: 1, xid: 2, obj_type: 2, subtype: 0, level: 0, root };
        let info = vec![0; description::LENGTH];
        let sizes = Sizes::Fixed { key, value };
        Request { node_length, header, sizes, info, data: vec![7; 65_536], lengths: Vec::new() }
    }

    fn is_built(request: &Request, lengths: &[u64]) -> bool {
        build(&Request { lengths: lengths.to_vec(), ..request.clone() }).outcome.is_ok()
    }

    #[test]
    fn slots_bound_the_entries() {
        let queue = leaf(4096, true, 16, 8);
        assert!(is_built(&queue, &[16, GHOST].repeat(144)));
        assert!(!is_built(&queue, &[16, GHOST].repeat(145)));
    }

    #[test]
    fn a_table_of_nothing_fits_a_root_alone() {
        for size in SIZES {
            let empty = (size - 96) / 4;
            assert!(is_built(&leaf(size, true, 0, 0), &[0, 0].repeat(empty)));
            assert!(!is_built(&leaf(size, true, 0, 0), &[0, 0].repeat(empty + 1)));
            assert!(!is_built(&leaf(size, false, 0, 0), &[]));
        }
    }

    #[test]
    fn no_slot_is_no_refusal() {
        let huge = leaf(4096, true, u32::MAX, u32::MAX);
        assert!(is_built(&huge, &[]));
        assert!(!is_built(&huge, &[0, GHOST]));
    }

    #[test]
    fn values_stand_one_before_the_other() {
        let mut request = leaf(4096, false, 1, 3);
        request.data = vec![1, 0xa1, 0xa2, 0xa3, 2, 3, 0xb1, 0xb2, 0xb3];
        request.lengths = vec![1, 3, 1, GHOST, 1, 3];
        let node = build(&request).outcome.expect("there is room");
        assert_eq!(node[4080..], [0xb1, 0xb2, 0xb3, 0, 0, 0, 0, 0, 0xa1, 0xa2, 0xa3, 0, 0, 0, 0, 0]);
        assert_eq!(node[56..68], [0, 0, 8, 0, 8, 0, 0xff, 0xff, 16, 0, 16, 0]);
        assert!(fletcher::verifies(&node));
    }

    #[test]
    fn slices_come_before_sizes() {
        let mut request = leaf(5000, true, 16, 8);
        request.lengths = vec![GHOST, 1];
        assert_eq!(build(&request).outcome, Err(Unbuilt::OutsideBytes));
        request.lengths.clear();
        assert_eq!(build(&request).outcome, Err(Unbuilt::NoRoom));
    }
}
