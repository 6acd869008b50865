//! Damages of the object map's mappings.

use crate::draft::Draft;
use crate::fields::{fixed_slot, mapped, node, object, superblock, variable_slot, volume, Field};
use crate::model::{volume_ids, Layout};
use crate::survey::{Object, Role, CHILD};

/// A mapping that is no ghost: its node, its fields there, and those of its lengths where sizes vary.
#[derive(Clone, Copy)]
struct Mapping<'a> {
    node: &'a Object,
    value_offset: Field,
    flags: Field,
    address: Field,
    key: [Field; 2],
    lengths: Option<[Field; 2]>,
}

impl<'a> Mapping<'a> {
    /// The mapping whose flags are the node's field `i`: its address and its key follow, its slot stands before.
    fn at(node: &'a Object, i: usize) -> Self {
        let slot = &node.fields[..i];
        let length = |name: &str, back: usize| slot.iter().rev().nth(back).copied().filter(|f| f.name == name);
        // A slot that has lengths ends with the value's, two fields behind the key's.
        let lengths = length(variable_slot::VALUE_LENGTH.name, 0)
            .zip(length(variable_slot::KEY_LENGTH.name, 2))
            .map(|(value, key)| [key, value]);
        // Both kinds of slot have it, by the same name.
        let offset = slot.iter().rev().find(|f| f.name == fixed_slot::VALUE.name);
        Mapping {
            node,
            value_offset: *offset.expect("a slot before the value"),
            flags: node.fields[i],
            address: node.fields[i + 1],
            key: [node.fields[i + 2], node.fields[i + 3]],
            lengths,
        }
    }

    fn key(&self, d: &Draft) -> (u64, u64) {
        (d.get(self.node, self.key[0]), d.get(self.node, self.key[1]))
    }

    fn write(self, d: &mut Draft, flags: u64, address: u64) -> String {
        d.rewrite(self.node, &[(self.flags, flags), (self.address, address)]);
        format!("block {}, flags {flags:#x}, address {address:#x}", self.node.blocks[0])
    }
}

fn mappings<'a>(d: &Draft<'a>) -> Vec<Mapping<'a>> {
    let flags = |node: &'a Object| (0..node.fields.len()).filter(|&i| node.fields[i].name == mapped::FLAGS.name);
    let nodes = d.survey.with_role(Role::ObjectMapNode).into_iter();
    nodes.flat_map(|node| flags(node).map(move |i| Mapping::at(node, i))).collect()
}

fn any_mapping<'a>(d: &mut Draft<'a>) -> Option<Mapping<'a>> {
    d.rng.pick_any(&mappings(d)).copied()
}

/// Gives the first mapping these flags and this address.
pub fn first_mapping(d: &mut Draft, flags: u64, address: u64) -> Option<String> {
    let mapping = *mappings(d).first()?;
    Some(mapping.write(d, flags, address))
}

/// A block that something stands in, any block, one past the count, or one at the end of numbers.
fn address(d: &mut Draft) -> u64 {
    match d.rng.below(4) {
        0 => d.rng.pick(&d.survey.objects).blocks[0],
        1 => d.rng.below(d.survey.count),
        2 => d.survey.count + d.rng.below(3),
        _ => u64::MAX - d.rng.below(2),
    }
}

/// A mapping is deleted, whatever its other flags, and names any block.
pub fn deleted(d: &mut Draft) -> Option<String> {
    let mapping = any_mapping(d)?;
    let others = if d.rng.chance(50) { d.rng.number() & mapped::OTHERS } else { 0 };
    let address = address(d);
    Some(mapping.write(d, mapped::DELETED | others, address))
}

/// A mapping has flags, but isn't deleted.
pub fn other_flags(d: &mut Draft) -> Option<String> {
    let mapping = any_mapping(d)?;
    let flags = if d.rng.chance(50) { 1 << d.rng.between(1, 31) } else { mapped::OTHERS };
    let address = d.get(mapping.node, mapping.address);
    Some(mapping.write(d, flags, address))
}

/// A deleted mapping whose key or value hasn't all its bytes; the flags are there.
pub fn deleted_short(d: &mut Draft) -> Option<String> {
    let length = *d.rng.pick(&[4, 8, 12, mapped::SIZE - 1]);
    if d.rng.chance(50) {
        deleted_of_lengths(d, mapped::SIZE, length)
    } else {
        deleted_of_lengths(d, length, mapped::SIZE)
    }
}

/// The first mapping whose sizes vary, deleted, with so many bytes of key and of value.
pub fn deleted_of_lengths(d: &mut Draft, key: usize, value: usize) -> Option<String> {
    let (mapping, [key_length, value_length]) = mappings(d).into_iter().find_map(|m| Some((m, m.lengths?)))?;
    let fields = [(key_length, key as u64), (value_length, value as u64), (mapping.flags, mapped::DELETED)];
    d.rewrite(mapping.node, &fields);
    Some(format!("block {}, {key} bytes of key, {value} of value", mapping.node.blocks[0]))
}

/// The mapping that counts for some volume of the superblock tried first, and that superblock's xid.
fn of_volume<'a>(d: &mut Draft<'a>) -> Option<(Mapping<'a>, u64)> {
    let sb = *d.superblocks().first()?;
    let ids = volume_ids(d.block(sb.blocks[0])?);
    let (id, xid) = (*d.rng.pick_any(&ids)?, d.get(sb, object::XID));
    let counts = |m: &Mapping| m.key(d).0 == id && m.key(d).1 <= xid;
    let mapping = mappings(d).into_iter().filter(counts).max_by_key(|m| m.key(d).1)?;
    Some((mapping, xid))
}

/// A lookup reaches a mapping that is deleted, though an older one may not be.
pub fn volume_deleted(d: &mut Draft) -> Option<String> {
    let (mapping, _) = of_volume(d)?;
    let address = d.get(mapping.node, mapping.address);
    Some(mapping.write(d, mapped::DELETED, address))
}

pub fn volume_ghost(d: &mut Draft) -> Option<String> {
    let (mapping, _) = of_volume(d)?;
    d.rewrite(mapping.node, &[(mapping.value_offset, node::GHOST)]);
    Some(format!("block {}", mapping.node.blocks[0]))
}

/// The mapping is of an xid at the checkpoint's, around it or far from it.
pub fn volume_xid(d: &mut Draft) -> Option<String> {
    let (mapping, taken) = of_volume(d)?;
    let xid = *d.rng.pick(&[taken, taken + 1, taken + 1, taken.wrapping_sub(1), 0, u64::MAX]);
    d.rewrite(mapping.node, &[(mapping.key[1], xid)]);
    Some(format!("block {}, xid {xid:#x} of {taken:#x}", mapping.node.blocks[0]))
}

/// The volume is mapped to block 0, past the count, or to a block that is something else.
pub fn volume_elsewhere(d: &mut Draft) -> Option<String> {
    let (mapping, _) = of_volume(d)?;
    let other = d.rng.pick(&d.survey.objects).blocks[0];
    let address = *d.rng.pick(&[0, d.survey.count, u64::MAX - 1, other, other]);
    Some(mapping.write(d, 0, address))
}

/// Behind all volumes an id that no mapping has, while the first volume's object map is gone: that would be met only after all
/// superblocks.
pub fn volume_missing(d: &mut Draft) -> Option<String> {
    let (sb, volume) = (*d.superblocks().first()?, d.first(Role::Volume)?);
    let taken = d.block(sb.blocks[0])?;
    let most = superblock::MOST_VOLUMES as usize;
    let last = (0..most).rev().find(|&place| superblock::volume_id(place).of(taken) != 0)?;
    let place = Some(last + 1).filter(|&place| place < most)?;
    let id = *d.rng.pick(&[1, 0x480, u64::MAX]);
    d.rewrite(sb, &[(superblock::volume_id(place), id), (superblock::VOLUMES, place as u64 + 1)]);
    d.rewrite(volume, &[(volume::OBJECT_MAP, d.survey.count)]);
    Some(format!("id {id:#x} in place {place}, and no object map for block {}", volume.blocks[0]))
}

/// Two entries of a node of the object map change places.
pub fn out_of_order(d: &mut Draft) -> Option<String> {
    let nodes = d.survey.with_role(Role::ObjectMapNode).into_iter();
    let layouts: Vec<_> = nodes.filter_map(|o| Some((o, Layout::of(d.block(o.blocks[0])?)))).collect();
    let fits =
        |layout: &Layout| layout.keys > 1 && layout.table + layout.keys as usize * layout.slot().1 <= layout.key_area;
    let found: Vec<_> = layouts.into_iter().filter(|(_, layout)| fits(layout)).collect();
    let (object, layout) = *d.rng.pick_any(&found)?;
    let first = d.rng.below(layout.keys - 1) as usize;
    let second = d.rng.between(first as u64 + 1, layout.keys - 1) as usize;
    let (width, slot) = (layout.slot().1, |i: usize| layout.table + i * layout.slot().1);
    let bytes = d.block(object.blocks[0])?;
    let slots = [first, second].map(|i| bytes[slot(i)..slot(i) + width].to_vec());
    d.store(object, slot(first), &slots[1]);
    d.store(object, slot(second), &slots[0]);
    d.reseal(object);
    Some(format!("block {}, entries {first} and {second}", object.blocks[0]))
}

/// A key of an index node, or of a ghost, hasn't all its bytes: nothing but a lookup reads it.
pub fn short_key(d: &mut Draft) -> Option<String> {
    let mut found = Vec::new();
    for object in d.survey.with_role(Role::ObjectMapNode) {
        let index = object.fields.iter().any(|f| f.name == CHILD.name);
        let lengths = object.fields.windows(3).filter(|w| w[0].name == variable_slot::KEY_LENGTH.name);
        let unread = |w: &&[Field]| index || d.get(object, w[1]) == node::GHOST;
        found.extend(lengths.filter(unread).map(|w| (object, w[0])));
    }
    let (object, length) = *d.rng.pick_any(&found)?;
    let bytes = *d.rng.pick(&[0, 8, mapped::SIZE as u64 - 1]);
    d.rewrite(object, &[(length, bytes)]);
    Some(format!("block {}, {bytes} bytes", object.blocks[0]))
}
