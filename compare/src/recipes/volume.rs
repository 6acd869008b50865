//! Damages of the volumes' own trees.

use super::tree::{chain_at, circle_at, repeats_at, write_node, CHAINS};
use crate::draft::Draft;
use crate::fields::{node, object_map, superblock, volume, Field};
use crate::model::{volume_ids, Layout};
use crate::survey::{Object, Role};

/// The nodes of each tree that a volume has.
const TREES: [Role; 3] = [Role::VolumeMapNode, Role::ExtentNode, Role::SnapshotNode];

/// A volume, one of its trees, and the field that names its root, with the object that has it.
struct Named<'a> {
    tree: Role,
    holder: &'a Object,
    root: Field,
}

impl Named<'_> {
    fn address(&self, d: &Draft) -> u64 {
        d.get(self.holder, self.root)
    }
}

fn any_volume<'a>(d: &mut Draft<'a>) -> Option<&'a Object> {
    d.rng.pick_any(&d.survey.with_role(Role::Volume)).copied()
}

/// The object map of a volume, where it stands where the survey found one.
fn map_of<'a>(d: &Draft<'a>, volume: &Object) -> Option<&'a Object> {
    let address = d.get(volume, volume::OBJECT_MAP);
    d.survey.with_role(Role::VolumeMap).into_iter().find(|map| map.blocks[0] == address)
}

fn named<'a>(d: &Draft<'a>, volume: &'a Object, tree: Role) -> Option<Named<'a>> {
    Some(match tree {
        Role::VolumeMapNode => Named { tree, holder: map_of(d, volume)?, root: object_map::ROOT },
        Role::ExtentNode => Named { tree, holder: volume, root: volume::EXTENT_TREE },
        _ => Named { tree, holder: volume, root: volume::SNAPSHOT_TREE },
    })
}

/// A tree that some volume has.
fn any_tree<'a>(d: &mut Draft<'a>) -> Option<Named<'a>> {
    let volume = any_volume(d)?;
    let tree = *d.rng.pick(&TREES);
    named(d, volume, tree).filter(|named| named.address(d) != 0)
}

/// Says of which tree something was made.
fn of_tree(tree: &Named, made: Option<String>) -> Option<String> {
    Some(format!("{}: {}", tree.tree.name(), made?))
}

pub fn tree_circle(d: &mut Draft) -> Option<String> {
    let tree = any_tree(d)?;
    let made = circle_at(d, tree.address(d));
    of_tree(&tree, made)
}

pub fn tree_repeats(d: &mut Draft) -> Option<String> {
    let more = d.rng.below(2);
    let tree = any_tree(d)?;
    let made = repeats_at(d, tree.address(d), more);
    of_tree(&tree, made)
}

pub fn tree_chain(d: &mut Draft) -> Option<String> {
    let levels = *d.rng.pick(&CHAINS);
    let tree = any_tree(d)?;
    let made = chain_at(d, tree.address(d), levels);
    of_tree(&tree, made)
}

/// The extent-reference tree of the first volume takes `more` nodes than there are blocks, or so many levels.
pub fn extent_repeats(d: &mut Draft, more: u64) -> Option<String> {
    let root = d.get(d.first(Role::Volume)?, volume::EXTENT_TREE);
    repeats_at(d, root, more)
}

pub fn extent_chain(d: &mut Draft, levels: u64) -> Option<String> {
    let root = d.get(d.first(Role::Volume)?, volume::EXTENT_TREE);
    chain_at(d, root, levels)
}

/// The first volume's object map is at `address`, and block 0 names that map's root at the place where a map does.
pub fn map_at(d: &mut Draft, address: Option<u64>) -> Option<String> {
    let volume = d.first(Role::Volume)?;
    let root = d.get(map_of(d, volume)?, object_map::ROOT);
    d.rewrite(d.first(Role::BlockZero)?, &[(object_map::ROOT, root)]);
    let address = address.unwrap_or(d.get(volume, volume::OBJECT_MAP));
    d.rewrite(volume, &[(volume::OBJECT_MAP, address)]);
    Some(format!("block {address}, block 0 names root {root}"))
}

/// A volume's object map in block 0, past the count, at the end of numbers, or a block of something else.
pub fn map_elsewhere(d: &mut Draft) -> Option<String> {
    let volume = any_volume(d)?;
    let other = d.rng.pick(&d.survey.objects).blocks[0];
    let address = *d.rng.pick(&[0, d.survey.count, u64::MAX - 1, u64::MAX, other]);
    d.rewrite(volume, &[(volume::OBJECT_MAP, address)]);
    Some(format!("block {address:#x}"))
}

/// The root of a volume's tree at 0, past the count, or where another tree has a node.
pub fn tree_elsewhere(d: &mut Draft) -> Option<String> {
    let volume = any_volume(d)?;
    let tree = *d.rng.pick(&TREES);
    let tree = named(d, volume, tree)?;
    let role = *d.rng.pick(&Role::NODES);
    let other = d.first(role).map_or(0, |node| node.blocks[0]);
    let address = *d.rng.pick(&[0, d.survey.count, u64::MAX, other, other, other]);
    d.rewrite(tree.holder, &[(tree.root, address)]);
    of_tree(&tree, Some(format!("root {address:#x}")))
}

/// The root of a volume's tree names nodes of others beside a new leaf.
pub fn tree_shares(d: &mut Draft) -> Option<String> {
    let tree = any_tree(d)?;
    let leaf = d.grow(1)?;
    write_node(d, leaf, 0, &[], false)?;
    let others: Vec<u64> = (0..2).filter_map(|_| any_tree(d).map(|other| other.address(d))).collect();
    let root = tree.address(d);
    // A root below itself would be a circle.
    let children: Vec<u64> = others.into_iter().filter(|&other| other != root).chain([leaf]).collect();
    write_node(d, root, 1, &children, true)?;
    of_tree(&tree, Some(format!("root {root} over {children:?}")))
}

/// A node of a volume's tree counts more keys than it can have: that is nothing to a leaf.
pub fn tree_keys(d: &mut Draft) -> Option<String> {
    let tree = *d.rng.pick(&TREES);
    let object = *d.rng.pick_any(&d.survey.with_role(tree))?;
    let keys = *d.rng.pick(&[1000, 0x10000, 0xffff_ffff]);
    d.rewrite(object, &[(node::KEYS, keys)]);
    Some(format!("{}: block {}, {keys} keys", tree.name(), object.blocks[0]))
}

/// A root that isn't marked as one: it has no description.
pub fn tree_undescribed(d: &mut Draft) -> Option<String> {
    let tree = any_tree(d)?;
    let root = tree.address(d);
    let object = d.survey.with_role(tree.tree).into_iter().find(|object| object.blocks[0] == root)?;
    let flags = d.get(object, node::FLAGS);
    if !Layout::of(d.block(root)?).is(node::ROOT) {
        return None;
    }
    d.rewrite(object, &[(node::FLAGS, flags - node::ROOT)]);
    of_tree(&tree, Some(format!("root {root}")))
}

/// The id of no volume.
const UNMAPPED: u64 = 0x777;

/// Every place has the first volume's id, but for some at the beginning. In the last that counts, or the first that doesn't, is
/// an id that isn't mapped.
pub fn places_full(d: &mut Draft) -> Option<String> {
    let sb = *d.superblocks().first()?;
    let id = *volume_ids(d.block(sb.blocks[0])?).first()?;
    let (zeros, most) = (d.rng.below(3), superblock::MOST_VOLUMES);
    let last = most - d.rng.below(2);
    let stated = *d.rng.pick(&[most - 1, most, most + 1, 0xffff_ffff]);
    let mut fields = vec![(superblock::VOLUMES, stated)];
    for place in 0..=most {
        let in_place = if place == last { UNMAPPED } else { id };
        fields.push((superblock::volume_id(place as usize), if place < zeros { 0 } else { in_place }));
    }
    d.rewrite(sb, &fields);
    Some(format!("{stated} places, {zeros} without a volume, an unmapped one in place {last}"))
}
