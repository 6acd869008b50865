//! Damages of trees: the object map's, the queues' and the volumes'.

use crate::draft::Draft;
use crate::fields::{description, fixed_slot, mapped, node, object, object_map, queue, variable_slot, Field};
use crate::model::{Layout, WALK_LEVELS};
use crate::nodes::{bytes_of, Node, Sizes};
use crate::survey::{Object, Role};

/// The root of the container's object map.
fn map_root(d: &Draft) -> Option<u64> {
    Some(d.get(d.first(Role::ObjectMap)?, object_map::ROOT))
}

/// A node of a physical tree: an index node where it has children, else an empty leaf.
pub fn write_node(d: &mut Draft, address: u64, level: u64, children: &[u64], root: bool) -> Option<()> {
    let entries: Vec<_> = children.iter().map(|&c| (vec![0; mapped::SIZE], Some(bytes_of(&[c])))).collect();
    let node = Node {
        id: address,
        xid: 1,
        subtype: object::OBJECT_MAP,
        level,
        leaf: children.is_empty(),
        fixed: true,
        root: root.then_some(Sizes { key: mapped::SIZE, value: mapped::SIZE }),
        entries: &entries,
    };
    let (block, rng) = d.block_and_rng(address)?;
    node.write(block, rng);
    Some(())
}

pub fn circle(d: &mut Draft) -> Option<String> {
    let root = map_root(d)?;
    circle_at(d, root)
}

/// A root that names itself.
pub fn circle_at(d: &mut Draft, root: u64) -> Option<String> {
    let children = vec![root; d.rng.between(1, 2) as usize];
    write_node(d, root, 1, &children, true)?;
    Some(format!("root {root} names itself"))
}

/// As many nodes as there are blocks, or one more.
pub fn repeats(d: &mut Draft) -> Option<String> {
    let more = d.rng.below(2);
    repeats_of(d, more)
}

pub fn repeats_of(d: &mut Draft, more: u64) -> Option<String> {
    let root = map_root(d)?;
    repeats_at(d, root, more)
}

/// A walk of `more` nodes than there are blocks: the root names one leaf again and again.
pub fn repeats_at(d: &mut Draft, root: u64, more: u64) -> Option<String> {
    let leaf = d.grow(1)?;
    let count = leaf + 1;
    let nodes = count + more;
    let room = d.survey.block_size - node::DATA - description::LENGTH - 32;
    if nodes as usize * (fixed_slot::LENGTH + mapped::SIZE + node::POINTER) > room {
        return None;
    }
    write_node(d, leaf, 0, &[], false)?;
    write_node(d, root, 1, &vec![leaf; nodes as usize - 1], true)?;
    Some(format!("{nodes} nodes in {count} blocks"))
}

/// The levels of a chain: few, or as many as a walk may need, or one more or less.
pub const CHAINS: [u64; 4] = [4, WALK_LEVELS - 1, WALK_LEVELS, WALK_LEVELS + 1];

pub fn chain(d: &mut Draft) -> Option<String> {
    let levels = *d.rng.pick(&CHAINS);
    chain_of(d, levels)
}

pub fn chain_of(d: &mut Draft, levels: u64) -> Option<String> {
    let root = map_root(d)?;
    chain_at(d, root, levels)
}

/// A tree of one node on each level.
pub fn chain_at(d: &mut Draft, root: u64, levels: u64) -> Option<String> {
    let first = d.grow(levels - 1)?;
    let below: Vec<u64> = (first..first + levels - 1).collect();
    for (i, &address) in below.iter().enumerate() {
        let child = &below[i + 1..below.len().min(i + 2)];
        write_node(d, address, (below.len() - 1 - i) as u64, child, false)?;
    }
    write_node(d, root, (levels - 1).min(node::HIGHEST_LEVEL), &below[..1], true)?;
    Some(format!("{levels} levels"))
}

/// A node of some tree that has what `fit` asks for.
pub fn some_node<'a>(d: &mut Draft<'a>, fit: impl Fn(&Layout) -> bool) -> Option<(&'a Object, Layout)> {
    let mut roles = Role::NODES;
    d.rng.shuffle(&mut roles);
    let nodes = roles.into_iter().flat_map(|role| d.survey.with_role(role));
    let layouts = nodes.filter_map(|o| Some((o, Layout::of(d.block(o.blocks[0])?))));
    let found: Vec<_> = layouts.filter(|(_, layout)| fit(layout)).collect();
    // Of the first tree that has one.
    let role = found.first()?.0.role;
    let found: Vec<_> = found.into_iter().filter(|(o, _)| o.role == role).collect();
    Some(*d.rng.pick(&found))
}

/// The table of a node without entries is as long as it can be, or a byte longer.
pub fn key_area_to_end(d: &mut Draft) -> Option<String> {
    let (object, layout) = some_node(d, |_| true)?;
    let past = u64::from(d.rng.chance(30));
    let length = layout.value_end.checked_sub(layout.table)? as u64 + past;
    d.rewrite(object, &[(node::KEYS, 0), (node::TABLE_LENGTH, length)]);
    Some(format!("block {}, {past} bytes past it", object.blocks[0]))
}

/// The first key of a root stands at the node's end, inside the description.
pub fn key_past_end(d: &mut Draft) -> Option<String> {
    // The first slot may lie outside by another damage.
    let has_key = |layout: &Layout| layout.keys > 0 && layout.table + layout.slot().1 <= layout.value_end;
    let (object, layout) = some_node(d, |layout| layout.is(node::ROOT) && has_key(layout))?;
    let key_length = if layout.is(node::FIXED) {
        d.get(object, description::KEY_SIZE.shifted(layout.value_end))
    } else {
        d.get(object, variable_slot::KEY_LENGTH.shifted(layout.table))
    } as usize;
    // Both kinds of slot begin with it.
    let offset = fixed_slot::KEY.shifted(layout.table);
    let bytes = d.block(object.blocks[0])?;
    let key = bytes.get(layout.key_area + offset.of(bytes) as usize..)?.get(..key_length)?.to_vec();
    let at = bytes.len().checked_sub(key_length)?;
    let moved = at.checked_sub(layout.key_area)? as u64;
    // A key longer than the description's spare bytes would change its sizes.
    if at < layout.value_end + description::USED || moved >= node::GHOST {
        return None;
    }
    d.store(object, at, &key);
    d.rewrite(object, &[(offset, moved)]);
    Some(format!("block {}, {key_length} bytes", object.blocks[0]))
}

/// A root that is a leaf, on the highest level or next to it.
pub fn highest_level(d: &mut Draft) -> Option<String> {
    let (object, _) = some_node(d, |layout| layout.is(node::ROOT) && layout.is(node::LEAF))?;
    let level = d.rng.between(node::HIGHEST_LEVEL - 1, node::HIGHEST_LEVEL + 1);
    d.rewrite(object, &[(node::LEVEL, level)]);
    Some(format!("block {} at level {level}", object.blocks[0]))
}

/// An entry that names many blocks of the container.
pub fn wide_entry(d: &mut Draft) -> Option<String> {
    let mut roles = [Role::PoolQueueNode, Role::MainQueueNode];
    d.rng.shuffle(&mut roles);
    let start = d.rng.below(d.survey.count);
    let past = u64::from(d.rng.chance(20));
    roles.into_iter().find_map(|role| queue_entry(d, role, start, d.survey.count - start + past))
}

/// An entry of a queue, not a ghost, set to name `length` blocks from `start`.
pub fn queue_entry(d: &mut Draft, role: Role, start: u64, length: u64) -> Option<String> {
    // An entry's count follows its address.
    let is_entry = |pair: &[Field]| pair[0].name == queue::ADDRESS.name && pair[1].name == queue::COUNT.name;
    let entry = |o: &Object| o.fields.windows(2).find(|pair| is_entry(pair)).map(|pair| [pair[0], pair[1]]);
    let nodes = d.survey.with_role(role);
    let (object, [address, count]) = nodes.into_iter().find_map(|o| Some((o, entry(o)?)))?;
    d.rewrite(object, &[(address, start), (count, length)]);
    Some(format!("{}: {length} blocks from {start} of {}", role.name(), d.survey.count))
}

/// A ghost of a queue set to name block `a`.
pub fn queue_ghost(d: &mut Draft, role: Role, a: u64) -> Option<String> {
    // A ghost's address is the last field of its entry: a slot, or nothing, follows it.
    let names = |o: &Object, i: usize| o.fields.get(i).map(|f| f.name);
    let is_ghost = |o: &Object, i: usize| {
        names(o, i) == Some(queue::ADDRESS.name) && names(o, i + 1).is_none_or(|next| next != queue::COUNT.name)
    };
    let ghost = |o: &Object| (0..o.fields.len()).find(|&i| is_ghost(o, i)).map(|i| o.fields[i]);
    let (object, address) = d.survey.with_role(role).into_iter().find_map(|o| Some((o, ghost(o)?)))?;
    d.rewrite(object, &[(address, a)]);
    Some(format!("{}: a ghost of block {a} of {}", role.name(), d.survey.count))
}
