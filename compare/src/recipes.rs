//! Damages of more than one field, each for something that single fields seldom reach.
//!
//! Another damage may have come before: no field read here need be sound any more.

mod address;
mod checkpoint;
mod manager;
mod mapping;
mod ring;
mod ring_order;
mod ring_table;
mod tree;
mod volume;

use crate::draft::Draft;
pub use address::read_both_ways;
pub use checkpoint::area_to_end;
pub use mapping::{deleted_of_lengths, first_mapping};
pub use ring::{free_list, ring_before};
pub use ring_order::{before_listed, behind_pool};
pub use ring_table::{long_ring, table_of, table_to_end, unused};
pub use tree::{chain_of, queue_entry, queue_ghost, repeats_of};
pub use volume::{extent_chain, extent_repeats, map_at};

/// Says what it made, or nothing where the container has no place for it.
type Recipe = fn(&mut Draft) -> Option<String>;

pub const RECIPES: &[(&str, Recipe)] = &[
    ("image cut", cut_image),
    ("map cut", cut_map),
    ("image and map longer", lengthen),
    ("object map tree in a circle", tree::circle),
    ("object map tree with repeats", tree::repeats),
    ("object map tree as a chain", tree::chain),
    ("key area up to the value end", tree::key_area_to_end),
    ("key past the value end", tree::key_past_end),
    ("highest level", tree::highest_level),
    ("wide queue entry", tree::wide_entry),
    ("mapping deleted", mapping::deleted),
    ("deleted mapping cut short", mapping::deleted_short),
    ("mapping with other flags", mapping::other_flags),
    ("object map out of order", mapping::out_of_order),
    ("key that only a lookup reads cut short", mapping::short_key),
    ("volume's mapping deleted", mapping::volume_deleted),
    ("volume's mapping without a value", mapping::volume_ghost),
    ("volume's mapping at another xid", mapping::volume_xid),
    ("volume mapped elsewhere", mapping::volume_elsewhere),
    ("volume that isn't mapped", mapping::volume_missing),
    ("volume in every place", volume::places_full),
    ("volume's object map elsewhere", volume::map_elsewhere),
    ("volume's tree elsewhere", volume::tree_elsewhere),
    ("volume's tree over nodes of others", volume::tree_shares),
    ("volume's tree in a circle", volume::tree_circle),
    ("volume's tree with repeats", volume::tree_repeats),
    ("volume's tree as a chain", volume::tree_chain),
    ("volume's tree with many keys in a node", volume::tree_keys),
    ("volume's tree without a description", volume::tree_undescribed),
    ("superblock copied", checkpoint::copy_superblock),
    ("overflowing chain sum", checkpoint::overflowing_chain),
    ("ring of one", checkpoint::ring_of_one),
    ("descriptor area from block 0", checkpoint::whole_area),
    ("descriptor area up to the end", checkpoint::long_area),
    ("incompatible feature", checkpoint::feature),
    ("highest block count", checkpoint::highest_count),
    ("manager of another length", manager::other_length),
    ("manager with its lists in its head", manager::short),
    ("manager longer than its ring", manager::repeated),
    ("manager in block 0", manager::in_block_zero),
    ("pool bitmap in block 0", manager::bitmap_in_block_zero),
    ("no pool", manager::no_pool),
    ("pool at the end of numbers", manager::far_pool),
    ("address blocks added", address::added),
    ("address block named twice", address::twice),
    ("address block as chunk-info block", address::as_chunk_info),
    ("address block as chunk bitmap", address::as_bitmap),
    ("address block queued", address::queued),
    ("address block full", address::full),
    ("address block with an address too many", address::overfull),
    ("address block in block 0", address::in_block_zero),
    ("address block past the container", address::past_container),
    ("address blocks listed at the manager's end", address::list_to_end),
    ("free list emptied", ring::emptied),
    ("free list in any order", ring::in_any_order),
    ("free list of many blocks", ring::of_many_blocks),
    ("free list in a circle", ring::in_a_circle),
    ("free list out of its ring", ring::out_of_ring),
    ("free list over a block in use", ring::over_block_in_use),
    ("free list twice over a block in use", ring::in_use_twice),
    ("free list beside a pool without bits", ring_order::beside_pool),
    ("free list beside a fault of the listed blocks", ring_order::beside_listed),
    ("free list at the end of numbers", ring_order::at_end_of_numbers),
    ("free-next table at the manager's end", ring_table::at_end),
    ("ring of no blocks", ring_table::no_ring),
    ("ring that ends before a bitmap", ring::ends_before_bitmap),
    ("ring of more than 65,534 blocks", ring_table::of_long_ring),
];

fn cut_image(d: &mut Draft) -> Option<String> {
    let whole = d.survey.count * d.survey.block_size as u64;
    let length = match d.rng.below(4) {
        0 => d.rng.below(4096),
        1 => *d.rng.pick(&[0, 4095, 4096]),
        2 => whole - 1,
        _ => d.rng.below(whole),
    };
    d.image.bytes.truncate(length as usize);
    Some(format!("to {length} bytes"))
}

fn cut_map(d: &mut Draft) -> Option<String> {
    let length = if d.rng.chance(50) { d.survey.count - 1 } else { d.rng.below(d.survey.count) };
    d.image.map_length = length as usize;
    Some(format!("to {length} bytes"))
}

fn lengthen(d: &mut Draft) -> Option<String> {
    let (bytes, cells) = (d.rng.between(1, 5000) as usize, d.rng.below(9) as usize);
    d.image.bytes.resize(d.image.bytes.len() + bytes, 0x5a);
    d.image.map_length += cells;
    Some(format!("by {bytes} and {cells} bytes"))
}
