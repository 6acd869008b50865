//! Images on either side of the boundary of each rule that takes images outside, for the fixed list.
//!
//! Where the original isn't asked nothing shows that a rule is met too early, but an image on its near side, on which
//! the original is asked.

use space_check::{ProblemKind, Refusal};

use crate::draft::Draft;
use crate::fields::manager::NO_INDEX;
use crate::fields::{mapped, superblock};
use crate::image::Image;
use crate::model::{HIGHEST_COUNT, WALK_LEVELS};
use crate::outside::Outside;
use crate::recipes::{
    area_to_end, before_listed, behind_pool, chain_of, deleted_of_lengths, extent_chain, extent_repeats, first_mapping,
    free_list, long_ring, map_at, queue_entry, queue_ghost, read_both_ways, repeats_of, ring_before, table_of,
    table_to_end, unused,
};
use crate::rng::Rng;
use crate::seeds::Base;
use crate::survey::Role;

/// Says what it made, or nothing where the container has no place for it.
type Side = fn(&mut Draft) -> Option<String>;

pub struct Boundary {
    pub name: &'static str,
    /// What the far side meets.
    pub rule: Outside,
    near: Side,
    far: Side,
    /// What refuses the near side, where it doesn't report. Counts have no near side that could: a container of one block has
    /// no room for an object map, and one of 2^32 - 1 needs 16 TiB.
    pub near_refusal: Option<Refusal>,
}

pub const BOUNDARIES: &[Boundary] = &[
    Boundary {
        name: "lowest count",
        rule: Outside::Added(Refusal::BlockCount),
        near: |d| count(d, 1),
        far: |d| count(d, 0),
        near_refusal: Some(Refusal::NoCheckpoint),
    },
    Boundary {
        name: "highest count",
        rule: Outside::Added(Refusal::BlockCount),
        near: |d| count(d, HIGHEST_COUNT),
        far: |d| count(d, HIGHEST_COUNT + 1),
        near_refusal: Some(Refusal::MissingBlocks),
    },
    Boundary {
        name: "image",
        rule: Outside::Added(Refusal::MissingBlocks),
        near: |d| image(d, 0),
        far: |d| image(d, 1),
        near_refusal: None,
    },
    Boundary {
        name: "map",
        rule: Outside::Added(Refusal::ShortMap),
        near: |d| map(d, 0),
        far: |d| map(d, 1),
        near_refusal: None,
    },
    Boundary {
        name: "descriptor area",
        rule: Outside::Added(Refusal::DescriptorArea),
        near: |d| area_to_end(d, 0),
        far: |d| area_to_end(d, 1),
        near_refusal: None,
    },
    Boundary {
        name: "lower count",
        rule: Outside::Added(Refusal::CountDiffers),
        near: |d| superblock_count(d, d.survey.count),
        far: |d| superblock_count(d, d.survey.count - 1),
        near_refusal: None,
    },
    Boundary {
        name: "higher count",
        rule: Outside::Added(Refusal::CountDiffers),
        near: |d| superblock_count(d, d.survey.count),
        far: |d| superblock_count(d, d.survey.count + 1),
        near_refusal: None,
    },
    Boundary {
        name: "taken count",
        rule: Outside::Added(Refusal::CountDiffers),
        near: |d| count_of_superblock(d, 1),
        far: |d| count_of_superblock(d, 0),
        near_refusal: None,
    },
    Boundary {
        name: "blocks",
        rule: Outside::AddressBlocks,
        near: |d| read_both_ways(d, 0),
        far: |d| read_both_ways(d, 1),
        near_refusal: None,
    },
    Boundary {
        name: "queued block",
        rule: Outside::QueuedPastCount,
        near: |d| queued(d, d.survey.count - 1, 1),
        far: |d| queued(d, d.survey.count, 1),
        near_refusal: None,
    },
    Boundary {
        name: "queued blocks",
        rule: Outside::QueuedPastCount,
        near: |d| queued(d, 1, d.survey.count - 1),
        far: |d| queued(d, 1, d.survey.count),
        near_refusal: None,
    },
    Boundary {
        name: "queued nothing",
        rule: Outside::QueuedPastCount,
        near: |d| queued(d, d.survey.count, 0),
        far: |d| queued(d, d.survey.count + 1, 0),
        near_refusal: None,
    },
    Boundary {
        name: "queued ghost",
        rule: Outside::QueuedPastCount,
        near: |d| queue_ghost(d, Role::PoolQueueNode, d.survey.count - 1),
        far: |d| queue_ghost(d, Role::PoolQueueNode, d.survey.count),
        near_refusal: None,
    },
    Boundary {
        name: "nodes",
        rule: Outside::Added(Refusal::TooManyNodes),
        near: |d| repeats_of(d, 0),
        far: |d| repeats_of(d, 1),
        near_refusal: None,
    },
    Boundary {
        name: "levels",
        rule: Outside::Added(Refusal::TooManyNodes),
        near: |d| chain_of(d, WALK_LEVELS),
        far: |d| chain_of(d, WALK_LEVELS + 1),
        near_refusal: None,
    },
    Boundary {
        name: "volume nodes",
        rule: Outside::Added(Refusal::TooManyNodes),
        near: |d| extent_repeats(d, 0),
        far: |d| extent_repeats(d, 1),
        near_refusal: None,
    },
    Boundary {
        name: "volume levels",
        rule: Outside::Added(Refusal::TooManyNodes),
        near: |d| extent_chain(d, WALK_LEVELS),
        far: |d| extent_chain(d, WALK_LEVELS + 1),
        near_refusal: None,
    },
    Boundary {
        name: "volume map",
        rule: Outside::MapInBlockZero,
        near: |d| map_at(d, None),
        far: |d| map_at(d, Some(0)),
        near_refusal: None,
    },
    Boundary {
        name: "other flags",
        rule: Outside::DeletedMapping,
        near: |d| first_mapping(d, mapped::OTHERS, 0),
        far: |d| first_mapping(d, mapped::OTHERS | mapped::DELETED, 0),
        near_refusal: None,
    },
    Boundary {
        name: "last block",
        rule: Outside::DeletedMapping,
        near: |d| first_mapping(d, 0, u64::MAX),
        far: |d| first_mapping(d, mapped::DELETED, u64::MAX),
        near_refusal: Some(Refusal::Overflow),
    },
    Boundary {
        name: "key",
        rule: Outside::DeletedMapping,
        near: |d| deleted_of_lengths(d, mapped::SIZE - 1, mapped::SIZE),
        far: |d| deleted_of_lengths(d, mapped::SIZE, mapped::SIZE),
        near_refusal: Some(Refusal::OutsideBytes),
    },
    Boundary {
        name: "value",
        rule: Outside::DeletedMapping,
        near: |d| deleted_of_lengths(d, mapped::SIZE, mapped::SIZE - 1),
        far: |d| deleted_of_lengths(d, mapped::SIZE, mapped::SIZE),
        near_refusal: Some(Refusal::OutsideBytes),
    },
    Boundary {
        name: "table",
        rule: Outside::FreeNextTable,
        near: |d| table_to_end(d, 0, 1),
        far: |d| table_to_end(d, 1, 1),
        near_refusal: None,
    },
    Boundary {
        name: "table of an empty list",
        rule: Outside::FreeNextTable,
        near: |d| table_to_end(d, 0, 0),
        far: |d| table_to_end(d, 1, 0),
        near_refusal: None,
    },
    Boundary {
        name: "table of no entries",
        rule: Outside::FreeNextTable,
        near: |d| table_of(d, 0),
        far: |d| table_of(d, 1),
        near_refusal: None,
    },
    Boundary {
        name: "table and pool",
        rule: Outside::FreeNextTable,
        near: |d| behind_pool(d, true),
        far: |d| table_of(d, 1),
        near_refusal: Some(Refusal::BadBitmap),
    },
    Boundary {
        name: "index",
        rule: Outside::Added(Refusal::RingIndex),
        near: |d| free_list(d, 1, |r| Some(r.single(r.ring - 1))),
        far: |d| free_list(d, 1, |r| Some(r.single(r.ring))),
        near_refusal: None,
    },
    Boundary {
        name: "head",
        rule: Outside::Added(Refusal::RingIndex),
        near: |d| free_list(d, 1, |r| Some(r.single(NO_INDEX))),
        far: |d| free_list(d, 1, |r| Some(r.single(NO_INDEX - 1))),
        near_refusal: None,
    },
    Boundary {
        name: "entry",
        rule: Outside::Added(Refusal::RingIndex),
        near: |d| tail_of_two(d, 1),
        far: |d| tail_of_two(d, 2),
        near_refusal: None,
    },
    Boundary {
        name: "long ring",
        rule: Outside::Added(Refusal::RingIndex),
        near: |d| to_highest(d, NO_INDEX + 1),
        far: |d| to_highest(d, NO_INDEX),
        near_refusal: None,
    },
    Boundary {
        name: "bitmap past the ring",
        rule: Outside::Added(Refusal::RingIndex),
        near: |d| ring_before(d, false),
        far: |d| ring_before(d, true),
        near_refusal: None,
    },
    Boundary {
        name: "index and listed blocks",
        rule: Outside::Added(Refusal::RingIndex),
        near: |d| before_listed(d, true),
        far: |d| before_listed(d, false),
        near_refusal: Some(Refusal::OutsideBytes),
    },
    Boundary {
        name: "alone",
        rule: Outside::Problem(ProblemKind::FreeInUse),
        near: |d| free_list(d, 0, |r| Some(r.single(NO_INDEX))),
        far: |d| free_list(d, 0, |r| Some(r.single(r.last_in_use()?))),
        near_refusal: None,
    },
    Boundary {
        name: "head",
        rule: Outside::Problem(ProblemKind::FreeInUse),
        near: |d| free_list(d, 3, |r| r.three(None)),
        far: |d| free_list(d, 3, |r| r.three(Some(0))),
        near_refusal: None,
    },
    Boundary {
        name: "between",
        rule: Outside::Problem(ProblemKind::FreeInUse),
        near: |d| free_list(d, 3, |r| r.three(None)),
        far: |d| free_list(d, 3, |r| r.three(Some(1))),
        near_refusal: None,
    },
    Boundary {
        name: "tail",
        rule: Outside::Problem(ProblemKind::FreeInUse),
        near: |d| free_list(d, 3, |r| r.three(None)),
        far: |d| free_list(d, 3, |r| r.three(Some(2))),
        near_refusal: None,
    },
    Boundary {
        name: "circle",
        rule: Outside::Problem(ProblemKind::FreeRepeated),
        near: |d| circle(d, 4, 3, true),
        far: |d| circle(d, 4, 3, false),
        near_refusal: None,
    },
    Boundary {
        name: "circle of one",
        rule: Outside::Problem(ProblemKind::FreeRepeated),
        near: |d| circle(d, 0, 1, true),
        far: |d| circle(d, 0, 1, false),
        near_refusal: None,
    },
    Boundary {
        name: "long ring",
        rule: Outside::Problem(ProblemKind::FreeRepeated),
        near: |d| to_itself(d, NO_INDEX),
        far: |d| to_itself(d, NO_INDEX - 1),
        near_refusal: None,
    },
];

impl Boundary {
    /// The images on the near and on the far side, where the container has a place for them.
    pub fn images(&self, base: &Base) -> Option<[Image; 2]> {
        Some([self.image(base, "near", self.near)?, self.image(base, "far", self.far)?])
    }

    fn image(&self, base: &Base, side: &str, make: Side) -> Option<Image> {
        let mut draft = Draft { image: base.image(), survey: &base.survey, rng: &mut Rng::new(base.number) };
        let made = make(&mut draft)?;
        draft.note(&format!("{side} side of {}, {}", self.rule.label(), self.name), &made);
        Some(draft.image)
    }
}

/// Block 0 states a count, and an area that any count but 0 holds.
fn count(d: &mut Draft, count: u64) -> Option<String> {
    let fields =
        [(superblock::BLOCK_COUNT, count), (superblock::DESCRIPTOR_BASE, 0), (superblock::DESCRIPTOR_BLOCKS, 1)];
    d.rewrite(d.first(Role::BlockZero)?, &fields);
    Some(format!("{count} blocks"))
}

fn image(d: &mut Draft, missing: usize) -> Option<String> {
    let length = d.image.bytes.len() - missing;
    d.image.bytes.truncate(length);
    Some(format!("{length} bytes for {} blocks", d.survey.count))
}

fn map(d: &mut Draft, missing: usize) -> Option<String> {
    d.image.map_length -= missing;
    Some(format!("{} bytes for {} blocks", d.image.map_length, d.survey.count))
}

fn superblock_count(d: &mut Draft, count: u64) -> Option<String> {
    d.superblocks().into_iter().for_each(|sb| d.rewrite(sb, &[(superblock::BLOCK_COUNT, count)]));
    Some(format!("superblocks state {count} of {} blocks", d.survey.count))
}

/// One superblock alone states another count, by its place in the order in which they are tried.
fn count_of_superblock(d: &mut Draft, place: usize) -> Option<String> {
    let superblocks = d.superblocks();
    if superblocks.len() < 2 {
        return None;
    }
    d.rewrite(superblocks[place], &[(superblock::BLOCK_COUNT, d.survey.count - 1)]);
    Some(format!("superblock {place} states {} of {} blocks", d.survey.count - 1, d.survey.count))
}

fn queued(d: &mut Draft, start: u64, length: u64) -> Option<String> {
    queue_entry(d, Role::PoolQueueNode, start, length)
}

/// Two unused blocks, of which the last leads out of the ring; the tail is the second, or would be the third.
fn tail_of_two(d: &mut Draft, tail: usize) -> Option<String> {
    free_list(d, 3, |r| {
        let mut list = r.list(2);
        list.tail = *r.unused.get(tail)?;
        Some(list)
    })
}

/// Unused blocks of which the last leads back to the first; it is the tail, or nothing is that is on the list.
fn circle(d: &mut Draft, more: u64, blocks: usize, ends: bool) -> Option<String> {
    free_list(d, more, |r| {
        let mut list = r.list(blocks);
        *list.next.get_mut(list.tail as usize)? = list.head;
        list.tail = if ends { list.tail } else { r.unused.get(blocks).copied().unwrap_or(NO_INDEX) };
        Some(list)
    })
}

/// From an unused block to 0xffff, the tail, which a ring of so many blocks has or hasn't.
fn to_highest(d: &mut Draft, ring: u64) -> Option<String> {
    let first = unused(d)?;
    long_ring(d, ring, [first, NO_INDEX, NO_INDEX], NO_INDEX)
}

/// A head that leads to itself, in a ring that has every index.
fn to_itself(d: &mut Draft, head: u64) -> Option<String> {
    let tail = unused(d)?;
    long_ring(d, NO_INDEX + 1, [head; 3], tail)
}

#[cfg(test)]
mod tests {
    use super::*;
    use crate::fill::Fill;
    use crate::model::check;

    #[test]
    fn a_rule_is_met_on_its_far_side_alone() {
        for boundary in BOUNDARIES {
            let images = (0..500).find_map(|number| boundary.images(&Base::build(number)));
            let met = images.expect("some container has a place for it").map(|image| {
                let pass = check(&image.bytes, &mut Fill::Listed.map(image.map_length));
                pass.notes.outside == Some(boundary.rule)
            });
            assert_eq!(met, [false, true], "{}", boundary.name);
        }
    }
}
