//! The volumes' own trees: all superblocks first, through the container's object map, then the claims of one volume after
//! the other.

use space_check::{Kind, Refusal};

use super::blocks::{field, need, Blocks, Step};
use super::checkpoint::Taken;
use super::claims::Claims;
use super::tree::{mapped_key, walk_from, Entry, ObjectMap, Walked};
use crate::fields::{mapped, object, object_map, superblock, volume};
use crate::outside::Outside;

/// The places at which a pass can be among the volumes.
#[derive(Clone, Copy, Debug, PartialEq, Eq, PartialOrd, Ord)]
pub enum Stage {
    Lookup,
    Superblock,
    Map,
    MapTree,
    ExtentTree,
    SnapshotTree,
}

impl Stage {
    /// The refusals that a pass can meet at each. A lookup reads nodes that the claims of the mappings have read before.
    pub const REFUSALS: [(Stage, &'static [Refusal]); 6] = {
        use Refusal::*;
        const IN_A_TREE: &[Refusal] = &[PastContainer, BadChecksum, WrongKind, BadNode, OutsideBytes, TooManyNodes];
        [
            (Stage::Lookup, &[OutsideBytes, VolumeUnmapped]),
            (Stage::Superblock, &[PastContainer, BadChecksum, NotVolume]),
            (Stage::Map, &[PastContainer, Overflow]),
            (Stage::MapTree, IN_A_TREE),
            (Stage::ExtentTree, IN_A_TREE),
            (Stage::SnapshotTree, IN_A_TREE),
        ]
    };

    pub fn name(self) -> &'static str {
        match self {
            Stage::Lookup => "lookup",
            Stage::Superblock => "superblock",
            Stage::Map => "object map",
            Stage::MapTree => "object map's tree",
            Stage::ExtentTree => "extent-reference tree",
            Stage::SnapshotTree => "snapshot tree",
        }
    }
}

/// What a lookup comes to.
#[derive(Clone, Copy, Debug, PartialEq, Eq)]
pub enum Reached {
    /// No key up to the volume's.
    Nothing,
    Ghost,
    OtherId,
    Deleted,
    Live,
}

/// What the volumes were that a pass met.
#[derive(Clone, Copy, Default)]
pub struct Volumes {
    /// Where the pass is among them.
    pub stage: Option<Stage>,
    /// What the last lookup came to.
    pub reached: Option<Reached>,
    /// The last one is mapped to a block without a volume's magic.
    pub foreign: bool,
    /// Those whose claims were begun.
    pub claimed: u64,
    /// The object map of one of these can't be loaded, so that an opening which does so fails.
    pub unloaded: bool,
    /// One has no snapshot tree.
    pub without_snapshots: bool,
    /// The most nodes, and the most levels, that a walk of one of their trees took.
    pub walked: Walked,
}

/// The nonzero ids of a superblock, in the order of their places.
pub fn volume_ids(sb: &[u8]) -> Vec<u64> {
    let places = superblock::VOLUMES.of(sb).min(superblock::MOST_VOLUMES) as usize;
    (0..places).map(|i| superblock::volume_id(i).of(sb)).filter(|&id| id != 0).collect()
}

/// What an entry is to the volume that it was looked up for.
fn reached(entry: Option<&Entry>, id: u64) -> Step<(Reached, u64)> {
    let Some(entry) = entry else { return Ok((Reached::Nothing, 0)) };
    let Some(value) = entry.value else { return Ok((Reached::Ghost, 0)) };
    if mapped_key(entry)?.0 != id {
        return Ok((Reached::OtherId, 0));
    }
    let address = field(value, mapped::ADDRESS.at, mapped::ADDRESS.width)?;
    let deleted = mapped::FLAGS.of(value) & mapped::DELETED != 0;
    Ok((if deleted { Reached::Deleted } else { Reached::Live }, address))
}

impl Claims<'_> {
    /// After claim 8: 6, 7, 10 and 11 of each volume.
    pub fn volumes(&mut self, blocks: &Blocks, taken: &Taken, objects: &ObjectMap) -> Step<()> {
        let (sb, xid) = (taken.superblock, object::XID.of(taken.superblock));
        let superblock = |id| self.volume_superblock(blocks, objects, (id, xid));
        let found = volume_ids(sb).into_iter().map(superblock).collect::<Step<Vec<_>>>()?;
        found.into_iter().try_for_each(|sb| self.volume(blocks, sb))?;
        self.notes.volumes.stage = None;
        Ok(())
    }

    fn enter(&mut self, stage: Stage) {
        self.notes.volumes.stage = Some(stage);
    }

    /// The newest mapping not above the checkpoint's xid decides alone.
    fn volume_superblock<'a>(
        &mut self,
        blocks: &Blocks<'a>,
        objects: &ObjectMap<'a>,
        key: (u64, u64),
    ) -> Step<&'a [u8]> {
        self.enter(Stage::Lookup);
        self.notes.volumes.reached = None;
        let (what, address) = reached(objects.reach(blocks, key)?.as_ref(), key.0)?;
        self.notes.volumes.reached = Some(what);
        need(what == Reached::Live, Refusal::VolumeUnmapped)?;
        self.enter(Stage::Superblock);
        self.notes.volumes.foreign = blocks.raw(address).is_ok_and(|b| volume::MAGIC.of(b) != volume::APSB);
        let bytes = blocks.object(address)?;
        let is_volume = object::KIND.of(bytes) == object::VOLUME && volume::MAGIC.of(bytes) == volume::APSB;
        need(is_volume, Refusal::NotVolume)?;
        Ok(bytes)
    }

    fn volume(&mut self, blocks: &Blocks, sb: &[u8]) -> Step<()> {
        let [map, extents, snapshots] =
            [volume::OBJECT_MAP, volume::EXTENT_TREE, volume::SNAPSHOT_TREE].map(|f| f.of(sb));
        self.note_opening(blocks, map);
        self.enter(Stage::Map);
        self.claim(map, 1, Kind::ObjectMap)?;
        need(map != 0, Refusal::PastContainer)?;
        let root = object_map::ROOT.of(blocks.raw(map)?);
        self.volume_tree(blocks, Stage::MapTree, root, Kind::ObjectMapNode)?;
        self.volume_tree(blocks, Stage::ExtentTree, extents, Kind::ExtentNode)?;
        if snapshots == 0 {
            self.notes.volumes.without_snapshots = true;
            return Ok(());
        }
        self.volume_tree(blocks, Stage::SnapshotTree, snapshots, Kind::SnapshotNode)
    }

    fn volume_tree(&mut self, blocks: &Blocks, stage: Stage, root: u64, kind: Kind) -> Step<()> {
        self.enter(stage);
        let walked = walk_from(blocks, root, &mut |address| self.claim(address, 1, kind))?;
        let most = &mut self.notes.volumes.walked;
        (most.nodes, most.levels) = (most.nodes.max(walked.nodes), most.levels.max(walked.levels));
        Ok(())
    }

    /// The original opens a volume before it claims anything of it.
    fn note_opening(&mut self, blocks: &Blocks, map: u64) {
        self.notes.volumes.claimed += 1;
        self.notes.volumes.unloaded |= ObjectMap::load(blocks, map).is_err();
        if map == 0 {
            self.notes.outside.get_or_insert(Outside::MapInBlockZero);
        }
    }
}

#[cfg(test)]
mod tests {
    use super::*;
    use crate::nodes::bytes_of;

    #[test]
    fn a_hundred_places_count_and_zeros_are_passed_over() {
        let mut sb = vec![0; 4096];
        // The first place has none; the last of these is the first that doesn't count.
        (1..=100).for_each(|i| superblock::volume_id(i).set(&mut sb, 10 * i as u64));
        for (stated, ids) in [(0, 0), (1, 0), (3, 2), (100, 99), (101, 99), (0xffff_ffff, 99)] {
            superblock::VOLUMES.set(&mut sb, stated);
            assert_eq!(volume_ids(&sb), (1..=ids).map(|i| 10 * i).collect::<Vec<u64>>(), "{stated} places");
        }
    }

    #[test]
    fn a_ghost_another_id_and_a_short_value_come_before_the_flags() {
        let (key, short, deleted) = (bytes_of(&[7, 1]), [1; 15], bytes_of(&[mapped::DELETED, 5]));
        let of = |id, value| reached(Some(&Entry { key: &key, value }), id);
        assert_eq!(reached(None, 7), Ok((Reached::Nothing, 0)));
        assert_eq!(of(8, None), Ok((Reached::Ghost, 0)));
        assert_eq!(of(8, Some(&short[..])), Ok((Reached::OtherId, 0)));
        assert_eq!(of(7, Some(&short[..])), Err(Refusal::OutsideBytes));
        assert_eq!(of(7, Some(&deleted[..])), Ok((Reached::Deleted, 5)));
        assert_eq!(of(7, Some(&bytes_of(&[mapped::OTHERS, 5])[..])), Ok((Reached::Live, 5)));
    }
}
