//! Where the numbers of an answer stand, by the names that `interface/space_check.h` has for them.

use crate::names::Kind;

macro_rules! places {
    ($($(#[$about:meta])* $name:ident = $place:literal;)+) => {
        $($(#[$about])* pub const $name: usize = $place;)+

        /// Every place with its name, in their order.
        pub const ALL: &[(&str, usize)] = &[$((stringify!($name), $name),)+];
    };
}

places! {
    /// A refusal's number, after which all others are 0; or 0 where there is a report.
    REFUSAL = 0;
    /// Transaction number of the checkpoint taken.
    XID = 1;
    /// Pool blocks in use.
    POOL_USED = 2;
    /// Pool blocks marked but unused.
    POOL_UNUSED = 3;
    /// Problems in all.
    PROBLEMS = 4;
    /// The first ten problems, each kind and block.
    PROBLEM = 5;
    /// Free blocks counted.
    FREE = 25;
    /// Chunks whose count differs.
    WRONG_CHUNKS = 26;
    /// The device's free count.
    DEVICE_FREE = 27;
    /// Overlaps in all.
    OVERLAPS = 28;
    /// The first ten overlaps, each block, owner and claimant.
    OVERLAP = 29;
    /// Blocks owned but unmarked, of kinds 1 to 9: see [`lost`].
    LOST = 59;
    /// The first such of each of them: see [`first_lost`].
    FIRST_LOST = 68;
    /// Blocks marked but unowned.
    LEAKED = 77;
    /// 1 consistent, 2 inconsistent.
    VERDICT = 78;
    /// Blocks owned but unmarked, of kinds 10 and 11.
    LATER_LOST = 79;
    /// The first such of each of them.
    LATER_FIRST_LOST = 81;
    /// Overlaps by the kind that came second, of kinds 1 to 11: see [`claimant`]. They add up to [`OVERLAPS`].
    CLAIMANTS = 83;
    /// Blocks of the pool bitmap's ring on the manager's list of unused ones, each counted once.
    FREE_RING = 94;
    /// An answer is so many numbers.
    FIGURES = 95;
}

/// So many problems, and so many overlaps, are named in a report.
pub const LOGGED: usize = 10;

/// A named problem is so many numbers.
pub const PROBLEM_NUMBERS: usize = (FREE - PROBLEM) / LOGGED;

/// A named overlap is so many numbers.
pub const OVERLAP_NUMBERS: usize = (LOST - OVERLAP) / LOGGED;

/// Kinds with places among the numbers of version 0.1.0. Later ones follow at the end, so that an array of those numbers has
/// them as before.
const BASE_KINDS: usize = FIRST_LOST - LOST;

/// Where the lost blocks of a kind are counted.
pub fn lost(kind: Kind) -> usize {
    of_kind(kind, LOST, LATER_LOST)
}

/// Where the first lost block of a kind stands.
pub fn first_lost(kind: Kind) -> usize {
    of_kind(kind, FIRST_LOST, LATER_FIRST_LOST)
}

/// Where the overlaps are counted in which a kind came second.
pub fn claimant(kind: Kind) -> usize {
    CLAIMANTS + kind.number() as usize - 1
}

/// A kind's place, by where its row begins among the base's numbers and where among the later ones.
fn of_kind(kind: Kind, base: usize, later: usize) -> usize {
    let index = kind.number() as usize - 1;
    if index < BASE_KINDS {
        base + index
    } else {
        later + index - BASE_KINDS
    }
}

#[cfg(test)]
mod tests {
    use super::*;

    #[test]
    fn each_kind_has_places_of_its_own() {
        let of = |kind| [lost(kind), first_lost(kind), claimant(kind)];
        let places: Vec<usize> = Kind::ALL.iter().flat_map(|&kind| of(kind)).collect();
        let is_row = |name: &str| name.ends_with("LOST") || name == "CLAIMANTS";
        let named = |place| ALL.iter().any(|&(name, at)| at == place && !is_row(name));
        for (i, &place) in places.iter().enumerate() {
            assert!(place < FIGURES && !named(place) && !places[..i].contains(&place), "place {place}");
        }
    }

    #[test]
    fn kinds_that_came_later_stand_at_the_end() {
        let of = |kind| (lost(kind), first_lost(kind));
        assert_eq!((of(Kind::ContainerSuperblock), of(Kind::FreeQueue)), ((59, 68), (67, 76)));
        assert_eq!((of(Kind::ExtentNode), of(Kind::SnapshotNode)), ((79, 81), (80, 82)));
    }

    #[test]
    fn claimants_are_one_row() {
        assert_eq!((claimant(Kind::ContainerSuperblock), claimant(Kind::SnapshotNode)), (83, 93));
    }
}
