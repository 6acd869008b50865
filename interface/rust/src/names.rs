//! What answers name by number: claimants, problems, refusals, verdicts, and why a node isn't built.

use std::fmt;

/// An enum whose cases have the numbers of the report, and a name each.
macro_rules! numbered {
    ($(#[$about:meta])* $name:ident { $($case:ident = $number:expr, $text:literal;)+ }) => {
        $(#[$about])*
        #[derive(Clone, Copy, Debug, PartialEq, Eq, PartialOrd, Ord, Hash)]
        #[non_exhaustive]
        pub enum $name {
            $(#[doc = $text] $case = $number,)+
        }

        impl $name {
            /// All cases, by their numbers.
            pub const ALL: &'static [$name] = &[$($name::$case,)+];

            /// The number that C has for it.
            pub fn number(self) -> u64 {
                self as u64
            }

            /// The case of a number, where there is one.
            pub fn from_number(number: u64) -> Option<$name> {
                $name::ALL.iter().copied().find(|case| case.number() == number)
            }

            /// Its name in words, which `Display` gives too.
            pub fn name(self) -> &'static str {
                match self {
                    $($name::$case => $text,)+
                }
            }
        }

        impl fmt::Display for $name {
            fn fmt(&self, f: &mut fmt::Formatter<'_>) -> fmt::Result {
                f.pad(self.name())
            }
        }
    };
}

numbered! {
    /// What a block is claimed for.
    Kind {
        ContainerSuperblock = 1, "container superblock";
        DescriptorArea = 2, "checkpoint descriptor area";
        DataArea = 3, "checkpoint data area";
        InternalPool = 4, "internal pool";
        PoolBitmapRing = 5, "internal-pool bitmap ring";
        ObjectMap = 6, "object map";
        ObjectMapNode = 7, "object map node";
        VolumeSuperblock = 8, "volume superblock";
        FreeQueue = 9, "free queue (pending release)";
        ExtentNode = 10, "extent-reference tree node";
        SnapshotNode = 11, "snapshot tree node";
    }
}

numbered! {
    /// What is wrong with a block of the internal pool, or of the ring of its bitmap.
    ProblemKind {
        InfoUnmarked = 1, "chunk-info block unmarked";
        BitmapUnmarked = 2, "chunk bitmap unmarked";
        BitmapUsed = 3, "chunk bitmap already used";
        QueuedUnmarked = 4, "queued block unmarked";
        QueuedUsed = 5, "queued block already used";
        AddressUnmarked = 6, "address block unmarked";
        FreeInUse = 7, "pool bitmap block in use and listed as unused";
        FreeRepeated = 8, "pool bitmap block listed as unused twice";
    }
}

numbered! {
    /// Inconsistent means a lost block, an overlap or a problem.
    Verdict {
        Consistent = 1, "consistent";
        Inconsistent = 2, "inconsistent";
    }
}

numbered! {
    /// Why there is no report; up to 22 in checking order. 19 was for address blocks, which are followed since 0.2.0; it is
    /// not used again.
    Refusal {
        ShortImage = 1, "the image is shorter than 4,096 bytes";
        NoMagic = 2, "the image does not begin with a container superblock";
        BlockSize = 3, "the container states a block size that is not a power of two from 4,096 to 65,536";
        BlockCount = 4, "the container states no blocks at all, or more than 4,294,967,295";
        MissingBlocks = 5, "the image is shorter than the container in it";
        ShortMap = 6, "the block map lent to the check is shorter than the block count";
        DescriptorLength = 7, "the checkpoint descriptor area is not one run of blocks";
        DescriptorArea = 8, "the checkpoint descriptor area reaches past the end of the container";
        NoCheckpoint = 9, "no checkpoint can be read: no sound superblock has a map that loads";
        Incompatible = 10, "the container is of a pre-release format or spans a Fusion Drive";
        CountDiffers = 11, "the superblock in use and block 0 state different block counts";
        PastContainer = 12, "a pointer leads past the end of the container, or to block 0 where something else must stand";
        BadChecksum = 13, "a checksum does not match: something was damaged, or only partly written";
        WrongKind = 14, "a block does not hold the kind of object that must stand there";
        BadNode = 15, "a tree node is laid out in an impossible way, or a tree is not of its usual form";
        Unmapped = 16, "the checkpoint's map lacks an object that the check needs";
        OutsideBytes = 17, "a list, an entry or a pointer is missing, or runs past the end of what holds it";
        WrongLevel = 18, "a tree node stands on another level than its parent says";
        BadBitmap = 20, "a bitmap is too small for what it describes, or marks a block past the end of the container";
        Overflow = 21, "numbers do not add up: a sum passes 64 bits, the space manager lies before its area, or queued blocks of the \
             internal pool lie past the end of the container";
        TooManyNodes = 22, "an object map's, extent-reference or snapshot tree is too deep, or has more nodes than the container has \
             blocks, as one that leads back into itself";
        VolumeUnmapped = 23, "the object map does not lead to a volume of the container: its entry there is missing, empty or deleted";
        NotVolume = 24, "a volume's entry in the object map leads to something else than a volume superblock";
        RingIndex = 25, "the space manager's list of unused blocks in the internal-pool bitmap ring leads past the ring's end";
    }
}

impl std::error::Error for Refusal {}

numbered! {
    /// Why a node is not built, in checking order. The numbers go on from those of [`Refusal`], but for the one that both have.
    Unbuilt {
        OutsideBytes = Refusal::OutsideBytes as isize, "the description is shorter than 40 bytes, or the lengths lack one of a \
             pair, or add up to more bytes than there are";
        NoRoom = 26, "the entries have no room in the node, or its size is none of 4,096, 8,192, 16,384, 32,768 and 65,536 bytes";
    }
}

impl std::error::Error for Unbuilt {}

#[cfg(test)]
mod tests {
    use super::*;
    use crate::Cell;

    /// Numbers rise and none is 0; there may be gaps between them.
    fn rise(numbers: impl Iterator<Item = u64>) -> bool {
        let numbers: Vec<u64> = std::iter::once(0).chain(numbers).collect();
        numbers.windows(2).all(|pair| pair[0] < pair[1])
    }

    #[test]
    fn numbers_rise() {
        assert!(rise(Kind::ALL.iter().map(|case| case.number())));
        assert!(rise(ProblemKind::ALL.iter().map(|case| case.number())));
        assert!(rise(Verdict::ALL.iter().map(|case| case.number())));
        assert!(rise(Refusal::ALL.iter().map(|case| case.number())));
        assert!(rise(Unbuilt::ALL.iter().map(|case| case.number())));
    }

    #[test]
    fn a_kind_fits_its_bits_of_a_cell() {
        for &kind in Kind::ALL {
            assert_eq!(Cell(kind.number() as u8).owner(), Some(kind));
        }
    }

    #[test]
    fn a_number_without_a_name() {
        assert_eq!((Kind::from_number(0), Refusal::from_number(u64::MAX)), (None, None));
        assert_eq!(Refusal::from_number(25), Some(Refusal::RingIndex));
        // no longer given, and not used again
        assert_eq!(Refusal::from_number(19), None);
    }

    #[test]
    fn a_number_means_one_thing() {
        let refusal = |case: &Unbuilt| Refusal::from_number(case.number());
        let shared: Vec<_> = Unbuilt::ALL.iter().filter_map(refusal).collect();
        assert_eq!(shared, [Refusal::OutsideBytes]);
    }
}
