//! Where the original is no reference: the rules that take an image out of the comparison with it.

use std::fmt;

use space_check::{ProblemKind, Refusal};

/// A rule that the original doesn't have, or has otherwise.
#[derive(Clone, Copy, Debug, PartialEq, Eq, PartialOrd, Ord)]
pub enum Outside {
    /// An added refusal.
    Added(Refusal),
    /// The last part of refusal 21, which alone is added: a pool-queue entry that passes the block count.
    QueuedPastCount,
    /// A deleted mapping where the mappings are claimed: in the original it claims its block.
    DeletedMapping,
    /// A manager with address blocks, which the original reads as chunk-info blocks.
    AddressBlocks,
    /// A volume whose object map is at address 0: the original would read block 0 as that map, if it opened the volume.
    MapInBlockZero,
    /// A free-next table past the manager's end: the original never reads it, nor what it holds.
    FreeNextTable,
    /// A problem that the original doesn't look for.
    Problem(ProblemKind),
}

/// Refusals that are added whole.
const ADDED: [Refusal; 7] = [
    Refusal::BlockCount,
    Refusal::MissingBlocks,
    Refusal::ShortMap,
    Refusal::DescriptorArea,
    Refusal::CountDiffers,
    Refusal::TooManyNodes,
    Refusal::RingIndex,
];

/// Problems on the list of the ring's unused blocks.
const RING_PROBLEMS: [ProblemKind; 2] = [ProblemKind::FreeInUse, ProblemKind::FreeRepeated];

impl Outside {
    pub fn all() -> Vec<Outside> {
        let others = [
            Outside::QueuedPastCount,
            Outside::DeletedMapping,
            Outside::AddressBlocks,
            Outside::MapInBlockZero,
            Outside::FreeNextTable,
        ];
        ADDED.map(Outside::Added).into_iter().chain(others).chain(RING_PROBLEMS.map(Outside::Problem)).collect()
    }

    /// The rule of a refusal that is added whole.
    pub fn by(refusal: Refusal) -> Option<Outside> {
        ADDED.contains(&refusal).then_some(Outside::Added(refusal))
    }

    /// The refusal that is met, where the rule is one.
    pub fn refusal(self) -> Option<Refusal> {
        match self {
            Outside::Added(refusal) => Some(refusal),
            Outside::QueuedPastCount => Some(Refusal::Overflow),
            Outside::MapInBlockZero => Some(Refusal::PastContainer),
            Outside::FreeNextTable => Some(Refusal::OutsideBytes),
            Outside::DeletedMapping | Outside::AddressBlocks | Outside::Problem(_) => None,
        }
    }

    /// Its short name: the number of its refusal or of its problem, where it has one.
    pub fn label(self) -> String {
        match (self, self.refusal()) {
            (_, Some(refusal)) => refusal.number().to_string(),
            (Outside::Problem(kind), None) => format!("problem {}", kind.number()),
            (Outside::AddressBlocks, None) => "address".into(),
            (_, None) => "deleted".into(),
        }
    }
}

impl fmt::Display for Outside {
    fn fmt(&self, f: &mut fmt::Formatter) -> fmt::Result {
        match self {
            Outside::Added(refusal) => write!(f, "refusal {}, {refusal:?}", refusal.number()),
            Outside::QueuedPastCount => {
                write!(f, "refusal {}, a pool-queue entry past the count", Refusal::Overflow.number())
            }
            Outside::DeletedMapping => write!(f, "a deleted mapping"),
            Outside::AddressBlocks => write!(f, "address blocks"),
            Outside::MapInBlockZero => {
                write!(f, "refusal {}, a volume's object map in block 0", Refusal::PastContainer.number())
            }
            Outside::FreeNextTable => {
                write!(f, "refusal {}, a free-next table past the manager", Refusal::OutsideBytes.number())
            }
            Outside::Problem(kind) => write!(f, "problem {}, {kind:?}", kind.number()),
        }
    }
}
