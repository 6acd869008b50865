//! Which refusal an error message of the original tells of.
//!
//! The contract asks for an error to meet a refusal of whichever number. This tells more: where the message names the
//! same fault as the model's number, both met it first. They may part where the original tests nothing and goes on
//! to a later fault, or collects what the model takes up at once.

use space_check::Refusal;

/// A part of a message, and the refusal.
const MESSAGES: [(&str, Refusal); 24] = [
    ("I/O error", Refusal::ShortImage),
    ("NXSB", Refusal::NoMagic),
    ("block size", Refusal::BlockSize),
    ("stored as a B-tree", Refusal::DescriptorLength),
    ("no intact checkpoint", Refusal::NoCheckpoint),
    ("pre-release", Refusal::Incompatible),
    ("Fusion", Refusal::Incompatible),
    ("outside the container", Refusal::PastContainer),
    ("checksum mismatch", Refusal::BadChecksum),
    ("expected a B-tree node", Refusal::WrongKind),
    ("expected an object map", Refusal::WrongKind),
    ("storage type", Refusal::WrongKind),
    ("hashed", Refusal::WrongKind),
    ("impossible layout", Refusal::BadNode),
    ("non-root", Refusal::BadNode),
    ("key/value layout", Refusal::BadNode),
    ("not in the checkpoint map", Refusal::Unmapped),
    ("not in checkpoint", Refusal::Unmapped),
    ("past end of", Refusal::OutsideBytes),
    ("outside node", Refusal::OutsideBytes),
    ("has no child", Refusal::OutsideBytes),
    ("child at level", Refusal::WrongLevel),
    ("missing from the container object map", Refusal::VolumeUnmapped),
    ("is not a volume superblock", Refusal::NotVolume),
];

/// Nothing for a message of another kind.
pub fn refusal(message: &str) -> Option<Refusal> {
    MESSAGES.iter().find(|(part, _)| message.contains(part)).map(|(_, refusal)| *refusal)
}
