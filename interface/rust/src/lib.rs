//! Safe calls of the proved space check of an APFS container.
//!
//! [`check`] lends an image and a block map to `space_check` of `interface/space_check.h`, whose answer and map are proved
//! for every image and every map. What it leaves comes back as a [`Report`] or as a [`Refusal`]. For containers to test
//! with, [`node`] has B-tree nodes built to order.
//!
//! ```
//! # let image = include_bytes!("../../../crates/listing/stdin");
//! let mut map = vec![0; space_check::blocks(image)];
//! match space_check::check(image, &mut map) {
//!     Ok(report) => print!("{}", report.listing("disk.img")),
//!     Err(refusal) => println!("refused {}: {refusal}", refusal.number()),
//! }
//! ```
//!
//! The archive is looked for where `rt lib` writes it, in crates/interface/out of the repository; another folder is named
//! by the environment variable `SPACE_CHECK_DIR` when this crate is built. A relative path counts from the repository's
//! root. Without the feature `archive`, which is on by default, nothing is linked: kinds, problems and refusals still have
//! their names and the answer's numbers their [places], and nothing can be checked.
//!
//! An image may be a file that is mapped. Then nothing may change the file during the call, and a read that the disk
//! refuses ends the process by a signal (`SIGBUS`): the command `apfs-space-check` runs each check in a process of its own
//! for that reason.

#![warn(missing_docs)]

mod listing;
mod map;
mod names;
pub mod node;
pub mod places;
#[cfg(feature = "archive")]
mod proved;
mod report;

pub use listing::Listing;
pub use map::Cell;
pub use names::{Kind, ProblemKind, Refusal, Verdict};
pub use places::{FIGURES, LOGGED};
#[cfg(feature = "archive")]
pub use proved::{check, figures, figures_into};
pub use report::{Claimant, Log, Lost, Overlap, Problem, Report};

// Where block 0 states the block size, in 4 bytes, and the block count, in 8.
const BLOCK_SIZE: usize = 36;
const BLOCK_COUNT: usize = 40;

/// No container has smaller blocks.
const LEAST_BLOCK: usize = 4096;

/// The block size that block 0 states, or 0 where it has none: where there is a report, a power of two from 4,096 to
/// 65,536.
pub fn block_size(image: &[u8]) -> u32 {
    let stated = image.get(BLOCK_SIZE..BLOCK_SIZE + 4);
    stated.map_or(0, |bytes| u32::from_le_bytes(bytes.try_into().expect("4 bytes")))
}

/// How long a block map the check of this image needs: one as long never gives [`Refusal::ShortMap`].
///
/// That is the block count as far as the image can have so many blocks; one that can't is refused before the map is
/// looked at ([`Refusal::MissingBlocks`]), so that a damaged count asks for no memory.
pub fn blocks(image: &[u8]) -> usize {
    let stated = image.get(BLOCK_COUNT..BLOCK_COUNT + 8);
    let count = stated.map_or(0, |bytes| u64::from_le_bytes(bytes.try_into().expect("8 bytes")));
    usize::try_from(count).unwrap_or(usize::MAX).min(image.len() / LEAST_BLOCK)
}
