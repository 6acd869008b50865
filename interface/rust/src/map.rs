//! The block map's bytes.

use crate::names::Kind;

/// A byte of the block map: who owns the block, and what the bitmaps say of it.
///
/// ```
/// use space_check::{Cell, Kind};
/// let cell = Cell(0x03);
/// assert_eq!(cell.owner(), Some(Kind::DataArea));
/// assert!(cell.is_lost() && !cell.is_leaked());
/// ```
#[derive(Clone, Copy, Debug, PartialEq, Eq)]
pub struct Cell(pub u8);

impl Cell {
    /// The bits that hold the owner's number, 0 for none.
    pub const OWNER: u8 = 0x0f;
    /// The bit of a block that a bitmap has as in use.
    pub const MARKED: u8 = 0x10;
    /// The bit of a block that the internal pool needs.
    pub const POOL_USED: u8 = 0x20;

    /// The first that claimed it.
    pub fn owner(self) -> Option<Kind> {
        Kind::from_number((self.0 & Cell::OWNER).into())
    }

    /// A bitmap has it as in use.
    pub fn is_marked(self) -> bool {
        self.0 & Cell::MARKED != 0
    }

    /// The internal pool needs it.
    pub fn is_pool_used(self) -> bool {
        self.0 & Cell::POOL_USED != 0
    }

    /// In use, and marked as free: the next writer may overwrite it.
    pub fn is_lost(self) -> bool {
        self.0 & Cell::OWNER != 0 && !self.is_marked()
    }

    /// Marked as in use, and claimed by nothing that the check looks at.
    pub fn is_leaked(self) -> bool {
        self.0 & Cell::OWNER == 0 && self.is_marked()
    }
}
