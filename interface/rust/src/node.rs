//! Nodes of B-trees, built to order.
//!
//! [`NodeBuilder`] takes what a node's headers say, the tree's description and the entries, and lends them to `build_node`
//! of `interface/space_check.h`, whose answer and node are proved for every request. A node of a free queue:
//!
//! ```
//! use space_check::node::{Description, NodeBuilder, NodeHeader, Sizes};
//!
//! let header = NodeHeader { oid: 0x401, xid: 7, obj_type: 0x8000_0002, subtype: 9, level: 0, root: true };
//! let description = Description { node_size: 4096, key_size: 16, val_size: 8, key_count: 2, ..Description::default() };
//! let key = |xid: u64, address: u64| [xid.to_le_bytes(), address.to_le_bytes()].concat();
//!
//! let mut builder = NodeBuilder::new(header, Sizes::Fixed { key: 16, value: 8 }, description);
//! builder.entry(key(7, 10), 3_u64.to_le_bytes()).ghost(key(7, 14));
//! let node = builder.node(4096)?;
//!
//! // the number of entries, and where the keys begin: behind the header and 144 slots of 4 bytes
//! assert_eq!(node[36..40], [2, 0, 0, 0]);
//! assert_eq!(node[56 + 144 * 4..][..16], key(7, 10));
//! # Ok::<(), space_check::node::Unbuilt>(())
//! ```
//!
//! Nothing is asked of the entries but room: they may be in any order, and of other sizes than stated. Without the feature
//! `archive` there are the types of a request alone.

#[cfg(feature = "archive")]
mod builder;

pub use crate::names::Unbuilt;
#[cfg(feature = "archive")]
pub use builder::{build_into, NodeBuilder};

/// The sizes that a node can have, in bytes.
pub const SIZES: [usize; 5] = [4096, 8192, 16_384, 32_768, 65_536];

/// A value's length that stands for an entry without a value, a ghost. As a key's length it is a length.
pub const GHOST: u64 = u64::MAX;

/// What a node's headers say besides what follows from its entries.
#[derive(Clone, Copy, Debug, PartialEq, Eq)]
pub struct NodeHeader {
    /// The object id; of a node that is stored physically, its block address.
    pub oid: u64,
    /// The transaction number.
    pub xid: u64,
    /// The whole type, with its storage flags; its low 16 bits are the kind.
    pub obj_type: u32,
    /// The subtype.
    pub subtype: u32,
    /// 0 for a leaf.
    pub level: u16,
    /// Whether the tree's description ends the node.
    pub root: bool,
}

/// The sizes of keys and values.
#[derive(Clone, Copy, Debug, PartialEq, Eq)]
pub enum Sizes {
    /// All keys and all values of one size; an index node's values have 8 bytes, whatever is stated.
    Fixed {
        /// Of a key.
        key: u32,
        /// Of a value.
        value: u32,
    },
    /// Each of its own size.
    Variable,
}

/// A tree's description, which ends its root. Nothing in it is computed or tested: a root gets it as given.
#[derive(Clone, Copy, Debug, Default, PartialEq, Eq)]
pub struct Description {
    /// The tree's flags, of which [`Description::NONALIGNED`] changes how any node of the tree is laid out.
    pub flags: u32,
    /// The size of a node.
    pub node_size: u32,
    /// The size of a key, or 0 where they differ.
    pub key_size: u32,
    /// The size of a value in a leaf, or 0 where they differ.
    pub val_size: u32,
    /// The length of the longest key in the tree.
    pub longest_key: u32,
    /// The length of the longest value in the tree.
    pub longest_val: u32,
    /// How many entries the tree's leaves have.
    pub key_count: u64,
    /// How many nodes the tree has.
    pub node_count: u64,
}

impl Description {
    /// So many bytes has a description on the disk.
    pub const LENGTH: usize = 40;

    /// The flag that keys and values are not padded to multiples of 8 bytes.
    pub const NONALIGNED: u32 = 0x40;

    /// The description as on the disk.
    ///
    /// ```
    /// use space_check::node::Description;
    /// let description = Description { flags: Description::NONALIGNED, key_count: 0x0102, ..Description::default() };
    /// let bytes = description.to_bytes();
    /// assert_eq!((bytes[0], &bytes[24..26]), (0x40, &[2, 1][..]));
    /// ```
    pub fn to_bytes(&self) -> [u8; Description::LENGTH] {
        let narrow = [self.flags, self.node_size, self.key_size, self.val_size, self.longest_key, self.longest_val];
        let wide = [self.key_count, self.node_count];
        let fields = narrow.iter().flat_map(|field| field.to_le_bytes());
        let mut bytes = [0; Description::LENGTH];
        for (byte, field) in bytes.iter_mut().zip(fields.chain(wide.iter().flat_map(|field| field.to_le_bytes()))) {
            *byte = field;
        }
        bytes
    }
}
