//! A request for a node: what `build_node` is called with.

pub use space_check::node::GHOST;
use space_check::node::{NodeHeader, Sizes};

#[derive(Clone, Debug, PartialEq, Eq)]
pub struct Request {
    /// Of the lent node, which is the node's size.
    pub node_length: usize,
    pub header: NodeHeader,
    pub sizes: Sizes,
    /// The tree's description as on the disk.
    pub info: Vec<u8>,
    /// A key's bytes, its value's, the next key's, ...
    pub data: Vec<u8>,
    /// A key's length, its value's, the next key's, ...
    pub lengths: Vec<u64>,
}

/// One entry: a key, and a value unless it is a ghost.
#[derive(Clone, Copy, Debug, PartialEq, Eq)]
pub struct Entry<'a> {
    pub key: &'a [u8],
    pub value: Option<&'a [u8]>,
}

impl Request {
    pub fn is_leaf(&self) -> bool {
        self.header.level == 0
    }

    pub fn is_fixed(&self) -> bool {
        self.sizes != Sizes::Variable
    }

    /// The type without its storage flags.
    pub fn kind(&self) -> u32 {
        self.header.obj_type & 0xffff
    }

    /// The bytes that the lengths ask for, in whole numbers; the last length needn't have its value's beside it.
    pub fn asked(&self) -> u128 {
        self.lengths.chunks(2).map(|pair| bytes(pair[0]) + pair.get(1).map_or(0, |&v| value_bytes(v))).sum()
    }
}

fn bytes(length: u64) -> u128 {
    u128::from(length)
}

fn value_bytes(length: u64) -> u128 {
    if length == GHOST {
        0
    } else {
        bytes(length)
    }
}
