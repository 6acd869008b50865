//! Calls of the archive's `build_node`.

use super::{Description, NodeHeader, Sizes, Unbuilt, GHOST, SIZES};

extern "C" {
    fn build_node(
        node: *mut u8,
        node_length: usize,
        oid: u64,
        xid: u64,
        obj_type: u32,
        subtype: u32,
        level: u16,
        root: bool,
        fixed: bool,
        key_size: u32,
        val_size: u32,
        info: *const u8,
        info_length: usize,
        data: *const u8,
        data_length: usize,
        lengths: *const u64,
        lengths_length: usize,
    ) -> u32;
}

/// The call as C has it: 0 where the node is built, else the number of an [`Unbuilt`], and the node is as it was.
///
/// `info` begins with the description as on the disk, `data` has each entry's key and value one behind the other, and
/// `lengths` two numbers for each entry, its key's length and its value's, or [`GHOST`].
///
/// ```
/// use space_check::node::{build_into, NodeHeader, Sizes, Unbuilt, GHOST};
/// let header = NodeHeader { oid: 9, xid: 7, obj_type: 0x4000_0003, subtype: 11, level: 0, root: false };
/// let mut node = vec![0xff; 4096];
/// let mut build = |lengths: &[u64]| build_into(&mut node, &header, Sizes::Variable, &[0; 40], b"keyvalue", lengths);
/// // a length without its pair, and lengths of 9 bytes where there are 8
/// assert_eq!(build(&[3]), Unbuilt::OutsideBytes.number() as u32);
/// assert_eq!(build(&[3, 6]), Unbuilt::OutsideBytes.number() as u32);
/// assert_eq!(build(&[3, 5]), 0);
/// assert_eq!(build(&[3, GHOST]), 0);
/// ```
pub fn build_into(
    node: &mut [u8],
    header: &NodeHeader,
    sizes: Sizes,
    info: &[u8],
    data: &[u8],
    lengths: &[u64],
) -> u32 {
    let (fixed, key_size, val_size) = match sizes {
        Sizes::Fixed { key, value } => (true, key, value),
        Sizes::Variable => (false, 0, 0),
    };
    // SAFETY: each buffer is lent whole for the call, and the borrows keep the node apart from the others.
    unsafe {
        build_node(
            node.as_mut_ptr(),
            node.len(),
            header.oid,
            header.xid,
            header.obj_type,
            header.subtype,
            header.level,
            header.root,
            fixed,
            key_size,
            val_size,
            info.as_ptr(),
            info.len(),
            data.as_ptr(),
            data.len(),
            lengths.as_ptr(),
            lengths.len(),
        )
    }
}

/// A node under way: its headers, the tree's description, and the entries so far.
///
/// It may be built more than once, and be given more entries in between.
#[derive(Clone, Debug, PartialEq, Eq)]
pub struct NodeBuilder {
    header: NodeHeader,
    sizes: Sizes,
    description: Description,
    data: Vec<u8>,
    lengths: Vec<u64>,
}

impl NodeBuilder {
    /// A node without entries.
    ///
    /// The description is written only into a root; its flag [`Description::NONALIGNED`] holds for any node.
    pub fn new(header: NodeHeader, sizes: Sizes, description: Description) -> NodeBuilder {
        NodeBuilder { header, sizes, description, data: Vec::new(), lengths: Vec::new() }
    }

    /// Adds an entry behind those so far; in an index node its value is the child's address or id.
    pub fn entry(&mut self, key: impl AsRef<[u8]>, value: impl AsRef<[u8]>) -> &mut NodeBuilder {
        let (key, value) = (key.as_ref(), value.as_ref());
        self.data.extend_from_slice(key);
        self.data.extend_from_slice(value);
        self.lengths.extend([key.len() as u64, value.len() as u64]);
        self
    }

    /// Adds an entry without a value, which is another than one whose value has no bytes.
    pub fn ghost(&mut self, key: impl AsRef<[u8]>) -> &mut NodeBuilder {
        let key = key.as_ref();
        self.data.extend_from_slice(key);
        self.lengths.extend([key.len() as u64, GHOST]);
        self
    }

    /// Builds into a lent node, whose length is the node's size; nothing that lay there is left. Where there is no room
    /// ([`Unbuilt::NoRoom`]) the node is as it was.
    pub fn build(&self, node: &mut [u8]) -> Result<(), Unbuilt> {
        let info = self.description.to_bytes();
        match build_into(node, &self.header, self.sizes, &info, &self.data, &self.lengths) {
            0 => Ok(()),
            number => Err(Unbuilt::from_number(number.into()).expect("a number that build_node gives")),
        }
    }

    /// Builds a node of a size, one of [`SIZES`].
    pub fn node(&self, size: usize) -> Result<Vec<u8>, Unbuilt> {
        // asked here too, so that a wrong size takes no memory
        if !SIZES.contains(&size) {
            return Err(Unbuilt::NoRoom);
        }
        let mut node = vec![0; size];
        self.build(&mut node).map(|()| node)
    }
}
