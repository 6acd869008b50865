//! Where the fields of each structure stand: every offset of the layout, named once.

/// A little-endian number of `width` bytes at byte `at` of its structure.
#[derive(Clone, Copy, Debug, PartialEq, Eq)]
pub struct Field {
    pub name: &'static str,
    pub at: usize,
    pub width: usize,
}

impl Field {
    /// The field's number; its structure is known to hold it.
    pub fn of(self, bytes: &[u8]) -> u64 {
        number(bytes, self.at, self.width).expect("a field of a whole structure")
    }

    pub fn set(self, bytes: &mut [u8], value: u64) {
        put(bytes, self.at, self.width, value);
    }

    /// The same field of the structure that stands `bytes` further on.
    pub fn shifted(self, bytes: usize) -> Field {
        Field { at: self.at + bytes, ..self }
    }
}

/// The number of `width` bytes at `at`, where it lies wholly inside.
pub fn number(bytes: &[u8], at: usize, width: usize) -> Option<u64> {
    let part = bytes.get(at..at.checked_add(width)?)?;
    Some(part.iter().rev().fold(0, |n, &b| n << 8 | u64::from(b)))
}

pub fn put(bytes: &mut [u8], at: usize, width: usize, value: u64) {
    bytes[at..at + width].copy_from_slice(&value.to_le_bytes()[..width]);
}

/// Puts numbers of `width` bytes one after the other, from byte `at` on.
pub fn put_list(bytes: &mut [u8], at: usize, width: usize, values: impl IntoIterator<Item = u64>) {
    values.into_iter().enumerate().for_each(|(i, value)| put(bytes, at + i * width, width, value));
}

macro_rules! fields {
    ($($constant:ident $name:literal $at:literal $width:literal;)*) => {
        $(pub const $constant: Field = Field { name: $name, at: $at, width: $width };)*
        pub const ALL: &[Field] = &[$($constant),*];
    };
}

/// The header of every object.
pub mod object {
    use super::Field;
    pub const CHECKSUM: Field = Field { name: "checksum", at: 0, width: 8 };
    pub const ID: Field = Field { name: "id", at: 8, width: 8 };
    pub const XID: Field = Field { name: "xid", at: 16, width: 8 };
    pub const TYPE: Field = Field { name: "type", at: 24, width: 4 };
    pub const SUBTYPE: Field = Field { name: "subtype", at: 28, width: 4 };
    /// The kind is the type's low half.
    pub const KIND: Field = Field { name: "kind", at: 24, width: 2 };
    pub const HEADER: usize = 32;

    pub const SUPERBLOCK: u64 = 1;
    pub const ROOT_NODE: u64 = 2;
    pub const NODE: u64 = 3;
    pub const MANAGER: u64 = 5;
    pub const ADDRESS_BLOCK: u64 = 6;
    pub const CHUNK_INFO: u64 = 7;
    pub const FREE_QUEUE: u64 = 9;
    pub const OBJECT_MAP: u64 = 11;
    pub const CHECKPOINT_MAP: u64 = 12;
    pub const VOLUME: u64 = 13;
    pub const EXTENT_TREE: u64 = 15;
    pub const SNAPSHOT_TREE: u64 = 16;

    /// Stored beside the kind in a type: an ephemeral and a physical object.
    pub const EPHEMERAL: u64 = 0x8000_0000;
    pub const PHYSICAL: u64 = 0x4000_0000;
}

/// The container superblock.
pub mod superblock {
    use super::Field;
    fields! {
        MAGIC "magic" 32 4;
        BLOCK_SIZE "block size" 36 4;
        BLOCK_COUNT "block count" 40 8;
        INCOMPATIBLE "incompatible features" 64 8;
        DESCRIPTOR_BLOCKS "descriptor blocks" 104 4;
        DATA_BLOCKS "data blocks" 108 4;
        DESCRIPTOR_BASE "descriptor base" 112 8;
        DATA_BASE "data base" 120 8;
        DESCRIPTOR_INDEX "descriptor index" 136 4;
        DESCRIPTOR_LENGTH "descriptor length" 140 4;
        MANAGER_ID "manager id" 152 8;
        OBJECT_MAP "object map" 160 8;
        VOLUMES "volume places" 180 4;
    }
    /// The bytes NXSB.
    pub const NXSB: u64 = 0x4253_584e;
    /// Features that the check refuses: version 1 and fusion.
    pub const REFUSED_FEATURES: u64 = 0x101;
    /// So many places for volume ids count at most; one that holds 0 has no volume.
    pub const MOST_VOLUMES: u64 = 100;

    /// The volume id in place `i`.
    pub fn volume_id(i: usize) -> Field {
        Field { name: "volume id", at: 184 + i * 8, width: 8 }
    }
}

/// A block of the checkpoint map.
pub mod checkpoint_map {
    use super::Field;
    fields! {
        FLAGS "flags" 32 4;
        COUNT "count" 36 4;
    }
    pub const LAST: u64 = 1;
    pub const ENTRIES: usize = 40;
    pub const ENTRY: usize = 40;
}

/// An entry of the checkpoint map, from its own first byte.
pub mod mapping {
    use super::Field;
    fields! {
        TYPE "type" 0 4;
        SIZE "size" 8 4;
        ID "id" 24 8;
        ADDRESS "address" 32 8;
    }
}

/// The space manager.
pub mod manager {
    use super::Field;
    fields! {
        CHUNK_INFO_COUNT "chunk-info count" 64 4;
        ADDRESS_BLOCKS "address blocks" 68 4;
        FREE_COUNT "free count" 72 8;
        LISTED_OFFSET "list offset" 80 4;
        POOL_COUNT "pool count" 152 8;
        BITMAP_SLOTS "bitmap slots" 160 4;
        BITMAP_RING "bitmap ring" 164 4;
        BITMAP_BASE "bitmap base" 168 8;
        POOL_BASE "pool base" 176 8;
        POOL_QUEUE "pool queue" 208 8;
        MAIN_QUEUE "main queue" 248 8;
        FREE_HEAD "free head" 320 2;
        FREE_TAIL "free tail" 322 2;
        INDEX_OFFSET "index offset" 328 4;
        FREE_NEXT_OFFSET "free-next offset" 332 4;
    }
    /// The bytes that hold all its fields.
    pub const LENGTH: usize = 344;
    pub const INDEX_WIDTH: usize = 2;
    pub const ADDRESS_WIDTH: usize = 8;
    /// The second device's fields, which a pass doesn't read.
    pub const SPARE: std::ops::Range<usize> = 96..144;
    /// Stands for no index: the head and the tail of an empty free list.
    pub const NO_INDEX: u64 = 0xffff;
    /// What the members of its lists are called.
    pub const INDEX: &str = "bitmap index";
    pub const FREE_NEXT: &str = "free-next index";
    /// Of a chunk-info block, or of an address block where there are any.
    pub const LISTED_ADDRESS: &str = "listed address";
}

/// An address block: a list of chunk-info blocks.
pub mod address_block {
    use super::Field;
    fields! {
        INDEX "index" 32 4;
        COUNT "count" 36 4;
    }
    pub const ADDRESSES: usize = 40;
    pub const ADDRESS_WIDTH: usize = 8;

    /// So many addresses fit a block.
    pub const fn room(block_size: usize) -> usize {
        (block_size - ADDRESSES) / ADDRESS_WIDTH
    }

    /// The address of its chunk-info block `i`.
    pub fn address(i: usize) -> Field {
        Field { name: "chunk-info address", at: ADDRESSES + i * ADDRESS_WIDTH, width: ADDRESS_WIDTH }
    }
}

/// A chunk-info block.
pub mod chunk_info {
    use super::Field;
    fields! {
        COUNT "count" 36 4;
    }
    pub const RECORDS: usize = 40;
    pub const RECORD: usize = 32;
}

/// A chunk record, from its own first byte.
pub mod chunk {
    use super::Field;
    fields! {
        ADDRESS "address" 8 8;
        BLOCKS "blocks" 16 4;
        FREE "free" 20 4;
        BITMAP "bitmap" 24 8;
    }
    /// Both counts keep their low 20 bits.
    pub const COUNT_MASK: u64 = 0xf_ffff;
}

/// The object map.
pub mod object_map {
    use super::Field;
    fields! {
        TREE_TYPE "tree type" 40 4;
        ROOT "root" 48 8;
    }
    /// The storage type is the tree type's top two bits; 1 is physical.
    pub const STORAGE_SHIFT: u32 = 30;
    pub const PHYSICAL: u64 = 1;
}

/// A volume's superblock.
pub mod volume {
    use super::Field;
    fields! {
        MAGIC "magic" 32 4;
        OBJECT_MAP "object map" 128 8;
        EXTENT_TREE "extent-reference tree" 144 8;
        SNAPSHOT_TREE "snapshot tree" 152 8;
    }
    /// The bytes APSB.
    pub const APSB: u64 = 0x4253_5041;
}

/// A tree node.
pub mod node {
    use super::Field;
    fields! {
        FLAGS "flags" 32 2;
        LEVEL "level" 34 2;
        KEYS "keys" 36 4;
        TABLE_OFFSET "table offset" 40 2;
        TABLE_LENGTH "table length" 42 2;
    }
    pub const ROOT: u64 = 1;
    pub const LEAF: u64 = 2;
    pub const FIXED: u64 = 4;
    pub const HASHED: u64 = 8;
    /// The table's offset counts from here.
    pub const DATA: usize = 56;
    pub const HIGHEST_LEVEL: u64 = 32;
    /// The value offset of an entry without value.
    pub const GHOST: u64 = 0xffff;
    pub const POINTER: usize = 8;
}

/// A table slot of a node with fixed sizes.
pub mod fixed_slot {
    use super::Field;
    fields! {
        KEY "key offset" 0 2;
        VALUE "value offset" 2 2;
    }
    pub const LENGTH: usize = 4;
}

/// A table slot of a node with variable sizes.
pub mod variable_slot {
    use super::Field;
    fields! {
        KEY "key offset" 0 2;
        KEY_LENGTH "key length" 2 2;
        VALUE "value offset" 4 2;
        VALUE_LENGTH "value length" 6 2;
    }
    pub const LENGTH: usize = 8;
}

/// The tree description, the last bytes of a root.
pub mod description {
    use super::Field;
    fields! {
        FLAGS "description flags" 0 4;
        KEY_SIZE "key size" 8 4;
        VALUE_SIZE "value size" 12 4;
    }
    pub const LENGTH: usize = 40;
    /// A pass reads no more of it.
    pub const USED: usize = 16;
    pub const PHYSICAL: u64 = 0x10;
}

/// Keys and values of a free queue.
pub mod queue {
    use super::Field;
    pub const ADDRESS: Field = Field { name: "queued address", at: 8, width: 8 };
    pub const COUNT: Field = Field { name: "queued count", at: 0, width: 8 };
    pub const KEY: usize = 16;
    pub const VALUE: usize = 8;
}

/// Keys and values of the object map's tree.
pub mod mapped {
    use super::Field;
    pub const ID: Field = Field { name: "mapped id", at: 0, width: 8 };
    pub const XID: Field = Field { name: "mapped xid", at: 8, width: 8 };
    pub const FLAGS: Field = Field { name: "mapped flags", at: 0, width: 4 };
    pub const ADDRESS: Field = Field { name: "mapped address", at: 8, width: 8 };
    pub const SIZE: usize = 16;
    /// The flag of a deleted mapping, which holds no block; other flags mean nothing here.
    pub const DELETED: u64 = 1;
    pub const OTHERS: u64 = 0xffff_fffe;
}

#[cfg(test)]
mod tests {
    use super::*;

    #[test]
    fn a_field_lies_wholly_inside() {
        let bytes = [1, 2, 3, 4, 5, 6, 7, 8];
        assert_eq!(number(&bytes, 6, 2), Some(0x0807));
        assert_eq!(number(&bytes, 7, 2), None);
        assert_eq!(number(&bytes, usize::MAX, 2), None);
    }
}
