//! The objects that a pass reads, by what they are for.

/// What an object is for.
#[derive(Clone, Copy, Debug, PartialEq, Eq, PartialOrd, Ord)]
pub enum Role {
    BlockZero,
    Superblock,
    CheckpointMap,
    Manager,
    PoolBitmap,
    AddressBlock,
    ChunkInfo,
    ChunkBitmap,
    ObjectMap,
    ObjectMapNode,
    PoolQueueNode,
    MainQueueNode,
    Volume,
    VolumeMap,
    VolumeMapNode,
    ExtentNode,
    SnapshotNode,
}

impl Role {
    pub const ALL: [Role; 17] = [
        Role::BlockZero,
        Role::Superblock,
        Role::CheckpointMap,
        Role::Manager,
        Role::PoolBitmap,
        Role::AddressBlock,
        Role::ChunkInfo,
        Role::ChunkBitmap,
        Role::ObjectMap,
        Role::ObjectMapNode,
        Role::PoolQueueNode,
        Role::MainQueueNode,
        Role::Volume,
        Role::VolumeMap,
        Role::VolumeMapNode,
        Role::ExtentNode,
        Role::SnapshotNode,
    ];

    /// The nodes of each tree.
    pub const NODES: [Role; 6] = [
        Role::ObjectMapNode,
        Role::PoolQueueNode,
        Role::MainQueueNode,
        Role::VolumeMapNode,
        Role::ExtentNode,
        Role::SnapshotNode,
    ];

    pub fn name(self) -> &'static str {
        match self {
            Role::BlockZero => "block 0",
            Role::Superblock => "superblock",
            Role::CheckpointMap => "checkpoint map",
            Role::Manager => "manager",
            Role::PoolBitmap => "pool bitmap",
            Role::AddressBlock => "address block",
            Role::ChunkInfo => "chunk-info block",
            Role::ChunkBitmap => "chunk bitmap",
            Role::ObjectMap => "object map",
            Role::ObjectMapNode => "object map node",
            Role::PoolQueueNode => "pool queue node",
            Role::MainQueueNode => "main queue node",
            Role::Volume => "volume superblock",
            Role::VolumeMap => "volume's object map",
            Role::VolumeMapNode => "volume's map node",
            Role::ExtentNode => "extent-reference tree node",
            Role::SnapshotNode => "snapshot tree node",
        }
    }

    /// The object's checksum is tested, if only by the opening of a volume.
    pub fn sealed(self) -> bool {
        use Role::{AddressBlock, BlockZero, ChunkBitmap, ChunkInfo, PoolBitmap};
        !matches!(self, BlockZero | PoolBitmap | AddressBlock | ChunkInfo | ChunkBitmap)
    }
}
