//! Queues blocks of the 16-block sample container for release, in a root that is built to order, and prints what the check says
//! of it without and with the queue. The queued blocks are marked as free, which no queue may hold:
//!
//!     cargo run --manifest-path interface/rust/Cargo.toml --example queue -- crates/listing/stdin

use std::error::Error;

use space_check::node::{Description, NodeBuilder, NodeHeader, Sizes};
use space_check::Kind;

const BLOCK: usize = 4096;

// The sample's checkpoint map and space manager, and a block of its data area that is left.
const MAP: usize = 1;
const MANAGER: usize = 3;
const QUEUE: usize = 4;

/// The queue's id, its type, an ephemeral root node's, and its subtype.
const QUEUE_ID: u64 = 0x401;
const QUEUE_TYPE: u32 = 0x8000_0002;
const FREE_QUEUE: u32 = 9;
/// The checkpoint's transaction number.
const XID: u64 = 7;

/// Where the checkpoint map has its count and its second entry, and where the manager has the main queue's id.
const MAP_COUNT: usize = 36;
const SECOND_ENTRY: usize = 80;
const MAIN_QUEUE: usize = 248;

fn main() -> Result<(), Box<dyn Error>> {
    let path = std::env::args().nth(1).ok_or("usage: queue IMAGE")?;
    let mut image = std::fs::read(&path)?;
    if image.len() != 16 * BLOCK {
        return Err(format!("{path}: not the sample of 16 blocks").into());
    }
    tell("without the queue", &image)?;
    queue_root().build(block(&mut image, QUEUE))?;
    map_queue(block(&mut image, MAP));
    name_queue(block(&mut image, MANAGER));
    tell("with the queue", &image)
}

/// Blocks 10 to 12 in one entry, and block 14, one block alone, as a ghost.
fn queue_root() -> NodeBuilder {
    let header =
        NodeHeader { oid: QUEUE_ID, xid: XID, obj_type: QUEUE_TYPE, subtype: FREE_QUEUE, level: 0, root: true };
    let description = Description {
        node_size: BLOCK as u32,
        key_size: 16,
        val_size: 8,
        longest_key: 16,
        longest_val: 8,
        key_count: 2,
        node_count: 1,
        ..Description::default()
    };
    let key = |address: u64| [XID.to_le_bytes(), address.to_le_bytes()].concat();
    let mut builder = NodeBuilder::new(header, Sizes::Fixed { key: 16, value: 8 }, description);
    builder.entry(key(10), 3_u64.to_le_bytes()).ghost(key(14));
    builder
}

/// The checkpoint map gets a second entry: the queue's root.
fn map_queue(map: &mut [u8]) {
    put(map, MAP_COUNT, &2_u32.to_le_bytes());
    let entry = &mut map[SECOND_ENTRY..];
    put(entry, 0, &QUEUE_TYPE.to_le_bytes());
    put(entry, 4, &FREE_QUEUE.to_le_bytes());
    put(entry, 8, &(BLOCK as u32).to_le_bytes());
    put(entry, 24, &QUEUE_ID.to_le_bytes());
    put(entry, 32, &(QUEUE as u64).to_le_bytes());
    seal(map);
}

fn name_queue(manager: &mut [u8]) {
    put(manager, MAIN_QUEUE, &QUEUE_ID.to_le_bytes());
    seal(manager);
}

fn tell(what: &str, image: &[u8]) -> Result<(), Box<dyn Error>> {
    let report = space_check::check(image, &mut vec![0; space_check::blocks(image)])?;
    let lost = report.lost.iter().find(|lost| lost.kind == Kind::FreeQueue).ok_or("no free queue in the report")?;
    let first = lost.first.map_or(String::new(), |block| format!(", the first {block}"));
    println!("{what}: {}, {} queued blocks marked free{first}", report.verdict, lost.count);
    Ok(())
}

fn block(image: &mut [u8], address: usize) -> &mut [u8] {
    &mut image[address * BLOCK..][..BLOCK]
}

fn put(bytes: &mut [u8], at: usize, field: &[u8]) {
    bytes[at..at + field.len()].copy_from_slice(field);
}

/// Writes a block's checksum, Fletcher's of its words behind it.
fn seal(block: &mut [u8]) {
    const MODULUS: u64 = 0xffff_ffff;
    let words = block[8..].chunks_exact(4).map(|word| u32::from_le_bytes(word.try_into().expect("4 bytes")));
    let (first, second) = words.fold((0, 0), |(first, second), word| {
        let first = (first + u64::from(word)) % MODULUS;
        (first, (second + first) % MODULUS)
    });
    let low = MODULUS - (first + second) % MODULUS;
    let high = MODULUS - (low + first) % MODULUS;
    put(block, 0, &(high << 32 | low).to_le_bytes());
}
