//! Bitmaps, and the chunks that they describe.

use compare::fields::{chunk, chunk_info, object};
use compare::rng::Rng;

use super::{Form, BLOCK, XID};

/// A chunk has as many blocks as its bitmap block has bits.
const CHUNK: u64 = 8 * BLOCK as u64;
/// So many chunk records fit a chunk-info block.
pub const RECORDS: usize = (BLOCK - chunk_info::RECORDS) / chunk_info::RECORD;

/// Bits over whole blocks.
pub struct Bits {
    pub bytes: Vec<u8>,
}

impl Bits {
    pub fn new(bits: u64) -> Self {
        Bits { bytes: vec![0; Bits::blocks(bits) as usize * BLOCK] }
    }

    /// So many blocks hold `bits`.
    pub fn blocks(bits: u64) -> u64 {
        bits.div_ceil(CHUNK)
    }

    pub fn set(&mut self, start: u64, count: u64) {
        for bit in start..start + count {
            self.bytes[(bit / 8) as usize] |= 1 << (bit % 8);
        }
    }
}

/// All chunks of a container, and which of their blocks are marked.
pub struct Chunks {
    pub bits: Bits,
    /// For each chunk whether nothing is to be claimed there.
    empty: Vec<bool>,
    bitmap_every: u64,
}

impl Chunks {
    /// Of the chunks with a bitmap a third is full, a third empty, a third random.
    pub fn choose(form: &Form, rng: &mut Rng) -> Self {
        let mut bits = Bits::new(form.blocks);
        let mut empty = vec![true; form.chunks() as usize];
        let chunks = bits.bytes.chunks_mut(BLOCK).zip(&mut empty);
        for (bitmap, empty) in chunks.step_by(form.bitmap_every as usize) {
            let kind = rng.below(3);
            match kind {
                0 => {}
                1 => bitmap.fill(0xff),
                _ => bitmap.chunks_mut(8).for_each(|word| word.copy_from_slice(&rng.number().to_le_bytes())),
            }
            *empty = kind == 0;
        }
        Chunks { bits, empty, bitmap_every: form.bitmap_every }
    }

    /// Starts of all slots of `size` blocks after block `from` that lie in chunks not empty.
    pub fn dense_slots(&self, from: u64, size: u64) -> Vec<u64> {
        let all = (from.next_multiple_of(size)..self.empty.len() as u64 * CHUNK).step_by(size as usize);
        all.filter(|slot| !self.empty[(slot / CHUNK) as usize]).collect()
    }

    pub fn bitmaps(&self) -> impl Iterator<Item = &[u8]> {
        self.bits.bytes.chunks(BLOCK).step_by(self.bitmap_every as usize)
    }

    pub fn free(&self) -> u64 {
        zeros(&self.bits.bytes)
    }

    /// The chunk-info blocks, where the bitmaps stand from block `first` on.
    pub fn info_blocks(&self, first: u64) -> Vec<Vec<u8>> {
        let chunks: Vec<(u64, &[u8])> = (0..).zip(self.bits.bytes.chunks(BLOCK)).collect();
        chunks.chunks(RECORDS).map(|listed| self.info_block(listed, first)).collect()
    }

    /// The records of chunks, each with its number and its bits.
    fn info_block(&self, chunks: &[(u64, &[u8])], first: u64) -> Vec<u8> {
        let mut block = physical(object::CHUNK_INFO);
        chunk_info::COUNT.set(&mut block, chunks.len() as u64);
        for (at, &(number, bits)) in (chunk_info::RECORDS..).step_by(chunk_info::RECORD).zip(chunks) {
            let (free, has_bitmap) = (zeros(bits), number.is_multiple_of(self.bitmap_every));
            assert!(has_bitmap || free == CHUNK, "chunk {number} has marked blocks and no bitmap");
            chunk::ADDRESS.shifted(at).set(&mut block, number * CHUNK);
            chunk::BLOCKS.shifted(at).set(&mut block, CHUNK);
            chunk::FREE.shifted(at).set(&mut block, free);
            chunk::BITMAP.shifted(at).set(&mut block, if has_bitmap { first + number / self.bitmap_every } else { 0 });
        }
        block
    }
}

/// A block with the header of a physical object.
pub fn physical(kind: u64) -> Vec<u8> {
    let mut block = vec![0; BLOCK];
    object::XID.set(&mut block, XID);
    object::TYPE.set(&mut block, kind | object::PHYSICAL);
    block
}

fn zeros(bitmap: &[u8]) -> u64 {
    bitmap.iter().map(|byte| u64::from(byte.count_zeros())).sum()
}
