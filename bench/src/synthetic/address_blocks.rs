//! Address blocks, which list the chunk-info blocks of a container that has too many for its manager's own list.

use std::ops::Range;

use compare::fields::{address_block as a, object, put_list};

use super::bitmaps::physical;
use super::manager::ADDRESS_ROOM;
use super::BLOCK;

/// So many addresses fit a block.
const ADDRESSES: u64 = a::room(BLOCK) as u64;

/// So many address blocks stand above `infos` chunk-info blocks.
pub fn count(infos: u64) -> u64 {
    if infos > ADDRESS_ROOM {
        infos.div_ceil(ADDRESSES)
    } else {
        0
    }
}

/// Those that list the chunk-info blocks.
pub fn blocks(infos: Range<u64>) -> impl Iterator<Item = Vec<u8>> {
    (0..count(infos.end - infos.start)).map(move |i| {
        let first = infos.start + i * ADDRESSES;
        let listed = first..infos.end.min(first + ADDRESSES);
        let mut block = physical(object::ADDRESS_BLOCK);
        a::COUNT.set(&mut block, listed.end - listed.start);
        put_list(&mut block, a::ADDRESSES, a::ADDRESS_WIDTH, listed);
        block
    })
}
