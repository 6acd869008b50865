//! Writes address blocks, the lists of chunk-info blocks that stand above these on large disks.

use crate::fields::{address_block, object};
use crate::rng::Rng;

/// Writes an address block that names `infos`. A pass doesn't read its header, nor what stands behind the list.
pub fn write(block: &mut [u8], infos: &[u64], rng: &mut Rng) {
    block.fill(0);
    object::TYPE.set(block, object::ADDRESS_BLOCK | object::PHYSICAL);
    if rng.chance(30) {
        let header = [object::CHECKSUM, object::XID, object::TYPE, address_block::INDEX];
        header.iter().for_each(|field| field.set(block, rng.number()));
    }
    address_block::COUNT.set(block, infos.len() as u64);
    let behind =
        if infos.len() < address_block::room(block.len()) && rng.chance(30) { Some(rng.number()) } else { None };
    for (i, &address) in infos.iter().chain(&behind).enumerate() {
        address_block::address(i).set(block, address);
    }
}
