//! Fletcher-64 over an object's 32-bit words.

use crate::fields::{number, object, put};

const MODULUS: u64 = 0xffff_ffff;
/// So many words can be added before the sums have to be reduced.
const RUN: usize = 1024;
const WORD: usize = 4;
/// The checksum's own bytes, which the sums leave out.
const STORED: usize = 8;

/// The sum of the words so far and the sum of the running sums.
#[derive(Clone, Copy, Default)]
pub struct Sums {
    sum: u64,
    running: u64,
}

impl Sums {
    /// Adds words; `bytes` holds whole ones.
    pub fn add(&mut self, bytes: &[u8]) {
        for run in bytes.chunks(RUN * WORD) {
            for word in run.chunks_exact(WORD) {
                self.sum += u64::from(u32::from_le_bytes([word[0], word[1], word[2], word[3]]));
                self.running += self.sum;
            }
            self.sum %= MODULUS;
            self.running %= MODULUS;
        }
    }

    pub fn checksum(self) -> u64 {
        let low = MODULUS - (self.sum + self.running) % MODULUS;
        let high = MODULUS - (self.sum + low) % MODULUS;
        high << 32 | low
    }
}

/// An object of one piece verifies.
pub fn verifies(bytes: &[u8]) -> bool {
    verifies_in_parts(&[bytes], bytes.len())
}

/// An object of `length` bytes verifies that stands in parts of whole words, its end not necessarily a part's end.
pub fn verifies_in_parts(parts: &[&[u8]], length: usize) -> bool {
    if length < object::HEADER || !length.is_multiple_of(WORD) {
        return false;
    }
    let mut sums = Sums::default();
    let mut left = length;
    for (i, part) in parts.iter().enumerate() {
        let here = part.len().min(left);
        sums.add(&part[if i == 0 { STORED } else { 0 }..here]);
        left -= here;
    }
    number(parts[0], object::CHECKSUM.at, object::CHECKSUM.width) == Some(sums.checksum())
}

/// Stores the checksum that makes the object verify.
pub fn seal(bytes: &mut [u8]) {
    let mut sums = Sums::default();
    sums.add(&bytes[STORED..]);
    put(bytes, object::CHECKSUM.at, object::CHECKSUM.width, sums.checksum());
}

#[cfg(test)]
mod tests {
    use super::*;

    #[test]
    fn thirty_two_zeros_want_eight_ff() {
        let mut bytes = [0; 32];
        assert!(!verifies(&bytes));
        bytes[..8].fill(0xff);
        assert!(verifies(&bytes));
        assert!(!verifies(&bytes[..28]));
    }

    #[test]
    fn parts_verify_as_the_whole_does() {
        let mut bytes: Vec<u8> = (0..6000u32).map(|i| (i * 7 % 251) as u8).collect();
        seal(&mut bytes);
        assert!(verifies(&bytes));
        assert!(verifies_in_parts(&[&bytes[..4096], &bytes[4096..]], 6000));
        bytes.extend([9; 8]);
        assert!(verifies_in_parts(&[&bytes[..4096], &bytes[4096..]], 6000));
        assert!(!verifies_in_parts(&[&bytes[..4096], &bytes[4096..]], 6004));
    }
}
