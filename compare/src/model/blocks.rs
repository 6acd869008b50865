//! Blocks of an image, and the tests that reading one makes.

use space_check::Refusal;

use crate::fields::number;
use crate::fletcher::verifies;

/// A step of the pass: what it gives, or the refusal it meets.
pub type Step<T> = Result<T, Refusal>;

pub fn need(test: bool, refusal: Refusal) -> Step<()> {
    if test {
        Ok(())
    } else {
        Err(refusal)
    }
}

/// A sum that must stay below 2^64.
pub fn sum(a: u64, b: u64) -> Step<u64> {
    a.checked_add(b).ok_or(Refusal::Overflow)
}

/// A number that must lie wholly inside its bytes.
pub fn field(bytes: &[u8], at: usize, width: usize) -> Step<u64> {
    number(bytes, at, width).ok_or(Refusal::OutsideBytes)
}

/// A part that must lie wholly inside its bytes.
pub fn cut(bytes: &[u8], at: usize, length: usize) -> Step<&[u8]> {
    bytes.get(at..at + length).ok_or(Refusal::OutsideBytes)
}

/// The container's blocks; the image holds all of them.
#[derive(Clone, Copy)]
pub struct Blocks<'a> {
    pub image: &'a [u8],
    pub size: usize,
    pub count: u64,
}

impl<'a> Blocks<'a> {
    /// A block as it is.
    pub fn raw(&self, address: u64) -> Step<&'a [u8]> {
        need(address < self.count, Refusal::PastContainer)?;
        let at = address as usize * self.size;
        Ok(&self.image[at..at + self.size])
    }

    /// A block that must verify, and that can't be block 0.
    pub fn object(&self, address: u64) -> Step<&'a [u8]> {
        need(address != 0, Refusal::PastContainer)?;
        let bytes = self.raw(address)?;
        need(verifies(bytes), Refusal::BadChecksum)?;
        Ok(bytes)
    }
}

/// Bit `i` of a bitmap, lowest bit first.
pub fn bit(bitmap: &[u8], i: u64) -> bool {
    bitmap[(i / 8) as usize] >> (i % 8) & 1 == 1
}
