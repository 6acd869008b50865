//! Makes the image of a disagreement smaller while it keeps disagreeing in the same way.

use std::io;

use crate::disagreement::Disagreement;
use crate::judge::{judge, Ask};
use crate::list::patches;
use crate::worker::Worker;

pub struct Shrinker<'a> {
    pub worker: &'a mut Worker,
    pub map_length: usize,
    /// The disagreement to keep.
    pub what: Disagreement,
}

impl Shrinker<'_> {
    fn stays(&mut self, image: &[u8]) -> io::Result<bool> {
        let found = judge(self.worker, image, self.map_length, Ask::WhereDue)?.disagreement;
        Ok(found.is_some_and(|found| found.is_like(&self.what)))
    }

    /// Undoes damage piece by piece, then clears blocks, then cuts the end.
    pub fn shrink(&mut self, image: &[u8], base: &[u8], block_size: usize) -> io::Result<Vec<u8>> {
        let mut image = self.undo(image.to_vec(), base)?;
        for block in (0..image.len()).step_by(block_size).rev() {
            let mut cleared = image.clone();
            let end = (block + block_size).min(image.len());
            cleared[block..end].fill(0);
            if cleared != image && self.stays(&cleared)? {
                image = cleared;
            }
        }
        while image.len() > block_size && self.stays(&image[..image.len() - block_size])? {
            image.truncate(image.len() - block_size);
        }
        Ok(image)
    }

    fn undo(&mut self, mut image: Vec<u8>, base: &[u8]) -> io::Result<Vec<u8>> {
        for (at, part) in patches(&image, base) {
            let mut undone = image.clone();
            let whole = (at..at + part.len()).map(|i| base.get(i).copied().unwrap_or(0));
            undone.splice(at..at + part.len(), whole);
            if self.stays(&undone)? {
                image = undone;
            }
        }
        Ok(image)
    }
}
