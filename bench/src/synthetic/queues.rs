//! The two free queues, and the pool's bitmap.

use std::io;

use compare::fields::{object, queue};
use compare::nodes::{bytes_of, Entry, Sizes};
use compare::rng::Rng;

use super::bitmaps::Bits;
use super::trees::Tree;
use super::{Build, BLOCK, QUEUE_ID, XID};

/// A queued run has a slot of its own, so that no two overlap; in the main queue it begins anywhere in the first half.
pub const POOL_SLOT: u64 = 8;
pub const MAIN_SLOT: u64 = 16;
/// Counts of queued runs; a ghost has none, and counts 1.
const COUNTS: [Option<u64>; 6] = [None, Some(1), Some(2), Some(3), Some(5), Some(8)];
/// So many transactions have queued.
const XIDS: u64 = 50;

/// A queued run in the order of its key: transaction, first block, count.
type Run = (u64, u64, Option<u64>);

impl Build<'_> {
    /// The main queue, with a run in each slot.
    pub fn main_queue(&mut self, slots: &[u64], marked: &mut Bits) -> io::Result<()> {
        let mut runs = Vec::new();
        for slot in slots {
            let run = run(slot + self.rng.below(MAIN_SLOT / 2 + 1), &mut self.rng);
            marked.set(run.1, run.2.unwrap_or(1));
            runs.push(run);
        }
        self.queue(runs, self.form.queue_nodes())
    }

    /// The pool's queue, with a run in each slot behind the pool's own blocks, and the bitmap that marks both.
    pub fn pool(&mut self) -> io::Result<()> {
        let own = self.form.own_blocks();
        let mut marked = Bits::new(self.form.pool_blocks());
        marked.set(0, own);
        let mut runs = Vec::new();
        for slot in (own..self.form.pool_blocks()).step_by(POOL_SLOT as usize) {
            let run = run(self.places.pool + slot, &mut self.rng);
            marked.set(slot, run.2.unwrap_or(1));
            runs.push(run);
        }
        self.queue(runs, 0)?;
        for (i, part) in (0..).zip(marked.bytes.chunks(BLOCK)) {
            self.put(self.places.bitmap_ring + ring_index(i), part)?;
        }
        Ok(())
    }

    /// A queue's tree, its nodes from place `first` of the queues' on.
    fn queue(&mut self, mut runs: Vec<Run>, first: u64) -> io::Result<()> {
        runs.sort_unstable();
        let entries = runs.into_iter().map(entry).collect();
        let sizes = Some(Sizes { key: queue::KEY, value: queue::VALUE });
        let tree = Tree::of(entries, sizes, object::FREE_QUEUE, QUEUE_ID + first..);
        self.tree(&tree, self.places.queues + first..)
    }
}

fn entry((xid, start, count): Run) -> Entry {
    (bytes_of(&[xid, start]), count.map(|count| bytes_of(&[count])))
}

/// The pool's bitmap stands in every second block of its ring.
pub fn ring_index(i: u64) -> u64 {
    2 * i
}

fn run(start: u64, rng: &mut Rng) -> Run {
    (XID - 1 - rng.below(XIDS), start, *rng.pick(&COUNTS))
}
