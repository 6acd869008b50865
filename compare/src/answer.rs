//! What one run answers: a refusal, or a report.

use space_check::places::{self, OVERLAP_NUMBERS, PROBLEM_NUMBERS};
use space_check::{Kind, Refusal, FIGURES, LOGGED};

#[derive(Clone, Copy, Debug, Default, PartialEq, Eq)]
pub struct Problem {
    pub kind: u64,
    pub block: u64,
}

#[derive(Clone, Copy, Debug, Default, PartialEq, Eq)]
pub struct Overlap {
    pub block: u64,
    pub owner: u64,
    pub claimant: u64,
}

/// Blocks owned but unmarked, of one kind.
#[derive(Clone, Copy, Debug, Default, PartialEq, Eq)]
pub struct Lost {
    pub count: u64,
    pub first: u64,
}

/// Something for each kind, by the kinds' numbers from 1.
pub type ByKind<T> = [T; Kind::ALL.len()];

/// Kinds and problems are their numbers, 0 in places that nothing fills.
#[derive(Clone, Debug, Default, PartialEq, Eq)]
pub struct Report {
    pub xid: u64,
    pub pool_used: u64,
    pub pool_unused: u64,
    pub problems: u64,
    pub first_problems: [Problem; LOGGED],
    pub free: u64,
    pub wrong_chunks: u64,
    pub device_free: u64,
    /// Overlaps in which the kind came second.
    pub claimants: ByKind<u64>,
    pub first_overlaps: [Overlap; LOGGED],
    pub lost: ByKind<Lost>,
    pub leaked: u64,
    pub verdict: u64,
    /// Different indices on the list of the ring's unused blocks.
    pub free_ring: u64,
}

#[derive(Clone, Debug, PartialEq, Eq)]
pub enum Answer {
    Refused(Refusal),
    Reported(Box<Report>),
}

impl Report {
    /// Overlaps in all.
    pub fn overlaps(&self) -> u64 {
        self.claimants.iter().sum()
    }

    pub fn lost_blocks(&self) -> u64 {
        self.lost.iter().map(|l| l.count).sum()
    }

    fn numbers(&self) -> Vec<u64> {
        let mut numbers = vec![0; FIGURES];
        numbers[places::XID] = self.xid;
        numbers[places::POOL_USED] = self.pool_used;
        numbers[places::POOL_UNUSED] = self.pool_unused;
        numbers[places::PROBLEMS] = self.problems;
        for (at, p) in (places::PROBLEM..).step_by(PROBLEM_NUMBERS).zip(&self.first_problems) {
            numbers[at..][..PROBLEM_NUMBERS].copy_from_slice(&[p.kind, p.block]);
        }
        numbers[places::FREE] = self.free;
        numbers[places::WRONG_CHUNKS] = self.wrong_chunks;
        numbers[places::DEVICE_FREE] = self.device_free;
        numbers[places::OVERLAPS] = self.overlaps();
        for (at, o) in (places::OVERLAP..).step_by(OVERLAP_NUMBERS).zip(&self.first_overlaps) {
            numbers[at..][..OVERLAP_NUMBERS].copy_from_slice(&[o.block, o.owner, o.claimant]);
        }
        for (&kind, &count) in Kind::ALL.iter().zip(&self.claimants) {
            numbers[places::claimant(kind)] = count;
        }
        for (&kind, lost) in Kind::ALL.iter().zip(&self.lost) {
            numbers[places::lost(kind)] = lost.count;
            numbers[places::first_lost(kind)] = lost.first;
        }
        numbers[places::LEAKED] = self.leaked;
        numbers[places::VERDICT] = self.verdict;
        numbers[places::FREE_RING] = self.free_ring;
        numbers
    }
}

impl Answer {
    /// Each at its place: the refusal's number or 0, then the report's figures, all 0 after a refusal.
    pub fn numbers(&self) -> Vec<u64> {
        match self {
            Answer::Refused(refusal) => {
                let mut numbers = vec![0; FIGURES];
                numbers[places::REFUSAL] = refusal.number();
                numbers
            }
            Answer::Reported(report) => report.numbers(),
        }
    }
}

#[cfg(test)]
mod tests {
    use super::*;
    use space_check::{Log, Problem as Named, ProblemKind, Report as Read, Verdict};

    #[test]
    fn the_numbers_can_be_read_back() {
        let mut report = Report { verdict: Verdict::Inconsistent.number(), ..Report::default() };
        (report.xid, report.problems) = (7, 1);
        report.claimants[Kind::FreeQueue.number() as usize - 1] = 10;
        report.claimants[Kind::DescriptorArea.number() as usize - 1] = 1;
        report.first_problems[0] = Problem { kind: ProblemKind::BitmapUsed.number(), block: 6 };
        report.first_overlaps = [Overlap { block: 5, owner: 2, claimant: 9 }; LOGGED];
        report.lost[Kind::SnapshotNode.number() as usize - 1] = Lost { count: 3, first: 8 };
        (report.free, report.leaked, report.free_ring) = (4, 10, 12);
        let numbers = Answer::Reported(Box::new(report)).numbers().try_into().expect("as many as figures");
        let read = Read::of_figures(&numbers).expect("a report");
        assert_eq!(read.problems, Log { total: 1, first: vec![Named { kind: ProblemKind::BitmapUsed, block: 6 }] });
        assert_eq!((read.overlaps.total, read.overlaps.first.len(), read.lost_blocks()), (11, LOGGED, 3));
        let claimants: Vec<_> = read.claimants.iter().filter(|c| c.count != 0).map(|c| (c.kind, c.count)).collect();
        assert_eq!(claimants, [(Kind::DescriptorArea, 1), (Kind::FreeQueue, 10)]);
        assert_eq!((read.xid, read.free, read.leaked, read.verdict), (7, 4, 10, Verdict::Inconsistent));
        assert_eq!(read.free_ring, 12);
        let last = read.lost.last().expect("a kind");
        assert_eq!((last.kind, last.first), (Kind::SnapshotNode, Some(8)));
    }

    #[test]
    fn a_refusal_is_its_number_alone() {
        let numbers = Answer::Refused(Refusal::NoCheckpoint).numbers();
        assert_eq!(
            Read::of_figures(&numbers.clone().try_into().expect("as many as figures")),
            Err(Refusal::NoCheckpoint)
        );
        assert!(numbers[1..].iter().all(|&n| n == 0));
    }
}
