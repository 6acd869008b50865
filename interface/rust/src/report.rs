//! What the check found, from the answer's numbers.

use crate::names::{Kind, ProblemKind, Refusal, Verdict};
use crate::places::{self, FIGURES, LOGGED, OVERLAP_NUMBERS, PROBLEM_NUMBERS};

/// Findings of one sort.
#[derive(Clone, Debug, PartialEq, Eq)]
pub struct Log<T> {
    /// How many were met.
    pub total: u64,
    /// The first of them, ten at most.
    pub first: Vec<T>,
}

/// A block of the internal pool, or of the ring of its bitmap, and what is wrong with it.
#[derive(Clone, Copy, Debug, PartialEq, Eq)]
pub struct Problem {
    /// What is wrong.
    pub kind: ProblemKind,
    /// The block's number.
    pub block: u64,
}

/// A block that was claimed a second time, by something else than its owner.
#[derive(Clone, Copy, Debug, PartialEq, Eq)]
pub struct Overlap {
    /// The block's number.
    pub block: u64,
    /// Who claimed it first, and keeps it.
    pub owner: Kind,
    /// Who claimed it later.
    pub claimant: Kind,
}

/// Claims of a kind on blocks that something else owns.
#[derive(Clone, Copy, Debug, PartialEq, Eq)]
pub struct Claimant {
    /// Who came second.
    pub kind: Kind,
    /// How often.
    pub count: u64,
}

/// Blocks that a kind owns and no bitmap marks.
#[derive(Clone, Copy, Debug, PartialEq, Eq)]
pub struct Lost {
    /// Whose they are.
    pub kind: Kind,
    /// How many.
    pub count: u64,
    /// The lowest of them.
    pub first: Option<u64>,
}

/// The findings on a container.
#[derive(Clone, Debug, PartialEq, Eq)]
pub struct Report {
    /// The transaction whose checkpoint was taken.
    pub xid: u64,
    /// Blocks of the internal pool in use.
    pub pool_used: u64,
    /// Blocks of the internal pool that its bitmap marks and nothing uses.
    pub pool_unused: u64,
    /// Blocks of the pool bitmap's ring on the manager's list of unused ones, each counted once; where the list leads back
    /// into itself, those up to there.
    pub free_ring: u64,
    /// What is wrong with the internal pool and its bitmap.
    pub problems: Log<Problem>,
    /// Free blocks, as the bitmaps have them.
    pub free: u64,
    /// Chunks whose stated free count differs from their bitmap.
    pub wrong_chunks: u64,
    /// The free count that the device states.
    pub device_free: u64,
    /// Claims of blocks that something else owns; a block may be claimed more than once.
    pub overlaps: Log<Overlap>,
    /// The same by who came second, of every kind in the order of their numbers; together they are the overlaps' total.
    pub claimants: Vec<Claimant>,
    /// Of every kind, in the order of their numbers.
    pub lost: Vec<Lost>,
    /// Blocks that are marked and that nothing claims.
    pub leaked: u64,
    /// Consistent or not.
    pub verdict: Verdict,
}

impl Report {
    /// Lost blocks of all kinds.
    pub fn lost_blocks(&self) -> u64 {
        self.lost.iter().map(|lost| lost.count).sum()
    }

    /// The report that an answer's numbers stand for, or its refusal.
    ///
    /// # Panics
    ///
    /// Where a number names no kind, problem, refusal or verdict, as no answer of the check does.
    pub fn of_figures(n: &[u64; FIGURES]) -> Result<Report, Refusal> {
        if n[places::REFUSAL] != 0 {
            return Err(Refusal::from_number(n[places::REFUSAL]).expect("a refusal that has a name"));
        }
        let (problems, overlaps) = (&n[places::PROBLEM..places::FREE], &n[places::OVERLAP..places::LOST]);
        Ok(Report {
            xid: n[places::XID],
            pool_used: n[places::POOL_USED],
            pool_unused: n[places::POOL_UNUSED],
            free_ring: n[places::FREE_RING],
            problems: log(n[places::PROBLEMS], problems.chunks_exact(PROBLEM_NUMBERS).map(problem)),
            free: n[places::FREE],
            wrong_chunks: n[places::WRONG_CHUNKS],
            device_free: n[places::DEVICE_FREE],
            overlaps: log(n[places::OVERLAPS], overlaps.chunks_exact(OVERLAP_NUMBERS).map(overlap)),
            claimants: Kind::ALL.iter().map(|&kind| Claimant { kind, count: n[places::claimant(kind)] }).collect(),
            lost: Kind::ALL.iter().map(|&kind| lost(n, kind)).collect(),
            leaked: n[places::LEAKED],
            verdict: Verdict::from_number(n[places::VERDICT]).expect("a verdict that has a name"),
        })
    }
}

/// A log, of which as many entries are filled as were met, ten at most; the others are not looked at.
fn log<T>(total: u64, entries: impl Iterator<Item = T>) -> Log<T> {
    let filled = usize::try_from(total).unwrap_or(LOGGED).min(LOGGED);
    Log { total, first: entries.take(filled).collect() }
}

fn problem(n: &[u64]) -> Problem {
    Problem { kind: ProblemKind::from_number(n[0]).expect("a problem that has a name"), block: n[1] }
}

fn overlap(n: &[u64]) -> Overlap {
    Overlap { block: n[0], owner: kind(n[1]), claimant: kind(n[2]) }
}

fn kind(number: u64) -> Kind {
    Kind::from_number(number).expect("a kind that has a name")
}

fn lost(n: &[u64; FIGURES], kind: Kind) -> Lost {
    let count = n[places::lost(kind)];
    Lost { kind, count, first: (count != 0).then(|| n[places::first_lost(kind)]) }
}
