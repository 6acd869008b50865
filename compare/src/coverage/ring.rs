//! Findings on the list of the ring's unused blocks.

use space_check::{ProblemKind, Refusal};

use crate::answer::{Problem, Report};
use crate::fields::manager::NO_INDEX;
use crate::model::{Leads, Notes, RingEnd};
use crate::outside::Outside;

// The near sides of its rules.
const NEAR_TABLE: &str = "near 17: a report, the free-next table ends with the manager";
const NEAR_NO_TABLE: &str = "near 17: a report, a table of no entries past the manager";
const NEAR_LAST: &str = "near 25: a report, the last block of its ring on the free list";
const NEAR_OUT: &str = "near 25: a report, the free list's tail leads out of the ring";
const NEAR_HIGHEST: &str = "near 25: a report, block 65,535 of its ring on the free list";
const NEAR_EMPTY: &str = "near 25: a report, an empty list in a ring of 65,536 blocks";
const NEAR_WHOLE: &str = "near problem 7: a report, all unused blocks on the free list";
const NEAR_PAST: &str = "near problem 7: a report, the index of a bitmap past its ring";
const NEAR_BACK: &str = "near problem 8: a report, the free list's tail leads back";
// Where its problems come.
const IN_USE_HEAD: &str = "problem 7 at the free list's head";
const IN_USE_BETWEEN: &str = "problem 7 between the free list's head and tail";
const IN_USE_TAIL: &str = "problem 7 at the free list's tail";
const AGAIN_HEAD: &str = "problem 8 at the free list's head";
const AGAIN_OTHER: &str = "problem 8 at another block of the free list";
const AGAIN_IN_USE: &str = "problems 7 and 8 at one block";
const AGAIN_AFTER: &str = "problem 8 after at least a hundred blocks";
const BEFORE_ANOTHER: &str = "problem 7 or 8 before another";
const ALONE: &str = "inconsistent by problem 7 or 8 alone";
// Where its refusals come, and what comes before them.
const EMPTY_TABLE: &str = "17: the free-next table of an empty list";
const TABLE_FIRST: &str = "17: a free-next table before a listed block past the count";
const POOL_TABLE: &str = "20: a pool without bits before a free-next table";
const POOL_INDEX: &str = "20: a pool without bits before an index out of the ring";
const SUM: &str = "21: a problem's block past 2^64 - 1";
const NO_SUM: &str = "no 21: a free block past 2^64 - 1";
const OUT_HEAD: &str = "25: at the free list's head";
const OUT_LATER: &str = "25: behind the free list's head";
const OUT_HIGHEST: &str = "25: 65,535 behind the free list's head";
const OUT_FIRST: &str = "25: before a list of blocks past the manager";

pub const FINDINGS: [&str; 28] = [
    NEAR_TABLE,
    NEAR_NO_TABLE,
    NEAR_LAST,
    NEAR_OUT,
    NEAR_HIGHEST,
    NEAR_EMPTY,
    NEAR_WHOLE,
    NEAR_PAST,
    NEAR_BACK,
    IN_USE_HEAD,
    IN_USE_BETWEEN,
    IN_USE_TAIL,
    AGAIN_HEAD,
    AGAIN_OTHER,
    AGAIN_IN_USE,
    AGAIN_AFTER,
    BEFORE_ANOTHER,
    ALONE,
    EMPTY_TABLE,
    TABLE_FIRST,
    POOL_TABLE,
    POOL_INDEX,
    SUM,
    NO_SUM,
    OUT_HEAD,
    OUT_LATER,
    OUT_HIGHEST,
    OUT_FIRST,
];

/// Whether each finding of a report is there.
pub fn reported(report: &Report, notes: &Notes) -> Vec<(&'static str, bool)> {
    let (ring, near) = (&notes.free_ring, notes.outside.is_none());
    let again = |test: fn(bool, bool) -> bool| match ring.end {
        Some(RingEnd::Again { head, in_use }) => test(head, in_use),
        _ => false,
    };
    let [at_head, between, at_tail] = ring.in_use;
    vec![
        (NEAR_TABLE, near && ring.blocks > 0 && ring.behind_table == 0),
        (NEAR_NO_TABLE, near && ring.blocks == 0 && ring.behind_table < 0),
        (NEAR_LAST, near && ring.last),
        (NEAR_OUT, near && ring.end == Some(RingEnd::Tail(Leads::Out))),
        (NEAR_HIGHEST, near && ring.highest),
        (NEAR_EMPTY, near && ring.empty && ring.blocks > NO_INDEX),
        (NEAR_WHOLE, near && ring.whole),
        (NEAR_PAST, near && ring.in_use_past),
        (NEAR_BACK, near && ring.end == Some(RingEnd::Tail(Leads::Back))),
        (IN_USE_HEAD, at_head),
        (IN_USE_BETWEEN, between),
        (IN_USE_TAIL, at_tail),
        (AGAIN_HEAD, again(|head, _| head)),
        (AGAIN_OTHER, again(|head, _| !head)),
        (AGAIN_IN_USE, again(|_, in_use| in_use)),
        (AGAIN_AFTER, again(|_, _| true) && report.free_ring >= 100),
        (BEFORE_ANOTHER, before_another(report)),
        (ALONE, alone(report)),
    ]
}

fn is_of_ring(problem: &Problem) -> bool {
    [ProblemKind::FreeInUse, ProblemKind::FreeRepeated].iter().any(|kind| kind.number() == problem.kind)
}

fn before_another(report: &Report) -> bool {
    let is_other = |problem: &Problem| problem.kind != 0 && !is_of_ring(problem);
    is_of_ring(&report.first_problems[0]) && report.first_problems.iter().any(is_other)
}

/// Nothing else speaks against the container.
fn alone(report: &Report) -> bool {
    let of_ring = report.first_problems.iter().filter(|problem| is_of_ring(problem)).count() as u64;
    of_ring > 0 && of_ring == report.problems && report.lost_blocks() + report.overlaps() == 0
}

/// Whether each finding of a refusal is there.
pub fn refused(refusal: Refusal, notes: &Notes) -> Vec<(&'static str, bool)> {
    let ring = &notes.free_ring;
    let at_table = notes.outside == Some(Outside::FreeNextTable);
    let at_problem = matches!(notes.outside, Some(Outside::Problem(_)));
    let of_pool = refusal == Refusal::BadBitmap && !ring.audited;
    let table_past = ring.blocks > 0 && ring.behind_table < 0;
    let out = |test: fn(bool, u64) -> bool| match ring.end {
        Some(RingEnd::Outside { head, index }) => refusal == Refusal::RingIndex && test(head, index),
        _ => false,
    };
    vec![
        (EMPTY_TABLE, at_table && ring.empty),
        (TABLE_FIRST, at_table && ring.listed_far),
        (POOL_TABLE, of_pool && table_past),
        (POOL_INDEX, of_pool && !table_past && ring.head_out),
        (SUM, refusal == Refusal::Overflow && at_problem && ring.behind_listed < 0),
        (NO_SUM, refusal == Refusal::OutsideBytes && notes.outside.is_none() && ring.far),
        (OUT_HEAD, out(|head, _| head)),
        (OUT_LATER, out(|head, _| !head)),
        (OUT_HIGHEST, out(|head, index| !head && index == NO_INDEX)),
        (OUT_FIRST, out(|_, _| true) && ring.behind_listed < 0),
    ]
}
