//! The listing: the lines of winapfs's `space_check_container`, without its sizes for people, and those that it doesn't have,
//! of later problems and of overlaps by claimant.

use std::fmt;

use crate::names::{ProblemKind, Verdict};
use crate::report::{Claimant, Lost, Problem, Report};

/// A report's lines, each with its newline, by `Display`.
#[derive(Clone, Copy, Debug)]
pub struct Listing<'a> {
    report: &'a Report,
    name: &'a str,
}

impl Report {
    /// The lines of the listing, in the words of the original where it has some; `name` stands where it prints the disk's
    /// place.
    pub fn listing<'a>(&'a self, name: &'a str) -> Listing<'a> {
        Listing { report: self, name }
    }
}

impl fmt::Display for Listing<'_> {
    fn fmt(&self, f: &mut fmt::Formatter<'_>) -> fmt::Result {
        writeln!(f, "space check  {}  xid {}", self.name, self.report.xid)?;
        bitmaps(f, self.report)?;
        claims(f, self.report)?;
        f.write_str("result     ")?;
        match self.report.verdict {
            Verdict::Consistent => writeln!(f, "consistent: nothing in use is marked free, nothing is claimed twice"),
            Verdict::Inconsistent => writeln!(f, "inconsistent"),
        }
    }
}

/// What the bitmaps say.
fn bitmaps(f: &mut fmt::Formatter<'_>, r: &Report) -> fmt::Result {
    let problems = r.problems.total;
    writeln!(
        f,
        "internal pool  {} blocks in use, {} marked but unused, {problems} problems",
        r.pool_used, r.pool_unused
    )?;
    for &problem in &r.problems.first {
        writeln!(f, "  {}", problem_text(problem))?;
    }
    let matches = if r.free == r.device_free { "matches" } else { "DOES NOT MATCH" };
    writeln!(
        f,
        "bitmaps    {} blocks free; chunks with a wrong free count: {}; device free count {} ({matches})",
        r.free, r.wrong_chunks, r.device_free
    )
}

fn problem_text(Problem { kind, block }: Problem) -> String {
    match kind {
        ProblemKind::InfoUnmarked => format!("chunk-info block {block:#x} is free in the internal-pool bitmap"),
        ProblemKind::BitmapUnmarked => format!("chunk bitmap {block:#x} is free in the internal-pool bitmap"),
        ProblemKind::BitmapUsed => format!("internal-pool block {block:#x} used twice"),
        ProblemKind::QueuedUnmarked => format!("queued internal-pool block {block:#x} is already free"),
        ProblemKind::QueuedUsed => format!("internal-pool block {block:#x} queued but still in use"),
        // kinds that the original does not have
        later => format!("problem {} at {block:#x}", later.number()),
    }
}

/// What the claims say against them.
fn claims(f: &mut fmt::Formatter<'_>, r: &Report) -> fmt::Result {
    writeln!(f, "overlaps   {} blocks claimed by two different things", r.overlaps.total)?;
    // in the order of the kinds' numbers, which is not that of the lost lines
    for Claimant { kind, count } in r.claimants.iter().filter(|claimant| claimant.count != 0) {
        writeln!(f, "  {kind}: {count}")?;
    }
    for o in &r.overlaps.first {
        writeln!(f, "  block {:#x}: {} and {}", o.block, o.owner, o.claimant)?;
    }
    writeln!(f, "in use but marked free: {} blocks", r.lost_blocks())?;
    for Lost { kind, count, first } in by_name(r) {
        writeln!(f, "  {kind}: {count} (first at {:#x})", first.unwrap_or(0))?;
    }
    writeln!(f, "allocated but unused (leaked): {} blocks", r.leaked)
}

/// The kinds that lost blocks, in the order of their names, as the original's map has them.
fn by_name(r: &Report) -> Vec<Lost> {
    let mut lost: Vec<Lost> = r.lost.iter().copied().filter(|lost| lost.count != 0).collect();
    lost.sort_by_key(|lost| lost.kind.name());
    lost
}

#[cfg(test)]
mod tests {
    use crate::names::{Kind, Verdict};
    use crate::places::{self, FIGURES, OVERLAP_NUMBERS};
    use crate::report::Report;

    #[test]
    fn lost_lines_are_sorted_by_name() {
        let mut figures = [0; FIGURES];
        figures[places::VERDICT] = Verdict::Inconsistent.number();
        for &kind in Kind::ALL {
            figures[places::lost(kind)] = kind.number();
            figures[places::first_lost(kind)] = 16 * kind.number();
        }
        let listing = Report::of_figures(&figures).unwrap().listing("disk").to_string();
        let lost = "in use but marked free: 66 blocks
  checkpoint data area: 3 (first at 0x30)
  checkpoint descriptor area: 2 (first at 0x20)
  container superblock: 1 (first at 0x10)
  extent-reference tree node: 10 (first at 0xa0)
  free queue (pending release): 9 (first at 0x90)
  internal pool: 4 (first at 0x40)
  internal-pool bitmap ring: 5 (first at 0x50)
  object map: 6 (first at 0x60)
  object map node: 7 (first at 0x70)
  snapshot tree node: 11 (first at 0xb0)
  volume superblock: 8 (first at 0x80)
allocated but unused (leaked): 0 blocks
";
        assert!(listing.contains(lost), "{listing}");
    }

    #[test]
    fn problems_that_the_original_does_not_have() {
        let mut figures = [0; FIGURES];
        figures[places::VERDICT] = Verdict::Inconsistent.number();
        figures[places::PROBLEMS] = 4;
        figures[places::PROBLEM..places::PROBLEM + 8].copy_from_slice(&[7, 31, 8, 30, 6, 29, 1, 28]);
        figures[places::FREE_RING] = 12345;
        let listing = Report::of_figures(&figures).unwrap().listing("disk").to_string();
        let problems = "internal pool  0 blocks in use, 0 marked but unused, 4 problems
  problem 7 at 0x1f
  problem 8 at 0x1e
  problem 6 at 0x1d
  chunk-info block 0x1c is free in the internal-pool bitmap
bitmaps    ";
        assert!(listing.contains(problems), "{listing}");
        // counted in the report alone
        assert!(!listing.contains("12345"), "{listing}");
    }

    /// Claims come in the order 2, 3, 10, 9; by name it is 3, 2, 10, 9.
    #[test]
    fn claimants_are_sorted_by_number_and_lost_lines_by_name() {
        let claims = [(0, 1, 2), (17, 2, 3), (18, 2, 3), (33, 8, 10), (34, 3, 9), (34, 3, 9), (35, 3, 9)];
        let mut figures = [0; FIGURES];
        figures[places::VERDICT] = Verdict::Inconsistent.number();
        figures[places::OVERLAPS] = claims.len() as u64;
        for (i, &(block, owner, claimant)) in claims.iter().enumerate() {
            let at = places::OVERLAP + i * OVERLAP_NUMBERS;
            figures[at..at + OVERLAP_NUMBERS].copy_from_slice(&[block, owner, claimant]);
            let kind = Kind::from_number(claimant).unwrap();
            figures[places::claimant(kind)] += 1;
            figures[places::lost(kind)] = claimant;
            figures[places::first_lost(kind)] = 16 * claimant;
        }
        let report = Report::of_figures(&figures).unwrap();
        assert_eq!(report.claimants.iter().map(|claimant| claimant.count).sum::<u64>(), report.overlaps.total);
        let listing = report.listing("disk").to_string();
        let expected = "overlaps   7 blocks claimed by two different things
  checkpoint descriptor area: 1
  checkpoint data area: 2
  free queue (pending release): 3
  extent-reference tree node: 1
  block 0x0: container superblock and checkpoint descriptor area
  block 0x11: checkpoint descriptor area and checkpoint data area
  block 0x12: checkpoint descriptor area and checkpoint data area
  block 0x21: volume superblock and extent-reference tree node
  block 0x22: checkpoint data area and free queue (pending release)
  block 0x22: checkpoint data area and free queue (pending release)
  block 0x23: checkpoint data area and free queue (pending release)
in use but marked free: 24 blocks
  checkpoint data area: 3 (first at 0x30)
  checkpoint descriptor area: 2 (first at 0x20)
  extent-reference tree node: 10 (first at 0xa0)
  free queue (pending release): 9 (first at 0x90)
allocated but unused (leaked): 0 blocks
result     inconsistent
";
        assert!(listing.ends_with(expected), "{listing}");
    }
}
