//! Runs the original on an image and reads its printed lines back into figures.

use std::any::Any;
use std::panic::{catch_unwind, AssertUnwindSafe};

use apfs::dev::BlockDevice;
use apfs::Container;
use space_check::{places, Cell, Kind, ProblemKind, Verdict, LOGGED};
use winapfs::dump::space_check_container;
pub use winapfs::Opening;
use winapfs::{open_by, take_caught, Caught, Cells};

use crate::answer::{ByKind, Lost, Overlap, Problem, Report};

/// How a run of the original ended.
#[derive(Debug, PartialEq, Eq)]
pub enum Ended {
    /// With a report, the block map, and the lines that it was read from.
    Report(Box<Report>, Vec<u8>, Vec<String>),
    /// With an error other than its inconsistent verdict.
    Error(String),
    Panic(String),
    /// Its lines could not be read back: a fault of this harness.
    Unreadable(String),
}

/// The original has so many of an answer's numbers: all up to the overlaps by claimant.
pub const NUMBERS: usize = places::CLAIMANTS + Kind::ALL.len();

/// Where the container is, as the original is told and prints it.
pub const LOCATION: &str = "image";

/// The error that stands for the verdict "inconsistent".
const INCONSISTENT_ERROR: &str = "the space map is inconsistent";

/// Panics are caught here and told by the answer: they need no message of their own.
pub fn silence_panics() {
    std::panic::set_hook(Box::new(|_| {}));
}

/// One pass of the original; its verdict "inconsistent" is an error too.
pub fn pass(device: Box<dyn BlockDevice>) -> Result<(), String> {
    let container = Container::open(device).map_err(|e| e.to_string())?;
    space_check_container(&container, LOCATION).map_err(|e| e.msg)
}

/// The original's answer, with one of the openings. It may allocate without bound or run for ever: call it in a limited
/// process.
pub fn run(device: Box<dyn BlockDevice>, opening: Opening) -> Ended {
    take_caught();
    open_by(opening);
    let verdict = match catch_unwind(AssertUnwindSafe(|| pass(device))) {
        Ok(Ok(())) => Verdict::Consistent,
        Ok(Err(message)) if message == INCONSISTENT_ERROR => Verdict::Inconsistent,
        Ok(Err(message)) => return Ended::Error(message),
        Err(cause) => return Ended::Panic(message_of(cause.as_ref())),
    };
    let Caught { lines, cells, claimants } = take_caught();
    let report = counts(&claimants).and_then(|claimants| Lines::new(&lines).report(verdict, claimants));
    let map = cells.ok_or("no block map was handed out".into()).and_then(|cells| block_map(&cells));
    match (report, map) {
        (Ok(report), Ok(map)) => Ended::Report(Box::new(report), map, lines),
        (Err(what), _) | (_, Err(what)) => Ended::Unreadable(what),
    }
}

pub fn message_of(cause: &(dyn Any + Send)) -> String {
    let text = cause.downcast_ref::<&str>().copied().or_else(|| cause.downcast_ref::<String>().map(String::as_str));
    text.unwrap_or("no message").to_string()
}

fn block_map(cells: &Cells) -> Read<Vec<u8>> {
    if cells.owner.len() != cells.marked.len() {
        return Err(format!("{} owners and {} marks", cells.owner.len(), cells.marked.len()));
    }
    let numbers = cells.kinds.iter().map(|name| owner_number(name)).collect::<Read<Vec<u8>>>()?;
    let cell = |(&owner, &marked): (&u8, &bool)| numbers[usize::from(owner)] | if marked { Cell::MARKED } else { 0 };
    let mut map: Vec<u8> = cells.owner.iter().zip(&cells.marked).map(cell).collect();
    for &block in &cells.pool_used {
        // The set may name blocks past the container.
        if let Some(cell) = usize::try_from(block).ok().and_then(|block| map.get_mut(block)) {
            *cell |= Cell::POOL_USED;
        }
    }
    Ok(map)
}

/// The overlaps in which each kind came second.
fn counts(claimants: &[(&str, u64)]) -> Read<ByKind<u64>> {
    let mut counts = ByKind::default();
    for (name, count) in claimants {
        counts[kind(name)?.number() as usize - 1] += count;
    }
    Ok(counts)
}

/// The number of a kind as the map has it: the empty name, which the original keeps first, stands for no owner.
fn owner_number(name: &str) -> Read<u8> {
    if name.is_empty() {
        return Ok(0);
    }
    kind(name).map(|kind| kind.number() as u8)
}

/// The lines of the original, with a place for the block.
const PROBLEM_LINES: [(ProblemKind, &str); 5] = [
    (ProblemKind::InfoUnmarked, "  chunk-info block {} is free in the internal-pool bitmap"),
    (ProblemKind::BitmapUnmarked, "  chunk bitmap {} is free in the internal-pool bitmap"),
    (ProblemKind::BitmapUsed, "  internal-pool block {} used twice"),
    (ProblemKind::QueuedUnmarked, "  queued internal-pool block {} is already free"),
    (ProblemKind::QueuedUsed, "  internal-pool block {} queued but still in use"),
];

/// Printed lines, read from the first to the last.
struct Lines<'a> {
    lines: &'a [String],
    next: usize,
}

type Read<T> = Result<T, String>;

impl<'a> Lines<'a> {
    fn new(lines: &'a [String]) -> Self {
        Self { lines, next: 0 }
    }

    /// Which kinds came second is counted and not printed.
    fn report(mut self, verdict: Verdict, claimants: ByKind<u64>) -> Read<Report> {
        let [xid] = self.numbers(&format!("space check  {LOCATION}  xid {{}}"))?;
        let [pool_used, pool_unused, problems] =
            self.numbers("internal pool  {} blocks in use, {} marked but unused, {} problems")?;
        let mut report = Report { xid, pool_used, pool_unused, problems, claimants, ..Report::default() };
        report.verdict = verdict.number();
        for place in listed(&mut report.first_problems, problems) {
            *place = self.problem()?;
        }
        self.bitmaps(&mut report)?;
        let overlaps = self.overlaps(&claimants)?;
        for place in listed(&mut report.first_overlaps, overlaps) {
            *place = self.overlap()?;
        }
        self.lost(&mut report)?;
        [report.leaked] = self.numbers("allocated but unused (leaked): {} blocks ()")?;
        if verdict == Verdict::Consistent {
            self.parts("result     consistent: nothing in use is marked free, nothing is claimed twice")?;
        }
        match self.lines.get(self.next) {
            None => Ok(report),
            Some(line) => Err(format!("a line too many: {line}")),
        }
    }

    fn bitmaps(&mut self, report: &mut Report) -> Read<()> {
        let line = "bitmaps    {} blocks free; chunks with a wrong free count: {}; device free count {} ({})";
        let parts = self.parts(line)?;
        [report.free, report.wrong_chunks, report.device_free] = decimals(&parts[..3])?;
        let said = if report.free == report.device_free { "matches" } else { "DOES NOT MATCH" };
        if parts[3] == said {
            Ok(())
        } else {
            Err(format!("{} where it {said}", parts[3]))
        }
    }

    fn problem(&mut self) -> Read<Problem> {
        let line = self.line()?;
        let found = PROBLEM_LINES.iter().find_map(|(kind, text)| Some((kind, matched(text, line)?)));
        let (kind, parts) = found.ok_or_else(|| format!("no problem line: {line}"))?;
        Ok(Problem { kind: kind.number(), block: hex(parts[0])? })
    }

    /// The printed total, which the counts by claimant add up to.
    fn overlaps(&mut self, claimants: &[u64]) -> Read<u64> {
        let [total] = self.numbers("overlaps   {} blocks claimed by two different things")?;
        match claimants.iter().sum::<u64>() {
            sum if sum == total => Ok(total),
            sum => Err(format!("{total} overlaps, and {sum} by claimant")),
        }
    }

    fn overlap(&mut self) -> Read<Overlap> {
        let parts = self.parts("  block {}: {} and {}")?;
        Ok(Overlap { block: hex(parts[0])?, owner: kind(parts[1])?.number(), claimant: kind(parts[2])?.number() })
    }

    /// The lines of the kinds follow their sum and end where it is reached.
    fn lost(&mut self, report: &mut Report) -> Read<()> {
        let [total] = self.numbers("in use but marked free: {} blocks")?;
        while report.lost_blocks() < total {
            let parts = self.parts("  {}: {} (first at {})")?;
            let [count] = decimals(&parts[1..2])?;
            report.lost[kind(parts[0])?.number() as usize - 1] = Lost { count, first: hex(parts[2])? };
        }
        if report.lost_blocks() == total {
            Ok(())
        } else {
            Err(format!("{total} is not the sum of its lines"))
        }
    }

    fn line(&mut self) -> Read<&'a str> {
        let line = self.lines.get(self.next).ok_or("a line is missing")?;
        self.next += 1;
        Ok(line)
    }

    fn parts(&mut self, pattern: &str) -> Read<Vec<&'a str>> {
        let line = self.line()?;
        matched(pattern, line).ok_or_else(|| format!("`{line}` is not `{pattern}`"))
    }

    fn numbers<const N: usize>(&mut self, pattern: &str) -> Read<[u64; N]> {
        decimals(&self.parts(pattern)?)
    }
}

/// The places of a list that `count` findings fill.
fn listed<T>(list: &mut [T; LOGGED], count: u64) -> &mut [T] {
    &mut list[..LOGGED.min(usize::try_from(count).unwrap_or(LOGGED))]
}

/// What stands at each `{}` of the pattern, where the line has the pattern's form.
fn matched<'a>(pattern: &str, line: &'a str) -> Option<Vec<&'a str>> {
    let mut pieces = pattern.split("{}");
    let mut rest = line.strip_prefix(pieces.next()?)?;
    let mut parts = Vec::new();
    let pieces: Vec<&str> = pieces.collect();
    for (i, piece) in pieces.iter().enumerate() {
        // The last piece must end the line, the others stand at their first occurrence.
        let at = if i + 1 == pieces.len() { rest.len().checked_sub(piece.len())? } else { rest.find(piece)? };
        parts.push(&rest[..at]);
        rest = rest[at..].strip_prefix(piece)?;
    }
    rest.is_empty().then_some(parts)
}

fn decimals<const N: usize>(parts: &[&str]) -> Read<[u64; N]> {
    let numbers: Result<Vec<u64>, _> = parts.iter().map(|p| p.parse()).collect();
    let numbers = numbers.map_err(|e| format!("{parts:?}: {e}"))?;
    numbers.try_into().map_err(|_| format!("{parts:?} are not {N} numbers"))
}

fn hex(part: &str) -> Read<u64> {
    let digits = part.strip_prefix("0x").ok_or_else(|| format!("{part} has no 0x"))?;
    u64::from_str_radix(digits, 16).map_err(|e| format!("{part}: {e}"))
}

fn kind(name: &str) -> Read<Kind> {
    Kind::ALL.iter().copied().find(|kind| kind.name() == name).ok_or_else(|| format!("no kind: {name}"))
}

#[cfg(test)]
mod tests {
    use super::*;
    use crate::answer::Answer;
    use crate::fill::Fill;
    use crate::judge::is_due;
    use crate::model::check;
    use crate::seeds::Builder;
    use space_check::FIGURES;

    #[test]
    fn patterns_take_whole_lines() {
        assert_eq!(matched("a {} b {}", "a 1 b 2"), Some(vec!["1", "2"]));
        assert_eq!(matched("a {} b {} c", "a 1 b 2"), None);
        assert_eq!(
            matched("  block {}: {} and {}", "  block 0x1: object map and volume superblock").unwrap()[2],
            "volume superblock"
        );
        assert_eq!(matched("end", "end of it"), None);
    }

    #[test]
    fn the_free_list_is_behind_its_numbers() {
        assert_eq!((NUMBERS, FIGURES), (places::FREE_RING, places::FREE_RING + 1));
    }

    #[test]
    fn an_unknown_kind_is_no_owner() {
        let cells = |kinds| Cells { marked: vec![true], owner: vec![1], kinds, pool_used: Default::default() };
        assert_eq!(block_map(&cells(vec!["", "internal-pool bitmap ring"])), Ok(vec![5 | Cell::MARKED]));
        assert_eq!(block_map(&cells(vec!["", "snapshot tree node"])), Ok(vec![11 | Cell::MARKED]));
        assert!(block_map(&cells(vec!["", "file data"])).is_err());
    }

    #[test]
    fn every_claimant_is_known_and_counted_once() {
        let counted = counts(&[("snapshot tree node", 2), ("object map", 1)]).expect("known kinds");
        assert_eq!(counted, [0, 0, 0, 0, 0, 1, 0, 0, 0, 0, 2]);
        assert_eq!(counts(&[("object map", 1), ("file data", 1)]), Err("no kind: file data".into()));
        let line = ["overlaps   4 blocks claimed by two different things".to_string()];
        assert_eq!(Lines::new(&line).overlaps(&counted), Err("4 overlaps, and 3 by claimant".into()));
    }

    #[test]
    fn each_run_counts_from_the_start() {
        let mut builder = Builder::default();
        let mut overlapping = (0..).map(|seed| builder.image(seed)).filter_map(|image| {
            let pass = check(&image.bytes, &mut Fill::Listed.map(image.map_length));
            match &pass.answer {
                Answer::Reported(report) if is_due(&pass) && report.overlaps() > 0 => {
                    Some((image.bytes, report.claimants))
                }
                _ => None,
            }
        });
        let (image, claimants) = overlapping.next().expect("an image with overlaps");
        for _ in 0..2 {
            let ended = run(Box::new(image.clone()), Opening::Succeeds);
            assert!(matches!(ended, Ended::Report(report, ..) if report.claimants == claimants));
        }
    }

    #[test]
    fn an_empty_image_errs() {
        assert!(matches!(run(Box::new(Vec::new()), Opening::Succeeds), Ended::Error(_)));
    }
}
