//! `compare listing`: what a command prints about images, held against the lines of the original.
//!
//! The command is called with the path of an image. Where the original is the reference and reports, the command must
//! print its lines, byte for byte, but for what the contract changes: the location is that path, the overlaps have a line
//! for each kind that came second, as often as the original counted it, the leaked blocks have no size for people, and
//! an inconsistent container gets a last line. Where the model refuses, the command must print that number alone. An
//! image on which original and model already part counts as one that differs.

use std::path::Path;
use std::process::{Command, ExitStatus, Output};
use std::{env, fmt, fs, io, process};

use space_check::{places, Kind, Refusal, Verdict};

use crate::answer::Answer;
use crate::judge::{judge, Ask, Judgement};
use crate::list::{read, Item};
use crate::oracle::LOCATION;
use crate::worker::{Reply, Worker, SMALL};

/// What the command has to print, and how it has to end.
#[derive(Debug, PartialEq, Eq)]
struct Expected {
    text: String,
    status: i32,
}

// The statuses that it ends with.
const CONSISTENT_STATUS: i32 = 0;
const INCONSISTENT_STATUS: i32 = 1;
const REFUSED_STATUS: i32 = 2;

/// What an image came to.
enum Outcome {
    /// The command's listing is the original's.
    Listing,
    /// Its refusal is the model's.
    Refusal,
    LeftOut,
    Differs(String),
}

#[derive(Default)]
struct Tally {
    listings: u64,
    refusals: u64,
    left_out: u64,
    differ: u64,
}

impl Tally {
    fn add(&mut self, outcome: &Outcome) {
        *match outcome {
            Outcome::Listing => &mut self.listings,
            Outcome::Refusal => &mut self.refusals,
            Outcome::LeftOut => &mut self.left_out,
            Outcome::Differs(_) => &mut self.differ,
        } += 1;
    }

    fn compared(&self) -> u64 {
        self.listings + self.refusals + self.differ
    }
}

impl fmt::Display for Tally {
    fn fmt(&self, f: &mut fmt::Formatter) -> fmt::Result {
        let Tally { listings, refusals, left_out, differ } = self;
        let images = self.compared() + left_out;
        write!(f, "{images} images: {listings} listings are the original's, {refusals} refusals, ")?;
        write!(f, "{left_out} left out, {differ} differ")
    }
}

/// Whether the command prints what it has to on every image of the files.
pub fn listing(program: &str, files: &[&str]) -> io::Result<bool> {
    let mut worker = Worker::new(SMALL);
    let mut tally = Tally::default();
    for path in files {
        for item in read(path)? {
            let outcome = compare(&mut worker, program, &item)?;
            tally.add(&outcome);
            if let Outcome::Differs(what) = outcome {
                println!("{path}: {}: {what}", item.name);
            }
        }
    }
    println!("{tally}");
    if tally.compared() == 0 {
        return Err(io::Error::other("every image is left out"));
    }
    Ok(tally.differ == 0)
}

fn compare(worker: &mut Worker, program: &str, item: &Item) -> io::Result<Outcome> {
    let judgement = judge(worker, &item.image, item.map_length, Ask::WhereDue)?;
    if let Some(what) = judgement.disagreement {
        return Ok(Outcome::Differs(what.to_string()));
    }
    let path = env::temp_dir().join(format!("compare-{}-listing.apfs", process::id()));
    let Some(expected) = expected(&judgement, &path.to_string_lossy()) else { return Ok(Outcome::LeftOut) };
    let output = run(program, &path, &item.image)?;
    Ok(match faults(&output, &expected) {
        Some(what) => {
            // It may say there what kept it from an answer.
            eprint!("{}", String::from_utf8_lossy(&output.stderr));
            Outcome::Differs(what)
        }
        None if expected.status == REFUSED_STATUS => Outcome::Refusal,
        None => Outcome::Listing,
    })
}

/// Nothing where no answer is known: the command has no short map, and what the model alone reports has no lines.
fn expected(judgement: &Judgement, location: &str) -> Option<Expected> {
    match (&judgement.pass.answer, &judgement.original) {
        _ if judgement.pass.refusal() == Some(Refusal::ShortMap) => None,
        (Answer::Refused(refusal), _) => {
            Some(Expected { text: format!("refused {}\n", refusal.number()), status: REFUSED_STATUS })
        }
        (_, Some(Reply::Answer(numbers, _, lines))) => Some(changed(lines, numbers, location)),
        _ => None,
    }
}

/// The original's lines with the contract's changes; the numbers are the original's too.
fn changed(lines: &[String], numbers: &[u64], location: &str) -> Expected {
    let mut text = String::new();
    for line in lines {
        text.push_str(&(changed_line(line, location) + "\n"));
        if line.starts_with("overlaps") {
            text.push_str(&claimants(numbers));
        }
    }
    let inconsistent = numbers[places::VERDICT] == Verdict::Inconsistent.number();
    if inconsistent {
        text.push_str("result     inconsistent\n");
    }
    Expected { text, status: if inconsistent { INCONSISTENT_STATUS } else { CONSISTENT_STATUS } }
}

/// The lines of the kinds that came second, in the order of their numbers.
fn claimants(numbers: &[u64]) -> String {
    let counts = Kind::ALL.iter().map(|&kind| (kind, numbers[places::claimant(kind)]));
    counts.filter(|&(_, count)| count != 0).map(|(kind, count)| format!("  {kind}: {count}\n")).collect()
}

fn changed_line(line: &str, location: &str) -> String {
    if line.starts_with("space check  ") {
        line.replacen(LOCATION, location, 1)
    } else if line.starts_with("allocated but unused (leaked): ") {
        // The original is built with an empty size.
        line.strip_suffix(" ()").unwrap_or(line).into()
    } else {
        line.into()
    }
}

/// Runs the command on a file with the image, which is there for the time of the run.
fn run(program: &str, path: &Path, image: &[u8]) -> io::Result<Output> {
    let at = |name: &str, error: io::Error| io::Error::other(format!("{name}: {error}"));
    let written = fs::write(path, image).map_err(|e| at(&path.to_string_lossy(), e));
    let output = written.and_then(|()| Command::new(program).arg(path).output().map_err(|e| at(program, e)));
    // Nothing more can be done about a file that can't be removed.
    let _ = fs::remove_file(path);
    output
}

fn faults(output: &Output, expected: &Expected) -> Option<String> {
    let line = wrong_line(&output.stdout, expected.text.as_bytes());
    let faults: Vec<String> = line.into_iter().chain(wrong_status(output.status, expected.status)).collect();
    (!faults.is_empty()).then(|| faults.join("; "))
}

/// The first line that differs, its end included.
fn wrong_line(printed: &[u8], expected: &[u8]) -> Option<String> {
    let lines = |text| <[u8]>::split_inclusive(text, |&byte| byte == b'\n').collect::<Vec<_>>();
    let (printed, expected) = (lines(printed), lines(expected));
    let differs = |i: &usize| printed.get(*i) != expected.get(*i);
    let first = (0..printed.len().max(expected.len())).find(differs)?;
    let shown = |line: Option<&&[u8]>| line.map_or("nothing".into(), |l| format!("{:?}", String::from_utf8_lossy(l)));
    Some(format!("line {}: {} instead of {}", first + 1, shown(printed.get(first)), shown(expected.get(first))))
}

fn wrong_status(status: ExitStatus, expected: i32) -> Option<String> {
    (status.code() != Some(expected)).then(|| format!("{status} instead of {expected}"))
}

#[cfg(test)]
mod tests {
    use super::*;
    use crate::answer::Report;

    fn numbers(verdict: Verdict, claimants: &[(Kind, u64)]) -> Vec<u64> {
        let mut report = Report { verdict: verdict.number(), ..Report::default() };
        claimants.iter().for_each(|&(kind, count)| report.claimants[kind.number() as usize - 1] = count);
        Answer::Reported(Box::new(report)).numbers()
    }

    #[test]
    fn the_location_the_size_and_the_end_are_changed() {
        let lines = ["space check  image  xid 7", "overlaps ()", "allocated but unused (leaked): 0 blocks ()"];
        let text = "space check  a/b  xid 7\noverlaps ()\nallocated but unused (leaked): 0 blocks\n";
        let lines = lines.map(String::from);
        let numbers = |verdict| numbers(verdict, &[]);
        assert_eq!(changed(&lines, &numbers(Verdict::Consistent), "a/b"), Expected { text: text.into(), status: 0 });
        let text = format!("{text}result     inconsistent\n");
        assert_eq!(changed(&lines, &numbers(Verdict::Inconsistent), "a/b"), Expected { text, status: 1 });
    }

    #[test]
    fn kinds_that_came_second_follow_the_overlaps_by_their_numbers() {
        let lines = ["overlaps   14 blocks", "  block 0x1: internal pool and checkpoint data area"].map(String::from);
        let claimants = [(Kind::SnapshotNode, 3), (Kind::DataArea, 1), (Kind::FreeQueue, 8), (Kind::DescriptorArea, 2)];
        let expected = changed(&lines, &numbers(Verdict::Inconsistent, &claimants), "a");
        let text = "overlaps   14 blocks\n  checkpoint descriptor area: 2\n  checkpoint data area: 1\n  \
                    free queue (pending release): 8\n  snapshot tree node: 3\n  block 0x1: internal pool and \
                    checkpoint data area\nresult     inconsistent\n";
        assert_eq!(expected.text, text);
    }

    #[test]
    fn the_first_wrong_line_is_told() {
        let told = |printed: &str| wrong_line(printed.as_bytes(), b"one\ntwo\n");
        assert_eq!(told("one\ntwo\n"), None);
        assert_eq!(told("one\n2\n").unwrap(), r#"line 2: "2\n" instead of "two\n""#);
        assert_eq!(told("one\n").unwrap(), r#"line 2: nothing instead of "two\n""#);
        assert_eq!(told("one\ntwo").unwrap(), r#"line 2: "two" instead of "two\n""#);
        assert_eq!(told("one\ntwo\n\n").unwrap(), r#"line 3: "\n" instead of nothing"#);
    }
}
