//! Counts how often each thing that can happen happened, and in how many ways.

mod ring;

use std::collections::{BTreeMap, BTreeSet};
use std::fmt;

use space_check::{Kind, ProblemKind, Refusal, Verdict, LOGGED};

use crate::answer::{Answer, Problem, Report};
use crate::image::Image;
use crate::judge::{is_due, Judgement, LAST_UNTOUCHED};
use crate::messages;
use crate::model::{Notes, Pass, Reached, Stage, HIGHEST_COUNT, WALK_LEVELS};
use crate::outside::Outside;
use crate::recipes::RECIPES;
use crate::worker::Reply;

/// A thing that can happen.
#[derive(Clone, Debug, PartialEq, Eq, PartialOrd, Ord)]
pub enum Row {
    Refusal(Refusal),
    /// A refusal that is met among the volumes.
    Volume(Stage, Refusal),
    /// The rule by which the original is no reference.
    Outside(Outside),
    Verdict(Verdict),
    Problem(ProblemKind),
    Owner(Kind),
    Claimant(Kind),
    Lost(Kind),
    Finding(&'static str),
    Recipe(&'static str),
    Shape(String),
}

const MANY_PROBLEMS: &str = "more than ten problems";
const MANY_OVERLAPS: &str = "more than ten overlaps";
// The kinds that came second, which a report lists in the order of their numbers.
const CLAIMANTS: &str = "overlaps of several claimants";
const CLAIMANTS_BY_NAME: &str = "claimants whose order by name is another";
const CLAIMANTS_AS_MET: &str = "claimants whose order of claims is another";
const CLAIMANT_LATE: &str = "a claimant beyond the tenth overlap alone";
const UNUSED: &str = "pool blocks marked but unused";
const WRONG_COUNTS: &str = "chunks with a wrong count";
const NO_MATCH: &str = "device free count doesn't match";
const LEAKED: &str = "leaked blocks";
const CHAIN_SUM: &str = "a report after an overflowing chain sum";
const CHAIN_REPEATS: &str = "a report after a map chain that came round its ring";
const CHAIN_LONG: &str = "a report after a map chain of more than 2^16 blocks";
const MANAGER_REPEATS: &str = "a report with a manager longer than its ring";
const LONGER_MAP: &str = "a report with a map longer than the count";
const LONGER_MAP_REFUSED: &str = "a refusal from 12 on with a map longer than the count";
// The near sides of the rules that take images outside: one that is met too early would leave such a row empty.
const NEAR_4: &str = "near 4: a count of 2^32 - 1, refused by 5 and not by 4";
const NEAR_5: &str = "near 5: a report on an image of exactly count x size bytes";
const NEAR_6: &str = "near 6: a report with a map of exactly count bytes";
const NEAR_8: &str = "near 8: a report, the descriptor area ends at the count";
const NEAR_21: &str = "near 21: a report, a pool-queue entry ends at the count";
const NEAR_22_NODES: &str = "near 22: a report after a walk of as many nodes as blocks";
const NEAR_22_LEVELS: &str = "near 22: a report after a walk of 33 levels";
const NEAR_DELETED: &str = "near deleted: a report, a live mapping has other flags";
// What a deleted mapping names, and a refusal after one.
const DELETED_OWNED: &str = "a report, a deleted mapping names a block of another kind";
const DELETED_UNOWNED: &str = "a report, a deleted mapping names an unowned block";
const DELETED_PAST: &str = "a report, a deleted mapping names a block past the count";
const DELETED_LAST: &str = "a report, a deleted mapping names block 2^64 - 1";
const DELETED_REFUSED: &str = "a refusal after a deleted mapping";
// Where address blocks are followed.
const ADDRESS_AFTER: &str = "an unmarked address block after another problem";
const ADDRESS_REPORTED: &str = "a report with address blocks";
const ADDRESS_REFUSED: &str = "a refusal with address blocks";
// How a volume's lookup fails, a fault that comes before another, and what a map out of order comes to.
const REACHED_NOTHING: &str = "23: no mapping at or below the volume's";
const REACHED_GHOST: &str = "23: a ghost";
const REACHED_OTHER: &str = "23: a mapping of another id";
const REACHED_DELETED: &str = "23: a deleted mapping";
const FOREIGN_BROKEN: &str = "13: a volume mapped to what doesn't verify and is no volume";
const UNORDERED_FOUND: &str = "a report, volumes found in an object map out of order";
const UNORDERED_MISSED: &str = "23: an object map out of order";
// What the two openings come to, and the near side of refusal 22 in the volumes' walks.
const LOADED: &str = "a report, every volume's object map can be loaded";
const UNLOADED: &str = "a report, a volume's object map can't be loaded";
const NEAR_22_VOLUME_NODES: &str = "near 22: a report after a volume's walk of as many nodes as blocks";
const NEAR_22_VOLUME_LEVELS: &str = "near 22: a report after a volume's walk of 33 levels";
const DAMAGES: &str = "several damages";

const FINDINGS: [&str; 44] = [
    MANY_PROBLEMS,
    MANY_OVERLAPS,
    CLAIMANTS,
    CLAIMANTS_BY_NAME,
    CLAIMANTS_AS_MET,
    CLAIMANT_LATE,
    UNUSED,
    WRONG_COUNTS,
    NO_MATCH,
    LEAKED,
    CHAIN_SUM,
    CHAIN_REPEATS,
    CHAIN_LONG,
    MANAGER_REPEATS,
    LONGER_MAP,
    LONGER_MAP_REFUSED,
    NEAR_4,
    NEAR_5,
    NEAR_6,
    NEAR_8,
    NEAR_21,
    NEAR_22_NODES,
    NEAR_22_LEVELS,
    NEAR_DELETED,
    DELETED_OWNED,
    DELETED_UNOWNED,
    DELETED_PAST,
    DELETED_LAST,
    DELETED_REFUSED,
    ADDRESS_AFTER,
    ADDRESS_REPORTED,
    ADDRESS_REFUSED,
    REACHED_NOTHING,
    REACHED_GHOST,
    REACHED_OTHER,
    REACHED_DELETED,
    FOREIGN_BROKEN,
    UNORDERED_FOUND,
    UNORDERED_MISSED,
    LOADED,
    UNLOADED,
    NEAR_22_VOLUME_NODES,
    NEAR_22_VOLUME_LEVELS,
    DAMAGES,
];

/// The shapes that have to be met, as the survey names them.
const SHAPES: [&str; 54] = [
    "block size 4096",
    "block size 8192",
    "block size 16384",
    "block size 32768",
    "block size 65536",
    "several checkpoints",
    "an older checkpoint taken",
    "equal xids",
    "chain over several blocks",
    "chain wraps",
    "manager over several blocks",
    "manager wraps",
    "manager mapped twice",
    "manager mapped beyond its ring",
    "data length with its top bit",
    "pool bitmap of several blocks",
    "several chunk-info blocks",
    "several address blocks",
    "empty address block",
    "address block over several chunk-info blocks",
    "address blocks beside another chunk-info count",
    "empty free list",
    "free list of one block",
    "free list of several blocks",
    "chunk of no blocks",
    "node of fixed sizes",
    "node of variable sizes",
    "object map of 1 level(s)",
    "object map of 2 level(s)",
    "object map of 3 level(s)",
    "object map with ghosts",
    "object map with deleted mappings",
    "deleted mapping beside a live one of its id",
    "several live mappings of one id",
    "mapping above the checkpoint's xid",
    "several volumes",
    "zero before a volume id",
    "volume id repeated",
    "volume in the last place",
    "volume id behind the last place",
    "tree of two volumes",
    "volume with the container's object map",
    "volume whose object map can't be loaded",
    "volume without a snapshot tree",
    "volume's tree of 1 level(s)",
    "volume's tree of 2 level(s)",
    "volume's tree of 3 level(s)",
    "volume's tree of 4 level(s)",
    "queue of 1 level(s)",
    "queue of 2 level(s)",
    "queue of 3 level(s)",
    "queue with ghosts",
    "queue entry of count 0",
    "queue mapped twice",
];

impl fmt::Display for Row {
    fn fmt(&self, f: &mut fmt::Formatter) -> fmt::Result {
        match self {
            // Its name in words is a sentence.
            Row::Refusal(refusal) => write!(f, "refusal {}: {refusal:?}", refusal.number()),
            Row::Volume(stage, refusal) => write!(f, "refusal {} at a volume's {}", refusal.number(), stage.name()),
            Row::Outside(rule) => write!(f, "outside by {rule}"),
            Row::Verdict(verdict) => write!(f, "verdict {}: {verdict}", verdict.number()),
            Row::Problem(kind) => write!(f, "problem {}: {kind}", kind.number()),
            Row::Owner(kind) => write!(f, "overlap, owner {}: {kind}", kind.number()),
            Row::Claimant(kind) => write!(f, "overlap, claimant {}: {kind}", kind.number()),
            Row::Lost(kind) => write!(f, "lost {}: {kind}", kind.number()),
            Row::Finding(name) => write!(f, "{name}"),
            Row::Recipe(name) => write!(f, "damage: {name}"),
            Row::Shape(name) => write!(f, "shape: {name}"),
        }
    }
}

/// Every row that has to be reached.
pub fn wanted() -> Vec<Row> {
    let kinds = || Kind::ALL.iter().copied();
    let mut rows: Vec<Row> = Refusal::ALL.iter().copied().map(Row::Refusal).collect();
    let at_stage = |(stage, met): (Stage, &'static [Refusal])| met.iter().map(move |&r| Row::Volume(stage, r));
    rows.extend(Stage::REFUSALS.into_iter().flat_map(at_stage));
    rows.extend(Outside::all().into_iter().map(Row::Outside));
    rows.extend(Verdict::ALL.iter().copied().map(Row::Verdict));
    rows.extend(ProblemKind::ALL.iter().copied().map(Row::Problem));
    // The queue claims last and owns nothing that another could claim; the superblock claims an empty map.
    rows.extend(kinds().filter(|&kind| kind != Kind::FreeQueue).map(Row::Owner));
    rows.extend(kinds().filter(|&kind| kind != Kind::ContainerSuperblock).map(Row::Claimant));
    rows.extend(kinds().map(Row::Lost));
    rows.extend(FINDINGS.into_iter().chain(ring::FINDINGS).map(Row::Finding));
    rows.extend(RECIPES.iter().map(|(name, _)| Row::Recipe(name)));
    rows.extend(SHAPES.map(|name| Row::Shape(name.into())));
    rows
}

/// The rows of one image with the model's answer on it.
pub fn rows(pass: &Pass, image: &Image) -> BTreeSet<Row> {
    let mut rows = BTreeSet::new();
    match &pass.answer {
        Answer::Refused(refusal) => {
            rows.insert(Row::Refusal(*refusal));
            rows.extend(pass.notes.volumes.stage.map(|stage| Row::Volume(stage, *refusal)));
            rows.extend(refusal_rows(*refusal, &pass.notes));
            rows.extend(held(&ring::refused(*refusal, &pass.notes)));
        }
        Answer::Reported(report) => {
            report_rows(report, &mut rows);
            rows.extend(noted_rows(&pass.notes));
            rows.extend(held(&ring::reported(report, &pass.notes)));
        }
    }
    rows.extend(pass.notes.outside.map(Row::Outside));
    rows.extend(held(&[(DAMAGES, image.ways.len() > 1)]));
    rows.extend(RECIPES.iter().filter(|(name, _)| image.ways == [*name]).map(|(name, _)| Row::Recipe(name)));
    if image.ways.is_empty() {
        rows.extend(image.features.iter().cloned().map(Row::Shape));
    }
    rows
}

fn refusal_rows(refusal: Refusal, notes: &Notes) -> Vec<Row> {
    let reached = |what| refusal == Refusal::VolumeUnmapped && notes.volumes.reached == Some(what);
    let at_superblock = notes.volumes.stage == Some(Stage::Superblock);
    held(&[
        (FOREIGN_BROKEN, at_superblock && notes.volumes.foreign && refusal == Refusal::BadChecksum),
        (REACHED_NOTHING, reached(Reached::Nothing)),
        (REACHED_GHOST, reached(Reached::Ghost)),
        (REACHED_OTHER, reached(Reached::OtherId)),
        (REACHED_DELETED, reached(Reached::Deleted)),
        (UNORDERED_MISSED, refusal == Refusal::VolumeUnmapped && notes.mappings.out_of_order),
        (LONGER_MAP_REFUSED, refusal > LAST_UNTOUCHED && !notes.map_exact),
        (NEAR_4, notes.count == HIGHEST_COUNT && refusal == Refusal::MissingBlocks),
        (DELETED_REFUSED, notes.outside == Some(Outside::DeletedMapping)),
        (ADDRESS_REFUSED, notes.outside == Some(Outside::AddressBlocks)),
    ])
}

/// What a report's notes tell.
fn noted_rows(notes: &Notes) -> Vec<Row> {
    let volumes = &notes.volumes;
    held(&[
        (UNORDERED_FOUND, volumes.claimed > 0 && notes.mappings.out_of_order),
        (LOADED, volumes.claimed > 0 && !volumes.unloaded),
        (UNLOADED, volumes.unloaded),
        (NEAR_22_VOLUME_NODES, volumes.walked.nodes == notes.count),
        (NEAR_22_VOLUME_LEVELS, volumes.walked.levels == WALK_LEVELS),
        (CHAIN_SUM, notes.chain_sum_overflowed),
        (CHAIN_REPEATS, notes.repeated_chain > 0),
        (CHAIN_LONG, notes.repeated_chain > 1 << 16),
        (MANAGER_REPEATS, notes.repeated_manager),
        (LONGER_MAP, !notes.map_exact),
        (NEAR_5, notes.image_exact),
        (NEAR_6, notes.map_exact),
        (NEAR_8, notes.area_ends_at_count),
        (NEAR_21, notes.queued_to_count),
        (NEAR_22_NODES, notes.walked.nodes == notes.count),
        (NEAR_22_LEVELS, notes.walked.levels == WALK_LEVELS),
        (NEAR_DELETED, notes.mappings.other_flags && notes.outside.is_none()),
        (DELETED_OWNED, notes.mappings.deleted_owned),
        (DELETED_UNOWNED, notes.mappings.deleted_unowned),
        (DELETED_PAST, notes.mappings.deleted_past),
        (DELETED_LAST, notes.mappings.deleted_last),
        (ADDRESS_REPORTED, notes.outside == Some(Outside::AddressBlocks)),
    ])
}

fn report_rows(report: &Report, rows: &mut BTreeSet<Row>) {
    rows.extend(Verdict::from_number(report.verdict).map(Row::Verdict));
    // Places that nothing fills name no kind.
    rows.extend(report.first_problems.iter().filter_map(|p| ProblemKind::from_number(p.kind)).map(Row::Problem));
    rows.extend(report.first_overlaps.iter().filter_map(|o| Kind::from_number(o.owner)).map(Row::Owner));
    rows.extend(report.first_overlaps.iter().filter_map(|o| Kind::from_number(o.claimant)).map(Row::Claimant));
    rows.extend(claimant_rows(report));
    rows.extend(
        Kind::ALL.iter().zip(&report.lost).filter(|(_, lost)| lost.count != 0).map(|(&kind, _)| Row::Lost(kind)),
    );
    let is_address = |problem: &Problem| problem.kind == ProblemKind::AddressUnmarked.number();
    let after = report.first_problems.windows(2).any(|pair| !is_address(&pair[0]) && is_address(&pair[1]));
    rows.extend(held(&[
        (ADDRESS_AFTER, after),
        (MANY_PROBLEMS, report.problems > LOGGED as u64),
        (MANY_OVERLAPS, report.overlaps() > LOGGED as u64),
        (UNUSED, report.pool_unused > 0),
        (WRONG_COUNTS, report.wrong_chunks > 0),
        (NO_MATCH, report.free != report.device_free),
        (LEAKED, report.leaked > 0),
    ]));
}

/// What the kinds that came second are together.
fn claimant_rows(report: &Report) -> Vec<Row> {
    let counted = Kind::ALL.iter().zip(&report.claimants).filter(|(_, &count)| count != 0);
    let kinds: Vec<Kind> = counted.map(|(&kind, _)| kind).collect();
    let is_named = |kind: &Kind| report.first_overlaps.iter().any(|overlap| overlap.claimant == kind.number());
    let of_volumes = kinds.contains(&Kind::ExtentNode) || kinds.contains(&Kind::SnapshotNode);
    held(&[
        (CLAIMANTS, kinds.len() > 1),
        (CLAIMANTS_BY_NAME, !kinds.is_sorted_by_key(|kind| kind.name())),
        // The queue claims after the volumes; a volume's 6 or 7 after an 8, which isn't counted here, shows it too.
        (CLAIMANTS_AS_MET, kinds.contains(&Kind::FreeQueue) && of_volumes),
        (CLAIMANT_LATE, !kinds.iter().all(is_named)),
    ])
}

/// The findings whose test holds.
fn held(tests: &[(&'static str, bool)]) -> Vec<Row> {
    tests.iter().filter(|(_, test)| *test).map(|(name, _)| Row::Finding(name)).collect()
}

#[derive(Default)]
struct Tally {
    images: u64,
    compared: u64,
    panics: u64,
    aborts: u64,
    outside: u64,
    ways: BTreeSet<String>,
}

/// The table, image by image.
pub struct Coverage {
    rows: BTreeMap<Row, Tally>,
    all: Tally,
    /// Images on which the two openings ended in the same way, and on which the second failed.
    openings: [u64; 2],
    /// How often an error's message told of one refusal, or of none, where the model gave another, or the same.
    messages: BTreeMap<(Refusal, Option<Refusal>), u64>,
}

impl Coverage {
    pub fn new() -> Self {
        let rows = wanted().into_iter().map(|row| (row, Tally::default())).collect();
        Coverage { rows, all: Tally::default(), openings: [0; 2], messages: BTreeMap::new() }
    }

    pub fn add(&mut self, judgement: &Judgement, image: &Image) {
        for row in rows(&judgement.pass, image) {
            self.rows.entry(row).or_default().add(judgement, &image.ways);
        }
        self.all.add(judgement, &image.ways);
        if judgement.loading.is_some() {
            self.openings[usize::from(judgement.pass.notes.volumes.unloaded)] += 1;
        }
        if let (true, Some(Reply::Error(message)), Answer::Refused(refusal)) =
            (is_due(&judgement.pass), &judgement.original, &judgement.pass.answer)
        {
            *self.messages.entry((*refusal, messages::refusal(message))).or_default() += 1;
        }
    }

    /// How far the original's messages tell of the model's refusals.
    fn write_messages(&self, f: &mut fmt::Formatter) -> fmt::Result {
        let is_same = |((model, message), _): &(&(Refusal, Option<Refusal>), &u64)| *message == Some(*model);
        let all: u64 = self.messages.values().sum();
        let same: u64 = self.messages.iter().filter(is_same).map(|(_, count)| count).sum();
        writeln!(f, "errors whose message tells of the model's refusal: {same} of {all}")?;
        for ((model, message), count) in self.messages.iter().filter(|pair| !is_same(pair)) {
            let told = message.map_or("none".into(), |refusal| refusal.number().to_string());
            writeln!(f, "  {count} where the model gives {} and the message tells of {told}", model.number())?;
        }
        Ok(())
    }

    pub fn images(&self) -> u64 {
        self.all.images
    }

    /// Rows that no image reached.
    pub fn missing(&self) -> Vec<&Row> {
        self.rows.iter().filter(|(_, tally)| tally.images == 0).map(|(row, _)| row).collect()
    }
}

impl Tally {
    fn add(&mut self, judgement: &Judgement, ways: &[String]) {
        self.images += 1;
        match &judgement.original {
            _ if !is_due(&judgement.pass) => self.outside += 1,
            Some(Reply::Panic(_)) => self.panics += 1,
            Some(Reply::Abort) => self.aborts += 1,
            _ => self.compared += 1,
        }
        // Only where the damage is the only one is it known to be the way.
        if let [way] = ways {
            self.ways.insert(way.clone());
        }
    }
}

impl fmt::Display for Coverage {
    fn fmt(&self, f: &mut fmt::Formatter) -> fmt::Result {
        writeln!(
            f,
            "{:<62} {:>8} {:>8} {:>7} {:>7} {:>7} {:>5}",
            "", "images", "compared", "panics", "aborts", "outside", "ways"
        )?;
        let all = std::iter::once(("all images".to_string(), &self.all));
        for (name, t) in all.chain(self.rows.iter().map(|(row, tally)| (row.to_string(), tally))) {
            writeln!(
                f,
                "{name:<62} {:>8} {:>8} {:>7} {:>7} {:>7} {:>5}",
                t.images,
                t.compared,
                t.panics,
                t.aborts,
                t.outside,
                t.ways.len()
            )?;
        }
        let [same, out] = self.openings;
        writeln!(
            f,
            "volumes opened by loading their object maps: {same} images end in the same way, on {out} an opening fails"
        )?;
        self.write_messages(f)
    }
}
