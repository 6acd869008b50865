//! Chooses the images of the fixed list.

use std::collections::{BTreeMap, BTreeSet};
use std::io;

use crate::boundary::{Boundary, BOUNDARIES};
use crate::coverage::{rows, wanted, Row};
use crate::fill::Fill;
use crate::image::Image;
use crate::judge::{is_due, judge, Ask, Judgement};
use crate::list::{ending, write_base, write_item, Item};
use crate::model;
use crate::seeds::{Base, Builder};
use crate::worker::{Reply, Worker, SMALL};

/// The seeds that are looked through.
const SEEDS: u64 = 20_000;
/// The containers in which a boundary is looked for.
const CONTAINERS: u64 = 500;
/// Images of the list have at most so many bytes, where one can be.
const LARGEST: usize = 65_536;
/// For rows that no such image reaches, so many, and then any number.
const LARGER: [usize; 4] = [1 << 18, 1 << 20, 1 << 21, usize::MAX];
/// So many ways to each refusal, and so many images for each other row.
const WAYS: usize = 12;
const EXAMPLES: usize = 6;
/// Fewer where the row says how an image was made, or where among the volumes it is refused.
const RECIPES: usize = 3;
const SHAPES: usize = 2;
const STAGES: usize = 2;

const HEADER: &str = "\
# Images with the answers of the original, for replaying where its sources are not at hand (tools/replay).
# Made by `compare answers`; the form is told in compare/README.md.
# rust report, and nothing more: the map and every figure but the last, the blocks on the free list, are the original's.
# Otherwise the line says what is the model's, and with `outside` by which rule the original is no reference.
";

/// Chooses by what an image shows that the ones before it don't show often enough.
#[derive(Default)]
struct Choice {
    seen: BTreeMap<Row, usize>,
    ways: BTreeSet<(Row, String)>,
}

impl Choice {
    fn wants(&mut self, rows: &BTreeSet<Row>, ways: &[String]) -> bool {
        let fresh: Vec<&Row> = rows.iter().filter(|row| self.adds(row, ways)).collect();
        if fresh.is_empty() {
            return false;
        }
        for row in rows {
            *self.seen.entry(row.clone()).or_default() += 1;
            self.ways.extend(ways.iter().map(|way| (row.clone(), way.clone())));
        }
        true
    }

    fn adds(&self, row: &Row, ways: &[String]) -> bool {
        let seen = self.seen.get(row).copied().unwrap_or(0);
        match (row, ways) {
            // One damage alone tells the way; a refusal with few ways gets several values of each.
            (Row::Refusal(_) | Row::Outside(_), [way]) => {
                seen < EXAMPLES || seen < WAYS && !self.ways.contains(&(row.clone(), way.clone()))
            }
            (Row::Refusal(_) | Row::Outside(_), [_, ..]) => false,
            (Row::Volume(..), _) => seen < STAGES,
            (Row::Shape(_), _) => seen < SHAPES,
            (Row::Recipe(_), _) => seen < RECIPES,
            _ => seen < EXAMPLES,
        }
    }
}

/// Seeds of small images first; then, for rows that they don't reach, of larger ones.
fn chosen() -> BTreeSet<u64> {
    let mut choice = Choice::default();
    let mut seeds = BTreeSet::new();
    let mut builder = Builder::default();
    let larger = LARGER.map(|largest| (largest, true));
    for (largest, only_unreached) in std::iter::once((LARGEST, false)).chain(larger) {
        for seed in 0..SEEDS {
            // Damage can't make a large container's image small without cutting what it is about.
            if builder.base(seed).bytes.len() > largest {
                continue;
            }
            let image = builder.image(seed);
            let pass = model::check(&image.bytes, &mut Fill::Listed.map(image.map_length));
            let found = rows(&pass, &image);
            let unreached = found.iter().any(|row| !choice.seen.contains_key(row));
            if image.bytes.len() <= largest && (unreached || !only_unreached) && choice.wants(&found, &image.ways) {
                seeds.insert(seed);
            }
        }
    }
    seeds
}

/// The list under way.
struct List {
    worker: Worker,
    text: String,
    /// Numbers of the containers that are defined.
    defined: BTreeSet<u64>,
    reached: BTreeSet<Row>,
}

impl List {
    fn judge(&mut self, image: &Image) -> io::Result<Judgement> {
        judge(&mut self.worker, &image.bytes, image.map_length, Ask::Always)
    }

    fn write(&mut self, name: String, base: &Base, image: Image, judgement: &Judgement) {
        self.reached.extend(rows(&judgement.pass, &image));
        let base_name = format!("shape-{}", base.number);
        if self.defined.insert(base.number) {
            write_base(&mut self.text, &base_name, &base.bytes);
        }
        let item = Item {
            name,
            made: format!("container {}, {}", base.number, image.story()),
            base: Some(base_name),
            image: image.bytes,
            map_length: image.map_length,
            original: ending(judgement),
            answer: judgement.pass.answer.numbers(),
            left: judgement.left.clone(),
        };
        write_item(&mut self.text, &item, &base.bytes);
    }

    /// Both sides of a boundary, in the first small container on which the near side is the original's.
    fn write_boundary(&mut self, boundary: &Boundary) -> io::Result<Result<(), String>> {
        let name = item_name(boundary);
        for base in (0..CONTAINERS).map(Base::build).filter(|base| base.bytes.len() <= LARGEST) {
            let Some([near, far]) = boundary.images(&base) else { continue };
            let judgements = [self.judge(&near)?, self.judge(&far)?];
            if let Some(what) = judgements.iter().find_map(|j| j.disagreement.as_ref()) {
                return Ok(Err(format!("{name}, container {}: {what}", base.number)));
            }
            if shows(boundary, &judgements) {
                let [near_judged, far_judged] = judgements;
                self.write(format!("{name}-near"), &base, near, &near_judged);
                self.write(format!("{name}-far"), &base, far, &far_judged);
                return Ok(Ok(()));
            }
        }
        Ok(Err(format!("no container shows {name}")))
    }
}

fn item_name(boundary: &Boundary) -> String {
    format!("boundary {} {}", boundary.rule.label(), boundary.name).replace(' ', "-")
}

/// The near side reports as the original does, or is refused as it has to be, and the far side meets the rule.
fn shows(boundary: &Boundary, [near, far]: &[Judgement; 2]) -> bool {
    let meets = |judgement: &Judgement| judgement.pass.notes.outside == Some(boundary.rule);
    let answered = match boundary.near_refusal {
        Some(refusal) => near.pass.refusal() == Some(refusal) && !meets(near),
        None => is_due(&near.pass) && matches!(near.original, Some(Reply::Answer(..))),
    };
    answered && meets(far) && far.pass.refusal() == boundary.rule.refusal()
}

/// The fixed list as text; an error where the original and the model part on one of its images.
pub fn make() -> io::Result<Result<String, String>> {
    let mut list =
        List { worker: Worker::new(SMALL), text: HEADER.into(), defined: BTreeSet::new(), reached: BTreeSet::new() };
    let mut builder = Builder::default();
    for seed in chosen() {
        let image = builder.image(seed);
        let judgement = list.judge(&image)?;
        if let Some(what) = judgement.disagreement {
            return Ok(Err(format!("seed {seed}: {what}")));
        }
        list.write(format!("seed-{seed}"), builder.base(seed), image, &judgement);
    }
    for boundary in BOUNDARIES {
        if let Err(what) = list.write_boundary(boundary)? {
            return Ok(Err(what));
        }
    }
    let missing: Vec<String> = wanted().iter().filter(|row| !list.reached.contains(row)).map(Row::to_string).collect();
    Ok(if missing.is_empty() { Ok(list.text) } else { Err(format!("no image for: {}", missing.join("; "))) })
}

#[cfg(test)]
mod tests {
    use super::*;
    use crate::list::parse;
    use space_check::{places, Refusal};

    fn kept() -> Vec<Item> {
        parse(include_str!("../answers/list.txt")).expect("the list can be read")
    }

    #[test]
    fn the_fixed_list_is_the_models() {
        for item in kept() {
            let mut left = Fill::Listed.map(item.map_length);
            let pass = model::check(&item.image, &mut left);
            assert_eq!((pass.answer.numbers(), left), (item.answer, item.left), "{}", item.name);
        }
    }

    #[test]
    fn the_fixed_list_has_both_sides_of_each_boundary() {
        let items = kept();
        let find = |name: String| items.iter().find(|item| item.name == name).expect("a side of a boundary");
        for boundary in BOUNDARIES {
            let name = item_name(boundary);
            let (near, far) = (find(format!("{name}-near")), find(format!("{name}-far")));
            assert_eq!(far.answer[places::REFUSAL], boundary.rule.refusal().map_or(0, Refusal::number), "{name}");
            assert_eq!(near.answer[places::REFUSAL], boundary.near_refusal.map_or(0, Refusal::number), "{name}");
            assert!(boundary.near_refusal.is_some() || near.original == "report", "{name}");
        }
    }
}
