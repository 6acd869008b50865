//! `compare run`: many images, the table of coverage, and the smallest image of the first disagreement.

use std::io;
use std::ops::Range;
use std::time::Instant;

use crate::coverage::Coverage;
use crate::disagreement::Disagreement;
use crate::image::Image;
use crate::judge::{judge, Ask};
use crate::list::{ending, write_item, Item};
use crate::seeds::{Base, Builder};
use crate::shrink::Shrinker;
use crate::worker::{Worker, SMALL};

/// Disagreements are counted to the end; so many are told.
const TOLD: u64 = 10;

/// A run of so many seeds has to reach every row of the table: one that isn't reached was not compared.
const ENOUGH: u64 = 20_000;

/// Whether all agree, and every row is reached where the seeds are enough for it.
pub fn run(seeds: Range<u64>) -> io::Result<bool> {
    let start = Instant::now();
    let mut worker = Worker::new(SMALL);
    let mut builder = Builder::default();
    let mut coverage = Coverage::new();
    let mut disagreements = 0;
    println!("{}", compared());
    for seed in seeds.clone() {
        let image = builder.image(seed);
        let judgement = judge(&mut worker, &image.bytes, image.map_length, Ask::WhereDue)?;
        coverage.add(&judgement, &image);
        if let Some(what) = &judgement.disagreement {
            disagreements += 1;
            if disagreements <= TOLD {
                println!("seed {seed}: {what}\n  made: {}", image.story());
            }
            if disagreements == 1 {
                println!("{}", smallest(&mut worker, seed, &image, builder.base(seed), what)?);
            }
        }
    }
    print!("{coverage}");
    let missing: Vec<String> = coverage.missing().iter().map(|row| row.to_string()).collect();
    println!("rows that no image reached: {}", if missing.is_empty() { "none".into() } else { missing.join("; ") });
    let seconds = start.elapsed().as_secs_f64();
    println!("{} images of seeds {seeds:?} in {seconds:.1} s, {disagreements} disagreements", coverage.images());
    Ok(disagreements == 0 && (missing.is_empty() || coverage.images() < ENOUGH))
}

/// What a run holds against what.
pub fn compared() -> &'static str {
    if crate::library::LINKED {
        "compared: the library with the model on every image; both with the original where that is the reference"
    } else {
        "compared: the model with the original where that is the reference; the library is not linked"
    }
}

fn smallest(worker: &mut Worker, seed: u64, image: &Image, base: &Base, what: &Disagreement) -> io::Result<String> {
    let mut shrinker = Shrinker { worker, map_length: image.map_length, what: what.clone() };
    let small = shrinker.shrink(&image.bytes, &base.bytes, base.survey.block_size)?;
    let judgement = judge(worker, &small, image.map_length, Ask::Always)?;
    let item = Item {
        name: format!("seed-{seed}-smallest"),
        original: ending(&judgement),
        made: judgement.disagreement.map(|d| d.to_string()).unwrap_or_default(),
        base: None,
        image: small,
        map_length: image.map_length,
        answer: judgement.pass.answer.numbers(),
        left: judgement.left,
    };
    let mut text = String::new();
    write_item(&mut text, &item, &[]);
    Ok(text)
}
