//! Large containers, sound and damaged: real ones by mkapfs of Debian's apfsprogs, and built ones whose pool has more
//! blocks than one bitmap block has bits.

use std::fs::{self, File};
use std::io;
use std::path::Path;
use std::time::Instant;

use crate::coverage::Coverage;
use crate::image::Image;
use crate::judge::{judge, Ask};
use crate::mkapfs;
use crate::run::compared;
use crate::seeds::Base;
use crate::survey::Survey;
use crate::text::to_row;
use crate::worker::{Worker, LARGE};

const MEBIBYTE: u64 = 1 << 20;
/// Sizes of the real containers.
const MEBIBYTES: [u64; 3] = [200, 333, 520];
/// So many containers with a large pool.
const LARGE_POOLS: u64 = 3;

/// The number of disagreements over containers of mkapfs, each undamaged and `damaged` times damaged.
pub fn real(damaged: u64) -> io::Result<u64> {
    let Some(program) = mkapfs::program() else {
        println!("mkapfs is not installed (Debian: apt-get install apfsprogs): real containers are left out");
        return Ok(0);
    };
    let bases = MEBIBYTES.into_iter().map(|mebibytes| {
        let bytes = make(&program, mebibytes)?;
        let survey = Survey::of(&bytes).ok_or_else(|| io::Error::other("a container of mkapfs can't be surveyed"))?;
        Ok((format!("mkapfs, {mebibytes} MiB"), Base { number: mebibytes, bytes, survey }))
    });
    run(bases, damaged)
}

/// The same over containers built here.
pub fn large(damaged: u64) -> io::Result<u64> {
    let bases = (0..LARGE_POOLS).map(|number| Ok((format!("large pool {number}"), Base::with_large_pool(number))));
    run(bases, damaged)
}

fn run(bases: impl Iterator<Item = io::Result<(String, Base)>>, damaged: u64) -> io::Result<u64> {
    let start = Instant::now();
    let mut worker = Worker::new(LARGE);
    let mut coverage = Coverage::new();
    let mut disagreements = 0;
    println!("{}", compared());
    for base in bases {
        let (name, base) = base?;
        let images = std::iter::once(base.image()).chain((0..damaged).map(|i| base.damaged(base.number << 32 | i)));
        for image in images {
            disagreements += u64::from(!agrees(&mut worker, &name, &image, &mut coverage)?);
        }
    }
    print!("{coverage}");
    let seconds = start.elapsed().as_secs_f64();
    println!("{} images in {seconds:.1} s, {disagreements} disagreements", coverage.images());
    Ok(disagreements)
}

fn agrees(worker: &mut Worker, name: &str, image: &Image, coverage: &mut Coverage) -> io::Result<bool> {
    let judgement = judge(worker, &image.bytes, image.map_length, Ask::WhereDue)?;
    coverage.add(&judgement, image);
    if image.made.is_empty() {
        println!("{name}, undamaged: {}", to_row(&judgement.pass.answer.numbers()));
    }
    match judgement.disagreement {
        None => Ok(true),
        Some(what) => {
            println!("{name}: {what}\n  made: {}", image.story());
            Ok(false)
        }
    }
}

fn make(program: &Path, mebibytes: u64) -> io::Result<Vec<u8>> {
    let path = std::env::temp_dir().join(format!("compare-{}-{mebibytes}.apfs", std::process::id()));
    let made = File::create(&path)
        .and_then(|file| file.set_len(mebibytes * MEBIBYTE))
        .and_then(|()| mkapfs::make(program, &path))
        .and_then(|()| fs::read(&path));
    fs::remove_file(&path)?;
    made
}
