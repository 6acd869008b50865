//! The proved library beside the original: the same answers first, then their times.

use std::fs::File;
use std::process::ExitCode;

mod agreement;
mod checksum;
mod clock;
mod container;
mod memory;
mod mkapfs;
mod nodes;
mod passes;
mod scratch;
mod synthetic;
mod table;

use compare::fields::superblock::MOST_VOLUMES;
use compare::mkapfs::program;
use container::{Measured, Subject, BLOCK};
use memory::{Mapping, Pages};
use scratch::Scratch;
use synthetic::Form;

const USAGE: &str = "usage: bench [checksum] [nodes] [mkapfs] [dense] [volumes] [ring] [large]
                                                                     measure, all seven if none is named
       bench write dense GIBIBYTES FILE                              only write a dense container
       bench write volumes GIBIBYTES FILE                            only write a dense one with volumes
       bench write ring BLOCKS FILE                                  only write one whose pool's bitmap has such a ring
       bench write large TEBIBYTES FILE                              only write a large one, with address blocks from 4 TiB on
       bench pass FILE RUNS                                          only run the proved pass, for a profiler";

const PARTS: [&str; 7] = ["checksum", "nodes", "mkapfs", "dense", "volumes", "ring", "large"];

/// Blocks in a gibibyte and in a tebibyte.
const GIBIBYTE: u64 = (1 << 30) / BLOCK as u64;
const TEBIBYTE: u64 = 1024 * GIBIBYTE;
/// The container of 2 TiB, and the largest whose pool's bitmap every mkapfs writes whole: 10,836 chunks.
const MKAPFS_BLOCKS: [u64; 2] = [2 * TEBIBYTE, 10_836 * 8 * BLOCK as u64];
const MKAPFS_BAR: f64 = 6.0;
const MKAPFS_RUNS: usize = 5;
/// Dense containers; the last is the one with a bar.
const DENSE_GIBIBYTES: [u64; 3] = [16, 32, 64];
const DENSE_BAR: f64 = 4.0;
const DENSE_RUNS: usize = 30;
/// The same for dense containers with volumes.
const VOLUMES_BAR: f64 = 3.0;
/// Rings of the pool's bitmap: the longest of which 0xffff is no index, and before it one of half its blocks, to show how
/// the time grows.
const RING_BLOCKS: [u64; 2] = [32_767, 65_535];
const RING_RUNS: usize = 30;
/// Large containers, with address blocks; the second is twice the first, to show how the time grows.
const LARGE_TEBIBYTES: [u64; 2] = [4, 8];
const LARGE_RUNS: usize = 5;

fn main() -> ExitCode {
    let arguments: Vec<String> = std::env::args().skip(1).collect();
    let arguments: Vec<&str> = arguments.iter().map(String::as_str).collect();
    let ended = match arguments[..] {
        ["write", "dense", gibibytes, file] => write(dense_form, gibibytes, file),
        ["write", "volumes", gibibytes, file] => write(volumes_form, gibibytes, file),
        ["write", "ring", blocks, file] => write(ring_form, blocks, file),
        ["write", "large", tebibytes, file] => write(large_form, tebibytes, file),
        ["pass", file, runs] => pass(file, runs),
        ref parts if parts.iter().all(|part| PARTS.contains(part)) => measure(parts),
        _ => Err(USAGE.into()),
    };
    match ended {
        Ok(()) => ExitCode::SUCCESS,
        Err(message) => {
            eprintln!("{message}");
            ExitCode::FAILURE
        }
    }
}

fn measure(parts: &[&str]) -> Result<(), String> {
    let wanted = |part| parts.is_empty() || parts.contains(&part);
    let mut measured = Measured::default();
    println!("huge pages of the system: {}", memory::huge_pages());
    if wanted("checksum") {
        measured.times.extend(checksum::rows()?);
    }
    if wanted("nodes") {
        measured.times.extend(nodes::rows()?);
    }
    if wanted("mkapfs") {
        real(&mut measured)?;
    }
    if wanted("dense") {
        dense(&mut measured, dense_form, DENSE_BAR)?;
    }
    if wanted("volumes") {
        dense(&mut measured, volumes_form, VOLUMES_BAR)?;
    }
    if wanted("ring") {
        ring(&mut measured)?;
    }
    if wanted("large") {
        large(&mut measured)?;
    }
    table::print_times(&measured.times);
    if !measured.growth.is_empty() {
        table::print_growth(&measured.growth);
    }
    if !measured.memory.is_empty() {
        table::print_memory(&measured.memory);
    }
    Ok(())
}

fn real(measured: &mut Measured) -> Result<(), String> {
    let Some(program) = program() else {
        println!("mkapfs is not installed (Debian: apt-get install apfsprogs): its containers are left out");
        return Ok(());
    };
    for (blocks, bar) in MKAPFS_BLOCKS.into_iter().zip([Some(MKAPFS_BAR), None]) {
        let mkapfs::Made { scratch, completed, unused } = mkapfs::make(&program, blocks).map_err(|e| e.to_string())?;
        let what = format!("mkapfs, {:.2} TiB", blocks as f64 / TEBIBYTE as f64);
        if completed {
            println!("{what}: the pool's bitmap was a block short, and is completed");
        }
        measured.add(Subject { what, runs: MKAPFS_RUNS, bar, misread: false, unused }, &scratch.file)?;
    }
    Ok(())
}

/// Dense containers of all sizes; the bar is for the largest.
fn dense(measured: &mut Measured, form: fn(u64) -> Form, bar: f64) -> Result<(), String> {
    for gibibytes in DENSE_GIBIBYTES {
        let form = form(gibibytes);
        let scratch = made(&format!("dense-{gibibytes}-{}", form.volumes), form)?;
        let bar = (DENSE_GIBIBYTES.last() == Some(&gibibytes)).then_some(bar);
        let what = match form.volumes {
            0 => format!("dense, {gibibytes} GiB, {} queued", 2 * form.queued),
            volumes => format!("dense, {gibibytes} GiB, {volumes} volumes"),
        };
        let subject = Subject { what, runs: DENSE_RUNS, bar, misread: false, unused: form.unused() };
        measured.add(subject, &scratch.file)?;
    }
    Ok(())
}

/// No bar beside the original, which has less to do: it doesn't read the list of unused blocks.
fn ring(measured: &mut Measured) -> Result<(), String> {
    let first = measured.times.len();
    for blocks in RING_BLOCKS {
        let form = ring_form(blocks);
        let scratch = made(&format!("ring-{blocks}"), form)?;
        let what = format!("ring of {blocks} blocks");
        let subject = Subject { what, runs: RING_RUNS, bar: None, misread: false, unused: form.unused() };
        measured.add(subject, &scratch.file)?;
    }
    println!("rings: the proved pass alone goes along the list of unused blocks, which the original does not read");
    measured.grown_from(first);
    Ok(())
}

fn large(measured: &mut Measured) -> Result<(), String> {
    let first = measured.times.len();
    for tebibytes in LARGE_TEBIBYTES {
        let form = large_form(tebibytes);
        let scratch = made(&format!("large-{tebibytes}"), form)?;
        let what = format!("large, {tebibytes} TiB, address blocks");
        let subject = Subject { what, runs: LARGE_RUNS, bar: None, misread: true, unused: form.unused() };
        measured.add(subject, &scratch.file)?;
    }
    measured.grown_from(first);
    Ok(())
}

/// The queues grow with the container, to 100,000 entries each at 64 GiB.
fn dense_form(gibibytes: u64) -> Form {
    let blocks = gibibytes * GIBIBYTE;
    Form { blocks, bitmap_every: 1, queued: gibibytes * 100_000 / 64, mapped: 20_000, volumes: 0, ring: None, seed: 1 }
}

/// As many volumes as a container can list.
fn volumes_form(gibibytes: u64) -> Form {
    Form { volumes: MOST_VOLUMES, ..dense_form(gibibytes) }
}

/// All else is small, so that the ring weighs most.
fn ring_form(blocks: u64) -> Form {
    Form { mapped: 1000, ring: Some(blocks), ..dense_form(1) }
}

/// Bitmaps are so few that most of the map's pages stay untouched; the queues fit the first chunk.
fn large_form(tebibytes: u64) -> Form {
    let blocks = tebibytes * TEBIBYTE;
    Form { blocks, bitmap_every: 1024, queued: tebibytes * 250, mapped: 20_000, volumes: 0, ring: None, seed: 1 }
}

fn made(name: &str, form: Form) -> Result<Scratch, String> {
    let scratch = Scratch::new(name, form.blocks * BLOCK as u64).map_err(|e| e.to_string())?;
    synthetic::write(&scratch.file, form).map_err(|e| e.to_string())?;
    Ok(scratch)
}

fn write(form: fn(u64) -> Form, size: &str, file: &str) -> Result<(), String> {
    let form = form(size.parse().map_err(|_| USAGE)?);
    let file = File::create_new(file).map_err(|e| format!("{file}: {e}"))?;
    synthetic::write(&file, form).map_err(|e| e.to_string())
}

fn pass(file: &str, runs: &str) -> Result<(), String> {
    let runs: usize = runs.parse().map_err(|_| USAGE)?;
    let image = File::open(file).and_then(|file| Mapping::of_file(&file)).map_err(|e| format!("{file}: {e}"))?;
    let blocks = image.bytes().len() / BLOCK;
    for _ in 0..runs {
        let seconds = passes::time_proved(image.bytes(), blocks, Pages::Huge).map_err(|e| e.to_string())?;
        println!("{seconds:.4} s");
    }
    Ok(())
}

#[cfg(test)]
mod tests {
    use super::*;

    #[test]
    fn large_containers_have_address_blocks() {
        let parts = |form: Form| (form.blocks, form.chunks(), form.infos(), form.address_blocks());
        assert_eq!(parts(large_form(4)), (1 << 30, 32_768, 261, 1));
        assert_eq!(parts(large_form(8)), (1 << 31, 65_536, 521, 2));
        assert_eq!(dense_form(64).address_blocks(), 0);
    }
}
