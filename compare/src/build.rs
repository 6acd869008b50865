//! `compare build`: many requests for nodes, and the table of what they show. `compare nodes`: the fixed list of some.

mod coverage;
mod judge;
mod list;
mod model;
mod named;
mod original;
mod request;
mod seeds;

use std::ops::Range;
use std::time::Instant;

use self::coverage::Coverage;
use self::judge::judge;
pub use self::list::make;
pub use self::request::Request;

/// Disagreements are counted to the end; so many are told.
const TOLD: u64 = 10;

/// A run of so many seeds has to reach every row of the table: one that isn't reached was not compared.
const ENOUGH: u64 = 20_000;

/// Whether all agree, and every row is reached where the seeds are enough for it.
pub fn run(seeds: Range<u64>) -> bool {
    let start = Instant::now();
    let mut coverage = Coverage::new();
    let mut disagreements = 0;
    println!("{}", compared());
    for seed in seeds.clone() {
        let request = seeds::request(seed);
        let judgement = judge(&request);
        coverage.add(&request, &judgement);
        if let Some(what) = &judgement.disagreement {
            disagreements += 1;
            if disagreements <= TOLD {
                println!("seed {seed}: {what}");
            }
            if disagreements == 1 {
                println!("{}", list::item(&format!("seed-{seed}"), &request, &judgement));
            }
        }
    }
    print!("{coverage}");
    let missing = coverage.missing();
    println!("rows that no request reached: {}", if missing.is_empty() { "none".into() } else { missing.join("; ") });
    let seconds = start.elapsed().as_secs_f64();
    println!("{} requests of seeds {seeds:?} in {seconds:.1} s, {disagreements} disagreements", coverage.requests());
    disagreements == 0 && (missing.is_empty() || coverage.requests() < ENOUGH)
}

/// What a run holds against what.
fn compared() -> &'static str {
    if crate::library::LINKED {
        "compared: the library with the model on every request; both with the original where that is the reference"
    } else {
        "compared: the model with the original where that is the reference; the library is not linked"
    }
}
