//! Runs the original space check beside a model of its rules and, where linked, beside the proved library.

use std::ops::Range;
use std::process::ExitCode;
use std::{env, fs, io};

use compare::oracle::Opening;
use compare::worker::{self, Reply, Who, Worker, LARGE};
use compare::{build, listing, real, run, sample, text, verify};

const USAGE: &str = "\
usage: compare run --seeds A..B      images of seeds A to B - 1, the table of coverage
       compare real [--damaged N]    containers of mkapfs, each with N damaged images
       compare large [--damaged N]   the same over built containers with a pool of 50,000 blocks
       compare answers               the fixed list, on standard output
       compare answers IMAGE...      the original's answer for each image file
       compare verify [FILE...]      replays the fixed list, or other files of its form
       compare listing COMMAND [FILE...]
                                     what COMMAND prints about the same images, against the original's lines
       compare build --seeds A..B    nodes for the requests of seeds A to B - 1, the table of coverage
       compare nodes                 the fixed list of requests, on standard output
exit status: 0 all agree, 1 a disagreement or a row of the table not reached by 20,000 seeds or more, 2 anything else";

/// Damaged images of each large container.
const DAMAGED: u64 = 40;

const LIST: &str = concat!(env!("CARGO_MANIFEST_DIR"), "/answers/list.txt");

fn main() -> ExitCode {
    let arguments: Vec<String> = env::args().skip(1).collect();
    let words: Vec<&str> = arguments.iter().map(String::as_str).collect();
    match command(&words) {
        Ok(true) => ExitCode::SUCCESS,
        Ok(false) => ExitCode::from(1),
        Err(e) => {
            eprintln!("compare: {e}");
            ExitCode::from(2)
        }
    }
}

/// Whether all agree.
fn command(words: &[&str]) -> io::Result<bool> {
    #[cfg(feature = "library")]
    compare::library::is_current()?;
    match words {
        ["run", "--seeds", seeds] => run::run(range(seeds)?),
        ["real"] => Ok(real::real(DAMAGED)? == 0),
        ["real", "--damaged", n] => Ok(real::real(number(n)?)? == 0),
        ["large"] => Ok(real::large(DAMAGED)? == 0),
        ["large", "--damaged", n] => Ok(real::large(number(n)?)? == 0),
        ["answers"] => Ok(printed(sample::make()?)),
        ["answers", images @ ..] => originals(images),
        ["verify"] => verify::verify(&[LIST]),
        ["verify", files @ ..] => verify::verify(files),
        ["listing", program] => listing::listing(program, &[LIST]),
        ["listing", program, files @ ..] => listing::listing(program, files),
        ["build", "--seeds", seeds] => Ok(build::run(range(seeds)?)),
        ["nodes"] => Ok(printed(build::make())),
        ["worker"] => worker::serve().map(|()| true),
        _ => Err(io::Error::other(USAGE)),
    }
}

fn number(text: &str) -> io::Result<u64> {
    text.parse().map_err(|_| io::Error::other(format!("`{text}` is no number")))
}

fn range(text: &str) -> io::Result<Range<u64>> {
    let (from, to) = text.split_once("..").ok_or_else(|| io::Error::other(format!("`{text}` is not A..B")))?;
    let range = number(from)?..number(to)?;
    if range.is_empty() {
        return Err(io::Error::other(format!("`{text}` has no seed")));
    }
    Ok(range)
}

/// Prints a list, or why there is none.
fn printed(list: Result<String, String>) -> bool {
    match &list {
        Ok(text) => print!("{text}"),
        Err(what) => eprintln!("{what}"),
    }
    list.is_ok()
}

fn originals(images: &[&str]) -> io::Result<bool> {
    let mut worker = Worker::new(LARGE);
    for path in images {
        let image = fs::read(path).map_err(|e| io::Error::other(format!("{path}: {e}")))?;
        let reply = worker.ask(Who::Original(Opening::Succeeds), &image, 0)?;
        match reply {
            Reply::Answer(numbers, map, _) => {
                println!("{path}\nanswer {}\nleft {}", text::to_row(&numbers), text::to_hex(&map))
            }
            other => println!("{path}\n{other:?}"),
        }
    }
    Ok(true)
}
