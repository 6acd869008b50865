//! The process that runs the original, and the library, on one image after another.
//!
//! The original may panic, allocate without bound or run for ever. A panic is caught inside; for the rest the
//! worker has a memory limit, and whoever asks has a time limit. A worker that dies or is ended takes one answer
//! with it, and the next question starts a new one.

use std::io::{self, BufRead, BufReader, Read, Write};
use std::process::{Child, ChildStdin, Command, Stdio};
use std::sync::mpsc::{channel, Receiver};
use std::time::Duration;

use crate::answer::Answer;
use crate::fill::Fill;
#[cfg(feature = "library")]
use crate::library;
use crate::oracle::{self, Ended, Opening};
use crate::text::{from_hex, from_row, to_hex, to_row};

/// What was asked about an image came to this.
#[derive(Clone, Debug, PartialEq, Eq)]
pub enum Reply {
    /// An answer's numbers, the block map, and the lines that the original printed; the library prints none.
    Answer(Vec<u64>, Vec<u8>, Vec<String>),
    Error(String),
    Panic(String),
    /// The worker ran out of memory or time.
    Abort,
    /// The library wrote what it may not write.
    Breach(String),
    Unreadable(String),
}

#[derive(Clone, Copy, PartialEq, Eq)]
pub enum Who {
    /// The original, with what stands for its opening of volumes.
    Original(Opening),
    /// The library, with a map handed in.
    Library(Fill),
}

// The words of a request.
const ORIGINAL: &str = "original";
const ORIGINAL_LOADS: &str = "original-loads";
const LIBRARY: &str = "library";
const LIBRARY_ZEROLESS: &str = "library-zeroless";

impl Who {
    fn word(self) -> &'static str {
        match self {
            Who::Original(Opening::Succeeds) => ORIGINAL,
            Who::Original(Opening::LoadsMap) => ORIGINAL_LOADS,
            Who::Library(Fill::Listed) => LIBRARY,
            Who::Library(Fill::Zeroless) => LIBRARY_ZEROLESS,
        }
    }
}

/// What a worker may use.
#[derive(Clone, Copy)]
pub struct Limits {
    pub kibibytes: u64,
    pub seconds: u64,
}

/// Enough for images of some megabytes.
pub const SMALL: Limits = Limits { kibibytes: 1 << 20, seconds: 6 };
/// Enough for real containers of some hundred megabytes.
pub const LARGE: Limits = Limits { kibibytes: 8 << 20, seconds: 120 };

/// The worker's first line.
const READY: &str = "ready";
const START: Duration = Duration::from_secs(20);

struct Running {
    child: Child,
    input: ChildStdin,
    lines: Receiver<String>,
}

pub struct Worker {
    limits: Limits,
    running: Option<Running>,
}

impl Worker {
    pub fn new(limits: Limits) -> Self {
        Worker { limits, running: None }
    }

    pub fn ask(&mut self, who: Who, image: &[u8], map_length: usize) -> io::Result<Reply> {
        let mut running = match self.running.take() {
            Some(running) => running,
            None => start(self.limits)?,
        };
        let sent = writeln!(running.input, "{} {} {map_length}", who.word(), image.len())
            .and_then(|()| running.input.write_all(image))
            .and_then(|()| running.input.flush());
        let line = sent.ok().and_then(|()| running.lines.recv_timeout(Duration::from_secs(self.limits.seconds)).ok());
        match line {
            Some(line) => {
                self.running = Some(running);
                Ok(parse(&line))
            }
            None => {
                end(running);
                Ok(Reply::Abort)
            }
        }
    }
}

impl Drop for Worker {
    fn drop(&mut self) {
        if let Some(running) = self.running.take() {
            end(running);
        }
    }
}

fn end(mut running: Running) {
    // It may be gone already, which is as good.
    let _ = running.child.kill();
    let _ = running.child.wait();
}

/// The shell sets the memory limit: the standard library has no call for it.
fn start(limits: Limits) -> io::Result<Running> {
    let mut child = Command::new("sh")
        .args(["-c", "ulimit -c 0; ulimit -v \"$1\" && exec \"$0\" worker"])
        .arg(std::env::current_exe()?)
        .arg(limits.kibibytes.to_string())
        .stdin(Stdio::piped())
        .stdout(Stdio::piped())
        .stderr(Stdio::null())
        .spawn()?;
    let input = child.stdin.take().expect("the input is piped");
    let output = child.stdout.take().expect("the output is piped");
    let (send, lines) = channel();
    // Ends with the worker's output, or when nobody listens any more.
    std::thread::spawn(move || {
        BufReader::new(output).lines().map_while(Result::ok).try_for_each(|line| send.send(line))
    });
    let running = Running { child, input, lines };
    // Without this a worker that can't even start would look like an abort on every image.
    match running.lines.recv_timeout(START) {
        Ok(line) if line == READY => Ok(running),
        _ => {
            end(running);
            Err(io::Error::other("the worker process doesn't start"))
        }
    }
}

fn parse(line: &str) -> Reply {
    let mut parts = line.split('\t');
    let (word, rest, map) = (parts.next().unwrap_or(""), parts.next().unwrap_or(""), parts.next().unwrap_or(""));
    match word {
        "answer" => match (from_row(rest), from_hex(map)) {
            (Some(numbers), Some(map)) => Reply::Answer(numbers, map, parts.map(String::from).collect()),
            _ => Reply::Unreadable(format!("a worker's line: {line}")),
        },
        "error" => Reply::Error(rest.into()),
        "panic" => Reply::Panic(rest.into()),
        "breach" => Reply::Breach(rest.into()),
        _ => Reply::Unreadable(line.into()),
    }
}

/// The worker's own side: answers until its input ends.
pub fn serve() -> io::Result<()> {
    oracle::silence_panics();
    let (mut input, mut output) = (io::stdin().lock(), io::stdout().lock());
    writeln!(output, "{READY}")?;
    output.flush()?;
    let mut request = String::new();
    while input.read_line(&mut request)? > 0 {
        let words: Vec<&str> = request.split_whitespace().collect();
        let number = |i: usize| words.get(i).and_then(|w| w.parse::<usize>().ok());
        let (Some(length), Some(map_length)) = (number(1), number(2)) else {
            return Err(io::Error::other(format!("no request: {request}")));
        };
        let mut image = vec![0; length];
        input.read_exact(&mut image)?;
        let reply = answer_to(words[0], image, map_length);
        writeln!(output, "{}", reply.replace('\n', " "))?;
        output.flush()?;
        request.clear();
    }
    Ok(())
}

/// The map's length is the library's alone: the original takes none.
#[cfg_attr(not(feature = "library"), allow(unused_variables))]
fn answer_to(word: &str, image: Vec<u8>, map_length: usize) -> String {
    match word {
        ORIGINAL => ask_original(image, Opening::Succeeds),
        ORIGINAL_LOADS => ask_original(image, Opening::LoadsMap),
        #[cfg(feature = "library")]
        LIBRARY => ask_library(&image, map_length, Fill::Listed),
        #[cfg(feature = "library")]
        LIBRARY_ZEROLESS => ask_library(&image, map_length, Fill::Zeroless),
        other => format!("unreadable\tno such request: {other}"),
    }
}

fn ask_original(image: Vec<u8>, opening: Opening) -> String {
    match oracle::run(Box::new(image), opening) {
        Ended::Report(report, map, lines) => {
            let numbers = Answer::Reported(report).numbers();
            let row = to_row(&numbers[..oracle::NUMBERS]);
            format!("answer\t{row}\t{}\t{}", to_hex(&map), lines.join("\t"))
        }
        Ended::Error(message) => format!("error\t{message}"),
        Ended::Panic(message) => format!("panic\t{message}"),
        Ended::Unreadable(line) => format!("unreadable\t{line}"),
    }
}

#[cfg(feature = "library")]
fn ask_library(image: &[u8], map_length: usize, fill: Fill) -> String {
    match library::check(image, map_length, fill) {
        Ok((numbers, map)) => format!("answer\t{}\t{}", to_row(&numbers), to_hex(&map)),
        Err(what) => format!("breach\t{what}"),
    }
}

#[cfg(test)]
mod tests {
    use super::*;
    use crate::seeds::Base;

    #[test]
    fn the_lines_come_with_the_answer() {
        let image = Base::build(0).bytes;
        let Ended::Report(_, _, printed) = oracle::run(Box::new(image.clone()), Opening::Succeeds) else {
            panic!("no report")
        };
        assert!(
            matches!(parse(&ask_original(image, Opening::Succeeds)), Reply::Answer(_, _, lines) if lines == printed)
        );
    }
}
