//! Each image is checked in a process of its own.
//!
//! The image is mapped, so that a read which the disk refuses ends the process by a signal. Here that becomes an error
//! which names the image, and the next image is checked all the same.

use std::io::{self, Read, Write};
use std::os::unix::process::ExitStatusExt;
use std::path::{Path, PathBuf};
use std::process::{self, Command, ExitStatus, Output, Stdio};
use std::time::Duration;
use std::{env, fs, thread};

use indicatif::{HumanBytes, ProgressBar, ProgressState, ProgressStyle};

use crate::arguments::{Arguments, ONLY_IMAGE};
use crate::status::Status;
use crate::{disk, files, one, output};

/// From this length on an image may take long enough for a line that says so.
const LARGE: u64 = 1 << 30;

/// The signal that a refused read of a mapped file ends in.
const SIGBUS: i32 = 7;

/// In a child: ends it where its parent has ended, which held the other side of its standard input.
pub fn end_with_parent() {
    thread::spawn(|| {
        // nothing is ever written there: a read comes back when the other side is closed
        let _ = io::stdin().read(&mut [0]);
        process::exit(Status::NoAnswer as i32);
    });
}

/// Checks the images one after another; the worst status.
pub fn check_all(arguments: &Arguments, images: &[PathBuf]) -> Status {
    let statuses = images.iter().enumerate().map(|(at, image)| check_one(arguments, at, image));
    statuses.max().unwrap_or(Status::NoAnswer)
}

fn check_one(arguments: &Arguments, at: usize, image: &Path) -> Status {
    let ended = match run(arguments, at, image) {
        Ok(ended) => ended,
        Err(reason) => return one::no_answer(arguments, image, &format!("the check can't be run: {reason}")),
    };
    // where that can't be written there is no place left to say so
    let _ = io::stderr().write_all(&ended.stderr);
    match ended.status.code().and_then(Status::from_code) {
        Some(status) => output::print(ended.stdout, status),
        // whatever it printed before is no answer
        None => one::no_answer(arguments, image, &reason_of(ended.status)),
    }
}

fn reason_of(status: ExitStatus) -> String {
    match status.signal() {
        Some(SIGBUS) => "the disk refused a read, or the file was cut short while it was checked".into(),
        _ => format!("the check ended without an answer ({status})"),
    }
}

/// This program on the same command line, of which it checks one image.
fn run(arguments: &Arguments, at: usize, image: &Path) -> io::Result<Output> {
    let mut command = Command::new(env::current_exe()?);
    command.arg(format!("--{ONLY_IMAGE}={at}")).args(env::args_os().skip(1));
    let mut child = command.stdin(Stdio::piped()).stdout(Stdio::piped()).stderr(Stdio::piped()).spawn()?;
    // held for as long as the child runs
    let held = child.stdin.take();
    let process = child.id();
    let length = disk::length_of(image).unwrap_or(0);
    let line = (!arguments.quiet && length >= LARGE).then(|| progress(image, length, process));
    let output = child.wait_with_output();
    drop(held);
    files::remove_partial(arguments, process);
    if let Some(line) = line {
        line.finish_and_clear();
    }
    output
}

/// A line on standard error, shown where that is a terminal. How much there is to read isn't known beforehand: it tells
/// what was read so far.
fn progress(image: &Path, length: u64, child: u32) -> ProgressBar {
    let read = move |_: &ProgressState, line: &mut dyn std::fmt::Write| {
        // a line cut short is the next one's to mend
        let _ = write!(line, "{}", HumanBytes(bytes_read(child)));
    };
    let style = ProgressStyle::with_template("{spinner} {msg}, {read} read, {elapsed}").expect("a template");
    let line = ProgressBar::new_spinner().with_style(style.with_key("read", read));
    line.set_message(format!("checking {} of {}", output::shown(image), HumanBytes(length)));
    line.enable_steady_tick(Duration::from_millis(200));
    line
}

/// What a process had fetched from disks so far, as Linux counts it.
fn bytes_read(process: u32) -> u64 {
    let counts = fs::read_to_string(format!("/proc/{process}/io")).unwrap_or_default();
    let count = counts.lines().find_map(|line| line.strip_prefix("read_bytes: "));
    count.and_then(|count| count.parse().ok()).unwrap_or(0)
}
