//! The original's space check, with what it prints caught in a buffer.
//!
//! `dump.rs` comes from the build directory; what it takes from its crate's root is given here instead: an error
//! that keeps its message, no human-readable size, and `println!` as a macro that keeps the line.
#![allow(dead_code, unused_imports, unused_variables, clippy::all)]

use std::cell::{Cell, RefCell};
use std::collections::HashSet;

macro_rules! println {
    ($($part:tt)*) => { crate::keep_line(format!($($part)*)) };
}

include!(concat!(env!("OUT_DIR"), "/modules.rs"));

/// What one run printed and handed out.
#[derive(Default)]
pub struct Caught {
    pub lines: Vec<String>,
    pub cells: Option<Cells>,
    /// The overlaps that it counted, by the name of the kind that came second.
    pub claimants: Vec<(&'static str, u64)>,
}

/// What the block map is made of, as the original holds it.
pub struct Cells {
    pub marked: Vec<bool>,
    /// For each block an index into `kinds`, 0 for none.
    pub owner: Vec<u8>,
    pub kinds: Vec<&'static str>,
    pub pool_used: HashSet<u64>,
}

/// What stands for the opening of a volume, which isn't among the original's sources.
#[derive(Clone, Copy, Debug, PartialEq, Eq)]
pub enum Opening {
    /// It always succeeds.
    Succeeds,
    /// It loads the volume's object map, and fails where that can't be loaded.
    LoadsMap,
}

thread_local! {
    static CAUGHT: RefCell<Caught> = RefCell::default();
    static OPENING: Cell<Opening> = const { Cell::new(Opening::Succeeds) };
    static CELLS_WANTED: Cell<bool> = const { Cell::new(true) };
}

/// Whether this thread's runs hand out their cells and claimants, as they do at first: a run that is timed shouldn't.
pub fn want_cells(wanted: bool) {
    CELLS_WANTED.set(wanted);
}

/// How this thread's runs open volumes from now on; at first the opening succeeds.
pub fn open_by(opening: Opening) {
    OPENING.set(opening);
}

fn open_volume(container: &apfs::Container, object_map: u64) -> apfs::Result<()> {
    match OPENING.get() {
        Opening::Succeeds => Ok(()),
        Opening::LoadsMap => container.load_object_map(object_map),
    }
}

/// What was caught since the last call.
pub fn take_caught() -> Caught {
    CAUGHT.take()
}

fn keep_line(line: String) {
    CAUGHT.with_borrow_mut(|c| c.lines.push(line));
}

/// Called where an overlap is counted.
fn count_claimant(kind: &'static str) {
    if !CELLS_WANTED.get() {
        return;
    }
    CAUGHT.with_borrow_mut(|c| match c.claimants.iter_mut().find(|(name, _)| *name == kind) {
        Some((_, count)) => *count += 1,
        None => c.claimants.push((kind, 1)),
    });
}

fn hand_out(marked: &[bool], owner: &[u8], kinds: &[&'static str], pool_used: &HashSet<u64>) {
    if !CELLS_WANTED.get() {
        return;
    }
    let cells =
        Cells { marked: marked.to_vec(), owner: owner.to_vec(), kinds: kinds.to_vec(), pool_used: pool_used.clone() };
    CAUGHT.with_borrow_mut(|c| c.cells = Some(cells));
}

pub struct CliError {
    pub msg: String,
}

impl CliError {
    fn new(msg: impl Into<String>) -> Self {
        Self { msg: msg.into() }
    }
}

impl From<apfs::Error> for CliError {
    fn from(e: apfs::Error) -> Self {
        Self::new(e.to_string())
    }
}

type CliResult<T = ()> = Result<T, CliError>;

fn human_size(_bytes: u64) -> String {
    String::new()
}
