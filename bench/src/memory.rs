//! Memory from the system: zero pages for a block map, and a file's pages as an image.

use std::ffi::{c_int, c_void};
use std::fs::File;
use std::io;
use std::os::fd::AsRawFd;
use std::ptr::null_mut;
use std::slice::{from_raw_parts, from_raw_parts_mut};

extern "C" {
    fn mmap(at: *mut c_void, length: usize, protection: c_int, flags: c_int, file: c_int, offset: i64) -> *mut c_void;
    fn madvise(at: *mut c_void, length: usize, advice: c_int) -> c_int;
    fn munmap(at: *mut c_void, length: usize) -> c_int;
}

// The numbers of Linux on x86-64.
const PROT_READ: c_int = 1;
const PROT_WRITE: c_int = 2;
const MAP_SHARED: c_int = 1;
const MAP_PRIVATE: c_int = 2;
const MAP_ANONYMOUS: c_int = 0x20;
const MAP_NORESERVE: c_int = 0x4000;
const MADV_HUGEPAGE: c_int = 14;
const MADV_NOHUGEPAGE: c_int = 15;

/// What the system is asked for.
#[derive(Clone, Copy, PartialEq, Eq)]
pub enum Pages {
    Huge,
    Plain,
}

impl Pages {
    pub fn bytes(self) -> usize {
        match self {
            Pages::Huge => 2 << 20,
            Pages::Plain => 4 << 10,
        }
    }

    pub fn name(self) -> &'static str {
        match self {
            Pages::Huge => "2 MiB",
            Pages::Plain => "4 KiB",
        }
    }
}

/// A mapping, given back when dropped.
pub struct Mapping {
    at: *mut c_void,
    mapped: usize,
    /// The bytes that are lent: `length` from `start` on.
    start: usize,
    length: usize,
}

// SAFETY: a mapping belongs to the process, not to a thread, and a shared one is only read.
unsafe impl Send for Mapping {}
unsafe impl Sync for Mapping {}

impl Mapping {
    fn new(length: usize, protection: c_int, flags: c_int, file: c_int) -> io::Result<Self> {
        // SAFETY: the system chooses the place, so nothing of ours is mapped over.
        let at = unsafe { mmap(null_mut(), length, protection, flags, file, 0) };
        if at as isize == -1 {
            return Err(io::Error::last_os_error());
        }
        Ok(Mapping { at, mapped: length, start: 0, length })
    }

    /// Fresh pages, all bytes 0, that begin where a huge page may.
    pub fn zeroed(length: usize, pages: Pages) -> io::Result<Self> {
        let huge = Pages::Huge.bytes();
        let flags = MAP_PRIVATE | MAP_ANONYMOUS | MAP_NORESERVE;
        let mut mapping = Self::new(length + huge, PROT_READ | PROT_WRITE, flags, -1)?;
        mapping.start = (mapping.at as usize).wrapping_neg() % huge;
        mapping.length = length;
        let advice = match pages {
            Pages::Huge => MADV_HUGEPAGE,
            Pages::Plain => MADV_NOHUGEPAGE,
        };
        // SAFETY: the whole of a mapping of ours. Advice that isn't taken changes the time alone.
        unsafe { madvise(mapping.at, mapping.mapped, advice) };
        Ok(mapping)
    }

    /// A file's bytes, only to be read.
    pub fn of_file(file: &File) -> io::Result<Self> {
        let length = usize::try_from(file.metadata()?.len()).map_err(io::Error::other)?;
        Self::new(length, PROT_READ, MAP_SHARED, file.as_raw_fd())
    }

    pub fn bytes(&self) -> &[u8] {
        // SAFETY: mapped for reading as long as this lives.
        unsafe { from_raw_parts(self.at.cast::<u8>().add(self.start), self.length) }
    }

    /// How many pages of a zeroed mapping hold a byte that isn't 0.
    pub fn noted_pages(&self, pages: Pages) -> u64 {
        let noted = |page: &&[u8]| page.iter().any(|byte| *byte != 0);
        self.bytes().chunks(pages.bytes()).filter(noted).count() as u64
    }

    /// Of a zeroed mapping alone: a file's pages can't be written.
    pub fn bytes_mut(&mut self) -> &mut [u8] {
        // SAFETY: mapped for writing as long as this lives, and lent once.
        unsafe { from_raw_parts_mut(self.at.cast::<u8>().add(self.start), self.length) }
    }
}

impl Drop for Mapping {
    fn drop(&mut self) {
        // SAFETY: the whole mapping, to which no reference is left.
        unsafe { munmap(self.at, self.mapped) };
    }
}

/// Whether the system gives huge pages: always, where asked, or never. The original doesn't ask.
pub fn huge_pages() -> String {
    let setting = std::fs::read_to_string("/sys/kernel/mm/transparent_hugepage/enabled");
    setting.map_or("unknown".into(), |setting| setting.trim().to_string())
}

/// Bytes of this process that stand in memory and belong to no file.
pub fn resident() -> io::Result<u64> {
    let text = std::fs::read_to_string("/proc/self/smaps_rollup")?;
    let line = text.lines().find_map(|line| line.strip_prefix("Anonymous:"));
    let kibibytes = line.and_then(|rest| rest.trim().strip_suffix(" kB")?.parse::<u64>().ok());
    kibibytes.map(|k| k << 10).ok_or_else(|| io::Error::other("no line Anonymous"))
}
