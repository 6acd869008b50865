//! Sparse files in the folder for temporary ones, gone with the value that stands for them.

use std::fs::{self, File, OpenOptions};
use std::io;
use std::path::{Path, PathBuf};

pub struct Scratch {
    pub path: PathBuf,
    pub file: File,
}

impl Scratch {
    pub fn new(name: &str, length: u64) -> io::Result<Self> {
        let path = std::env::temp_dir().join(format!("bench-{}-{name}.apfs", std::process::id()));
        let file = OpenOptions::new().read(true).write(true).create_new(true).open(&path)?;
        let scratch = Scratch { path, file };
        scratch.file.set_len(length).map_err(|e| unfit(&scratch.path, length, &e))?;
        Ok(scratch)
    }
}

impl Drop for Scratch {
    fn drop(&mut self) {
        // Nothing more can be done about a file that can't be removed.
        let _ = fs::remove_file(&self.path);
    }
}

fn unfit(path: &Path, length: u64, why: &io::Error) -> io::Error {
    io::Error::other(format!("{} can't be a sparse file of {length} bytes ({why}): set TMPDIR", path.display()))
}
