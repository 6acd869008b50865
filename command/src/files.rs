//! The files that are written: new ones, and whole or not at all.

use std::ffi::OsString;
use std::fs::{self, File, OpenOptions};
use std::io::{self, BufWriter, Write};
use std::os::unix::fs::FileTypeExt;
use std::path::{Path, PathBuf};
use std::process;

use crate::arguments::Arguments;
use crate::output;

/// A slip of the pen must not cost a disk, and what holds one can't be told for certain: so nothing is written over.
pub fn may_be_written(arguments: &Arguments) -> Result<(), String> {
    for path in arguments.outputs() {
        let reason = match fs::metadata(path) {
            Ok(there) if there.file_type().is_block_device() => "a block device is never written to",
            Ok(there) if there.is_file() && there.len() > 0 => "it is there already, and is not written over",
            _ => continue,
        };
        return Err(format!("{}: {reason}", output::shown(path)));
    }
    match (&arguments.map, &arguments.picture) {
        (Some(map), Some(picture)) if place(map) == place(picture) => Err("--map and --picture name one file".into()),
        _ => Ok(()),
    }
}

/// Where a file is or would be, by its folder's one name.
fn place(path: &Path) -> PathBuf {
    let folder = path.parent().filter(|folder| !folder.as_os_str().is_empty()).unwrap_or_else(|| Path::new("."));
    let folder = fs::canonicalize(folder).unwrap_or_else(|_| folder.to_path_buf());
    fs::canonicalize(path).unwrap_or_else(|_| folder.join(path.file_name().unwrap_or_default()))
}

/// What a file is called while a process writes it.
fn partial(path: &Path, process: u32) -> PathBuf {
    let path = place(path);
    let mut name: OsString = path.file_name().unwrap_or_default().to_os_string();
    name.push(format!(".{process}.partial"));
    path.with_file_name(name)
}

/// Removes what a process that has ended left unfinished.
pub fn remove_partial(arguments: &Arguments, process: u32) {
    for path in arguments.outputs() {
        // most often there is none
        let _ = fs::remove_file(partial(path, process));
    }
}

/// Writes a file under another name, and gives it its own once it is whole; the parent removes one that isn't.
pub fn write(path: &Path, fill: impl FnOnce(&mut dyn Write) -> io::Result<()>) -> io::Result<()> {
    if fs::metadata(path).map_or(false, |there| !there.is_file()) {
        // a pipe or the like stays what it is
        return filled(OpenOptions::new().write(true).open(path)?, fill);
    }
    let partial = partial(path, process::id());
    filled(OpenOptions::new().write(true).create_new(true).open(&partial)?, fill)?;
    fs::rename(&partial, place(path))
}

fn filled(file: File, fill: impl FnOnce(&mut dyn Write) -> io::Result<()>) -> io::Result<()> {
    let mut file = BufWriter::new(file);
    fill(&mut file)?;
    file.flush()
}
