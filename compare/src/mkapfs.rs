//! Containers by mkapfs of Debian's apfsprogs.

use std::io;
use std::path::{Path, PathBuf};
use std::process::{Command, Stdio};

/// mkapfs chooses others by chance.
const UUID: &str = "6c7a1d0e-0000-4000-8000-000000000001";

/// It usually stands where only root's path looks.
pub fn program() -> Option<PathBuf> {
    let starts = |program: &PathBuf| {
        Command::new(program).arg("-v").stdout(Stdio::null()).stderr(Stdio::null()).status().is_ok()
    };
    ["mkapfs", "/usr/sbin/mkapfs", "/sbin/mkapfs"].into_iter().map(PathBuf::from).find(starts)
}

/// Makes an empty container that fills a file.
pub fn make(program: &Path, file: &Path) -> io::Result<()> {
    let status = Command::new(program).args(["-U", UUID, "-u", UUID]).arg(file).status()?;
    if status.success() {
        Ok(())
    } else {
        Err(io::Error::other(format!("mkapfs ended with {status}")))
    }
}
