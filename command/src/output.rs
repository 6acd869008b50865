//! What is printed, and how names are shown.

use std::io::{self, ErrorKind, Write};
use std::path::Path;

use crate::status::Status;

/// A name as a line can hold it: control characters are escaped, so that none makes up lines of its own.
pub fn shown(path: &Path) -> String {
    let name = path.to_string_lossy();
    name.chars().map(|c| if c.is_control() { c.escape_default().to_string() } else { c.to_string() }).collect()
}

/// Prints a text or other bytes. Where that can't be, there is no answer, whatever `status` it has.
pub fn print(text: impl AsRef<[u8]>, status: Status) -> Status {
    let mut out = io::stdout();
    match out.write_all(text.as_ref()).and_then(|()| out.flush()) {
        Ok(()) => status,
        Err(reason) => {
            // whoever reads the lines has had enough of them
            if reason.kind() != ErrorKind::BrokenPipe {
                note(&format!("standard output: {reason}"));
            }
            Status::NoAnswer
        }
    }
}

/// A line on standard error.
pub fn note(text: &str) {
    // where that can't be written there is no place left to say so
    let _ = writeln!(io::stderr(), "apfs-space-check: {text}");
}

/// A line on standard error that names a file.
pub fn note_of(path: &Path, text: &str) {
    note(&format!("{}: {text}", shown(path)));
}
