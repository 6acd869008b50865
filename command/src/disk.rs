//! A file or block device, mapped read-only.

use std::fs::{self, File, Metadata};
use std::io::{self, Seek, SeekFrom};
use std::os::unix::fs::{FileTypeExt, MetadataExt};
use std::path::Path;

use memmap2::{Mmap, MmapOptions};

pub struct Disk {
    file: File,
    /// An empty file has nothing to map.
    bytes: Option<Mmap>,
    changed: Changed,
}

/// When a file was last changed, which nobody can set back, and how long it is.
#[derive(PartialEq, Eq)]
struct Changed(i64, i64, u64);

impl Changed {
    fn of(file: &Metadata) -> Changed {
        Changed(file.ctime(), file.ctime_nsec(), file.len())
    }
}

impl Disk {
    pub fn open(path: &Path) -> io::Result<Disk> {
        let file = open(path)?;
        let changed = Changed::of(&file.metadata()?);
        let length = length(&file)?;
        let bytes = if length == 0 { None } else { Some(map(&file, length)?) };
        Ok(Disk { file, bytes, changed })
    }

    pub fn bytes(&self) -> &[u8] {
        self.bytes.as_deref().unwrap_or_default()
    }

    /// An answer on a file that was changed meanwhile would be one on no image at all.
    pub fn unchanged(&self) -> io::Result<()> {
        if Changed::of(&self.file.metadata()?) == self.changed {
            Ok(())
        } else {
            Err(other("it was changed while it was checked"))
        }
    }
}

/// How many bytes a file or block device has.
pub fn length_of(path: &Path) -> io::Result<u64> {
    length(&open(path)?)
}

/// Opens for reading what can be mapped. Its type is asked for first: opening a pipe would wait for a writer.
fn open(path: &Path) -> io::Result<File> {
    let kind = fs::metadata(path)?.file_type();
    if kind.is_dir() {
        return Err(other("it is a directory"));
    }
    if !kind.is_file() && !kind.is_block_device() {
        return Err(other("it is neither a file nor a block device"));
    }
    File::open(path)
}

/// A block device states no length of its own: its end does.
fn length(mut file: &File) -> io::Result<u64> {
    file.seek(SeekFrom::End(0))
}

fn map(file: &File, length: u64) -> io::Result<Mmap> {
    let length = usize::try_from(length).map_err(|_| other("it is too long to be mapped"))?;
    // SAFETY: the mapping can't be written through. That nobody else writes to the file is asked of the operator
    // (docs/OPERATOR.md) and looked for afterwards (`unchanged`).
    unsafe { MmapOptions::new().len(length).map(file) }
}

fn other(reason: &str) -> io::Error {
    io::Error::new(io::ErrorKind::Other, reason)
}

#[cfg(test)]
mod tests {
    use super::*;

    #[test]
    fn a_file_that_is_changed() {
        let path = std::env::temp_dir().join(format!("apfs-space-check-{}", std::process::id()));
        fs::write(&path, [1; 100]).unwrap();
        let disk = Disk::open(&path).unwrap();
        assert!(disk.unchanged().is_ok());
        assert_eq!(disk.bytes(), [1; 100]);
        let changed = |bytes: &[u8]| {
            let disk = Disk::open(&path).unwrap();
            // a moment that the file's time tells from the one before
            std::thread::sleep(std::time::Duration::from_millis(20));
            fs::write(&path, bytes).unwrap();
            disk.unchanged().is_err()
        };
        assert!(changed(&[2; 100]), "as long as before");
        assert!(changed(&[2; 101]));
        fs::remove_file(&path).unwrap();
    }
}
