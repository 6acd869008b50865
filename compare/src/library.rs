//! The seam to the proved library, linked with the feature `library`.
//!
//! The crate `space_check` has its two functions. The pass takes the image, the block map and an array for the answer's
//! numbers; it is called in the worker process, where a crash is seen and counts as a disagreement. The one that builds
//! a node is called in this process, half a million times in a run: a crash ends the run.

pub const LINKED: bool = cfg!(feature = "library");

#[cfg(feature = "library")]
pub use linked::{build_node, check, is_current};

#[cfg(feature = "library")]
mod linked {
    use std::hash::{DefaultHasher, Hasher};
    use std::hint::black_box;
    use std::{fs, io};

    use space_check::node::build_into;
    use space_check::{figures_into, FIGURES};

    use crate::build::Request;
    use crate::fill::Fill;

    /// So many elements on each side of a buffer that nothing may write.
    const GUARD: usize = 64;
    const GUARD_BYTE: u8 = 0xa5;

    /// An error where the archive that was linked is no longer what stands there.
    pub fn is_current() -> io::Result<()> {
        let path = env!("SPACE_CHECK_ARCHIVE");
        // An archive that is gone can't be another one.
        let Ok(bytes) = fs::read(path) else { return Ok(()) };
        let mut sum = DefaultHasher::new();
        sum.write(&bytes);
        if sum.finish().to_string() == env!("SPACE_CHECK_SUM") {
            Ok(())
        } else {
            Err(io::Error::other(format!("{path} has changed since it was linked: touch it and build again")))
        }
    }

    /// The numbers and the map, or which rule of the call was broken.
    pub fn check(image: &[u8], map_length: usize, fill: Fill) -> Result<(Vec<u64>, Vec<u8>), &'static str> {
        let guard = u64::from_ne_bytes([GUARD_BYTE; 8]);
        let copy = image.to_vec();
        let mut map = guarded(GUARD_BYTE, &fill.map(map_length));
        // Not the zeros that a number left out would be taken for.
        let mut figures = guarded(guard, &[u64::MAX; FIGURES]);
        figures_into(image, &mut map[GUARD..][..map_length], &mut figures[GUARD..][..FIGURES]);
        // The compiler may take what was not lent, or not to be written, for unchanged: all is looked at as if anything
        // could have happened to it.
        let (image, map, figures) = (black_box(image), black_box(map), black_box(figures));
        if image != copy {
            return Err("the image is changed");
        }
        let map = unguarded(GUARD_BYTE, map).ok_or("bytes beside the map are written")?;
        let figures = unguarded(guard, figures).ok_or("numbers beside the array are written")?;
        Ok((figures, map))
    }

    /// The answer and the node that is left of one with a fill, or which rule of the call was broken.
    pub fn build_node(request: &Request, fill: Fill) -> Result<(u32, Vec<u8>), &'static str> {
        let Request { node_length, header, sizes, info, data, lengths } = request;
        let copies = (info.clone(), data.clone(), lengths.clone());
        let mut node = guarded(GUARD_BYTE, &fill.map(*node_length));
        let answer = build_into(&mut node[GUARD..][..*node_length], header, *sizes, info, data, lengths);
        let (node, lent) = (black_box(node), black_box((info, data, lengths)));
        if lent != (&copies.0, &copies.1, &copies.2) {
            return Err("what is only read is changed");
        }
        let node = unguarded(GUARD_BYTE, node).ok_or("bytes beside the node are written")?;
        Ok((answer, node))
    }

    fn guarded<T: Copy>(guard: T, content: &[T]) -> Vec<T> {
        let guards = [guard; GUARD];
        [&guards[..], content, &guards].concat()
    }

    /// The content, where the guards are still there.
    fn unguarded<T: Copy + PartialEq>(guard: T, buffer: Vec<T>) -> Option<Vec<T>> {
        let content = GUARD..buffer.len() - GUARD;
        let kept = buffer.iter().enumerate().all(|(i, &element)| content.contains(&i) || element == guard);
        kept.then(|| buffer[content].to_vec())
    }
}
