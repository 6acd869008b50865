//! One pass of each over an image: the proved library's and the original's.

use std::io;
use std::sync::Arc;

use apfs::dev::BlockDevice;
use compare::oracle::{self, Ended, Opening};
use space_check::{figures_into, FIGURES};
use winapfs::{open_by, take_caught, want_cells};

use crate::clock::timed;
use crate::memory::{resident, Mapping, Pages};

pub type Figures = [u64; FIGURES];

fn check(image: &[u8], map: &mut [u8]) -> Figures {
    // Not the zeros that a number left out would be taken for.
    let mut figures = [u64::MAX; FIGURES];
    figures_into(image, map, &mut figures);
    figures
}

/// What the proved pass answers and leaves, and the memory that it took beyond the image.
pub struct Proved {
    pub figures: Figures,
    pub map: Mapping,
    pub resident: u64,
}

impl Proved {
    /// Blocks with a mark or an owner in the map.
    pub fn noted(&self) -> u64 {
        self.map.bytes().iter().filter(|byte| **byte != 0).count() as u64
    }
}

pub fn proved(image: &[u8], blocks: usize, pages: Pages) -> io::Result<Proved> {
    let before = resident()?;
    let mut map = Mapping::zeroed(blocks, pages)?;
    let figures = check(image, map.bytes_mut());
    let resident = resident()?.saturating_sub(before);
    Ok(Proved { figures, map, resident })
}

/// Seconds of a proved pass, with fresh pages for its map taken and given back.
pub fn time_proved(image: &[u8], blocks: usize, pages: Pages) -> io::Result<f64> {
    let pass = || Mapping::zeroed(blocks, pages).map(|mut map| check(image, map.bytes_mut()));
    let (figures, seconds) = timed(pass);
    figures.map(|_| seconds)
}

/// The image as the original reads it.
struct Device(Arc<Mapping>);

impl BlockDevice for Device {
    fn read_at(&self, off: u64, buf: &mut [u8]) -> apfs::Result<()> {
        let from = usize::try_from(off).ok();
        let part = from.and_then(|from| self.0.bytes().get(from..from.checked_add(buf.len())?));
        let part = part.ok_or_else(|| io::Error::from(io::ErrorKind::UnexpectedEof))?;
        buf.copy_from_slice(part);
        Ok(())
    }
}

impl Device {
    fn boxed(image: &Arc<Mapping>) -> Box<dyn BlockDevice> {
        Box::new(Device(Arc::clone(image)))
    }
}

/// How the original opens a volume, of what may stand for it: by what takes it no time.
const OPENING: Opening = Opening::Succeeds;

/// What the original answers.
pub fn original(image: &Arc<Mapping>) -> Ended {
    want_cells(true);
    oracle::run(Device::boxed(image), OPENING)
}

/// Seconds of a pass of the original, which allocates and frees its own zeroed vectors.
pub fn time_original(image: &Arc<Mapping>) -> f64 {
    want_cells(false);
    open_by(OPENING);
    let (_, seconds) = timed(|| oracle::pass(Device::boxed(image)));
    take_caught();
    seconds
}
