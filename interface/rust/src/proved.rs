//! Calls of the archive's `space_check`.

use crate::names::Refusal;
use crate::places::FIGURES;
use crate::report::Report;

extern "C" {
    fn space_check(
        image: *const u8,
        image_length: usize,
        map: *mut u8,
        map_length: usize,
        figures: *mut u64,
        figures_length: usize,
    );
}

/// The report on an image, and the block map left in `map`: a [`Cell`](crate::Cell) for each block.
///
/// After refusals 1 to 11 the map is as it was, after later ones it is 0 for each block. Bytes past the block count are
/// never changed.
///
/// ```
/// use space_check::{check, Refusal};
/// assert_eq!(check(&[], &mut []), Err(Refusal::ShortImage));
/// ```
pub fn check(image: &[u8], map: &mut [u8]) -> Result<Report, Refusal> {
    Report::of_figures(&figures(image, map))
}

/// The answer's numbers, each at its [place](crate::places), and the block map left in `map`.
pub fn figures(image: &[u8], map: &mut [u8]) -> [u64; FIGURES] {
    let mut figures = [0; FIGURES];
    figures_into(image, map, &mut figures);
    figures
}

/// The call as C has it: the answer's numbers are left in `figures`, the block map in `map`.
///
/// An array of fewer than [`FIGURES`] numbers gets the first ones; places past that are kept.
///
/// ```
/// let mut figures = [7; space_check::FIGURES + 1];
/// space_check::figures_into(&[], &mut [], &mut figures);
/// assert_eq!(figures[..2], [1, 0]);
/// assert_eq!(figures[space_check::FIGURES], 7);
/// ```
pub fn figures_into(image: &[u8], map: &mut [u8], figures: &mut [u64]) {
    // SAFETY: each buffer is lent whole for the call, and the borrows keep the three apart.
    unsafe {
        space_check(image.as_ptr(), image.len(), map.as_mut_ptr(), map.len(), figures.as_mut_ptr(), figures.len());
    }
}
