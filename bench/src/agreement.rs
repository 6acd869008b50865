//! Whether both answer the same: all figures and the block map, on a container that both find consistent. Where the
//! original is no reference, whether the answer is right in itself.

use compare::answer::Answer;
use compare::oracle::{Ended, NUMBERS};
use space_check::{places, Verdict};

use crate::passes::Figures;

/// The proved figures and map are those of the original.
pub fn agree(figures: &Figures, map: &[u8], original: &Ended) -> Result<(), String> {
    let Ended::Report(report, cells, _) = original else {
        return Err(format!("the original ends with: {original:?}"));
    };
    let verdict = figures[places::VERDICT];
    if verdict != Verdict::Consistent.number() {
        return Err(format!("the proved verdict is {verdict}, and the container is to be consistent"));
    }
    let theirs = Answer::Reported(report.clone()).numbers();
    if let Some(at) = (0..NUMBERS).find(|&at| figures[at] != theirs[at]) {
        return Err(format!("the proved figure {at} is {}, the original's {}", figures[at], theirs[at]));
    }
    if map.len() != cells.len() {
        return Err(format!("a map of {} bytes, the original's of {}", map.len(), cells.len()));
    }
    match map.iter().zip(cells).position(|(ours, theirs)| ours != theirs) {
        Some(block) => {
            Err(format!("the maps differ at block {block}: {:#04x} beside {:#04x}", map[block], cells[block]))
        }
        None => Ok(()),
    }
}

/// The proved figures say that the container is consistent, that its counts are right, and that all that its pool's
/// bitmap marks is used, address blocks too; `unnoted` blocks have no mark and no owner in the map.
pub fn sound(figures: &Figures, unnoted: u64) -> Result<(), String> {
    let expected = [
        ("refusal", places::REFUSAL, 0),
        ("verdict", places::VERDICT, Verdict::Consistent.number()),
        ("number of chunks with a wrong free count", places::WRONG_CHUNKS, 0),
        ("number of pool blocks marked but unused", places::POOL_UNUSED, 0),
        ("device's free count", places::DEVICE_FREE, figures[places::FREE]),
        ("number of free blocks", places::FREE, unnoted),
    ];
    match expected.into_iter().find(|&(_, at, right)| figures[at] != right) {
        Some((what, at, right)) => Err(format!("the proved {what} is {}, and is to be {right}", figures[at])),
        None => Ok(()),
    }
}

/// The proved pass went along all `unused` blocks that the manager lists in the ring of the pool's bitmap. The original
/// doesn't read that list.
pub fn went_along(figures: &Figures, unused: u64) -> Result<(), String> {
    match figures[places::FREE_RING] {
        visited if visited == unused => Ok(()),
        visited => {
            Err(format!("the proved pass went along {visited} unused blocks of the ring, and there are {unused}"))
        }
    }
}

#[cfg(test)]
mod tests {
    use std::sync::Arc;

    use super::*;
    use crate::memory::{Mapping, Pages};
    use crate::passes::{original, proved, Proved};
    use crate::scratch::Scratch;
    use crate::synthetic::{write, Form};

    const SMALL: Form =
        Form { blocks: 1 << 17, bitmap_every: 1, queued: 900, mapped: 300, volumes: 3, ring: None, seed: 1 };

    fn pass(name: &str, form: Form) -> (Arc<Mapping>, Proved) {
        let scratch = Scratch::new(name, 0).unwrap();
        write(&scratch.file, form).unwrap();
        let image = Arc::new(Mapping::of_file(&scratch.file).unwrap());
        let pass = proved(image.bytes(), form.blocks as usize, Pages::Plain).unwrap();
        (image, pass)
    }

    #[test]
    fn every_figure_and_byte_counts() {
        let (image, mut pass) = pass("agreement", SMALL);
        let original = original(&image);
        assert_eq!(agree(&pass.figures, pass.map.bytes(), &original), Ok(()));
        for at in 0..NUMBERS {
            let mut figures = pass.figures;
            figures[at] += 1;
            assert!(agree(&figures, pass.map.bytes(), &original).is_err(), "figure {at}");
        }
        for block in (0..SMALL.blocks as usize).step_by(1013) {
            for bit in 0..8 {
                pass.map.bytes_mut()[block] ^= 1 << bit;
                assert!(agree(&pass.figures, pass.map.bytes(), &original).is_err(), "block {block}, bit {bit}");
                pass.map.bytes_mut()[block] ^= 1 << bit;
            }
        }
    }

    fn unnoted(form: Form, pass: &Proved) -> u64 {
        form.blocks - pass.noted()
    }

    #[test]
    fn a_sound_answer_has_the_counts_that_the_container_states() {
        let (_, pass) = pass("sound", SMALL);
        let free = unnoted(SMALL, &pass);
        assert_eq!(sound(&pass.figures, free), Ok(()));
        assert!(sound(&pass.figures, free + 1).is_err());
        use places::{DEVICE_FREE, FREE, POOL_UNUSED, REFUSAL, VERDICT, WRONG_CHUNKS};
        for at in [REFUSAL, VERDICT, WRONG_CHUNKS, POOL_UNUSED, DEVICE_FREE, FREE] {
            let mut figures = pass.figures;
            figures[at] += 1;
            assert!(sound(&figures, free).is_err(), "figure {at}");
        }
    }

    #[test]
    fn a_long_ring_is_gone_along() {
        let form = Form { blocks: 1 << 18, volumes: 0, ring: Some(65_535), ..SMALL };
        let (image, pass) = pass("ring", form);
        assert_eq!(agree(&pass.figures, pass.map.bytes(), &original(&image)), Ok(()));
        assert_eq!(form.unused(), 65_534);
        assert_eq!(went_along(&pass.figures, form.unused()), Ok(()));
        assert!(went_along(&pass.figures, form.unused() + 1).is_err());
    }

    #[test]
    fn address_blocks_are_followed() {
        let form = Form { blocks: 1 << 30, bitmap_every: 1024, ..SMALL };
        assert_eq!(form.address_blocks(), 1);
        let (_, pass) = pass("address-blocks", form);
        assert_eq!(sound(&pass.figures, unnoted(form, &pass)), Ok(()));
    }
}
