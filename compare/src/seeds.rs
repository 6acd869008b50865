//! The image of a seed: a container of some shape, sound or damaged.

use crate::container::build;
use crate::draft::Draft;
use crate::image::Image;
use crate::rng::Rng;
use crate::shape::Shape;
use crate::survey::Survey;

/// So many images in a row come from one container, the first of them undamaged.
pub const IMAGES_PER_SHAPE: u64 = 16;

/// A sound container, with what can be damaged in it.
pub struct Base {
    pub number: u64,
    pub bytes: Vec<u8>,
    pub survey: Survey,
}

impl Base {
    pub fn build(number: u64) -> Self {
        let mut rng = Rng::new(number ^ 0x6261_7365);
        let shape = Shape::random(&mut rng);
        Self::of_shape(number, &shape, &mut rng)
    }

    /// A container whose pool needs its second bitmap block.
    pub fn with_large_pool(number: u64) -> Self {
        let mut rng = Rng::new(number ^ 0x706f_6f6c);
        let shape = Shape::with_large_pool(&mut rng);
        Self::of_shape(number, &shape, &mut rng)
    }

    fn of_shape(number: u64, shape: &Shape, rng: &mut Rng) -> Self {
        let bytes = build(shape, rng);
        let survey = Survey::of(&bytes).expect("a container built here can be surveyed");
        Base { number, bytes, survey }
    }

    /// The undamaged image.
    pub fn image(&self) -> Image {
        Image {
            bytes: self.bytes.clone(),
            map_length: self.survey.count as usize,
            made: Vec::new(),
            ways: Vec::new(),
            features: self.survey.features.clone(),
        }
    }

    pub fn damaged(&self, seed: u64) -> Image {
        let mut rng = Rng::new(seed ^ 0x6461_6d61_6765);
        let damages = if rng.chance(80) { 1 } else { rng.between(2, 4) };
        let mut image = self.image();
        if rng.chance(10) {
            // Bytes past the count, which are to be kept whatever the answer.
            image.map_length += rng.between(1, 9) as usize;
        }
        let mut draft = Draft { image, survey: &self.survey, rng: &mut rng };
        (0..damages).for_each(|_| draft.damage());
        draft.image
    }
}

/// Builds the image of each seed, keeping the container that neighbours share.
#[derive(Default)]
pub struct Builder {
    base: Option<Base>,
}

impl Builder {
    pub fn base(&mut self, seed: u64) -> &Base {
        let number = seed / IMAGES_PER_SHAPE;
        if self.base.as_ref().is_none_or(|b| b.number != number) {
            self.base = Some(Base::build(number));
        }
        self.base.as_ref().expect("just built")
    }

    pub fn image(&mut self, seed: u64) -> Image {
        let base = self.base(seed);
        if seed.is_multiple_of(IMAGES_PER_SHAPE) {
            base.image()
        } else {
            base.damaged(seed)
        }
    }
}

#[cfg(test)]
mod tests {
    use super::*;
    use crate::answer::Answer;
    use crate::fields::manager as m;
    use crate::survey::Role;
    use space_check::Verdict;

    #[test]
    fn undamaged_containers_are_consistent() {
        for number in 0..300 {
            let base = Base::build(number);
            let pass = crate::model::check(&base.bytes, &mut vec![0; base.survey.count as usize]);
            assert!(
                matches!(&pass.answer, Answer::Reported(r) if r.verdict == Verdict::Consistent.number()),
                "shape {number}: {:?}",
                pass.answer
            );
        }
    }

    /// From the head to the tail all blocks of the ring that hold no bitmap, each once.
    #[test]
    fn free_lists_are_true() {
        for number in 0..300 {
            let base = Base::build(number);
            let manager = base.survey.with_role(Role::Manager)[0];
            let draft = Draft { image: base.image(), survey: &base.survey, rng: &mut Rng::new(0) };
            let members = |name| manager.fields.iter().filter(move |f| f.name == name).map(|&f| draft.get(manager, f));
            let (next, mut seen): (Vec<u64>, Vec<u64>) = (members(m::FREE_NEXT).collect(), members(m::INDEX).collect());
            let (mut at, tail) = (draft.get(manager, m::FREE_HEAD), draft.get(manager, m::FREE_TAIL));
            while at != m::NO_INDEX {
                seen.push(at);
                at = if at == tail { m::NO_INDEX } else { next[at as usize] };
            }
            seen.sort_unstable();
            assert_eq!(seen, (0..next.len() as u64).collect::<Vec<_>>(), "shape {number}");
        }
    }

    #[test]
    fn what_takes_containers_outside_is_seldom() {
        let deletes = |base: &Base| base.survey.features.iter().any(|f| f == "object map with deleted mappings");
        let has_address_blocks = |base: &Base| !base.survey.with_role(Role::AddressBlock).is_empty();
        let met: Vec<[bool; 2]> = (0..1000).map(Base::build).map(|b| [deletes(&b), has_address_blocks(&b)]).collect();
        let found = [0, 1].map(|rule| met.iter().filter(|met| met[rule]).count());
        assert!(found.iter().all(|few| (10..100).contains(few)), "{found:?} of 1000");
    }

    #[test]
    fn every_seed_gives_an_image() {
        let mut builder = Builder::default();
        assert!((0..20_000).all(|seed| builder.image(seed).features == builder.base(seed).survey.features));
    }

    #[test]
    fn a_seed_gives_one_image() {
        let twice = [(); 2].map(|()| Builder::default().image(37));
        assert_eq!(twice[0].bytes, twice[1].bytes);
        assert_eq!(twice[0].made, twice[1].made);
    }
}
