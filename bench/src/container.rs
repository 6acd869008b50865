//! One container measured: the answers first, then the best times, the passes taken in turns.

use std::fs::File;
use std::sync::Arc;

use compare::oracle::NUMBERS;

use crate::agreement::{agree, sound, went_along};
use crate::memory::{Mapping, Pages};
use crate::passes::{original, proved, time_original, time_proved};
use crate::table::{Growth, Memory, Row};

/// All containers here have blocks of this size.
pub const BLOCK: usize = 4096;

pub struct Subject {
    pub what: String,
    pub runs: usize,
    pub bar: Option<f64>,
    /// The original misreads it, and isn't run.
    pub misread: bool,
    /// Blocks of the ring of its pool's bitmap that are listed as unused.
    pub unused: u64,
}

/// What was measured of all containers.
#[derive(Default)]
pub struct Measured {
    pub times: Vec<Row>,
    pub growth: Vec<Growth>,
    pub memory: Vec<Memory>,
}

impl Measured {
    pub fn add(&mut self, subject: Subject, file: &File) -> Result<(), String> {
        let image = Arc::new(Mapping::of_file(file).map_err(|e| e.to_string())?);
        let blocks = image.bytes().len() / BLOCK;
        self.answers(&subject, &image, blocks).map_err(|what| format!("{}: {what}", subject.what))?;
        if subject.misread {
            println!("{}: consistent, with the counts that it states; the original misreads it", subject.what);
        } else {
            println!("{}: the same {} figures and {blocks} bytes of the map", subject.what, NUMBERS - 1);
        }
        self.best(subject, &image, blocks)
    }

    /// How the time grew from the first half of the rows since row `first` to the second.
    pub fn grown_from(&mut self, first: usize) {
        let rows = &self.times[first..];
        let (halves, wholes) = rows.split_at(rows.len() / 2);
        for (half, whole) in halves.iter().zip(wholes) {
            let ratio = whole.proved / half.proved;
            self.growth.push(Growth { what: whole.what.clone(), pages: whole.pages, ratio });
        }
    }

    fn answers(&mut self, subject: &Subject, image: &Arc<Mapping>, blocks: usize) -> Result<(), String> {
        // Before the original: the stack that it leaves in memory would hide what a proved pass takes.
        let pass = |pages| proved(image.bytes(), blocks, pages).map_err(|e| e.to_string());
        let passes = [(Pages::Huge, pass(Pages::Huge)?), (Pages::Plain, pass(Pages::Plain)?)];
        let original = (!subject.misread).then(|| original(image));
        for (pages, pass) in passes {
            let noted = pass.noted();
            match &original {
                Some(original) => agree(&pass.figures, pass.map.bytes(), original)?,
                None => sound(&pass.figures, blocks as u64 - noted)?,
            }
            went_along(&pass.figures, subject.unused)?;
            self.memory.push(Memory {
                what: subject.what.clone(),
                pages,
                noted,
                held: pass.map.noted_pages(pages) * pages.bytes() as u64,
                resident: pass.resident,
            });
        }
        Ok(())
    }

    fn best(&mut self, subject: Subject, image: &Arc<Mapping>, blocks: usize) -> Result<(), String> {
        let [mut huge, mut plain] = [f64::MAX; 2];
        let mut original = (!subject.misread).then_some(f64::MAX);
        let time = |pages| time_proved(image.bytes(), blocks, pages).map_err(|e| e.to_string());
        for _ in 0..subject.runs {
            huge = huge.min(time(Pages::Huge)?);
            plain = plain.min(time(Pages::Plain)?);
            original = original.map(|best| best.min(time_original(image)));
        }
        for (pages, proved, bar) in [(Pages::Huge, huge, subject.bar), (Pages::Plain, plain, None)] {
            self.times.push(Row { what: subject.what.clone(), pages: Some(pages), proved, original, bar });
        }
        Ok(())
    }
}
