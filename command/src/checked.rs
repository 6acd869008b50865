//! An image that was checked.

use std::path::Path;

use space_check::{Refusal, Report};

use crate::container::Container;
use crate::output;

/// An image, and what the check answered.
pub struct Checked<'a> {
    pub image: &'a Path,
    pub container: Container<'a>,
    pub answer: Result<Report, Refusal>,
    /// A byte for each block, where there is a report.
    pub map: &'a [u8],
}

impl Checked<'_> {
    /// What stands in the listing's first line, as the original has it.
    pub fn title(&self) -> String {
        let name = output::shown(self.image);
        match self.container.partition {
            Some(number) => format!("{name} partition {number}"),
            None => name,
        }
    }
}
