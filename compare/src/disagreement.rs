//! What can be wrong between two answers on one image.

use std::fmt;
use std::mem::discriminant;

use space_check::places::REFUSAL;

/// Whose answer it is.
#[derive(Clone, Copy, Debug, PartialEq, Eq)]
pub enum Party {
    Original,
    Model,
    Library,
    /// The answer that a list keeps.
    Kept,
}

#[derive(Clone, Debug, PartialEq, Eq)]
pub enum Disagreement {
    /// Answers of different lengths.
    Numbers {
        who: [Party; 2],
        lengths: [usize; 2],
    },
    /// A number of the answer.
    Figure {
        who: [Party; 2],
        place: usize,
        values: [u64; 2],
    },
    MapLength {
        who: [Party; 2],
        lengths: [usize; 2],
    },
    MapByte {
        who: [Party; 2],
        block: usize,
        bytes: [u8; 2],
    },
    /// A byte that no pass with this answer leaves, whatever the figures.
    WrongByte {
        party: Party,
        byte: usize,
        value: u8,
    },
    /// A report where the model refuses.
    OriginalReports {
        refusal: u64,
    },
    /// An error where the model reports.
    OriginalErrs(String),
    /// A panic where the model meets no slice and no sum.
    OriginalPanics(String),
    /// How the original ended with each of the two openings.
    Openings([String; 2]),
    NoAnswer(Party, String),
    Unreadable(Party, String),
    /// The library wrote what isn't its own.
    Breach(String),
    /// The original ended otherwise than a list keeps it.
    Ending {
        kept: String,
        now: String,
    },
}

impl Disagreement {
    /// The same fault, whatever of it belongs to the image alone.
    pub fn is_like(&self, other: &Self) -> bool {
        use Disagreement::*;
        match (self, other) {
            // The refusals belong to the fault, the values of other figures don't.
            (Figure { place: REFUSAL, .. }, _) | (_, Figure { place: REFUSAL, .. }) => self == other,
            (Figure { who: a, place: i, .. }, Figure { who: b, place: j, .. }) => (a, i) == (b, j),
            (MapLength { who: a, .. }, MapLength { who: b, .. }) => a == b,
            (MapByte { who: a, .. }, MapByte { who: b, .. }) => a == b,
            (WrongByte { party: a, .. }, WrongByte { party: b, .. }) => a == b,
            (NoAnswer(a, _), NoAnswer(b, _)) | (Unreadable(a, _), Unreadable(b, _)) => a == b,
            (OriginalReports { .. } | Breach(_), _) => self == other,
            _ => discriminant(self) == discriminant(other),
        }
    }
}

impl fmt::Display for Party {
    fn fmt(&self, f: &mut fmt::Formatter) -> fmt::Result {
        f.write_str(match self {
            Party::Original => "the original",
            Party::Model => "the model",
            Party::Library => "the library",
            Party::Kept => "the kept answer",
        })
    }
}

impl fmt::Display for Disagreement {
    fn fmt(&self, f: &mut fmt::Formatter) -> fmt::Result {
        use Disagreement::*;
        match self {
            Numbers { who: [a, b], lengths: [x, y] } => write!(f, "{a} and {b} have {x} and {y} numbers"),
            Figure { who: [a, b], place: REFUSAL, values: [x, y] } => {
                write!(f, "{a} and {b} part in the refusal: {x} and {y}")
            }
            Figure { who: [a, b], place, values: [x, y] } => {
                write!(f, "{a} and {b} part in figure {place}: {x} and {y}")
            }
            MapLength { who: [a, b], lengths: [x, y] } => {
                write!(f, "{a} and {b} part in their maps' lengths: {x} and {y}")
            }
            MapByte { who: [a, b], block, bytes: [x, y] } => {
                write!(f, "{a} and {b} part in the map at block {block}: {x:#04x} and {y:#04x}")
            }
            WrongByte { party, byte, value } => {
                write!(f, "{party} leaves {value:#04x} in byte {byte} of the map, which is to be kept or cleared")
            }
            OriginalReports { refusal } => write!(f, "the original reports where the model refuses: {refusal}"),
            OriginalErrs(message) => write!(f, "the original errs where the model reports: {message}"),
            OriginalPanics(message) => {
                write!(f, "the original panics where the model meets no slice and no sum: {message}")
            }
            Openings([a, b]) => {
                write!(f, "the original ends with `{a}`, and where it loads the volumes' maps with `{b}`")
            }
            NoAnswer(party, how) => write!(f, "{party} gives no answer: {how}"),
            Unreadable(party, line) => write!(f, "what {party} says can't be read: {line}"),
            Breach(what) => write!(f, "the library breaks a rule of its call: {what}"),
            Ending { kept, now } => write!(f, "the original ends with `{now}` and not with `{kept}`"),
        }
    }
}

#[cfg(test)]
mod tests {
    use super::*;

    #[test]
    fn values_belong_to_the_image_and_refusals_to_the_fault() {
        let who = [Party::Library, Party::Model];
        let figure = |place, value| Disagreement::Figure { who, place, values: [value, 9] };
        assert!(figure(4, 1).is_like(&figure(4, 2)));
        assert!(!figure(4, 1).is_like(&figure(5, 1)));
        assert!(!figure(0, 1).is_like(&figure(0, 2)));
        assert!(!figure(4, 1).is_like(&Disagreement::Breach(String::new())));
    }
}
