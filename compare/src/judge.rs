//! Holds the answers on one image against each other.
//!
//! The original is the reference where it is one: on images that no rule takes out (`Outside`) and on which it neither
//! panics nor aborts. There its report must be the model's, in the numbers that it has and block by block, and its error
//! must meet a refusal, of whichever number. What stands for its opening of volumes always succeeds there; with the other
//! opening it must end in the same way, wherever that opens every volume. The library, where linked, must give the model's
//! answer and map everywhere and the original's where that is the reference. Model and library get the map in two fills.

use std::io;

use space_check::{Cell, Refusal};

use crate::answer::Answer;
use crate::disagreement::{Disagreement, Party};
use crate::fill::{Fill, FILLS};
use crate::library;
use crate::model::{self, Pass};
use crate::oracle::{self, Opening};
use crate::worker::{Reply, Who, Worker, LARGE};

pub struct Judgement {
    pub pass: Pass,
    /// The map as the model leaves it, handed in with the fill of the list.
    pub left: Vec<u8>,
    /// Nothing where the original wasn't asked.
    pub original: Option<Reply>,
    /// The same with the opening that loads object maps, where a volume was to be opened.
    pub loading: Option<Reply>,
    /// What doesn't fit, where something doesn't.
    pub disagreement: Option<Disagreement>,
}

/// Whether the original is asked on images where its answer is no reference.
#[derive(Clone, Copy, PartialEq, Eq)]
pub enum Ask {
    WhereDue,
    Always,
}

pub fn judge(worker: &mut Worker, image: &[u8], map_length: usize, ask: Ask) -> io::Result<Judgement> {
    let mut left = Fill::Listed.map(map_length);
    let pass = model::check(image, &mut left);
    let mut asked = |opening| ask_original(worker, image, map_length, &pass, opening);
    let original = (ask == Ask::Always || is_due(&pass)).then(|| asked(Opening::Succeeds)).transpose()?;
    let loading = opens(&pass, original.as_ref()).then(|| asked(Opening::LoadsMap)).transpose()?;
    let reply = original.as_ref();
    let mut disagreement = model_breaks(image, &pass, &left)
        .or_else(|| original_parts(&pass, &left, reply))
        .or_else(|| openings_part(&pass, reply?, loading.as_ref()?));
    if library::LINKED && disagreement.is_none() {
        disagreement = library_parts(worker, image, &pass, &left, reply)?;
    }
    Ok(Judgement { pass, left, original, loading, disagreement })
}

/// Holds a judgement against the answer and the map that are kept for its image.
pub fn kept_parts(judgement: &Judgement, answer: &[u64], left: &[u8]) -> Option<Disagreement> {
    answers_part([Party::Kept, Party::Model], (answer, left), (&judgement.pass.answer.numbers(), &judgement.left))
}

fn ask_original(
    worker: &mut Worker,
    image: &[u8],
    map_length: usize,
    pass: &Pass,
    opening: Opening,
) -> io::Result<Reply> {
    let who = Who::Original(opening);
    let reply = worker.ask(who, image, map_length)?;
    if reply == Reply::Abort && must_answer(pass) {
        // It may have wanted more memory or time than most images do.
        return Worker::new(LARGE).ask(who, image, map_length);
    }
    Ok(reply)
}

/// The original ends by itself after it came to the opening of a volume, as the model did.
fn opens(pass: &Pass, original: Option<&Reply>) -> bool {
    let comes_there = is_due(pass) && pass.notes.volumes.claimed > 0 && !pass.notes.chain_sum_overflowed;
    comes_there && original.is_some_and(|reply| *reply != Reply::Abort)
}

/// An opening that fails is an error; one that doesn't changes nothing.
fn openings_part(pass: &Pass, original: &Reply, loading: &Reply) -> Option<Disagreement> {
    let fits = if pass.notes.volumes.unloaded { matches!(loading, Reply::Error(_)) } else { loading == original };
    (!fits).then(|| Disagreement::Openings([original, loading].map(|reply| format!("{reply:?}"))))
}

/// The original comes to an end in the model's report, unless it reads a map chain again and again.
fn must_answer(pass: &Pass) -> bool {
    pass.reports() && pass.notes.repeated_chain == 0
}

/// The original is the reference, where it answers.
pub fn is_due(pass: &Pass) -> bool {
    pass.notes.outside.is_none()
}

/// The last refusal that leaves the map as it was handed in.
pub const LAST_UNTOUCHED: Refusal = Refusal::CountDiffers;

/// The bytes of the map that a pass with this answer writes: none after an early refusal, else one for each block.
fn written(pass: &Pass) -> usize {
    let untouched = pass.refusal().is_some_and(|refusal| refusal <= LAST_UNTOUCHED);
    if untouched {
        0
    } else {
        pass.notes.count as usize
    }
}

/// The first byte of a map that no pass with this answer may leave so: written where it is to be kept, not cleared
/// after a refusal, or with bits that mean nothing.
fn wrong_byte(pass: &Pass, fill: Fill, left: &[u8]) -> Option<usize> {
    let (written, reports) = (written(pass), pass.reports());
    left.iter().enumerate().position(|(i, &byte)| match (i < written, reports) {
        (false, _) => byte != fill.byte(i),
        (true, false) => byte != 0,
        (true, true) => byte & !(Cell::OWNER | Cell::MARKED | Cell::POOL_USED) != 0,
    })
}

/// The model itself, by what holds of every map, and with its second fill.
fn model_breaks(image: &[u8], pass: &Pass, left: &[u8]) -> Option<Disagreement> {
    let mut second = Fill::Zeroless.map(left.len());
    let again = model::check(image, &mut second);
    let cells = written(pass).min(left.len());
    for (fill, map) in [(Fill::Listed, left), (Fill::Zeroless, &second)] {
        if let Some(byte) = wrong_byte(pass, fill, map) {
            return Some(Disagreement::WrongByte { party: Party::Model, byte, value: map[byte] });
        }
    }
    let (numbers, numbers_again) = (pass.answer.numbers(), again.answer.numbers());
    answers_part([Party::Model; 2], (&numbers, &left[..cells]), (&numbers_again, &second[..cells]))
}

fn original_parts(pass: &Pass, left: &[u8], original: Option<&Reply>) -> Option<Disagreement> {
    if !is_due(pass) {
        return None;
    }
    match (original?, &pass.answer) {
        (Reply::Unreadable(line), _) => Some(Disagreement::Unreadable(Party::Original, line.clone())),
        (Reply::Answer(numbers, map, _), Answer::Reported(_)) => answers_part(
            [Party::Original, Party::Model],
            (numbers, map),
            (theirs(&pass.answer.numbers()), &left[..pass.notes.count as usize]),
        ),
        (Reply::Answer(..), Answer::Refused(refusal)) => {
            Some(Disagreement::OriginalReports { refusal: refusal.number() })
        }
        (Reply::Error(message), Answer::Reported(_)) => Some(Disagreement::OriginalErrs(message.clone())),
        (Reply::Panic(message), _) if !pass.notes.chain_sum_overflowed && !may_panic(&pass.answer) => {
            Some(Disagreement::OriginalPanics(message.clone()))
        }
        (Reply::Abort, _) if must_answer(pass) => Some(Disagreement::NoAnswer(Party::Original, "aborts".into())),
        _ => None,
    }
}

/// The original indexes slices and adds without a test where these refusals are given.
fn may_panic(answer: &Answer) -> bool {
    use Refusal::{BadBitmap, OutsideBytes, Overflow};
    matches!(answer, Answer::Refused(OutsideBytes | BadBitmap | Overflow))
}

/// Of an answer's numbers those that the original has too.
fn theirs(numbers: &[u64]) -> &[u64] {
    &numbers[..oracle::NUMBERS.min(numbers.len())]
}

/// The library beside model and original, with both fills of the map.
fn library_parts(
    worker: &mut Worker,
    image: &[u8],
    pass: &Pass,
    left: &[u8],
    original: Option<&Reply>,
) -> io::Result<Option<Disagreement>> {
    for fill in FILLS {
        let (numbers, map) = match worker.ask(Who::Library(fill), image, left.len())? {
            Reply::Answer(numbers, map, _) => (numbers, map),
            Reply::Breach(what) => return Ok(Some(Disagreement::Breach(what))),
            other => return Ok(Some(Disagreement::NoAnswer(Party::Library, format!("{other:?}")))),
        };
        let expected = refilled(pass, left, fill);
        let beside_model =
            answers_part([Party::Library, Party::Model], (&numbers, &map), (&pass.answer.numbers(), &expected));
        let beside_original = || match original {
            Some(Reply::Answer(their_numbers, their_map, _)) if is_due(pass) => {
                let ours = &map[..their_map.len().min(map.len())];
                answers_part([Party::Library, Party::Original], (theirs(&numbers), ours), (their_numbers, their_map))
            }
            _ => None,
        };
        let parting = beside_model.or_else(beside_original);
        if parting.is_some() {
            return Ok(parting);
        }
    }
    Ok(None)
}

/// The map that a pass leaves of another fill: what it writes is the same.
fn refilled(pass: &Pass, left: &[u8], fill: Fill) -> Vec<u8> {
    let mut map = fill.map(left.len());
    let cells = written(pass).min(left.len());
    map[..cells].copy_from_slice(&left[..cells]);
    map
}

/// Where two answers with their maps part.
fn answers_part(who: [Party; 2], a: (&[u64], &[u8]), b: (&[u64], &[u8])) -> Option<Disagreement> {
    if a.0.len() != b.0.len() {
        return Some(Disagreement::Numbers { who, lengths: [a.0.len(), b.0.len()] });
    }
    if let Some(place) = a.0.iter().zip(b.0).position(|(x, y)| x != y) {
        return Some(Disagreement::Figure { who, place, values: [a.0[place], b.0[place]] });
    }
    if a.1.len() != b.1.len() {
        return Some(Disagreement::MapLength { who, lengths: [a.1.len(), b.1.len()] });
    }
    let block = a.1.iter().zip(b.1).position(|(x, y)| x != y)?;
    Some(Disagreement::MapByte { who, block, bytes: [a.1[block], b.1[block]] })
}

#[cfg(test)]
mod tests {
    use super::*;
    use crate::model::Notes;

    fn refused(refusal: Refusal) -> Pass {
        let notes = Notes { count: 2, ..Notes::default() };
        Pass { answer: Answer::Refused(refusal), notes }
    }

    #[test]
    fn a_map_is_kept_or_cleared_up_to_the_count() {
        let (early, late) = (refused(Refusal::CountDiffers), refused(Refusal::PastContainer));
        assert_eq!(wrong_byte(&early, Fill::Zeroless, &[255, 254, 253]), None);
        assert_eq!(wrong_byte(&early, Fill::Zeroless, &[0, 254, 253]), Some(0));
        assert_eq!(wrong_byte(&late, Fill::Zeroless, &[0, 0, 253]), None);
        assert_eq!(wrong_byte(&late, Fill::Zeroless, &[0, 254, 253]), Some(1));
        assert_eq!(wrong_byte(&late, Fill::Zeroless, &[0, 0, 0]), Some(2));
    }

    #[test]
    fn answers_part_in_lengths_too() {
        let who = [Party::Original, Party::Model];
        assert_eq!(answers_part(who, (&[0], &[1, 2]), (&[0], &[1, 2])), None);
        let half = answers_part(who, (&[0], &[1]), (&[0], &[1, 2]));
        assert_eq!(half, Some(Disagreement::MapLength { who, lengths: [1, 2] }));
        let none = answers_part(who, (&[], &[]), (&[0], &[]));
        assert_eq!(none, Some(Disagreement::Numbers { who, lengths: [0, 1] }));
    }
}
