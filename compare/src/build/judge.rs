//! Holds original, model and library against each other on one request.

#[cfg(feature = "library")]
use super::model::Outcome;
use super::model::{self, Answer};
use super::original::{self, Ended};
use super::request::Request;
use crate::disagreement::Party;
#[cfg(feature = "library")]
use crate::fill::{Fill, FILLS};
#[cfg(feature = "library")]
use crate::library;

/// What came of a request.
pub struct Judgement<'a> {
    pub answer: Answer<'a>,
    /// How the original ended, where it is the reference.
    pub original: Option<Ended>,
    /// The original's reader gave the entries back.
    pub is_read_back: bool,
    pub disagreement: Option<String>,
}

pub fn judge(request: &Request) -> Judgement<'_> {
    let answer = model::build(request);
    // Without entries there is nothing to hand it, and a size that isn't admitted is none of its own.
    let original = match (&answer.entries, &answer.layout) {
        (Some(entries), Some(_)) => Some(original::build(request, entries)),
        _ => None,
    };
    let mut judgement = Judgement { answer, original, is_read_back: false, disagreement: None };
    judgement.disagreement = judgement.parted(request).err();
    judgement
}

impl Judgement<'_> {
    fn parted(&mut self, request: &Request) -> Result<(), String> {
        let outcome = &self.answer.outcome;
        match (&self.original, outcome) {
            (None, _) | (Some(Ended::Error(_)), Err(_)) => {}
            (Some(Ended::Built(built)), Ok(node)) => same([Party::Original, Party::Model], built, node)?,
            (Some(Ended::Built(_)), Err(refusal)) => {
                return Err(format!("the original builds where the model refuses: {refusal}"))
            }
            (Some(Ended::Error(message)), Ok(_)) => return Err(format!("the original errs: {message}")),
            (Some(Ended::Panic(message)), _) => return Err(format!("the original panics: {message}")),
        }
        if let (Some(entries), Ok(node)) = (&self.answer.entries, outcome) {
            if original::is_owed(request, entries) {
                original::read_back(request, entries, node).map_err(|what| format!("read back: {what}"))?;
                self.is_read_back = true;
            }
        }
        #[cfg(feature = "library")]
        FILLS.into_iter().try_for_each(|fill| library_agrees(request, fill, outcome))?;
        Ok(())
    }
}

/// The library's answer and the whole node are the model's; after a refusal the node is as it was.
#[cfg(feature = "library")]
fn library_agrees(request: &Request, fill: Fill, outcome: &Outcome) -> Result<(), String> {
    let (answer, left) = library::build_node(request, fill).map_err(String::from)?;
    let expected = outcome.as_ref().map_or_else(|refusal| refusal.number(), |_| 0);
    if u64::from(answer) != expected {
        return Err(format!("the library and the model part in the answer: {answer} and {expected}"));
    }
    match outcome {
        Ok(node) => same([Party::Library, Party::Model], &left, node),
        Err(_) => same([Party::Library, Party::Model], &left, &fill.map(request.node_length)),
    }
}

fn same(who: [Party; 2], a: &[u8], b: &[u8]) -> Result<(), String> {
    if a == b {
        return Ok(());
    }
    let [first, second] = who;
    if a.len() != b.len() {
        return Err(format!("{first} and {second} give nodes of {} and {} bytes", a.len(), b.len()));
    }
    let at = a.iter().zip(b).position(|(a, b)| a != b).expect("the nodes differ");
    Err(format!("{first} and {second} part in the node at byte {at}: {:#04x} and {:#04x}", a[at], b[at]))
}
