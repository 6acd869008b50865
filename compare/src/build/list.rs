//! The text form of requests with what they come to, and the fixed list.
//!
//! A file is a row of items, an empty line between them. `node NAME` begins one. Then follow, each on a line: `size N` of
//! the lent node, `header` object id, xid, type, subtype and level, `root` 1 or 0, `sizes fixed KEY VALUE` or `sizes
//! variable`, `info HEX`, `lengths TIMES NUMBERS` so often the numbers, `data N` its length, `data-at OFFSET HEX` the
//! bytes there (all others are 0), `rust` how the original ended and whose the answer is, `answer` 0 or the refusal, and
//! where it is 0 the node in lines `at OFFSET HEX`.

use std::panic;

use space_check::node::Sizes;

use super::judge::{judge, Judgement};
use super::model::SIZES;
use super::named;
use super::original::{self, Ended};
use super::request::Request;
use crate::list::patches;
use crate::oracle::silence_panics;
use crate::text::{to_hex, to_row};

const HEADER: &str = "\
# Requests for nodes, with the nodes of the original, for replaying where its sources are not at hand (tools/replay-nodes).
# Made by `compare nodes`; the form is told in compare/README.md.
# rust built, and nothing more: every byte of the node is the original's. Otherwise the line says that the number is the
# model's, and with `outside` why the original is no reference.
";

/// The fixed list as text; an error where original, model and library part on one of its requests.
pub fn make() -> Result<String, String> {
    // Where its size isn't admitted the original may panic, which the list tells.
    let hook = panic::take_hook();
    silence_panics();
    let mut text = String::from(HEADER);
    let parted = named::all().into_iter().find_map(|(name, request)| {
        let judgement = judge(&request);
        text += &item(&name, &request, &judgement);
        judgement.disagreement.map(|what| format!("{name}: {what}"))
    });
    panic::set_hook(hook);
    parted.map_or(Ok(text), Err)
}

/// One item, with the model's answer.
pub fn item(name: &str, request: &Request, judgement: &Judgement) -> String {
    let header = &request.header;
    let numbers = [header.oid, header.xid, header.obj_type.into(), header.subtype.into(), header.level.into()];
    let mut text = format!("\nnode {name}\nsize {}\nheader {}\n", request.node_length, to_row(&numbers));
    let sizes = match request.sizes {
        Sizes::Fixed { key, value } => format!("fixed {key} {value}"),
        Sizes::Variable => "variable".into(),
    };
    text += &format!("root {}\nsizes {sizes}\ninfo {}\n", u8::from(header.root), to_hex(&request.info));
    text += &lengths(&request.lengths);
    text += &format!("data {}\n{}", request.data.len(), rows("data-at", &request.data));
    let original = judgement.answer.entries.as_ref().map(|entries| original::build(request, entries));
    text += &format!("rust {}\n", ending(request, original));
    match &judgement.answer.outcome {
        Ok(node) => text + "answer 0\n" + &rows("at", node),
        Err(refusal) => text + &format!("answer {}\n", refusal.number()),
    }
}

/// How the original ended, why it is no reference, and whose the number is.
fn ending(request: &Request, original: Option<Ended>) -> String {
    let number = "the number is the model's";
    let word = match &original {
        Some(Ended::Built(_)) => "built",
        Some(Ended::Error(_)) => "error",
        Some(Ended::Panic(_)) => "panic",
        None => return format!("nothing, outside by slices that are no entries: {number}"),
    };
    if !SIZES.contains(&request.node_length) {
        return format!("{word}, outside by its size: {number}");
    }
    if word == "built" {
        word.into()
    } else {
        format!("{word}, {number}")
    }
}

/// The bytes that aren't 0, run by run.
fn rows(word: &str, bytes: &[u8]) -> String {
    patches(bytes, &[]).iter().map(|(at, run)| format!("{word} {at} {}\n", to_hex(run))).collect()
}

/// Equal pairs in a row as one line.
fn lengths(lengths: &[u64]) -> String {
    let pairs: Vec<&[u64]> = lengths.chunks(2).collect();
    pairs.chunk_by(|a, b| a == b).map(|run| format!("lengths {} {}\n", run.len(), to_row(run[0]))).collect()
}

#[cfg(test)]
mod tests {
    use super::*;

    #[test]
    fn equal_pairs_are_one_line() {
        assert_eq!(lengths(&[16, 8, 16, 8, 16, 9, 3]), "lengths 2 16 8\nlengths 1 16 9\nlengths 1 3\n");
    }

    /// Every byte of the kept list, as original and model give it now.
    #[test]
    fn the_fixed_list_is_made_again() {
        assert!(make().as_deref() == Ok(include_str!("../../answers/nodes.txt")), "`compare nodes` gives another list");
    }
}
