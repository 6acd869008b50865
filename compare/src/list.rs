//! The text form of images with their answers: sparse, and as changes of a base where there is one.
//!
//! A file is a row of items, an empty line between them. `define NAME` gives a base image; `image NAME` an image
//! with its answer. Then follow, each on a line: `made` how it came about, `base NAME`, `length N` of the image,
//! `at OFFSET HEX` the bytes there (all others are the base's, or 0), `map N` the length of the block map handed in,
//! `rust` how the original ended and whose the answer is, `answer` the numbers, `left HEX` the map afterwards.

use std::collections::HashMap;
use std::{fs, io};

use space_check::FIGURES;

use crate::answer::Answer;
use crate::judge::Judgement;
use crate::text::{from_hex, from_row, to_hex, to_row};
use crate::worker::Reply;

/// An image with the answer that is kept for it.
#[derive(Clone, Debug, Default, PartialEq, Eq)]
pub struct Item {
    pub name: String,
    pub made: String,
    pub base: Option<String>,
    pub image: Vec<u8>,
    pub map_length: usize,
    /// How the original ended; empty in lists of another origin.
    pub original: String,
    pub answer: Vec<u64>,
    pub left: Vec<u8>,
}

/// How the original ended, the rule by which it is no reference, and whose the answer is where it isn't the original's.
pub fn ending(judgement: &Judgement) -> String {
    let word = match judgement.original {
        Some(Reply::Answer(..)) => "report",
        Some(Reply::Error(_)) => "error",
        Some(Reply::Panic(_)) => "panic",
        Some(Reply::Abort) => "abort",
        Some(Reply::Breach(_) | Reply::Unreadable(_)) | None => "nothing",
    };
    let whose = match judgement.pass.answer {
        Answer::Refused(_) => "the number is the model's",
        Answer::Reported(_) => "the report is the model's",
    };
    match (judgement.pass.notes.outside, &judgement.original) {
        (Some(rule), _) => format!("{word}, outside by {rule}: {whose}"),
        (None, Some(Reply::Answer(..))) => word.into(),
        (None, _) => format!("{word}, {whose}"),
    }
}

/// Unchanged bytes between two changed ones that are written all the same: a new line costs more.
const BRIDGE: usize = 12;

/// The parts of `image` that differ from `base`, and from 0 past the base's end.
pub fn patches(image: &[u8], base: &[u8]) -> Vec<(usize, Vec<u8>)> {
    let changed = |i: &usize| image[*i] != base.get(*i).copied().unwrap_or(0);
    let mut runs: Vec<(usize, usize)> = Vec::new();
    for i in (0..image.len()).filter(changed) {
        match runs.last_mut() {
            Some((_, end)) if i - *end <= BRIDGE => *end = i + 1,
            _ => runs.push((i, i + 1)),
        }
    }
    runs.into_iter().map(|(from, to)| (from, image[from..to].to_vec())).collect()
}

fn write_bytes(out: &mut String, image: &[u8], base: &[u8]) {
    out.push_str(&format!("length {}\n", image.len()));
    for (at, bytes) in patches(image, base) {
        out.push_str(&format!("at {at} {}\n", to_hex(&bytes)));
    }
}

pub fn write_base(out: &mut String, name: &str, image: &[u8]) {
    out.push_str(&format!("\ndefine {name}\n"));
    write_bytes(out, image, &[]);
}

pub fn write_item(out: &mut String, item: &Item, base: &[u8]) {
    out.push_str(&format!("\nimage {}\nmade {}\n", item.name, item.made));
    if let Some(base) = &item.base {
        out.push_str(&format!("base {base}\n"));
    }
    write_bytes(out, &item.image, base);
    out.push_str(&format!("map {}\nrust {}\n", item.map_length, item.original));
    out.push_str(&format!("answer {}\nleft {}\n", to_row(&item.answer), to_hex(&item.left)));
}

/// A line's number, its first word and the rest.
type Line<'a> = (usize, &'a str, &'a str);
type Bases = HashMap<String, Vec<u8>>;

/// The items of a file, at least one.
pub fn read(path: &str) -> io::Result<Vec<Item>> {
    let at = |error: String| io::Error::other(format!("{path}: {error}"));
    let text = fs::read_to_string(path).map_err(|e| at(e.to_string()))?;
    parse(&text).map_err(at)
}

/// Reads items, at least one; a file without an `image` line holds one image.
pub fn parse(text: &str) -> Result<Vec<Item>, String> {
    let mut bases = Bases::new();
    let mut items = Vec::new();
    for group in groups(text) {
        match group[0] {
            (_, "define", name) => {
                let bytes = image(&group[1..], &bases)?;
                bases.insert(name.into(), bytes);
            }
            (_, "image", name) => items.push(item(name, &group[1..], &bases)?),
            _ => items.push(item("", &group, &bases)?),
        }
    }
    if items.is_empty() {
        return Err("there is no image in it".into());
    }
    Ok(items)
}

/// The lines of each item, its `define` or `image` first.
fn groups(text: &str) -> Vec<Vec<Line<'_>>> {
    let mut groups: Vec<Vec<Line>> = Vec::new();
    for (number, line) in (1..).zip(text.lines()) {
        let (word, rest) = line.split_once(' ').unwrap_or((line, ""));
        if word.is_empty() || word.starts_with('#') {
            continue;
        }
        match groups.last_mut() {
            Some(group) if !["define", "image"].contains(&word) => group.push((number, word, rest)),
            _ => groups.push(vec![(number, word, rest)]),
        }
    }
    groups
}

/// What stands behind a word that an item has once.
fn one<'a>(group: &[Line<'a>], word: &str) -> Result<&'a str, String> {
    let mut found = group.iter().filter(|line| line.1 == word);
    match (found.next(), found.next()) {
        (Some(line), None) => Ok(line.2),
        (None, _) => Err(format!("the item at line {} has no `{word}`", group.first().map_or(0, |line| line.0))),
        (_, Some(line)) => Err(format!("line {}: `{word}` a second time", line.0)),
    }
}

fn image(group: &[Line], bases: &Bases) -> Result<Vec<u8>, String> {
    let length = one(group, "length")?;
    let length = length.parse().map_err(|_| format!("`{length}` is no length"))?;
    let mut bytes = match one(group, "base") {
        Ok(name) => bases.get(name).cloned().ok_or_else(|| format!("no base `{name}` is defined"))?,
        Err(_) => Vec::new(),
    };
    bytes.resize(length, 0);
    for (number, _, rest) in group.iter().filter(|line| line.1 == "at") {
        store(&mut bytes, rest).ok_or_else(|| format!("line {number} can't be read, or isn't inside the image"))?;
    }
    Ok(bytes)
}

fn store(bytes: &mut [u8], rest: &str) -> Option<()> {
    let (at, hex) = rest.split_once(' ')?;
    let (at, part) = (at.parse::<usize>().ok()?, from_hex(hex)?);
    bytes.get_mut(at..at.checked_add(part.len())?)?.copy_from_slice(&part);
    Some(())
}

fn item(name: &str, group: &[Line], bases: &Bases) -> Result<Item, String> {
    const WORDS: [&str; 8] = ["made", "base", "length", "at", "map", "rust", "answer", "left"];
    if let Some((number, word, _)) = group.iter().find(|line| !WORDS.contains(&line.1)) {
        return Err(format!("line {number} can't be read: {word}"));
    }
    let map_length = one(group, "map")?.parse().map_err(|_| format!("{name}: the map's length is no number"))?;
    let answer = from_row(one(group, "answer")?).ok_or_else(|| format!("{name}: the answer isn't numbers"))?;
    let left = from_hex(one(group, "left")?).ok_or_else(|| format!("{name}: the map isn't hexadecimal"))?;
    if answer.len() != FIGURES || left.len() != map_length {
        return Err(format!("{name}: {} numbers, {} bytes of a map of {map_length}", answer.len(), left.len()));
    }
    Ok(Item {
        name: name.into(),
        made: one(group, "made").unwrap_or_default().into(),
        base: one(group, "base").ok().map(String::from),
        image: image(group, bases)?,
        map_length,
        original: one(group, "rust").unwrap_or_default().into(),
        answer,
        left,
    })
}

#[cfg(test)]
mod tests {
    use super::*;

    fn example() -> Item {
        Item {
            name: "one".into(),
            made: "by hand".into(),
            base: Some("b".into()),
            image: vec![1, 2, 9, 4, 0, 0, 7],
            map_length: 3,
            original: "error".into(),
            answer: vec![5; FIGURES],
            left: vec![0, 1, 2],
        }
    }

    #[test]
    fn an_item_comes_back() {
        let base = vec![1, 2, 3, 4];
        let mut text = String::from("# a comment\n");
        write_base(&mut text, "b", &base);
        write_item(&mut text, &example(), &base);
        assert_eq!(parse(&text), Ok(vec![example()]));
    }

    #[test]
    fn a_shorter_image_comes_back() {
        let (base, image) = (vec![1; 40], vec![1; 9]);
        let mut text = String::new();
        write_base(&mut text, "b", &base);
        write_item(&mut text, &Item { image: image.clone(), ..example() }, &base);
        assert_eq!(parse(&text).unwrap()[0].image, image);
    }

    #[test]
    fn what_is_missing_or_wrong_is_told() {
        let mut text = String::new();
        write_item(&mut text, &Item { base: None, ..example() }, &[]);
        assert!(parse(&text).is_ok());
        for (from, to) in [("length 7", ""), ("map 3", "map 4"), ("answer 5", "answer"), ("made", "base")] {
            assert!(parse(&text.replacen(from, to, 1)).is_err(), "{from}");
        }
        assert!(parse("").is_err());
        assert!(parse("define b\nlength 3\n").is_err());
    }
}
