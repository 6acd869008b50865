// The crate's places and numbers are those of the C header.
use space_check::node::{Description, Unbuilt};
use space_check::places;

const HEADER: &str = include_str!("../../space_check.h");

/// The enumerators of a prefix that the header gives a number, in their order, without the prefix.
fn enumerators(prefix: &str) -> Vec<(&'static str, usize)> {
    let mut found = Vec::new();
    for part in HEADER.split(prefix).skip(1) {
        let end = part.find(|c: char| !c.is_ascii_uppercase() && c != '_').unwrap_or(part.len());
        let (name, rest) = part.split_at(end);
        if let Some(value) = rest.trim_start().strip_prefix('=') {
            let digits: String = value.trim_start().chars().take_while(char::is_ascii_digit).collect();
            found.push((name, digits.parse().expect("an enumerator's number")));
        }
    }
    found
}

#[test]
fn the_places_are_the_headers() {
    assert_eq!(enumerators("SPACE_CHECK_"), places::ALL);
}

#[test]
fn the_numbers_of_nodes_are_the_headers() {
    let unbuilt = |case: Unbuilt| case.number() as usize;
    let expected = [
        ("BUILT", 0),
        ("OUTSIDE_BYTES", unbuilt(Unbuilt::OutsideBytes)),
        ("NO_ROOM", unbuilt(Unbuilt::NoRoom)),
        ("INFO", Description::LENGTH),
    ];
    assert_eq!(enumerators("BUILD_NODE_"), expected);
    assert_eq!(Unbuilt::ALL.len(), 2, "each has a name there");
}
